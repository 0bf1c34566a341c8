//! The cases with their expected answers: one a line, words parted by a space, bytes in
//! hexadecimal, `-` for none.

use crate::table::kind_of;
use crate::{refuse, Failing, Refusal, Verdict, Week};

#[derive(Debug)]
pub enum Vector {
    Program {
        input: Vec<u8>,
        output: Vec<u8>,
    },
    /// The part is its start and bytes.
    Lookup {
        dossier: Vec<u8>,
        mark: [u8; 2],
        key: Vec<u8>,
        part: Option<(usize, Vec<u8>)>,
    },
    Energy {
        dossier: Vec<u8>,
        hour: u32,
        owner: u8,
        condition: u8,
        offer: Vec<u8>,
        verdict: Result<Verdict, Refusal>,
    },
    Price {
        dossier: Vec<u8>,
        hour: u32,
        owner: u8,
        level: u8,
        condition: u8,
        price: i32,
        verdict: Result<Verdict, Refusal>,
    },
    Week {
        dossier: Vec<u8>,
        week: Result<Week, Refusal>,
    },
}

impl Vector {
    /// What these tests of an offer and of a price find, beside the expected verdict; nothing for a
    /// case of another kind.
    pub fn judged<V>(
        &self,
        energy: impl Fn(&[u8], u32, u8, u8, &[u8]) -> V,
        single: impl Fn(&[u8], u32, u8, u8, u8, i32) -> V,
    ) -> Option<(V, &Result<Verdict, Refusal>)> {
        match self {
            Vector::Energy {
                dossier,
                hour,
                owner,
                condition,
                offer,
                verdict,
            } => Some((energy(dossier, *hour, *owner, *condition, offer), verdict)),
            Vector::Price {
                dossier,
                hour,
                owner,
                level,
                condition,
                price,
                verdict,
            } => Some((
                single(dossier, *hour, *owner, *level, *condition, *price),
                verdict,
            )),
            _ => None,
        }
    }

    /// The weeks were asked for before requests 8 and 12: where one is refused for a mark that is known
    /// since, it has another answer now.
    fn is_overtaken(&self) -> bool {
        match self {
            Vector::Week {
                dossier,
                week: Err(Refusal { number: 1, place }),
            } => dossier[*place..]
                .first_chunk()
                .is_some_and(|mark| kind_of(mark).is_some()),
            _ => false,
        }
    }
}

/// The vectors in the repository's data folder.
pub fn read() -> Vec<Vector> {
    let folder = concat!(env!("CARGO_MANIFEST_DIR"), "/../../data");
    let text = |name| {
        let path = format!("{folder}/{name}");
        std::fs::read_to_string(&path).expect(&path)
    };
    let texts = ["request-12.txt", "week.txt"].map(text);
    let vectors = texts.iter().flat_map(|t| t.lines()).map(vector);
    vectors.filter(|vector| !vector.is_overtaken()).collect()
}

fn vector(line: &str) -> Vector {
    let words: Vec<&str> = line.split(' ').collect();
    match words[..] {
        ["program", input, output] => Vector::Program {
            input: bytes(input),
            output: bytes(output),
        },
        ["lookup", dossier, mark, key, start, record] => Vector::Lookup {
            dossier: bytes(dossier),
            mark: mark.as_bytes().try_into().unwrap(),
            key: bytes(key),
            part: (start != "-").then(|| (number(start), bytes(record))),
        },
        ["energy", dossier, hour, owner, condition, offer, answer] => Vector::Energy {
            dossier: bytes(dossier),
            hour: number(hour),
            owner: number(owner),
            condition: number(condition),
            offer: bytes(offer),
            verdict: verdict(answer),
        },
        ["price", dossier, hour, owner, level, condition, price, answer] => Vector::Price {
            dossier: bytes(dossier),
            hour: number(hour),
            owner: number(owner),
            level: number(level),
            condition: number(condition),
            price: number(price),
            verdict: verdict(answer),
        },
        ["week", dossier, answer] => Vector::Week {
            dossier: bytes(dossier),
            week: week(answer),
        },
        _ => panic!("no vector: {line}"),
    }
}

fn number<N: std::str::FromStr<Err: std::fmt::Debug>>(word: &str) -> N {
    word.parse().unwrap()
}

fn bytes(word: &str) -> Vec<u8> {
    let digits = word.strip_prefix('-').unwrap_or(word).as_bytes();
    let byte = |pair: &[u8]| u8::from_str_radix(std::str::from_utf8(pair).unwrap(), 16).unwrap();
    digits.chunks(2).map(byte).collect()
}

/// Bytes as the vectors write them.
pub fn hex(bytes: &[u8]) -> String {
    if bytes.is_empty() {
        return "-".to_string();
    }
    bytes.iter().map(|b| format!("{b:02x}")).collect()
}

fn verdict(word: &str) -> Result<Verdict, Refusal> {
    let parts: Vec<&str> = word.split(':').collect();
    match parts[..] {
        ["passes"] => Ok(Verdict::Passes),
        ["fails", pair, lamination] => Ok(Verdict::Fails(Failing {
            pair: number(pair),
            lamination: number(lamination),
        })),
        ["refused", n, place] => refuse(number(n), number(place)),
        _ => panic!("no verdict: {word}"),
    }
}

/// The intervals that aren't 0 in both, each as INTERVAL:PRICE:ENERGY.
fn week(word: &str) -> Result<Week, Refusal> {
    let mut week = Week::without_record();
    for entry in word.split(',').filter(|entry| *entry != "-") {
        let parts: Vec<&str> = entry.split(':').collect();
        match parts[..] {
            ["refused", n, place] => return refuse(number(n), number(place)),
            [interval, price, energy] => week.put(number(interval), number(price), number(energy)),
            _ => panic!("no interval: {entry}"),
        }
    }
    Ok(week)
}
