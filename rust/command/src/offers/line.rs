//! A line of an offers file: fields as `name=value`, parted by spaces; a value with a space or a `#`
//! stands between quotes.

use crate::args::hour;
use crate::conduct::{Offered, Question};
use crate::input::STANDARD;
use crate::marks::listed;
use crate::offer;
use crate::plain::{clean, lines};
use crate::query::{owner, Query, FIRST};
use crate::text::{quoted, unknown, BOM};
use std::ffi::OsString;

/// An offer, and the files of the station that it is put to.
#[derive(Debug)]
pub struct Asked {
    pub stations: Vec<OsString>,
    pub question: Question,
}

const NAMES: [&str; 7] = [
    "station",
    "hour",
    "owner",
    "condition",
    "offer",
    "level",
    "price",
];

/// The lines that hold an offer with their numbers, from 1; what is wrong with those that are.
pub fn all(text: &[u8]) -> Vec<(usize, Result<Asked, String>)> {
    let text = text.strip_prefix(BOM).unwrap_or(text);
    let read = |(number, line): (usize, &[u8])| match clean(line).and_then(words) {
        Ok(words) if words.is_empty() => None,
        Ok(words) => Some((number, asked(&words))),
        Err(says) => Some((number, Err(says))),
    };
    (1..).zip(lines(text)).filter_map(read).collect()
}

/// The words of a line up to a comment, without their quotes.
fn words(line: &str) -> Result<Vec<String>, String> {
    let (mut words, mut word, mut quoted) = (Vec::new(), None::<String>, false);
    for c in line.chars() {
        match c {
            '"' => {
                quoted = !quoted;
                word.get_or_insert_default();
            }
            '#' if !quoted => break,
            ' ' | '\t' if !quoted => words.extend(word.take()),
            c => word.get_or_insert_default().push(c),
        }
    }
    words.extend(word);
    match quoted {
        true => Err("a quote that doesn't end".to_string()),
        false => Ok(words),
    }
}

/// What is said of words that are no fields; of many, as in a line of another file, but once.
fn no_fields(words: &[&str]) -> Option<String> {
    match words {
        [] => None,
        [word] => Some(unknown(word, "field", &NAMES)),
        [first, ..] => {
            let (first, more) = (quoted(first), words.len() - 1);
            let known = listed(&NAMES);
            Some(format!("{first} and {more} more are no fields: {known}"))
        }
    }
}

/// The fields of a line.
struct Fields<'a> {
    fields: Vec<(&'a str, &'a str)>,
    wrong: Vec<String>,
}

impl<'a> Fields<'a> {
    fn of(words: &'a [String]) -> Fields<'a> {
        let (mut fields, mut wrong, mut none) = (Vec::new(), Vec::new(), Vec::new());
        for word in words {
            let (name, value) = word.split_once('=').unwrap_or((word, ""));
            // Several files of one station are named one by one.
            let twice = name != "station" && fields.iter().any(|(n, _)| *n == name);
            if !NAMES.contains(&name) || !word.contains('=') {
                none.push(name);
            } else if twice {
                wrong.push(format!("{name} stands twice"));
            } else {
                fields.push((name, value));
            }
        }
        wrong.splice(..0, no_fields(&none));
        Fields { fields, wrong }
    }

    fn has(&self, name: &str) -> bool {
        self.fields.iter().any(|(n, _)| *n == name)
    }

    fn values(&self, name: &str) -> Vec<&'a str> {
        let named = self.fields.iter().filter(|(n, _)| *n == name);
        named.map(|(_, value)| *value).collect()
    }

    /// A field that has to be there, read by `read`. What is wrong with it is noted.
    fn need<T>(&mut self, name: &str, read: impl Fn(&str) -> Result<T, String>) -> Option<T> {
        let read = match self.values(name).first() {
            Some(value) => read(value).map_err(|says| format!("{name}: {says}")),
            None => Err(format!("{name} is missing")),
        };
        read.map_err(|says| self.wrong.push(says)).ok()
    }

    /// The owner, the first where the line names none.
    fn owner(&mut self) -> Option<u8> {
        match self.has("owner") {
            true => self.need("owner", owner),
            false => Some(FIRST),
        }
    }

    fn stations(&mut self) -> Vec<OsString> {
        let stations = self.values("station");
        if stations.is_empty() {
            self.wrong.push("station is missing".to_string());
        }
        if stations
            .iter()
            .any(|file| *file == STANDARD || file.is_empty())
        {
            self.wrong.push("station: the name of a file".to_string());
        }
        stations.into_iter().map(OsString::from).collect()
    }

    /// An energy offer, or a level and its price.
    fn offered(&mut self) -> Option<Offered> {
        let single = self.has("level") || self.has("price");
        match (self.has("offer"), single) {
            (true, false) => self.need("offer", offer::read).map(Offered::Energy),
            (false, true) => {
                let level = self.need("level", offer::read_level);
                let price = self.need("price", offer::read_price);
                Some(Offered::Price {
                    level: level?,
                    price: price?,
                })
            }
            (both, _) => {
                let says = match both {
                    true => "offer is for energy; level and price are for the others",
                    false => "offer is missing, or level and price",
                };
                self.wrong.push(says.to_string());
                None
            }
        }
    }
}

/// What a line asks, or everything that is wrong with it.
fn asked(words: &[String]) -> Result<Asked, String> {
    let mut fields = Fields::of(words);
    let stations = fields.stations();
    let hour = fields.need("hour", hour);
    let owner = fields.owner();
    let condition = fields.need("condition", offer::read_condition);
    let offered = fields.offered();
    let query = hour.zip(owner).map(|(hour, owner)| Query { hour, owner });
    match (query, condition, offered) {
        (Some(query), Some(condition), Some(offered)) if fields.wrong.is_empty() => Ok(Asked {
            stations,
            question: Question {
                query,
                condition,
                offered,
            },
        }),
        _ => Err(fields.wrong.join("; ")),
    }
}

#[cfg(test)]
mod tests {
    use super::*;

    fn wrong(line: &str) -> String {
        let mut lines = all(line.as_bytes());
        assert_eq!(lines.len(), 1, "{line}");
        lines.remove(0).1.expect_err(line)
    }

    #[test]
    fn lines_are_read() {
        let text = "# offers\n\nstation=\"a b.txt\" station=c#1 hour=7\thour=8\nprice=0.50 level=reserve station=\"x#1\" hour=0 condition=broad # why";
        let lines = all(text.as_bytes());
        let numbers: Vec<usize> = lines.iter().map(|(number, _)| *number).collect();
        assert_eq!(numbers, [3, 4]);
        let asked = lines[1].1.as_ref().expect("an offer");
        assert_eq!(asked.stations, ["x#1"]);
        let query = Query { hour: 0, owner: 1 };
        assert_eq!((asked.question.query, asked.question.condition), (query, 2));
    }

    #[test]
    fn an_owner_may_be_named() {
        let line = |owner: &str| format!("station=a hour=7 {owner} condition=broad offer=1@2");
        let asked = |owner: &str| {
            all(line(owner).as_bytes())
                .remove(0)
                .1
                .map(|a| a.question.query)
        };
        for (text, owner) in [("", 1), ("owner=1", 1), ("owner=2", 2)] {
            assert_eq!(asked(text), Ok(Query { hour: 7, owner }));
        }
        assert_eq!(wrong(&line("owner=3")), "owner: '3' is no owner: 1 or 2");
        assert_eq!(wrong(&line("owner=")), "owner: '' is no owner: 1 or 2");
        assert_eq!(wrong(&line("owner=1 owner=2")), "owner stands twice");
    }

    #[test]
    fn everything_wrong_is_told() {
        assert_eq!(
            wrong("station=a station=b hours=3 condition=wide offer=1@x hour=1 hour=2"),
            "'hours' is no field (did you mean hour?): station, hour, owner, condition, offer, level or price; hour stands twice; \
             condition: 'wide' is not narrow, broad or global; \
             offer: 'x' is no number: -2000.00 to 2000.00 dollars per MWh"
        );
        assert_eq!(
            wrong("x"),
            "'x' is no field: station, hour, owner, condition, offer, level or price; station is missing; \
             hour is missing; condition is missing; offer is missing, or level and price"
        );
        let record = wrong("FU issue=1 profile=1 station=a hour=1 condition=narrow offer=1@1");
        let says =
            "'FU' and 2 more are no fields: station, hour, owner, condition, offer, level or price";
        assert_eq!(record, says);
        assert_eq!(wrong("station=\"a"), "a quote that doesn't end");
        assert!(wrong("station=a\u{c}").starts_with("byte 10 is a form feed"));
        assert!(wrong("station=- hour=1 condition=narrow offer=1@1").starts_with("station: "));
        let both = wrong("station=a hour=1 condition=narrow offer=1@1 price=2");
        assert_eq!(
            both,
            "offer is for energy; level and price are for the others"
        );
    }
}
