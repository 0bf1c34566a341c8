//! A seeded maker of test dossiers, hours, owners, offers and prices.
//!
//! Sound dossiers (`sound`) are accepted; damaged ones (`damage`) draw the number they aim at; some
//! are written out (`written`, `forecast`, `idle`, `nearest`, `dated`, `withdrawn`, `owners`) or made
//! to a length (`sized`). The offers and prices (`offers`) crowd around the floors and limits of the
//! dossier they are put to.

pub mod damage;
pub mod dated;
pub mod forecast;
pub mod idle;
mod incomplete;
pub mod nearest;
pub mod offers;
pub mod owners;
pub mod sized;
pub mod small;
pub mod sound;
mod stations;
mod unfit;
pub mod withdrawn;
pub mod written;

use crate::random::Random;
use crate::table::{as_in, dated_kind_of, kind_of, rq, rs};
use crate::table::{Field, Kind, Mark, Technology, FIRST_HOUR, HEAD, OWNERS};

/// A dossier in the making: its records in the order they lie.
#[derive(Clone, Debug)]
pub struct Draft {
    pub technology: Technology,
    pub records: Vec<Vec<u8>>,
}

impl Draft {
    pub fn bytes(&self) -> Vec<u8> {
        self.records.concat()
    }

    pub fn length(&self) -> usize {
        self.records.iter().map(Vec::len).sum()
    }

    /// Where the current records of a mark lie in the list, by rising key.
    fn current(&self, mark: &Mark) -> Vec<usize> {
        let mut places: Vec<usize> = (0..self.records.len())
            .filter(|i| is_whole(&self.records[*i]) && self.records[*i].starts_with(mark))
            .collect();
        places.sort_by_key(|i| {
            let record = &self.records[*i];
            (key(record).to_vec(), std::cmp::Reverse(issue(record)))
        });
        places.dedup_by_key(|i| key(&self.records[*i]).to_vec());
        places
    }

    /// Removes every record of a mark and key, current or not, dated ones too.
    fn remove(&mut self, mark: &Mark, of_key: &[u8]) {
        let named = |r: &Vec<u8>| is_whole(r) && kind(r).of == *mark && key(r) == of_key;
        self.records.retain(|r| !named(r));
    }

    /// Adds a record anywhere, in place of all that share its key.
    fn put(&mut self, random: &mut Random, record: Vec<u8>) {
        let kind = kind(&record);
        let of_key = key(&record).to_vec();
        self.remove(&kind.of, &of_key);
        self.insert(random, record);
    }

    fn insert(&mut self, random: &mut Random, record: Vec<u8>) {
        let at = random.below(self.records.len() as u64 + 1) as usize;
        self.records.insert(at, record);
    }
}

fn is_whole(record: &[u8]) -> bool {
    let kind = record.first_chunk().and_then(kind_of);
    kind.is_some_and(|kind| record.len() == kind.length)
}

fn kind(record: &[u8]) -> &'static Kind {
    let kind = record.first_chunk().and_then(kind_of);
    kind.expect("a whole record")
}

fn key(record: &[u8]) -> &[u8] {
    kind(record).key(record)
}

/// The record with a first hour, in place of the one that it has, or without any. `None` where its
/// mark has no dated form.
pub fn with_first_hour(record: &[u8], first: Option<u32>) -> Option<Vec<u8>> {
    let of = kind(record).of;
    let rest = &record[HEAD + kind(record).shift()..];
    let dated = dated_kind_of(&of)?;
    let (mark, hour) = match first {
        Some(hour) => (dated.mark, hour.to_be_bytes().to_vec()),
        None => (of, Vec::new()),
    };
    Some([&mark[..], &record[2..HEAD], &hour, rest].concat())
}

fn issue(record: &[u8]) -> u32 {
    u32::from_be_bytes(record[2..HEAD].try_into().unwrap())
}

fn set_issue(record: &mut [u8], issue: u32) {
    record[2..HEAD].copy_from_slice(&issue.to_be_bytes());
}

/// A value in the field's range, its ends more often than by chance.
fn value(random: &mut Random, field: Field) -> i128 {
    let (low, high) = (field.lowest, field.highest);
    match random.below(8) {
        0 => low,
        1 => high,
        2 if field.allows(0) => 0,
        3 => low + random.between(0, 3.min(high - low)),
        4 => high - random.between(0, 3.min(high - low)),
        5 => random.spread(low.max(0), high),
        6 if field.signed => -random.spread(0, -low),
        _ => random.between(low, high),
    }
}

/// The least number from here on or any, up to the field's highest, if that isn't below it.
fn from_least(random: &mut Random, least: i128, field: Field) -> Option<i128> {
    if least > field.highest {
        return None;
    }
    let any = random.between(least, field.highest);
    Some(random.pick(&[least, any]))
}

/// A record of a mark with every field in range, whatever the technology.
pub fn any_record(random: &mut Random, kind: &Kind) -> Vec<u8> {
    let mut record = vec![0; kind.length];
    record[..2].copy_from_slice(&kind.mark);
    for field in kind.fields {
        let value = value(random, *as_in(&record, field));
        field.write(&mut record, value);
    }
    let issue = random.spread(0, u32::MAX.into());
    set_issue(&mut record, issue as u32);
    reconcile(&mut record);
    record
}

/// Puts right what 3 asks of two fields together: a request's hours in order, and a window that the
/// record's own technology allows.
fn reconcile(record: &mut [u8]) {
    if record.starts_with(b"RQ") {
        let (first, last) = (rq::FIRST.read(record), rq::LAST.read(record));
        rq::FIRST.write(record, first.min(last));
        rq::LAST.write(record, first.max(last));
    }
    if record.starts_with(b"RS") {
        let window = rs::WINDOW.read(record);
        let most = as_in(record, &rs::WINDOW).highest;
        rs::WINDOW.write(record, window.min(most));
    }
}

/// Written dossiers at the edges of forecasts, of idle weeks, of divisions, of first hours, of
/// payments that are withdrawn and of what one owner adds.
pub fn edges() -> Vec<Vec<u8>> {
    [
        forecast::edges(),
        idle::edges(),
        nearest::edges(),
        dated::edges(),
        withdrawn::edges(),
        owners::edges(),
    ]
    .concat()
}

/// A dossier of any sort: sound, damaged once or twice, or noise.
pub fn dossier(random: &mut Random) -> Vec<u8> {
    match random.below(20) {
        0 => noise(random),
        1..=2 => damage::damaged_twice(random),
        3..=9 => damage::damaged(random).1,
        _ => sound::sound(random).bytes(),
    }
}

/// Bytes that nobody ordered: plain noise, noise behind known marks, or a sound dossier with some
/// bytes changed, lost or added.
pub fn noise(random: &mut Random) -> Vec<u8> {
    let mut bytes = Vec::new();
    match random.below(3) {
        0 => bytes.resize_with(random.spread(0, 300) as usize, || random.next() as u8),
        1 => {
            for _ in 0..random.below(8) {
                let marks = [
                    b"RS", b"FU", b"RQ", b"TH", b"FP", b"LC", b"FV", b"AV", b"MV", b"AO",
                ];
                let mark = random.pick(&marks);
                let mut record = any_record(random, kind_of(mark).expect("a known mark"));
                let at = random.between(2, record.len() as i128 - 1) as usize;
                record[at] = random.next() as u8;
                bytes.extend(record);
            }
        }
        _ => {
            bytes = sound::sound(random).bytes();
            for _ in 0..=random.below(3) {
                let at = random.below(bytes.len() as u64) as usize;
                match random.below(4) {
                    0 => drop(bytes.remove(at)),
                    1 => bytes.insert(at, random.next() as u8),
                    _ => bytes[at] = random.next() as u8,
                }
            }
        }
    }
    bytes
}

/// An hour for a dossier: often the first or last hour of one of its requests, the first hour of one
/// of its costs, or a neighbour.
pub fn hour(random: &mut Random, dossier: &[u8]) -> u32 {
    let mut turns = Vec::new();
    for record in crate::dossier::records(dossier).unwrap_or_default() {
        if record.kind.mark == *b"RQ" {
            turns.extend([rq::FIRST, rq::LAST].map(|end| record.get(end)));
        } else if record.kind.is_dated() {
            turns.push(FIRST_HOUR.read(record.bytes));
        }
    }
    let ends = [0, i128::from(u32::MAX)];
    let mut hour = random.pick(&ends);
    if !turns.is_empty() && !random.one_in(4) {
        let turn = random.pick(&turns) + random.between(-1, 1);
        hour = turn.clamp(ends[0], ends[1]);
    } else if random.one_in(2) {
        hour = random.spread(ends[0], ends[1]);
    }
    hour as u32
}

/// An owner for a query: 1 or 2 and, now and then, one that no plant has.
pub fn owner(random: &mut Random) -> u8 {
    if random.one_in(12) {
        random.pick(&[0, 3, 255])
    } else {
        random.pick(&OWNERS)
    }
}
