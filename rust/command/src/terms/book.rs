//! The records that count at an hour, through the library's lookup.

use crate::explain::{standing, Span, Standing};
use crate::lines::Lines;
use crate::record::{records, Record};

/// A station's records as they count at an hour.
pub struct Book<'a> {
    dossier: &'a [u8],
    lines: &'a Lines,
    hour: u32,
    /// All records in the order they lie.
    records: Vec<Record<'a>>,
    pub profile: u8,
    /// The request that asks for the profile, where one does.
    pub request: Option<Record<'a>>,
}

impl<'a> Book<'a> {
    pub fn open(dossier: &'a [u8], lines: &'a Lines, hour: u32) -> Book<'a> {
        let mut book = Book {
            dossier,
            lines,
            hour,
            records: records(dossier).collect(),
            profile: 1,
            request: None,
        };
        let covers = |r: &Record| (r.get("first")..=r.get("last")).contains(&i128::from(hour));
        let asks = |r: &Record| r.get("profile") != 0 && covers(r);
        // The keys rise, so that the last request has the highest number.
        book.request = book.all("RQ").into_iter().rfind(asks);
        let asked = book.request.map(|r| r.get("profile"));
        book.profile = asked.and_then(|n| u8::try_from(n).ok()).unwrap_or(1);
        book
    }

    /// The record of a mark and key that counts: the current one, which is the library's; where its
    /// first hour lies ahead, of the others the newest whose first hour has come.
    pub fn counting(&self, letters: &str, key: u32) -> Option<Record<'a>> {
        let mark = letters.as_bytes().try_into().ok()?;
        let part = bench::current(self.dossier, mark, key);
        if part.bytes.is_empty() {
            return None;
        }
        let index = self.records.binary_search_by_key(&part.start, |r| r.start);
        let current = self.records[index.ok()?];
        if current.first_hour() <= self.hour {
            return Some(current);
        }
        let come = self.of_key(&current);
        let come = come.filter(|r| r.first_hour() <= self.hour);
        come.max_by_key(|r| r.get("issue"))
    }

    /// All records of a record's key, itself among them.
    fn of_key(&self, record: &Record) -> impl Iterator<Item = Record<'a>> + '_ {
        let key = record.of_key();
        let shares = move |r: &&Record| r.mark.of == key.0 && r.of_key() == key;
        self.records.iter().filter(shares).copied()
    }

    /// The records of a mark, and of the one that shares its keys, that count, by rising keys.
    pub fn all(&self, letters: &str) -> Vec<Record<'a>> {
        let of_mark = self.records.iter().filter(|r| r.mark.of == letters);
        let mut keys: Vec<u32> = of_mark.map(Record::key_number).collect();
        keys.sort_unstable();
        keys.dedup();
        let records = keys
            .into_iter()
            .filter_map(|key| self.counting(letters, key));
        records.collect()
    }

    /// Those of a mark for the hour's profile.
    pub fn of_profile(&self, letters: &str) -> Vec<Record<'a>> {
        let mut all = self.all(letters);
        all.retain(|r| r.get("profile") == i128::from(self.profile));
        all
    }

    /// The adders of a level, among them those that are withdrawn: the common ones, and behind them the
    /// owner's own.
    pub fn adders(&self, level: u8, owner: u8) -> Vec<Record<'a>> {
        let mut adders = ["AD", "AO"]
            .map(|letters| self.of_profile(letters))
            .concat();
        adders.retain(|r| r.owner().is_none_or(|of| of == owner));
        adders.retain(|r| r.get("level") == i128::from(level));
        adders
    }

    /// The prices of a battery's or a river station's window, the highest first and equal ones by
    /// their keys.
    pub fn highest(&self, letters: &str, window: i128) -> Vec<Record<'a>> {
        let mut prices = self.all(letters);
        prices.retain(|r| i128::from(r.key_number()) <= window);
        prices.sort_by_key(|r| -r.get("price"));
        prices
    }

    /// The records of the hour's profile that join a level for the first time at this hour.
    pub fn begun(&self) -> Vec<Record<'a>> {
        let costs = ["FU", "AD", "MM"].map(|letters| self.of_profile(letters));
        let begins = |r: &Record| r.mark.is_dated() && r.first_hour() == self.hour;
        let joins = |r: &Record| begins(r) && !r.is_withdrawn();
        costs.concat().into_iter().filter(joins).collect()
    }

    /// The records of the hour's profile that will count, by their first hours.
    pub fn ahead(&self) -> Vec<Record<'a>> {
        let of_profile = |r: &&Record| r.get("profile") == i128::from(self.profile);
        let later = self.records.iter().filter(|r| r.first_hour() > self.hour);
        let mut ahead: Vec<Record> = later.filter(of_profile).copied().collect();
        ahead.retain(|record| {
            let newer = |r: &Record| r.get("issue") > record.get("issue");
            let hides = |r: &Record| newer(r) && r.first_hour() <= record.first_hour();
            !self.of_key(record).any(|r| hides(&r))
        });
        ahead.sort_by_key(Record::first_hour);
        ahead
    }

    /// The fuel that the hour's profile has first: of those with the earliest first hour the newest.
    pub fn first_fuel(&self) -> Option<Record<'a>> {
        let key = ("FU", u32::from(self.profile));
        let fuels = self.records.iter().filter(|r| r.of_key() == key);
        fuels
            .min_by_key(|r| (r.first_hour(), -r.get("issue")))
            .copied()
    }

    /// A record that counts, with the hours in which it does.
    pub fn cited(&self, record: &Record) -> Standing {
        let newer = self.of_key(record);
        let newer = newer.filter(|r| r.get("issue") > record.get("issue"));
        // A newer one that hasn't come lies ahead of this hour, which is 0 or more.
        let end = newer.map(|r| r.first_hour()).min();
        let span = || Span {
            from: record.first_hour(),
            to: end.map(|hour| hour.saturating_sub(1)),
        };
        Standing {
            counts: record.mark.can_be_dated().then(span),
            ..standing(record, self.lines)
        }
    }
}
