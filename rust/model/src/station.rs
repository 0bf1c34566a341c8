//! "Of one mark and key, the highest issue is current": the current records, wherever they lie, and
//! those that are in force at an hour.

use crate::dossier::{in_turn, records, Record};
use crate::table::{kind_of, rs, Field, Kind, Mark, Technology, TABLE, TECHNOLOGIES};
use crate::{refuse, Refusal};
use std::borrow::Cow;
use std::cmp::Reverse;
use std::collections::HashSet;

/// One record for each key of a dossier that draws none of 13 and 1 to 4: the current ones, or those
/// in force at an hour.
#[derive(Clone)]
pub struct Current<'a> {
    pub dossier: &'a [u8],
    /// For each mark, in the table's order, a slot for each key up to the highest that comes. A
    /// dated record has its slot among those of the undated mark.
    by_kind: [Vec<Option<Record<'a>>>; TABLE.len()],
    /// Whether the dossier has a record with a first hour.
    pub dated: bool,
}

/// Where the mark that a kind shares its keys with stands in the table.
fn rank(kind: &Kind) -> usize {
    let found = TABLE.iter().position(|other| other.mark == kind.of);
    found.expect("a kind of the table")
}

impl<'a> Current<'a> {
    pub fn of(dossier: &'a [u8]) -> Result<Current<'a>, Refusal> {
        let (current, risen) = Current::highest(dossier, u32::MAX)?;
        // The later of two twins never rises above the record held before it.
        if !risen {
            no_twins(dossier)?;
        }
        Ok(current)
    }

    /// The records in force at an hour. Every first hour has come by the last hour there is, so that
    /// those in force then are the current ones.
    pub fn in_force(&self, hour: u32) -> Cow<'_, Current<'a>> {
        if !self.dated {
            return Cow::Borrowed(self);
        }
        let (in_force, _) = Current::highest(self.dossier, hour).expect("read before");
        Cow::Owned(in_force)
    }

    /// Of each key the highest issue among the records whose first hour has come, and whether each
    /// of these rose above the one held before it.
    fn highest(dossier: &'a [u8], hour: u32) -> Result<(Current<'a>, bool), Refusal> {
        let mut by_kind = [const { Vec::new() }; TABLE.len()];
        let (mut risen, mut dated) = (true, false);
        for record in in_turn(dossier)? {
            let record = record?;
            dated |= record.kind.is_dated();
            if record.first_hour() > hour {
                continue;
            }
            let slots: &mut Vec<Option<Record>> = &mut by_kind[rank(record.kind)];
            let slot = record.kind.slot(record.bytes);
            if slots.len() <= slot {
                slots.resize(slot + 1, None);
            }
            let held = &mut slots[slot];
            if held.is_none_or(|held| held.issue() < record.issue()) {
                *held = Some(record);
            } else {
                risen = false;
            }
        }
        let current = Current {
            dossier,
            by_kind,
            dated,
        };
        Ok((current, risen))
    }

    pub fn get(&self, mark: &Mark, key: &[u8]) -> Option<&Record<'a>> {
        let mut of_mark = self.of_mark(mark);
        of_mark.find(|record| record.key() == key)
    }

    /// The records of one mark and of the one that it shares its keys with, by rising key.
    pub fn of_mark(&self, mark: &Mark) -> impl Iterator<Item = &Record<'a>> {
        let slots = kind_of(mark).map(|kind| &self.by_kind[rank(kind)]);
        slots.into_iter().flatten().flatten()
    }

    pub fn all(&self) -> impl Iterator<Item = &Record<'a>> {
        self.by_kind.iter().flatten().flatten()
    }

    /// The records that count at some hour.
    pub fn at_some_hour(&self) -> Vec<Record<'a>> {
        if !self.dated {
            return self.all().copied().collect();
        }
        counting(records(self.dossier).expect("read before"))
    }
}

/// Of these records those that count at some hour: no higher issue of their key has a first hour at
/// or before their own.
fn counting(mut records: Vec<Record>) -> Vec<Record> {
    let key = |record: &Record| (rank(record.kind), record.kind.slot(record.bytes));
    records.sort_by_key(|record| (key(record), Reverse(record.issue())));
    // Of each key the newest comes first: what lies behind it counts where it begins earlier than all
    // before it.
    let mut before: Option<Record> = None;
    records.retain(|record| {
        let hides = |earliest: &Record| {
            key(earliest) == key(record) && earliest.first_hour() <= record.first_hour()
        };
        let counts = !before.as_ref().is_some_and(hides);
        if counts {
            before = Some(*record);
        }
        counts
    });
    records
}

/// 4 is tried once all records are read, and names the later of the two.
fn no_twins(dossier: &[u8]) -> Result<(), Refusal> {
    let mut seen = HashSet::new();
    let mut records = records(dossier)?.into_iter();
    match records.find(|record| !seen.insert(record.claim())) {
        Some(twin) => refuse(4, twin.start),
        None => Ok(()),
    }
}

/// The part of the dossier that holds the current record: empty if the key is absent or out of
/// bounds, or if the dossier draws 1 to 4 or 13.
pub fn current<'a>(dossier: &'a [u8], mark: &[u8], key: &[u8]) -> &'a [u8] {
    find(dossier, mark, key).map_or(&[], |record| record.bytes)
}

/// Where that part starts; 0 for the empty part.
pub fn current_start(dossier: &[u8], mark: &[u8], key: &[u8]) -> usize {
    find(dossier, mark, key).map_or(0, |record| record.start)
}

fn find<'a>(dossier: &'a [u8], mark: &[u8], key: &[u8]) -> Option<Record<'a>> {
    let current = Current::of(dossier).ok()?;
    current.get(&mark.try_into().ok()?, key).copied()
}

/// A dossier with an RS: its current records and what the current RS says.
pub struct Station<'a> {
    pub current: Current<'a>,
    pub rs: Record<'a>,
    pub technology: Technology,
}

impl<'a> Station<'a> {
    /// The station, or 5.
    pub fn of(current: Current<'a>) -> Result<Station<'a>, Refusal> {
        let Some(rs) = current.get(b"RS", &[]).copied() else {
            return refuse(5, current.dossier.len());
        };
        let byte = rs.get(rs::TECHNOLOGY);
        let technology = TECHNOLOGIES.into_iter().find(|t| t.byte() == byte);
        Ok(Station {
            current,
            rs,
            technology: technology.expect("3 keeps the technology byte in range"),
        })
    }

    /// A field of the current RS.
    pub fn amount(&self, field: Field) -> u128 {
        self.rs.amount(field)
    }

    /// Capacity in 0.1 MW.
    pub fn capacity(&self) -> u16 {
        self.amount(rs::CAPACITY) as u16
    }
}
