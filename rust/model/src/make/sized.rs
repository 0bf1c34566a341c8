//! Dossiers of a length, to be timed: keys of all marks that a technology may have, several issues
//! of each, in any order, without first hours or with them, and with amounts of two owners; and a full
//! charging week.
//!
//! None has an LC, which says nothing where a battery charged.

use super::owners::own;
use super::written::record;
use super::{set_issue, with_first_hour};
use crate::random::Random;
use crate::table::{Role, Technology, OWNERS};

/// Issues of a key, and more where the station has too few keys to fill the length.
const ISSUES: usize = 3;

pub(super) const CAPACITY: i128 = 1_000;

/// A dossier of this length or a few bytes less; 1,000 are enough for each technology.
pub fn sized(technology: Technology, length: usize) -> Vec<u8> {
    filled(&keys(technology, length), length, |record, _| record)
}

/// The same with amounts of both owners beside the common ones.
pub fn sized_owned(technology: Technology, length: usize) -> Vec<u8> {
    let mut others = others(technology);
    others.extend(OWNERS.map(|owner| own_additions(technology, owner)));
    let keys = keys_with(technology, length, others);
    filled(&keys, length, |record, _| record)
}

/// The same with a first hour in every newer issue of a cost that can have one: each counts from a
/// day after the one before it.
pub fn sized_dated(technology: Technology, length: usize) -> Vec<u8> {
    filled(&keys(technology, length), length, |record, issue| {
        let first = (issue > 1).then(|| 24 * (issue - 1));
        with_first_hour(&record, first).unwrap_or(record)
    })
}

/// Issue upon issue of each key, as `told` makes it of a record, until the length is reached.
fn filled(keys: &[Vec<u8>], length: usize, told: impl Fn(Vec<u8>, u32) -> Vec<u8>) -> Vec<u8> {
    let random = &mut Random::new(length as u64);
    let mut left = length;
    let issues = (1..).flat_map(|issue| keys.iter().map(move |key| (key, issue)));
    let mut records: Vec<_> = issues
        .map(|(key, issue)| told(reissued(random, key, issue), issue))
        .take_while(|record| goes_in(&mut left, record.len()))
        .collect();
    random.shuffle(&mut records);
    records.concat()
}

/// Every key of a battery but LC once, mark by mark: 168 hours, 2,016 intervals.
pub fn full_week() -> Vec<u8> {
    let technology = Technology::Storage;
    let others = others(technology).into_iter().flatten().collect();
    [needed(technology, 168), others].concat().concat()
}

/// A threshold of a condition for each level.
pub fn thresholds(technology: Technology, condition: i128) -> Vec<Vec<u8>> {
    let levels = technology.levels().iter();
    let threshold = |level: &u8| record(b"TH", 1, &[condition, (*level).into(), 50, 2_500, 0]);
    levels.map(threshold).collect()
}

fn goes_in(left: &mut usize, length: usize) -> bool {
    let rest = left.checked_sub(length);
    *left = rest.unwrap_or(0);
    rest.is_some()
}

/// The record as another issue, with its money moved by up to a half.
fn reissued(random: &mut Random, key: &[u8], issue: u32) -> Vec<u8> {
    let mut record = key.to_vec();
    set_issue(&mut record, issue);
    let fields = super::kind(key).fields.iter();
    for field in fields.filter(|field| field.role == Role::Money) {
        let amount = field.read(key);
        field.write(&mut record, amount + random.between(0, amount.abs() / 2));
    }
    record
}

/// A record for each key: those that the station needs, and of the others as many as leave room for
/// the issues. A key's rank is the part of its mark that lies before it, so that there is as large a
/// part of each mark.
pub(super) fn keys(technology: Technology, length: usize) -> Vec<Vec<u8>> {
    keys_with(technology, length, others(technology))
}

fn keys_with(technology: Technology, length: usize, others: Vec<Vec<Vec<u8>>>) -> Vec<Vec<u8>> {
    let mut keys = needed(technology, window(technology, length));
    let taken: usize = keys.iter().map(Vec::len).sum();
    let mut left = (length / ISSUES).saturating_sub(taken);
    let mut ranked = Vec::new();
    for mark in others {
        let count = mark.len();
        let ranks = (0..count).map(|i| i * 10_000 / count);
        ranked.extend(ranks.zip(mark));
    }
    ranked.sort_by_key(|(rank, _)| *rank);
    let others = ranked.into_iter().map(|(_, record)| record);
    keys.extend(others.take_while(|record| goes_in(&mut left, record.len())));
    keys
}

/// A window that grows with the dossier, as far as its technology allows.
fn window(technology: Technology, length: usize) -> i128 {
    let length = length as i128;
    match technology {
        Technology::Thermal | Technology::Nuclear => 0,
        Technology::Storage => (length / 120).clamp(4, 168),
        Technology::Hydro => (length / 48).clamp(50, 4_000),
    }
}

/// What the station is accepted with, an addition to each level so that none is 0, and thresholds
/// of condition 1.
fn needed(technology: Technology, window: i128) -> Vec<Vec<u8>> {
    let mut records = station(technology, window);
    records.extend((1..=4).map(|profile| fuel(technology, profile)));
    let levels = technology.levels().iter();
    records.extend(levels.map(|level| addition(1, 1, *level)));
    records.extend(thresholds(technology, 1));
    records
}

/// The RS, and its curve, its prices or its forecast. A battery's charge lasts 4 hours.
pub(super) fn station(technology: Technology, window: i128) -> Vec<Vec<u8>> {
    let used = match technology {
        Technology::Thermal => [1_000, 500_000, 100_000, 0, 0, 0, 0],
        Technology::Nuclear => [1_000, 0, 0, 1_000, 0, 0, 0],
        Technology::Storage => [0, 0, 0, 0, 4 * CAPACITY, 800, window],
        Technology::Hydro => [0, 0, 0, 0, 0, 0, window],
    };
    let fields = [&[technology.byte(), CAPACITY], &used[..]].concat();
    let priced = |mark| {
        let keys = 1..=window;
        keys.map(|n| record(mark, 1, &[n, price(n)])).collect()
    };
    let beside: Vec<Vec<u8>> = match technology {
        Technology::Thermal => (1..=11).map(point).collect(),
        Technology::Nuclear => vec![],
        Technology::Storage => priced(b"HR"),
        Technology::Hydro => priced(b"FP"),
    };
    [vec![record(b"RS", 1, &fields)], beside].concat()
}

/// A point of a curve that bends upwards from 0 to the capacity.
fn point(n: i128) -> Vec<u8> {
    let heat = 400_000 + 35_000 * n + 1_000 * n * n;
    record(b"HP", 1, &[n, CAPACITY / 10 * (n - 1), heat])
}

/// -5.00 to 74.00, not in the order of the keys.
fn price(key: i128) -> i128 {
    100 * (37 * key % 80) - 500
}

pub(super) fn fuel(technology: Technology, profile: i128) -> Vec<u8> {
    let mut fuel = record(b"FU", 1, &[profile, 4_000_000, 1_000_000]);
    for price in technology.unpriced() {
        price.write(&mut fuel, 0);
    }
    fuel
}

fn addition(profile: i128, cost: i128, level: u8) -> Vec<u8> {
    record(b"AD", 1, &[profile, cost, level.into(), 1_500_000])
}

pub(super) fn interval(n: i128) -> Vec<u8> {
    record(b"CH", 1, &[n, price(n), 1_000])
}

/// What a station may have beside, mark by mark.
fn others(technology: Technology) -> Vec<Vec<Vec<u8>>> {
    let intervals = match technology {
        Technology::Storage => 2_016,
        _ => 0,
    };
    // a day each, the first of them profile 1
    let request = |n| record(b"RQ", 1, &[n, 24 * (n - 1), 24 * n - 1, (n - 1) % 4 + 1]);
    vec![
        (1..=intervals).map(interval).collect(),
        additions(technology),
        maintenance(technology),
        (1..=16).map(request).collect(),
        [2, 3].map(|c| thresholds(technology, c)).concat(),
    ]
}

/// Every profile, cost and level that an amount may be added for.
fn all_additions(technology: Technology) -> Vec<[u8; 3]> {
    let costs = if technology == Technology::Nuclear {
        5
    } else {
        4
    };
    let mut keys = Vec::new();
    for (profile, cost) in (1..=4).flat_map(|p| (1..=costs).map(move |c| (p, c))) {
        let levels = technology.levels().iter();
        keys.extend(levels.map(|level| [profile, cost, *level]));
    }
    keys
}

/// All but those that are needed.
fn additions(technology: Technology) -> Vec<Vec<u8>> {
    let keys = all_additions(technology).into_iter();
    let others = keys.filter(|[profile, cost, _]| (*profile, *cost) != (1, 1));
    let record = |[profile, cost, level]: [u8; 3]| addition(profile.into(), cost.into(), level);
    others.map(record).collect()
}

fn own_additions(technology: Technology, owner: u8) -> Vec<Vec<u8>> {
    let keys = all_additions(technology).into_iter();
    let record = |[profile, cost, level]: [u8; 3]| own(1, [owner, profile, cost, level], 750_000);
    keys.map(record).collect()
}

fn maintenance(technology: Technology) -> Vec<Vec<u8>> {
    let hours = if technology == Technology::Thermal {
        100
    } else {
        0
    };
    let items = (1..=4).flat_map(|profile| (1..=8).map(move |item| (profile, item)));
    items
        .map(|(p, i)| record(b"MM", 1, &[p, i, 200_000_000, 1_000, 25_000, hours]))
        .collect()
}
