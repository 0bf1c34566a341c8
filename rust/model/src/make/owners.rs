//! What one owner of a plant adds beside the common amounts.

use super::withdrawn::stations;
use super::written::record;
use crate::table::{ad, ao, OWNERS};

/// An amount of an owner for a profile, cost and level, in micro-dollars.
pub fn own(issue: u32, key: [u8; 4], amount: i128) -> Vec<u8> {
    let [owner, profile, cost, level] = key.map(i128::from);
    record(b"AO", issue, &[owner, profile, cost, level, amount])
}

/// The common amount of the same profile, cost and level.
pub fn common(issue: u32, [_, profile, cost, level]: [u8; 4], amount: i128) -> Vec<u8> {
    let [profile, cost, level] = [profile, cost, level].map(i128::from);
    record(b"AD", issue, &[profile, cost, level, amount])
}

/// Every key of an AO, in bounds.
pub fn keys() -> Vec<[u8; 4]> {
    let mut keys = Vec::new();
    for (owner, profile) in OWNERS
        .into_iter()
        .flat_map(|o| (1..=4).map(move |p| (o, p)))
    {
        for (cost, level) in (1..=5).flat_map(|c| (1..=4).map(move |l| (c, l))) {
            keys.push([owner, profile, cost, level]);
        }
    }
    keys
}

/// Each station with an amount of every key alone; with one of no owner there is; with amounts of both
/// owners and a common one of one profile, cost and level; with the most and more; twice with one
/// issue, and of both marks; with older issues before newer ones and behind them; with payments of
/// both; and cut short.
pub fn edges() -> Vec<Vec<u8>> {
    let mut edges = Vec::new();
    for (_, station) in stations() {
        let mut with = |more: &[Vec<u8>]| edges.push([&station[..], &more.concat()].concat());
        keys()
            .into_iter()
            .for_each(|key| with(&[own(1, key, 7_000)]));
        for owner in [0, 3, 255] {
            with(&[own(1, [owner, 1, 3, 1], 7_000)]);
        }
        let [mine, yours] = OWNERS.map(|owner| [owner, 1, 3, 1]);
        with(&[
            own(1, mine, 5_000),
            common(1, mine, 9_000),
            own(1, yours, 70_000),
        ]);
        for amount in [0, 1, 4_999, ao::AMOUNT.highest, ao::AMOUNT.highest + 1] {
            with(&[own(1, mine, amount)]);
            with(&[own(1, yours, amount), own(2, mine, amount)]);
        }
        let twins = [own(7, mine, 1), own(7, mine, 2)];
        with(&twins);
        with(&[own(7, mine, 1), own(7, yours, 2), common(7, mine, 3)]);
        with(&[
            own(2, mine, 9_000),
            own(1, mine, 5_000_000),
            own(3, yours, 1),
        ]);
        with(&[own(1, yours, 5_000_000), own(2, yours, 9_000)]);
        let paid = OWNERS.map(|owner| own(1, [owner, 1, ad::THIRD_PARTY as u8, 1], 9_000_000));
        with(&paid);
        with(&[&paid[..], &[common(1, [1, 1, ad::THIRD_PARTY as u8, 1], 1)]].concat());
        for length in 2..twins[0].len() {
            with(&[twins[0][..length].to_vec()]);
        }
    }
    edges
}
