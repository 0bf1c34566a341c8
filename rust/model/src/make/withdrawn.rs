//! Dossiers with third-party payments, which are withdrawn.

use super::idle::battery;
use super::with_first_hour;
use super::written::{hydro, nuclear_at, r1, record};
use crate::table::{ad, Technology, TECHNOLOGIES};

/// A payment of a profile and level in micro-dollars.
pub fn payment(issue: u32, profile: i128, level: u8, amount: i128) -> Vec<u8> {
    let fields = [profile, ad::THIRD_PARTY, level.into(), amount];
    record(b"AD", issue, &fields)
}

/// The same from an hour on.
pub fn payment_from(issue: u32, first: u32, profile: i128, level: u8, amount: i128) -> Vec<u8> {
    let payment = payment(issue, profile, level, amount);
    with_first_hour(&payment, Some(first)).expect("an adder can be dated")
}

/// A station of each technology, none of which has a payment; profile 1 alone has fuel.
pub fn stations() -> [(Technology, Vec<u8>); 4] {
    let stations = [r1(), nuclear_at(5_000_000), battery(), hydro(&[1_000; 50])];
    let mut stations = stations.into_iter();
    TECHNOLOGIES.map(|technology| (technology, stations.next().expect("one for each")))
}

/// Each station with payments at some of its levels, of no amount, a little and the most; of another
/// profile; at a level that it may not hold; twice with one issue; and from hours about 24 on, with an
/// older one behind it.
pub fn edges() -> Vec<Vec<u8>> {
    let mut edges = Vec::new();
    for (technology, station) in stations() {
        let with = |payments: &[Vec<u8>]| [&station[..], &payments.concat()].concat();
        for amount in [0, 1, 5_000, ad::AMOUNT.highest, ad::AMOUNT.highest + 1] {
            for count in 0..=technology.levels().len() {
                let levels = technology.levels()[..count].iter();
                let payments = levels.map(|level| payment(1, 1, *level, amount));
                edges.push(with(&payments.collect::<Vec<_>>()));
            }
        }
        for (profile, level) in (1..=4).flat_map(|p| (1..=4).map(move |l| (p, l))) {
            edges.push(with(&[payment(1, profile, level, 7_000)]));
        }
        let older = payment(1, 1, 1, 9_000_000);
        edges.push(with(&[older.clone(), payment(1, 1, 1, 8_000_000)]));
        for first in [0, 1, 23, 24, 25, u32::MAX] {
            let newer = payment_from(2, first, 1, 1, 0);
            edges.push(with(std::slice::from_ref(&newer)));
            edges.push(with(&[newer, older.clone()]));
        }
    }
    edges
}
