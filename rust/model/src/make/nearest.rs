//! Divisions that leave half a micro-dollar, a little less and a little more, each where it shows in
//! cents; and the level that lies farthest from its exact level.

use super::written::record;
use crate::table::{ENERGY, NO_LOAD, START};

/// A division of the formulas.
pub struct Term {
    pub name: &'static str,
    /// The levels that have it.
    pub levels: &'static [u8],
    /// Stations in which it leaves less than half a micro-dollar, half of one, and more. These levels
    /// are 0.00 where it goes down and 0.01 where it goes up.
    pub dossiers: [Vec<u8>; 3],
}

fn addition(level: u8, amount: i128) -> Vec<u8> {
    record(b"AD", 1, &[1, 3, level.into(), amount])
}

/// Fuel and emission of profile 1.
fn prices(fuel: i128, emission: i128) -> Vec<u8> {
    record(b"FU", 1, &[1, fuel, emission])
}

/// Maintenance at a cent that leaves half a micro-dollar at 100,000 hours, in energy and with 5 hours
/// per start in a start.
fn item(number: i128, interval: i128, hours_per_start: i128) -> Vec<u8> {
    record(b"MM", 1, &[1, number, 1, 2, interval, hours_per_start])
}

/// A rise of 1 MJ/h over 0.2 MW and heats of 5 MJ: a 200th of fuel and of emission in each level.
fn thermal(more: Vec<u8>) -> Vec<u8> {
    let mut records = vec![
        record(b"RS", 1, &[1, 2, 1_000, 5, 5, 0, 0, 0, 0]),
        record(b"HP", 1, &[1, 0, 0]),
        record(b"HP", 1, &[2, 2, 1]),
    ];
    records.extend([ENERGY, START, NO_LOAD].map(|level| addition(level, 4_999)));
    records.push(more);
    records.concat()
}

/// A 200th of fuel.
fn nuclear(more: Vec<u8>) -> Vec<u8> {
    let rs = record(b"RS", 1, &[2, 1_000, 1_000, 0, 0, 5_000, 0, 0, 0]);
    [rs, addition(ENERGY, 4_999), more].concat()
}

/// A battery that earns nothing in its one hour.
fn storage(efficiency: i128, added: i128, more: Vec<u8>) -> Vec<u8> {
    let rs = record(b"RS", 1, &[3, 800, 0, 0, 0, 0, 800, efficiency, 1]);
    let hour = record(b"HR", 1, &[1, 0]);
    [rs, hour, addition(ENERGY, added), more].concat()
}

/// A forecast of nothing.
fn hydro(more: Vec<u8>) -> Vec<u8> {
    let rs = record(b"RS", 1, &[4, 1_000, 0, 0, 0, 0, 0, 0, 50]);
    let places = (1..=50).flat_map(|place| record(b"FP", 1, &[place, 0]));
    [rs, places.collect(), addition(ENERGY, 4_999), more].concat()
}

/// One kWh at a cent among so many kWh at nothing.
fn week(energy: i128) -> Vec<u8> {
    let charged = record(b"CH", 1, &[1, 1, 1]);
    [charged, record(b"CH", 1, &[2, 0, energy - 1])].concat()
}

/// Every division but that of the opportunity cost: a mean of at most 168 prices in cents doesn't come
/// near enough to half a cent to show which way it goes.
pub fn terms() -> Vec<Term> {
    let around = [99, 100, 101];
    let intervals = [100_001, 100_000, 99_999];
    let fuel = |n| prices(n, 0);
    let maintenance = |n, hours| [prices(0, 0), item(1, n, hours)].concat();
    let term = |name, levels, dossiers| Term {
        name,
        levels,
        dossiers,
    };
    vec![
        term(
            "thermal fuel",
            &[ENERGY, START, NO_LOAD],
            around.map(|n| thermal(fuel(n))),
        ),
        term(
            "emission",
            &[ENERGY, START, NO_LOAD],
            around.map(|n| thermal(prices(0, n))),
        ),
        term(
            "thermal maintenance",
            &[ENERGY, START],
            intervals.map(|n| thermal(maintenance(n, 50))),
        ),
        term("nuclear fuel", &[ENERGY], around.map(|n| nuclear(fuel(n)))),
        term(
            "nuclear maintenance",
            &[ENERGY],
            intervals.map(|n| nuclear(maintenance(n, 0))),
        ),
        term(
            "charging cost",
            &[ENERGY],
            [20_001, 20_000, 19_999].map(|n| storage(1_000, 4_999, [fuel(0), week(n)].concat())),
        ),
        // 2,000 / 800 = 2.5
        term(
            "efficiency step",
            &[ENERGY],
            [801, 800, 799].map(|n| storage(n, 4_997, fuel(2))),
        ),
        term(
            "storage maintenance",
            &[ENERGY],
            intervals.map(|n| storage(1_000, 4_999, maintenance(n, 0))),
        ),
        term(
            "hydroelectric maintenance",
            &[ENERGY],
            intervals.map(|n| hydro(maintenance(n, 0))),
        ),
    ]
}

/// A battery with eight items of half a micro-dollar, a charging cost of half a micro-dollar, fuel 124
/// and efficiency 501. Its sum is 5,000 instead of 4,994.503 micro-dollars, and its level a cent.
pub fn farthest() -> Vec<u8> {
    let items = (1..=8).flat_map(|number| item(number, 100_000, 0));
    let costs = [prices(124, 0), week(20_000), items.collect()];
    storage(501, 4_742, costs.concat())
}

pub fn edges() -> Vec<Vec<u8>> {
    let stations = terms().into_iter().flat_map(|term| term.dossiers);
    stations.chain([farthest()]).collect()
}
