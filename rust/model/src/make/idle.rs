//! Batteries that charged and batteries that didn't, with a last charging cost and without.

use super::set_issue;
use super::written::{hydro, nuclear_at, plain_thermal, record, storage};
use crate::dossier::LONGEST;
use crate::table::lc;

/// A last charging cost in micro-dollars.
pub fn last_cost(issue: u32, cost: i128) -> Vec<u8> {
    record(b"LC", issue, &[cost])
}

/// A battery with an efficiency of 800 that earns nothing in its window and pays 0.75 per MWh beside
/// the charging cost, and a threshold for its energy level.
pub fn battery() -> Vec<u8> {
    let costs = [
        record(b"FU", 2, &[1, 750_000, 0]),
        record(b"TH", 1, &[1, 1, 50, 2_500, 0]),
    ];
    [storage(3_000, 800, &[0; 3]), costs.concat()].concat()
}

/// An interval whose price must not count.
fn uncharged(interval: i128) -> Vec<u8> {
    record(b"CH", 1, &[interval, 5_000, 0])
}

/// Weeks in which no energy is charged: no interval, some of energy 0, and one whose older issue
/// charged.
pub fn idle_weeks() -> Vec<Vec<u8>> {
    vec![
        vec![],
        uncharged(7),
        [uncharged(1), uncharged(2_016)].concat(),
        [uncharged(7), record(b"CH", 0, &[7, 5_000, 1_000])].concat(),
    ]
}

/// Weeks in which 1 kWh is charged: at 50.00, for nothing, for less than nothing, and in the newer
/// issue of its interval alone.
pub fn charged_weeks() -> Vec<Vec<u8>> {
    let kwh = |price| record(b"CH", 1, &[2_016, price, 1]);
    let mut weeks: Vec<_> = [5_000, 0, -1]
        .map(|price| [uncharged(1), kwh(price)].concat())
        .into();
    weeks.push([record(b"CH", 0, &[2_016, 9_000, 0]), kwh(5_000)].concat());
    weeks
}

/// None, one at either end of its range and past it, three issues with the newest in each place,
/// and twins.
fn last_costs() -> Vec<Vec<u8>> {
    let most = lc::COST.highest;
    let single = [0, 1, most, most + 1, u32::MAX.into()].map(|cost| last_cost(1, cost));
    let mut costs = vec![vec![]];
    costs.extend(single);
    let mut issues = [(0, 1), (6, most), (u32::MAX, 20_000_000)].map(|(i, c)| last_cost(i, c));
    for _ in 0..issues.len() {
        issues.rotate_left(1);
        costs.push(issues.concat());
    }
    costs.push([last_cost(3, 5), last_cost(4, 0), last_cost(3, 6)].concat());
    costs
}

/// Each week with each of the last costs, before and behind the other records; a last cost cut short
/// at every length; as many last costs as go into a dossier; a full week of energy 0; and stations that
/// may have none.
pub fn edges() -> Vec<Vec<u8>> {
    let mut edges = elsewhere();
    for week in [idle_weeks(), charged_weeks()].concat() {
        for cost in last_costs() {
            edges.push([battery(), week.clone(), cost.clone()].concat());
            edges.push([cost, week.clone(), battery()].concat());
        }
    }
    let cost = last_cost(1, 20_000_000);
    edges.extend((1..cost.len()).map(|length| [&battery(), &cost[..length]].concat()));
    // as many records as a dossier holds at most, the newest first, and a twin at its end
    let count = ((LONGEST - battery().len()) / cost.len()) as u32;
    let falling: Vec<u8> = (1..count).rev().flat_map(|n| last_cost(n, 1)).collect();
    edges.extend([0, 1].map(|n| [battery(), falling.clone(), last_cost(n, 1)].concat()));
    let full: Vec<u8> = (1..=2_016).flat_map(uncharged).collect();
    edges.push([battery(), full, cost].concat());
    edges
}

/// A last cost where the station is no battery, before and behind its other records, alone and
/// with a newer issue; where it is one no more; and where it has become one.
fn elsewhere() -> Vec<Vec<u8>> {
    let (older, newer) = (last_cost(1, 0), last_cost(2, 0));
    let mut dossiers = Vec::new();
    for station in [plain_thermal(), nuclear_at(0), hydro(&[1_000; 50])] {
        dossiers.push([&older[..], &station].concat());
        dossiers.push([&station[..], &older].concat());
        dossiers.push([&older[..], &station, &newer].concat());
        dossiers.push([&newer[..], &station, &older].concat());
        let mut rs = station[..31].to_vec();
        for issue in [0, 2] {
            set_issue(&mut rs, issue);
            dossiers.push([&newer[..], &battery(), &rs].concat());
        }
    }
    dossiers
}
