//! Dossiers written out by hand, for the marked cases and the edges.

use crate::table::kind_of;

/// A record of a mark and issue with these fields, in the table's order.
pub fn record(mark: &[u8; 2], issue: u32, values: &[i128]) -> Vec<u8> {
    let kind = kind_of(mark).expect("a known mark");
    assert_eq!(kind.fields.len(), values.len());
    let mut record = vec![0; kind.length];
    record[..2].copy_from_slice(mark);
    super::set_issue(&mut record, issue);
    for (field, value) in kind.fields.iter().zip(values) {
        field.write(&mut record, *value);
    }
    record
}

/// Case R1 without its AD and MM records.
pub fn plain_thermal() -> Vec<u8> {
    [
        record(b"RS", 1, &[1, 1_000, 1_000, 500_000, 100_000, 0, 0, 0, 0]),
        record(b"HP", 1, &[1, 500, 500_000]),
        record(b"HP", 1, &[2, 1_000, 900_000]),
        record(b"FU", 1, &[1, 4_000_000, 1_000_000]),
    ]
    .concat()
}

/// Case R1.
pub fn r1() -> Vec<u8> {
    let costs = [
        record(b"AD", 1, &[1, 3, 1, 1_500_000]),
        record(b"AD", 1, &[1, 3, 4, 250_000]),
        record(b"MM", 1, &[1, 1, 200_000_000, 1_000, 25_000, 100]),
    ];
    [plain_thermal(), costs.concat()].concat()
}

pub const R1_LINES: &[u8] = b"profile 1\n\
    energy 1 0.0 100.0 42.30\n\
    start 3300.00\n\
    no-load 500.00\n\
    reserve 0.25\n\
    retired 0\n";

/// A thermal station whose heat rises by `step` from each of its points to the next.
pub fn evenly_rising(points: i128, step: i128) -> Vec<u8> {
    let capacity = 10 * points;
    let mut records = vec![
        record(b"RS", 1, &[1, capacity, 1_000, 0, 0, 0, 0, 0, 0]),
        record(b"FU", 1, &[1, 4_000_000, 0]),
    ];
    records.extend((1..=points).map(|n| record(b"HP", 1, &[n, 10 * n, step * n])));
    records.concat()
}

/// A nuclear station whose energy level is this amount of micro-dollars and nothing else.
pub fn nuclear_at(amount: i128) -> Vec<u8> {
    [
        record(b"RS", 1, &[2, 1_000, 1_000, 0, 0, 1, 0, 0, 0]),
        record(b"FU", 1, &[1, 0, 0]),
        record(b"AD", 1, &[1, 1, 1, amount]),
    ]
    .concat()
}

/// A storage station with charge and capacity in tenths, one price in cents for each window hour,
/// free fuel and an efficiency of 800.
pub fn storage(charge: i128, capacity: i128, prices: &[i128]) -> Vec<u8> {
    let window = prices.len() as i128;
    let mut records = vec![
        record(b"RS", 1, &[3, capacity, 0, 0, 0, 0, charge, 800, window]),
        record(b"FU", 1, &[1, 0, 0]),
    ];
    let hours = (1..).zip(prices);
    records.extend(hours.map(|(hour, price)| record(b"HR", 1, &[hour, *price])));
    records.concat()
}

/// A hydroelectric station with one price in cents for each place of the window, and no other cost.
pub fn hydro(prices: &[i128]) -> Vec<u8> {
    let window = prices.len() as i128;
    let mut records = vec![
        record(b"RS", 1, &[4, 1_000, 0, 0, 0, 0, 0, 0, window]),
        record(b"FU", 1, &[1, 0, 0]),
    ];
    let places = (1..).zip(prices);
    records.extend(places.map(|(place, price)| record(b"FP", 1, &[place, *price])));
    records.concat()
}
