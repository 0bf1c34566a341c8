//! The smallest dossiers, to be timed: what a station is accepted with and no more, each key once,
//! batteries that charged now and then, and dossiers that are refused.

use super::sized::{fuel, interval, keys, station, thresholds, CAPACITY};
use super::written::record;
use crate::random::Random;
use crate::table::Technology;

/// What the station is accepted with: a curve of two points, a window of four hours or a forecast
/// of 50 places, and the fuel of the first profile.
pub fn least(technology: Technology) -> Vec<u8> {
    let window = match technology {
        Technology::Thermal | Technology::Nuclear => 0,
        Technology::Storage => 4,
        Technology::Hydro => 50,
    };
    let mut records = station(technology, window);
    if technology == Technology::Thermal {
        records.truncate(1);
        records.push(record(b"HP", 1, &[1, 0, 400_000]));
        records.push(record(b"HP", 1, &[2, CAPACITY, 900_000]));
    }
    records.push(fuel(technology, 1));
    records.concat()
}

/// The same, with thresholds of condition 1, and with each of some 20 keys once, in any order.
pub fn small(technology: Technology) -> [(&'static str, Vec<u8>); 3] {
    let least = least(technology);
    let tested = [least.clone(), thresholds(technology, 1).concat()].concat();
    let mut once = keys(technology, 1_000);
    Random::new(1).shuffle(&mut once);
    [
        ("least", least),
        ("tested", tested),
        ("once", once.concat()),
    ]
}

/// The least battery with some charging intervals: the first ones of the week, and as many over
/// all of it.
pub fn charged() -> Vec<(String, Vec<u8>)> {
    let least = least(Technology::Storage);
    let with = |apart: i128, count: i128| {
        let intervals = (0..count).map(|n| interval(apart * n + 1));
        [&least[..], &intervals.collect::<Vec<_>>().concat()].concat()
    };
    let counts = [4, 30, 150, 300].into_iter();
    counts
        .flat_map(|count| {
            [
                (format!("first-{count:03}"), with(1, count)),
                (format!("apart-{count:03}"), with(2_016 / count, count)),
            ]
        })
        .collect()
}

/// Dossiers that are refused: most of them the least of a thermal station, spoilt.
pub fn refused() -> Vec<(&'static str, Vec<u8>)> {
    let least = least(Technology::Thermal);
    let week = station(Technology::Storage, 4);
    let with = |record: &[u8]| [&least[..], record].concat();
    vec![
        ("too-long", vec![0; 60_001]),
        ("empty", vec![]),
        ("one-byte", b"R".to_vec()),
        ("unknown-mark", with(b"XX")),
        ("twin", with(&least[..31])),
        ("no-station", least[31..].to_vec()),
        ("hour-at-thermal", with(&week[1])),
        ("no-fuel", least[..57].to_vec()),
    ]
}
