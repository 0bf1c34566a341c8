//! "The test": whether an energy offer or a single price passes under a condition.

use crate::accept::asked;
use crate::dossier::Record;
use crate::levels::{levels_of, Lamination};
use crate::station::Station;
use crate::table::{th, ENERGY, PRICE};
use crate::{refuse, Refusal};

#[derive(Clone, Copy, Debug, PartialEq, Eq)]
pub enum Verdict {
    Passes,
    Fails(Failing),
}

/// The first pair that fails and the first lamination it fails in, both from 1. A single price has
/// neither: both are 0.
#[derive(Clone, Copy, Debug, PartialEq, Eq)]
pub struct Failing {
    pub pair: usize,
    pub lamination: usize,
}

/// Bytes of one pair of an energy offer, and how many pairs it may have.
pub const PAIR: usize = 6;
pub const MOST_PAIRS: usize = 20;

/// The energy test: 3 for the owner; 13, 1 to 9 and 17; then 20, 14, 10 and 11.
pub fn energy_test(
    dossier: &[u8],
    hour: u32,
    owner: u8,
    condition: u8,
    offer: &[u8],
) -> Result<Verdict, Refusal> {
    let station = &asked(dossier, owner)?;
    let laminations = levels_of(station, hour, owner)?.energy;
    let threshold = Threshold::of(station, condition, ENERGY)?;
    let pairs = pairs(offer)?;
    // Quantities rise, but the place is that of the first pair above the capacity.
    if let Some(i) = pairs.iter().position(|p| p.to > station.capacity()) {
        return refuse(11, i * PAIR);
    }
    for (pair, p) in (1..).zip(&pairs) {
        for (lamination, l) in (1..).zip(&laminations) {
            if p.overlaps(l) && threshold.fails(l.level, p.price) {
                return Ok(Verdict::Fails(Failing { pair, lamination }));
            }
        }
    }
    Ok(Verdict::Passes)
}

/// The single-price test: 3 for the owner; 13, 1 to 9 and 17; then 20, 12 and 14.
pub fn price_test(
    dossier: &[u8],
    hour: u32,
    owner: u8,
    level: u8,
    condition: u8,
    price: i32,
) -> Result<Verdict, Refusal> {
    let station = &asked(dossier, owner)?;
    let levels = levels_of(station, hour, owner)?;
    let Some((_, cents)) = levels.single().find(|(number, _)| *number == level) else {
        return refuse(12, 0);
    };
    if Threshold::of(station, condition, level)?.fails(*cents, price) {
        let (pair, lamination) = (0, 0);
        return Ok(Verdict::Fails(Failing { pair, lamination }));
    }
    Ok(Verdict::Passes)
}

/// One TH record: how far above a level a price may go.
#[derive(Clone, Copy, Debug)]
pub struct Threshold {
    percent: i128,
    margin: Option<i128>,
    pub floor: i128,
}

impl Threshold {
    /// The current TH of a condition and level, or 14.
    pub fn of(station: &Station, condition: u8, level: u8) -> Result<Threshold, Refusal> {
        match station.current.get(b"TH", &[condition, level]) {
            Some(record) => Ok(Threshold::read(record)),
            None => refuse(14, 0),
        }
    }

    fn read(record: &Record) -> Threshold {
        let margin = record.get(th::MARGIN);
        Threshold {
            percent: record.get(th::PERCENT),
            margin: (margin != th::NONE).then_some(margin),
            floor: record.get(th::FLOOR),
        }
    }

    /// The lesser of level plus percentage and level plus margin.
    pub fn limit(&self, level: u64) -> i128 {
        let level = i128::from(level);
        let by_percent = level + level * self.percent / 100;
        let by_margin = self.margin.map(|margin| level + margin);
        by_margin.map_or(by_percent, |limit| limit.min(by_percent))
    }

    fn fails(&self, level: u64, price: i32) -> bool {
        let price = i128::from(price);
        price >= self.floor && price > self.limit(level)
    }
}

/// One pair of an energy offer, from the quantity before it to its own, in 0.1 MW.
struct Pair {
    from: u16,
    to: u16,
    price: i32,
}

impl Pair {
    /// By more than a point.
    fn overlaps(&self, lamination: &Lamination<u64>) -> bool {
        self.from.max(lamination.from) < self.to.min(lamination.to)
    }
}

/// The pairs of an offer, or 10.
fn pairs(offer: &[u8]) -> Result<Vec<Pair>, Refusal> {
    let count = offer.len() / PAIR;
    if !offer.len().is_multiple_of(PAIR) || !(1..=MOST_PAIRS).contains(&count) {
        return refuse(10, offer.len());
    }
    let mut pairs: Vec<Pair> = Vec::new();
    for (i, bytes) in offer.chunks(PAIR).enumerate() {
        let before = pairs.last();
        let pair = Pair {
            from: before.map_or(0, |p| p.to),
            to: u16::from_be_bytes([bytes[0], bytes[1]]),
            price: i32::from_be_bytes([bytes[2], bytes[3], bytes[4], bytes[5]]),
        };
        let in_range = i128::from(pair.price).abs() <= PRICE;
        let not_falling = before.is_none_or(|p| p.price <= pair.price);
        if !in_range || pair.to <= pair.from || !not_falling {
            return refuse(10, i * PAIR);
        }
        pairs.push(pair);
    }
    Ok(pairs)
}
