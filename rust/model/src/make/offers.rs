//! Offers and prices that crowd around the floors and limits of a dossier, and malformed offers.

use crate::accept::asked;
use crate::conduct::{Threshold, MOST_PAIRS, PAIR};
use crate::levels::{levels_of, Lamination, Levels};
use crate::random::Random;
use crate::table::{ENERGY, PRICE};
use std::collections::BTreeSet;

/// What an offer is put to: the levels and thresholds of one dossier at one hour and for one owner,
/// none of them if the dossier isn't accepted, and no level at an hour without fuel.
pub struct Target {
    levels: Option<Levels<u64>>,
    thresholds: Vec<(u8, u8, Threshold)>,
}

impl Target {
    pub fn of(dossier: &[u8], hour: u32, owner: u8) -> Target {
        let mut thresholds = Vec::new();
        let station = asked(dossier, owner).ok();
        for (condition, level) in (1..=3).flat_map(|c| (1..=4).map(move |l| (c, l))) {
            let found = station.as_ref().map(|s| Threshold::of(s, condition, level));
            thresholds.extend(found.into_iter().flatten().map(|t| (condition, level, t)));
        }
        Target {
            levels: station.and_then(|s| levels_of(&s, hour, owner).ok()),
            thresholds,
        }
    }

    fn laminations(&self) -> &[Lamination<u64>] {
        self.levels.as_ref().map_or(&[], |levels| &levels.energy)
    }

    /// The levels that a single price can be put to, with their cents.
    fn single(&self) -> Vec<(u8, u64)> {
        let held = self.levels.iter().flat_map(Levels::single);
        held.map(|(level, cents)| (level, *cents)).collect()
    }

    fn threshold(&self, condition: u8, level: u8) -> Option<Threshold> {
        let mut all = self.thresholds.iter();
        let found = all.find(|(c, l, _)| (*c, *l) == (condition, level));
        found.map(|(_, _, threshold)| *threshold)
    }
}

/// A condition: 1 to 3 and, now and then, one that doesn't exist.
pub fn condition(random: &mut Random) -> u8 {
    if random.one_in(20) {
        random.pick(&[0, 4, 255])
    } else {
        random.pick(&[1, 2, 3])
    }
}

/// A level for the single-price test: mostly one that there is, else any, unknown ones among them.
pub fn level(random: &mut Random, target: &Target) -> u8 {
    let held = target.single();
    if held.is_empty() || random.one_in(10) {
        random.pick(&[0, 1, 2, 3, 4, 5, 255])
    } else {
        random.pick(&held).0
    }
}

/// A single price, often at the floor or the limit, one below or one above.
pub fn price(random: &mut Random, target: &Target, level: u8, condition: u8) -> i32 {
    let mut price = random.pick(&[i32::MIN.into(), i32::MAX.into(), -1, 0, 1]);
    let held = target.single().into_iter().find(|(l, _)| *l == level);
    let near = target.threshold(condition, level).zip(held);
    if let Some((threshold, (_, cents))) = near.filter(|_| !random.one_in(8)) {
        let limit = threshold.limit(cents);
        let mark = random.pick(&[limit, limit, threshold.floor, cents.into()]);
        price = mark + random.between(-1, 1);
    }
    price.clamp(i32::MIN.into(), i32::MAX.into()) as i32
}

/// An energy offer: well formed most of the time, else with one or two faults.
pub fn offer(random: &mut Random, target: &Target, condition: u8) -> Vec<u8> {
    let mut pairs = pairs(random, target, condition);
    if random.one_in(24) {
        let top = target.laminations().last().map_or(9_999, |l| l.to);
        let above = random.spread(i128::from(top) + 1, 65_535) as u16;
        pairs.last_mut().expect("at least one pair").0 = above;
    }
    if random.one_in(8) {
        for _ in 0..random.pick(&[1, 1, 2]) {
            spoil(random, &mut pairs);
        }
    }
    let mut bytes = bytes(&pairs);
    if random.one_in(40) {
        wrong_length(random, &mut bytes);
    }
    bytes
}

type Pairs = Vec<(u16, i32)>;

pub fn bytes(pairs: &[(u16, i32)]) -> Vec<u8> {
    let pair = |(quantity, price): &(u16, i32)| {
        let (quantity, price) = (quantity.to_be_bytes(), price.to_be_bytes());
        [&quantity[..], &price[..]].concat()
    };
    pairs.iter().flat_map(pair).collect()
}

/// Pairs whose quantities rise within the capacity, often to a lamination's end or beside it, and
/// whose prices don't fall.
fn pairs(random: &mut Random, target: &Target, condition: u8) -> Pairs {
    let laminations = target.laminations();
    let capacity = laminations.last().map_or(1_000, |l| l.to);
    let any = random.between(1, MOST_PAIRS as i128);
    let count = random.pick(&[1, 2, any, any, MOST_PAIRS as i128]);
    let mut quantities = BTreeSet::new();
    for _ in 0..count {
        let quantity = match laminations {
            [_, ..] if !random.one_in(3) => {
                let at = random.below(laminations.len() as u64) as usize;
                i128::from(laminations[at].to) + random.between(-1, 1)
            }
            _ => random.between(1, capacity.into()),
        };
        quantities.insert(quantity.clamp(1, capacity.into()) as u16);
    }
    let mut from = 0;
    let mut prices: Vec<i32> = Vec::new();
    let above = random.pick(&[0, 1, 2]);
    for to in &quantities {
        prices.push(pair_price(random, target, condition, from, above));
        from = *to;
    }
    prices.sort_unstable();
    quantities.into_iter().zip(prices).collect()
}

/// A price about the limit of the lamination where the pair begins, or about the floor.
fn pair_price(random: &mut Random, target: &Target, condition: u8, from: u16, above: i128) -> i32 {
    let mut price = random.pick(&[-PRICE, -1, 0, 0, 1]);
    let lamination = target.laminations().iter().find(|l| from < l.to);
    let near = target.threshold(condition, ENERGY).zip(lamination);
    if let Some((threshold, l)) = near.filter(|_| !random.one_in(10)) {
        let limit = threshold.limit(l.level);
        let mark = random.pick(&[limit, limit, limit, threshold.floor, l.level.into()]);
        price = mark + random.between(-1, above);
    }
    price.clamp(-PRICE, PRICE) as i32
}

/// Breaks one pair: its price out of range or below the one before, or its quantity not above.
fn spoil(random: &mut Random, pairs: &mut Pairs) {
    let at = random.below(pairs.len() as u64) as usize;
    let before = at.checked_sub(1).map(|i| pairs[i]);
    let (quantity, price) = before.unwrap_or((0, -(PRICE as i32)));
    match random.below(4) {
        0 => pairs[at].0 = quantity,
        1 => pairs[at].0 = random.between(0, quantity.into()) as u16,
        2 => pairs[at].1 = price.saturating_sub(1),
        _ => {
            let edge = PRICE as i32 + 1;
            pairs[at].1 = random.pick(&[edge, -edge, i32::MIN, i32::MAX]);
        }
    }
}

/// No pair at all, 21 of them, or bytes that are no whole pair.
fn wrong_length(random: &mut Random, offer: &mut Vec<u8>) {
    match random.below(4) {
        0 => offer.clear(),
        1 => offer.resize((MOST_PAIRS + 1) * PAIR, 0),
        2 => drop(offer.pop()),
        _ => offer.resize(offer.len() + random.between(1, 5) as usize, 0),
    }
}
