//! The exact level: the formulas of `costs.rs` with no division and no cent rounded, and the distance
//! that demand 3 promises between it and the level.

use crate::accept::asked;
use crate::levels::{reckon, Levels, Micro, Money};
use crate::station::Station;
use crate::whole::{Ratio, Whole};
use crate::Refusal;

/// Micro-dollars as one whole number over another.
impl Money for Ratio {
    fn quotient(over: u128, under: u128) -> Ratio {
        Ratio::new(over, under)
    }

    fn plus(self, other: &Ratio) -> Ratio {
        Ratio::plus(&self, other)
    }

    fn times(self, over: u128, under: u128) -> Ratio {
        Ratio::times(&self, &Ratio::new(over, under))
    }
}

pub fn exact_levels(dossier: &[u8], hour: u32, owner: u8) -> Result<Levels<Ratio>, Refusal> {
    exact_levels_of(&asked(dossier, owner)?, hour, owner)
}

pub fn exact_levels_of(station: &Station, hour: u32, owner: u8) -> Result<Levels<Ratio>, Refusal> {
    reckon(station, hour, owner)
}

/// 0.005006 dollar, in micro-dollars.
pub const DISTANCE: u128 = 5_006;

/// At most so many micro-dollars from the exact level, on either side.
pub fn is_within(distance: u128, cents: u64, exact: &Ratio) -> bool {
    let level = u128::from(cents) * Micro::PER_CENT;
    let units = |micro: u128| Whole::from(micro).times(&exact.under);
    let not_above = units(level) <= exact.over.plus(&units(distance));
    let not_below = exact.over <= units(level + distance);
    not_above && not_below
}

/// Whether both are of the same kinds, and every level is near its exact level.
pub fn all_near(levels: &Levels<u64>, exact: &Levels<Ratio>) -> bool {
    let mut pairs = levels.all().zip(exact.all());
    levels.kinds() == exact.kinds()
        && pairs.all(|(cents, exact)| is_within(DISTANCE, *cents, exact))
}
