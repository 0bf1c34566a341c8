//! "From records to levels": the levels of an hour, their profile, and their rounding.
//!
//! The formulas stand once, in `costs.rs`. They are written over a way of dividing, `Money`: the
//! level takes each division to the nearest micro-dollar, the exact level (`exact.rs`) keeps its
//! fraction.

use crate::accept::asked;
use crate::costs::Costs;
use crate::station::Station;
use crate::table::{rq, Technology, ENERGY, NO_LOAD, RESERVE, START};
use crate::Refusal;

/// All levels of an hour. A level that the technology lacks is `None`.
#[derive(Clone, Debug, PartialEq, Eq)]
pub struct Levels<M> {
    pub profile: u8,
    pub energy: Vec<Lamination<M>>,
    pub start: Option<M>,
    pub no_load: Option<M>,
    pub reserve: Option<M>,
}

/// One step of the energy level; its ends are in 0.1 MW.
#[derive(Clone, Debug, PartialEq, Eq)]
pub struct Lamination<M> {
    pub from: u16,
    pub to: u16,
    pub level: M,
}

impl<M> Levels<M> {
    /// The same levels in another unit.
    pub fn map<N>(self, to: impl Fn(M) -> N) -> Levels<N> {
        let energy = self.energy.into_iter().map(|step| Lamination {
            from: step.from,
            to: step.to,
            level: to(step.level),
        });
        Levels {
            profile: self.profile,
            energy: energy.collect(),
            start: self.start.map(&to),
            no_load: self.no_load.map(&to),
            reserve: self.reserve.map(&to),
        }
    }

    /// What the levels are of: the profile, each lamination's ends, and the numbers of the others.
    pub fn kinds(&self) -> (u8, Vec<(u16, u16)>, Vec<u8>) {
        let steps = self.energy.iter().map(|step| (step.from, step.to));
        let single = self.single().map(|(number, _)| number);
        (self.profile, steps.collect(), single.collect())
    }

    /// Every level, laminations first.
    pub fn all(&self) -> impl Iterator<Item = &M> {
        let energy = self.energy.iter().map(|step| &step.level);
        energy.chain(self.single().map(|(_, level)| level))
    }

    /// A level by its number; of the laminations the lowest.
    pub fn of(&self, number: u8) -> Option<&M> {
        match number {
            ENERGY => self.energy.first().map(|step| &step.level),
            START => self.start.as_ref(),
            NO_LOAD => self.no_load.as_ref(),
            RESERVE => self.reserve.as_ref(),
            _ => None,
        }
    }

    /// The single-price levels that there are, by number.
    pub fn single(&self) -> impl Iterator<Item = (u8, &M)> {
        let levels = [
            (START, &self.start),
            (NO_LOAD, &self.no_load),
            (RESERVE, &self.reserve),
        ];
        let held = levels.into_iter();
        held.filter_map(|(number, level)| Some((number, level.as_ref()?)))
    }
}

/// One whole number over another, to the nearest: one more where half the divisor or more is left.
fn nearest(over: u128, under: u128) -> u128 {
    over / under + u128::from(2 * (over % under) >= under)
}

/// An amount in micro-dollars, and what becomes of a division's fraction.
pub trait Money: Clone + Ord {
    fn quotient(over: u128, under: u128) -> Self;
    fn plus(self, other: &Self) -> Self;
    /// × over / under
    fn times(self, over: u128, under: u128) -> Self;
}

/// Whole micro-dollars: each division goes to the nearest, half up.
///
/// No step comes near 2^128. The largest are one MM's start term, 10^11 × 10,000 × 1,000, and heat
/// × fuel × factor, 2×10^7 × 4×10^8 × 2,000, both below 2^64.
#[derive(Clone, Copy, Debug, PartialEq, Eq, PartialOrd, Ord)]
pub struct Micro(pub u128);

impl Money for Micro {
    fn quotient(over: u128, under: u128) -> Micro {
        Micro(nearest(over, under))
    }

    fn plus(self, other: &Micro) -> Micro {
        Micro(self.0 + other.0)
    }

    fn times(self, over: u128, under: u128) -> Micro {
        Micro(nearest(self.0 * over, under))
    }
}

impl Micro {
    pub const PER_CENT: u128 = 10_000;

    /// A finished sum in cents, half up.
    pub fn cents(self) -> u64 {
        nearest(self.0, Micro::PER_CENT) as u64
    }
}

/// The levels of a dossier at an hour and for an owner, in cents.
pub fn levels(dossier: &[u8], hour: u32, owner: u8) -> Result<Levels<u64>, Refusal> {
    levels_of(&asked(dossier, owner)?, hour, owner)
}

pub fn levels_of(station: &Station, hour: u32, owner: u8) -> Result<Levels<u64>, Refusal> {
    Ok(reckon(station, hour, owner)?.map(Micro::cents))
}

/// How many third-party payments are in force at an hour in its profile, common ones and the owner's:
/// no level has them.
pub fn retired(station: &Station, hour: u32, owner: u8) -> Result<usize, Refusal> {
    Costs::at(station, hour, owner).map(|costs| costs.retired())
}

/// The levels of an accepted dossier, each a finished sum, or 20.
pub fn reckon<M: Money>(station: &Station, hour: u32, owner: u8) -> Result<Levels<M>, Refusal> {
    let costs = Costs::at(station, hour, owner)?;
    let held = |level| station.technology.holds(level);
    Ok(Levels {
        profile: costs.profile,
        energy: match station.technology {
            Technology::Thermal => costs.thermal_energy(),
            Technology::Nuclear => costs.one_lamination(costs.nuclear_energy()),
            Technology::Storage => costs.one_lamination(costs.storage_energy()),
            Technology::Hydro => costs.one_lamination(costs.hydro_energy()),
        },
        start: held(START).then(|| costs.start()),
        no_load: held(NO_LOAD).then(|| costs.no_load()),
        reserve: held(RESERVE).then(|| costs.additions(RESERVE)),
    })
}

/// The profile at an hour: that of the highest request that covers it, else 1.
pub fn profile_at(station: &Station, hour: u32) -> u8 {
    let hour = i128::from(hour);
    let requests = station.current.of_mark(b"RQ");
    let standing = requests.filter(|r| {
        let covers = (r.get(rq::FIRST)..=r.get(rq::LAST)).contains(&hour);
        covers && r.get(rq::PROFILE) != rq::WITHDRAWN
    });
    standing.last().map_or(1, |r| r.get(rq::PROFILE) as u8)
}
