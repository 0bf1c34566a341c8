//! The formulas of "From records to levels", each as the paper prints it, in micro-dollars.

use crate::accept::{hours_of_charge, place_from_the_top, priced, rise};
use crate::dossier::Record;
use crate::levels::{profile_at, Lamination, Money};
use crate::station::{Current, Station};
use crate::table::{ad, ao, ch, fp, fu, hp, hr, lc, mm, rs, Field, ENERGY, NO_LOAD, START};
use crate::{refuse, Refusal};
use std::borrow::Cow;

/// A station's costs in the profile of an hour, as an owner has them.
pub struct Costs<'s, 'a> {
    station: &'s Station<'a>,
    in_force: Cow<'s, Current<'a>>,
    pub profile: u8,
    owner: u8,
    fuel: u128,
    emission: u128,
}

/// What an AD or AO adds to a level.
struct Adder {
    cost: i128,
    level: i128,
    amount: u128,
}

impl Adder {
    fn of(record: &Record, [cost, level, amount]: [Field; 3]) -> Adder {
        Adder {
            cost: record.get(cost),
            level: record.get(level),
            amount: record.amount(amount),
        }
    }

    /// Whether it is a payment to a third party, which no level has.
    fn is_withdrawn(&self) -> bool {
        self.cost == ad::THIRD_PARTY
    }
}

impl<'s, 'a> Costs<'s, 'a> {
    /// The costs of an owner at an hour, or 20: its profile has no fuel in force.
    pub fn at(station: &'s Station<'a>, hour: u32, owner: u8) -> Result<Self, Refusal> {
        let profile = profile_at(station, hour);
        let in_force = station.current.in_force(hour);
        let Some(fuel) = in_force.get(b"FU", &[profile]) else {
            return refuse(20, 0);
        };
        Ok(Costs {
            station,
            profile,
            owner,
            fuel: fuel.amount(fu::FUEL),
            emission: fuel.amount(fu::EMISSION),
            in_force,
        })
    }

    /// The profile's AD records, which both owners have, and beside them the AO records of this one.
    fn adders(&self) -> impl Iterator<Item = Adder> + use<'_, 's, 'a> {
        let (profile, owner) = (i128::from(self.profile), i128::from(self.owner));
        let common = self.in_force.of_mark(b"AD");
        let common = common.filter(move |r| r.get(ad::PROFILE) == profile);
        let own = self.in_force.of_mark(b"AO");
        let own = own.filter(move |r| (r.get(ao::OWNER), r.get(ao::PROFILE)) == (owner, profile));
        let common = common.map(|r| Adder::of(r, [ad::COST, ad::LEVEL, ad::AMOUNT]));
        common.chain(own.map(|r| Adder::of(r, [ao::COST, ao::LEVEL, ao::AMOUNT])))
    }

    /// The AD and AO amounts that join one level.
    pub fn additions<M: Money>(&self, level: u8) -> M {
        let adders = self.adders().filter(|adder| !adder.is_withdrawn());
        let mine = adders.filter(|adder| adder.level == i128::from(level));
        total(mine.map(|adder| M::quotient(adder.amount, 1)))
    }

    /// How many third-party payments are in force, whatever their level and amount.
    pub fn retired(&self) -> usize {
        self.adders().filter(Adder::is_withdrawn).count()
    }

    /// The profile's MM records, each with its own division.
    fn maintenance<M: Money>(&self, term: impl Fn(&Record) -> M) -> M {
        let profile = i128::from(self.profile);
        let records = self.in_force.of_mark(b"MM");
        let mine = records.filter(|r| r.get(mm::PROFILE) == profile);
        total(mine.map(term))
    }

    /// What AD, AO and MM add to energy.
    fn energy_additions<M: Money>(&self) -> M {
        let maintenance = self.maintenance(|r| {
            let running = r.amount(mm::W) * r.amount(mm::T);
            M::quotient(r.amount(mm::C) * 100_000, running)
        });
        maintenance.plus(&self.additions(ENERGY))
    }

    /// One lamination between each point and the next; the first reaches down to 0.
    pub fn thermal_energy<M: Money>(&self) -> Vec<Lamination<M>> {
        let factor = self.station.amount(rs::FACTOR);
        let additions: M = self.energy_additions();
        let points: Vec<_> = self.station.current.of_mark(b"HP").collect();
        let between = points.windows(2).enumerate().map(|(i, p)| {
            let (output, heat) = rise(p[0], p[1]);
            let (output, heat) = (output.unsigned_abs(), heat.unsigned_abs());
            let fuel = M::quotient(heat * self.fuel * factor, 100_000 * output);
            let emission = M::quotient(heat * self.emission, 100 * output);
            Lamination {
                from: if i == 0 {
                    0
                } else {
                    p[0].get(hp::OUTPUT) as u16
                },
                to: p[1].get(hp::OUTPUT) as u16,
                level: fuel.plus(&emission).plus(&additions),
            }
        });
        between.collect()
    }

    pub fn one_lamination<M>(&self, level: M) -> Vec<Lamination<M>> {
        let to = self.station.capacity();
        vec![Lamination { from: 0, to, level }]
    }

    pub fn nuclear_energy<M: Money>(&self) -> M {
        let used = self.station.amount(rs::INCREMENTAL_FUEL);
        let factor = self.station.amount(rs::FACTOR);
        let fuel = M::quotient(used * self.fuel * factor, 1_000_000_000);
        fuel.plus(&self.energy_additions())
    }

    /// The cost of a given heat, per start or per hour.
    fn burnt<M: Money>(&self, heat: u128) -> M {
        let factor = self.station.amount(rs::FACTOR);
        let fuel = M::quotient(heat * self.fuel * factor, 1_000_000);
        fuel.plus(&M::quotient(heat * self.emission, 1_000))
    }

    pub fn start<M: Money>(&self) -> M {
        let maintenance = self.maintenance(|r| {
            let per_start = r.amount(mm::C) * r.amount(mm::S) * 1_000;
            M::quotient(per_start, r.amount(mm::T))
        });
        let heat = self.burnt::<M>(self.station.amount(rs::START_HEAT));
        heat.plus(&maintenance).plus(&self.additions(START))
    }

    pub fn no_load<M: Money>(&self) -> M {
        let heat = self.burnt::<M>(self.station.amount(rs::NO_LOAD_HEAT));
        heat.plus(&self.additions(NO_LOAD))
    }

    /// The greater of the short-run cost, which AD, AO and MM join, and the opportunity cost.
    pub fn storage_energy<M: Money>(&self) -> M {
        let efficiency = self.station.amount(rs::EFFICIENCY);
        let bought = charging_cost::<M>(self.station).plus(&M::quotient(self.fuel, 1));
        let stored = bought.times(1_000, efficiency);
        let short_run = stored.plus(&self.energy_additions());
        short_run.max(opportunity_cost(self.station))
    }

    /// The forecast's price, 0 if below 0, which AD, AO and MM join.
    pub fn hydro_energy<M: Money>(&self) -> M {
        let price = forecast_price(self.station).max(0).unsigned_abs();
        M::quotient(price * 10_000, 1).plus(&self.energy_additions())
    }
}

fn total<M: Money>(terms: impl Iterator<Item = M>) -> M {
    terms.fold(M::quotient(0, 1), |sum, term| sum.plus(&term))
}

/// The mean price of the energy that was charged, over the current intervals; if none was, the
/// last charging cost, and 0 without one.
pub fn charging_cost<M: Money>(station: &Station) -> M {
    let intervals = || station.current.of_mark(b"CH");
    let energy: u128 = intervals().map(|r| r.amount(ch::ENERGY)).sum();
    if energy == 0 {
        let last = station.current.get(b"LC", &[]);
        return M::quotient(last.map_or(0, |r| r.amount(lc::COST)), 1);
    }
    let paid: i128 = intervals()
        .map(|r| r.get(ch::PRICE) * r.get(ch::ENERGY))
        .sum();
    M::quotient(paid.max(0).unsigned_abs() * 10_000, energy)
}

/// The mean of the X highest prices in the window; equal prices count each.
pub fn opportunity_cost<M: Money>(station: &Station) -> M {
    let hours = priced(station, b"HR", hr::HOUR);
    let mut prices: Vec<i128> = hours.map(|r| r.get(hr::PRICE)).collect();
    prices.sort_unstable_by(|a, b| b.cmp(a));
    let x = hours_of_charge(station);
    let best: i128 = prices[..x as usize].iter().sum();
    M::quotient(best.max(0).unsigned_abs() * 10_000, x)
}

/// The price at the place from the top of the window; equal prices count each.
pub fn forecast_price(station: &Station) -> i128 {
    let places = priced(station, b"FP", fp::PLACE);
    let mut prices: Vec<i128> = places.map(|r| r.get(fp::PRICE)).collect();
    let higher = place_from_the_top(station) as usize - 1;
    let (_, price, _) = prices.select_nth_unstable_by(higher, |a, b| b.cmp(a));
    *price
}
