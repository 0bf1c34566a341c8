//! Terms to the nearest micro-dollar: each division of the levels goes half up, the limit's percentage,
//! X and the place from the top still drop their fraction, and no level lies farther from its exact
//! level than promised.

mod common;

use common::{energy_level, with};
use model::accept::accepted;
use model::exact::{exact_levels, is_within, DISTANCE};
use model::levels::{levels_of, reckon, Levels, Micro, Money};
use model::make::nearest::{farthest, terms};
use model::make::sound::at_half_cent;
use model::make::written::{hydro, record, storage};
use model::random::Random;
use model::table::th;
use model::{levels, price_test, Failing, Verdict, OWNER};

/// Each division less than half a micro-dollar past a whole one, half, and more.
#[test]
fn each_division_goes_half_up() {
    for term in terms() {
        for (dossier, cents) in term.dossiers.iter().zip([0, 1, 1]) {
            let levels = levels(dossier, 0, OWNER).unwrap();
            for level in term.levels {
                assert_eq!(levels.of(*level), Some(&cents), "{} in {level}", term.name);
            }
        }
    }
}

/// (315.20 + 205.50 + 106.41) / 3, in micro-dollars.
#[test]
fn the_opportunity_cost_goes_to_the_nearest() {
    let dossier = storage(3_000, 800, &[31_520, 20_550, 10_641]);
    let sums: Levels<Micro> = reckon(&accepted(&dossier).unwrap(), 0, OWNER).unwrap();
    assert_eq!(sums.energy[0].level, Micro(209_036_667));
}

/// 50 percent of 42.31 is 21.155.
#[test]
fn the_percentage_drops_its_fraction() {
    let costs = [
        record(b"AD", 1, &[1, 1, 4, 42_310_000]),
        record(b"TH", 1, &[1, 4, 50, th::NONE, 0]),
    ];
    let dossier = with(storage(3_000, 800, &[0; 3]), &costs);
    assert_eq!(
        price_test(&dossier, 0, OWNER, 4, 1, 6_346),
        Ok(Verdict::Passes)
    );
    let fails = Verdict::Fails(Failing {
        pair: 0,
        lamination: 0,
    });
    assert_eq!(price_test(&dossier, 0, OWNER, 4, 1, 6_347), Ok(fails));
}

/// 300.0 over 80.0 is 3 hours, and 99 over 50 place 1.
#[test]
fn hours_and_places_drop_theirs() {
    let hours = storage(3_000, 800, &[1_000, 2_000, 3_000, 4_000]);
    assert_eq!(energy_level(&hours), 3_000);
    let mut prices = [1_000; 99];
    prices[7] = 5_000;
    assert_eq!(energy_level(&hydro(&prices)), 5_000);
}

/// No shorter distance in whole micro-dollars holds.
#[test]
fn the_farthest_level() {
    let dossier = farthest();
    assert_eq!(energy_level(&dossier), 1);
    let exact = &exact_levels(&dossier, 0, OWNER).unwrap().energy[0].level;
    assert!(is_within(DISTANCE, 1, exact));
    assert!(!is_within(DISTANCE - 1, 1, exact));
}

/// What each division was before.
#[derive(Clone, PartialEq, Eq, PartialOrd, Ord)]
struct Dropped(u128);

impl Money for Dropped {
    fn quotient(over: u128, under: u128) -> Dropped {
        Dropped(over / under)
    }

    fn plus(self, other: &Dropped) -> Dropped {
        Dropped(self.0 + other.0)
    }

    fn times(self, over: u128, under: u128) -> Dropped {
        Dropped(self.0 * over / under)
    }
}

/// Of the dossiers that are made for it, many have a level that dropped fractions would lower.
#[test]
fn made_dossiers_tell_dropped_fractions() {
    let mut random = Random::new(3);
    let told = (0..1_000).filter(|_| {
        let dossier = at_half_cent(&mut random);
        let station = accepted(&dossier).unwrap();
        let dropped = reckon::<Dropped>(&station, 0, OWNER).unwrap();
        dropped.map(|sum| Micro(sum.0).cents()) != levels_of(&station, 0, OWNER).unwrap()
    });
    assert!(told.count() > 100);
}
