//! The charging week, with the lent lists compared to their last place.

use crate::refusal;
use model::cases::{run, same, Check};
use model::make::idle::{battery, charged_weeks, idle_weeks};
use model::make::sized::{full_week, sized};
use model::make::written::record;
use model::make::{self, sound};
use model::random::Random;
use model::table::{ch, Technology};
use model::vectors::{read, Vector};
use model::{Refusal, Week};

/// The library's week in the model's terms.
fn model_week(dossier: &[u8]) -> Result<Week, Refusal> {
    let week = |week: bench::Week| Week {
        prices: week.prices,
        energies: week.energies,
    };
    bench::week(dossier).map(week).map_err(refusal)
}

/// Two lists of these lengths, filled before the call.
fn check_lists(random: &mut Random, dossier: &[u8], lengths: (usize, usize)) -> Check {
    let prices: Vec<i32> = (0..lengths.0).map(|_| random.next() as i32).collect();
    let energies: Vec<u32> = (0..lengths.1).map(|_| random.next() as u32).collect();
    let (mut mine, mut yours) = ((prices.clone(), energies.clone()), (prices, energies));
    let written = bench::week_into(dossier, &mut mine.0, &mut mine.1).map_err(refusal);
    let model = model::week_into(dossier, &mut yours.0, &mut yours.1);
    let what = format!("lists of {lengths:?}");
    same(&what, (written, mine), (model, yours))
}

/// Lists of which one is just too short, or none, or both are longer or far from it.
fn check(random: &mut Random, dossier: &[u8]) -> Check {
    same("week", model_week(dossier), model::week(dossier))?;
    let far = random.spread(0, 4_000) as usize;
    for length in [2_015, 2_016, 2_017, far] {
        let other = random.pick(&[0, 2_015, 2_016, 2_016, 2_016, 2_020]);
        check_lists(random, dossier, (length, other))?;
        check_lists(random, dossier, (other, length))?;
    }
    Ok(())
}

#[test]
fn dossiers_of_every_sort() {
    run("week", 20_000, make::dossier, check);
}

#[test]
fn batteries() {
    let make = |random: &mut Random| sound::sound_of(random, Technology::Storage).bytes();
    run("weeks of batteries", 20_000, make, check);
}

/// At each interval the week is what the library's lookup by key gives.
#[test]
fn each_interval_is_what_the_lookup_gives() {
    let make = |random: &mut Random| sound::sound_of(random, Technology::Storage).bytes();
    run("weeks by lookup", 100, make, |_, dossier| {
        let week = bench::week(dossier).map_err(|refusal| refusal.to_string())?;
        for (interval, (price, energy)) in (1..).zip(week.prices.iter().zip(&week.energies)) {
            let record = bench::current(dossier, *b"CH", interval).bytes;
            let looked_up = match record.is_empty() {
                true => (0, 0),
                false => (ch::PRICE.read(record), ch::ENERGY.read(record)),
            };
            let found = (i128::from(*price), i128::from(*energy));
            same(&format!("interval {interval}"), found, looked_up)?;
        }
        Ok(())
    });
}

/// Up to 60,000 bytes: a full week, and older issues of it behind and before newer ones.
#[test]
fn long_dossiers() {
    let mut random = Random::new(60_000);
    check(&mut random, &full_week()).unwrap();
    for length in [5_999, 6_016, 20_000, 32_000, 60_000] {
        check(&mut random, &sized(Technology::Storage, length)).unwrap();
    }
    for _ in 0..10 {
        let mut dossier = sound::filled(&mut random, 60_000).bytes();
        check(&mut random, &dossier).unwrap();
        dossier.push(0);
        check(&mut random, &dossier).unwrap();
    }
}

/// Prices and energies at the ends of their ranges and past them, in intervals at both ends.
#[test]
fn the_ends_of_ranges() {
    let random = &mut Random::new(0);
    for interval in [0, 1, 2, 2_015, 2_016, 2_017] {
        for price in [-200_001, -200_000, -1, 0, 1, 200_000, 200_001] {
            for energy in [0, 1, 1_000_000, 1_000_001] {
                let record = record(b"CH", 1, &[interval, price, energy]);
                check(random, &[battery(), record].concat()).unwrap();
            }
        }
    }
}

#[test]
fn edges() {
    let weeks = [idle_weeks(), charged_weeks()].concat();
    let batteries = weeks.into_iter().map(|week| [battery(), week].concat());
    for dossier in make::edges().into_iter().chain(batteries) {
        check(&mut Random::new(0), &dossier).unwrap();
    }
}

#[test]
fn every_vector() {
    let vectors = read();
    let weeks = vectors.iter().filter_map(|vector| match vector {
        Vector::Week { dossier, week } => Some((dossier, week)),
        _ => None,
    });
    let mut count = 0;
    for (dossier, week) in weeks {
        assert_eq!(model_week(dossier), *week, "{dossier:?}");
        count += 1;
    }
    // all 200 but the two that are refused for a mark that request 8 brought
    assert_eq!(count, 198);
}
