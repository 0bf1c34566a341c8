//! The charging week: what the lookup by key gives at each interval, and what the charging cost is
//! the mean of.

use model::accept::accepted;
use model::cases::{run, same, Check};
use model::costs::charging_cost;
use model::levels::Micro;
use model::make::idle::{battery, last_cost};
use model::make::sized::full_week;
use model::make::sound::sound_of;
use model::make::written::{plain_thermal, record};
use model::make::{self, edges};
use model::random::Random;
use model::table::{ch, Technology};
use model::week::INTERVALS;
use model::{accept, current, refuse, week, week_into, Week};

/// At each interval the week is what the lookup by key gives, and 0 where that is empty.
fn is_the_lookup(_: &mut Random, dossier: &[u8]) -> Check {
    let Ok(week) = week(dossier) else {
        return same("refused alike", week(dossier).err(), accept(dossier).err());
    };
    let mut looked_up = Week::without_record();
    for interval in 1..=INTERVALS {
        let record = current(dossier, b"CH", &(interval as u16).to_be_bytes());
        if !record.is_empty() {
            let (price, energy) = (ch::PRICE.read(record), ch::ENERGY.read(record));
            looked_up.put(interval, price as i32, energy as u32);
        }
    }
    same("week", week, looked_up)
}

#[test]
fn each_interval_is_what_the_lookup_gives() {
    run("weeks", 60, make::dossier, is_the_lookup);
    let make = |random: &mut Random| sound_of(random, Technology::Storage).bytes();
    run("weeks of batteries", 60, make, is_the_lookup);
}

/// Sum of price × energy over the total, of the lists that the week gives.
#[test]
fn the_charging_cost_is_the_mean_of_the_week() {
    let make = |random: &mut Random| sound_of(random, Technology::Storage).bytes();
    run("charging costs", 3_000, make, |_, dossier| {
        let week = week(dossier).map_err(|refusal| format!("{refusal:?}"))?;
        let energy: i128 = week.energies.iter().map(|kwh| i128::from(*kwh)).sum();
        if energy == 0 {
            return Ok(());
        }
        let pairs = week.prices.iter().zip(&week.energies);
        let paid: i128 = pairs.map(|(p, e)| i128::from(*p) * i128::from(*e)).sum();
        // to the nearest micro-dollar, half up
        let mean = (2 * paid.max(0) * 10_000 + energy) / (2 * energy);
        let station = accepted(dossier).map_err(|refusal| format!("{refusal:?}"))?;
        same("cost", charging_cost::<Micro>(&station).0 as i128, mean)
    });
}

#[test]
fn the_highest_issue_counts_wherever_it_lies() {
    let mut issues = [(1, 100, 7), (9, -5, 3_000), (4, 200_000, 0)]
        .map(|(issue, price, energy)| record(b"CH", issue, &[2_016, price, energy]));
    for _ in 0..issues.len() {
        issues.rotate_left(1);
        let week = week(&[battery(), issues.concat()].concat()).unwrap();
        assert_eq!((week.prices[2_015], week.energies[2_015]), (-5, 3_000));
        assert!(week.prices[..2_015].iter().all(|price| *price == 0));
    }
}

#[test]
fn a_full_week_and_weeks_without_a_record() {
    let week_of = |dossier: &[u8]| week(dossier).unwrap();
    assert!(week_of(&full_week()).energies.iter().all(|kwh| *kwh > 0));
    for idle in [
        plain_thermal(),
        battery(),
        [battery(), last_cost(1, 5)].concat(),
    ] {
        assert_eq!(week_of(&idle), Week::without_record());
    }
}

/// 15 comes last, for either list, and leaves both as they were.
#[test]
fn short_lists_are_refused_and_kept() {
    let dossier = [battery(), record(b"CH", 1, &[1, -5, 3_000])].concat();
    let refused = plain_thermal()[1..].to_vec();
    for (prices, energies) in [(0, 0), (2_015, 2_016), (2_016, 2_015), (2_016, 2_020)] {
        let (mut p, mut e) = (vec![7; prices], vec![8; energies]);
        assert_eq!(week_into(&refused, &mut p, &mut e), refuse(1, 0));
        assert_eq!((&p, &e), (&vec![7; prices], &vec![8; energies]));
        let written = week_into(&dossier, &mut p, &mut e);
        if prices.min(energies) < INTERVALS {
            assert_eq!(written, refuse(15, 0));
            assert_eq!((p, e), (vec![7; prices], vec![8; energies]));
        } else {
            assert_eq!(written, Ok(2_016));
            assert_eq!((p[0], e[0], p[1], e[1]), (-5, 3_000, 0, 0));
            assert_eq!(e[2_016..], [8; 4]);
        }
    }
}

#[test]
fn edges_are_refused_as_acceptance_refuses_them() {
    for dossier in edges() {
        assert_eq!(week(&dossier).err(), accept(&dossier).err());
    }
}
