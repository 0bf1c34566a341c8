//! A battery that didn't charge: the memo's rule week after week, which last charging cost counts
//! and when, what draws 2, 3, 4 and 6, and raises.

mod common;

use common::{energy_level, with};
use model::accept::accepted;
use model::dossier::records;
use model::levels::{reckon, Levels, Micro};
use model::make::idle::{battery, charged_weeks, edges, idle_weeks, last_cost};
use model::make::sound::with_levels_at;
use model::make::written::{hydro, nuclear_at, plain_thermal, record, storage};
use model::memo::{is_idle, level_at, made_weeks, told, written_weeks, Week};
use model::raise::is_raise;
use model::random::Random;
use model::table::{ch, lc, Technology};
use model::{accept, current, current_start, refuse, OWNER};
use std::collections::BTreeMap;

/// The levels that the memo gives weeks in turn are the model's. Gives the costs.
fn by_the_memo(weeks: &[Week]) -> Vec<i128> {
    let told = told(weeks);
    for (dossier, level) in told.iter().flat_map(|week| &week.dossiers) {
        assert_eq!(energy_level(dossier), *level);
    }
    told.iter().map(|week| week.cost).collect()
}

#[test]
fn a_battery_idle_for_a_week_compares_with_the_memo() {
    let (weeks, costs) = written_weeks();
    assert_eq!(by_the_memo(&weeks), costs);
    // (1.25 + 0.75) / 0.8, as M8 has it
    assert_eq!(level_at(1_250_000), 250);
}

#[test]
fn made_weeks_compare_with_the_memo() {
    let mut random = Random::new(2_016);
    let mut turns: BTreeMap<[bool; 3], usize> = BTreeMap::new();
    for _ in 0..400 {
        let weeks = made_weeks(&mut random);
        let costs = by_the_memo(&weeks);
        for (pair, cost) in weeks.windows(2).zip(costs.windows(2)) {
            let turn = [is_idle(&pair[0]), is_idle(&pair[1]), cost[1] > 0];
            *turns.entry(turn).or_default() += 1;
        }
    }
    // idle or not, after idle or not, at a cost or at none
    assert!(turns.len() == 8 && turns.values().all(|count| *count > 50));
}

#[test]
fn charged_energy_leaves_it_out() {
    let cost = [last_cost(9, 2_000_000_000)];
    for week in idle_weeks() {
        let dossier = with(battery(), &[week]);
        assert_eq!(energy_level(&dossier), level_at(0));
        assert_eq!(energy_level(&with(dossier, &cost)), 250_094);
    }
    let charged = [50_000_000, 0, 0, 50_000_000];
    for (week, own) in charged_weeks().into_iter().zip(charged) {
        let dossier = with(battery(), &[week]);
        assert_eq!(energy_level(&dossier), level_at(own));
        assert_eq!(energy_level(&with(dossier, &cost)), level_at(own));
    }
}

/// A battery's sum in micro-dollars, before the rounding to cents.
fn sum(dossier: &[u8]) -> u128 {
    let sums: Levels<Micro> = reckon(&accepted(dossier).unwrap(), 0, OWNER).unwrap();
    sums.energy[0].level.0
}

#[test]
fn it_joins_before_fuel_and_the_efficiency_step() {
    let battery = |cost: i128, fuel: i128, efficiency: i128| {
        let records = [
            record(b"RS", 2, &[3, 800, 0, 0, 0, 0, 3_000, efficiency, 3]),
            record(b"FU", 2, &[1, fuel, 0]),
            last_cost(1, cost),
        ];
        with(storage(3_000, 800, &[0, 0, 0]), &records)
    };
    assert_eq!(sum(&battery(1_250_000, 750_000, 800)), 2_500_000);
    assert_eq!(sum(&battery(1_250_000, 750_000, 1_000)), 2_000_000);
    // 2,000 over 600, 700 and 800: one division, which goes to the nearest once
    assert_eq!(sum(&battery(1, 1, 600)), 3);
    assert_eq!(sum(&battery(1, 1, 700)), 3);
    assert_eq!(sum(&battery(1, 1, 800)), 3);
    let most = battery(lc::COST.highest, 400_000_000, 500);
    assert_eq!(sum(&most), 4_800_000_000);
    assert_eq!(energy_level(&most), 480_000);
    // additions join behind the step
    let addition = record(b"AD", 1, &[1, 3, 1, 1_000_000]);
    let added = with(battery(1_250_000, 750_000, 800), &[addition]);
    assert_eq!(sum(&added), 3_500_000);
}

#[test]
fn the_greater_of_the_two_costs_still_counts() {
    // the three highest hours of the window give 20.00
    let dossier = |cost| {
        with(
            storage(3_000, 800, &[1_000, 2_000, 3_000]),
            &[last_cost(1, cost)],
        )
    };
    assert_eq!(energy_level(&dossier(15_999_999)), 2_000);
    assert_eq!(energy_level(&dossier(16_000_000)), 2_000);
    assert_eq!(energy_level(&dossier(16_008_000)), 2_001);
}

#[test]
fn its_highest_issue_counts_wherever_it_lies() {
    let mut issues =
        [(0, 90_000_000), (6, 80_000_000), (7, 1_250_000)].map(|(i, c)| last_cost(i, c));
    for _ in 0..issues.len() {
        issues.rotate_left(1);
        for dossier in [
            with(battery(), &issues),
            with(issues.concat(), &[battery()]),
            with(issues[0].clone(), &[battery(), issues[1..].concat()]),
        ] {
            assert_eq!(energy_level(&dossier), 250);
            assert_eq!(current(&dossier, b"LC", &[]), last_cost(7, 1_250_000));
        }
    }
    // a newer 0 is a cost too, and 2^32 - 1 the newest
    let newest = [last_cost(u32::MAX, 0), last_cost(u32::MAX - 1, 80_000_000)];
    assert_eq!(energy_level(&with(battery(), &newest)), level_at(0));
}

#[test]
fn the_lookup_takes_no_key() {
    let newer = last_cost(7, 5);
    let thermal = with(plain_thermal(), &[newer.clone(), last_cost(6, 4)]);
    assert_eq!(accept(&thermal), refuse(6, plain_thermal().len()));
    assert_eq!(current(&thermal, b"LC", &[]), newer);
    assert_eq!(current_start(&thermal, b"LC", &[]), plain_thermal().len());
    assert!(current(&thermal, b"LC", &[0]).is_empty());
    assert!(current(&thermal, b"LC", &[0, 1]).is_empty());
    assert!(current(&thermal, b"CL", &[]).is_empty());
    assert!(current(&battery(), b"LC", &[]).is_empty());
    let twins = with(battery(), &[newer.clone(), newer]);
    assert!(current(&twins, b"LC", &[]).is_empty());
}

#[test]
fn ranges_lengths_and_twins() {
    let place = battery().len();
    let answer = |more: &[u8]| accept(&[&battery(), more].concat());
    for cost in [0, 1, 1_999_999_999, 2_000_000_000] {
        assert_eq!(answer(&last_cost(0, cost)), Ok(()));
    }
    for cost in [2_000_000_001, 2_147_483_648, u32::MAX.into()] {
        assert_eq!(answer(&last_cost(0, cost)), refuse(3, place));
        // 3 asks neither for the technology nor for the current issue
        let thermal = with(last_cost(0, cost), &[plain_thermal(), last_cost(1, 0)]);
        assert_eq!(accept(&thermal), refuse(3, 0));
    }
    let whole = last_cost(0, 2_000_000_001);
    for length in 1..whole.len() {
        assert_eq!(answer(&whole[..length]), refuse(2, place));
    }
    let twins = [last_cost(5, 1), last_cost(6, 1), last_cost(5, 2)].concat();
    assert_eq!(answer(&twins), refuse(4, place + 20));
}

#[test]
fn elsewhere_it_is_unfit_at_its_place() {
    for station in [plain_thermal(), nuclear_at(0), hydro(&[1_000; 50])] {
        let end = station.len();
        assert_eq!(accept(&station), Ok(()));
        let behind = with(station.clone(), &[last_cost(1, 0)]);
        assert_eq!(accept(&behind), refuse(6, end));
        let before = [last_cost(1, 0), station.clone()].concat();
        assert_eq!(accept(&before), refuse(6, 0));
        // the current one of two
        let two = with(last_cost(1, 0), &[station.clone(), last_cost(2, 0)]);
        assert_eq!(accept(&two), refuse(6, end + 10));
        // the first of two unfit records, whatever their marks
        let hour = record(b"HR", 1, &[1, 0]);
        let both = with(station, &[hour, last_cost(1, 0)]);
        assert_eq!(accept(&both), refuse(6, end));
    }
}

#[test]
fn a_raise_lowers_no_level() {
    let dossier = |cost, old| {
        let issues = [last_cost(2, cost), last_cost(1, old)];
        with(battery(), &issues)
    };
    let before = dossier(1_250_000, 7);
    assert_eq!(energy_level(&before), 250);
    for (cost, old, level) in [
        (1_250_000, 7, 250),
        (1_250_000, 2_000_000_000, 250),
        (1_254_000, 7, 251),
        (2_000_000_000, 8, 250_094),
    ] {
        let after = dossier(cost, old);
        assert!(is_raise(&before, &after));
        assert_eq!(energy_level(&after), level);
    }
    assert!(!is_raise(&before, &dossier(1_249_999, 7)));
    assert!(!is_raise(&before, &dossier(1_250_000, 6)));
    assert!(!is_raise(&before, &dossier(2_000_000_001, 7)));
    assert!(!is_raise(&before, &dossier(1_250_000, 2_000_000_001)));
    let newer = with(battery(), &[last_cost(3, 1_250_000), last_cost(1, 7)]);
    assert!(!is_raise(&before, &newer));
}

/// The dossier without its last costs.
fn without(dossier: &[u8]) -> Vec<u8> {
    let records = records(dossier).unwrap().into_iter();
    let others = records.filter(|r| r.kind.mark != *b"LC");
    others.flat_map(|r| r.bytes.to_vec()).collect()
}

/// The dossier with its last cost, if it has one, raised to the limit.
fn dearest(dossier: &[u8]) -> Vec<u8> {
    let mut raised = dossier.to_vec();
    if !current(dossier, b"LC", &[]).is_empty() {
        let start = current_start(dossier, b"LC", &[]);
        lc::COST.write(&mut raised[start..], lc::COST.highest);
    }
    assert!(is_raise(dossier, &raised));
    raised
}

/// The maker makes weeks of every sort with a last cost and without, costs at both ends, several
/// issues, and levels that a last cost and its raise move.
#[test]
fn made_batteries() {
    let mut random = Random::new(7);
    let mut seen: BTreeMap<&str, usize> = BTreeMap::new();
    for _ in 0..8_000 {
        let dossier = with_levels_at(&mut random, Technology::Storage, 0).bytes();
        let station = accepted(&dossier).unwrap();
        let last = station.current.get(b"LC", &[]);
        let cost = last.map(|record| record.get(lc::COST));
        let intervals = station.current.of_mark(b"CH").count();
        let mut energies = station.current.of_mark(b"CH").map(|r| r.get(ch::ENERGY));
        let idle = energies.all(|energy| energy == 0);
        let level = energy_level(&dossier);
        let (bare, raised) = (without(&dossier), dearest(&dossier));
        let moved = level != energy_level(&bare);
        let risen = level < energy_level(&raised);
        assert!(idle || !moved && !risen);
        assert!(level <= energy_level(&raised) && level >= energy_level(&bare));
        for (sort, is_one) in [
            ("charged, with a last cost", !idle && last.is_some()),
            ("charged, without", !idle && last.is_none()),
            ("no interval, with", intervals == 0 && last.is_some()),
            ("no interval, without", intervals == 0 && last.is_none()),
            ("no energy, with", idle && intervals > 0 && last.is_some()),
            (
                "no energy, without",
                idle && intervals > 0 && last.is_none(),
            ),
            ("of 0", cost == Some(0)),
            ("at the limit", cost == Some(lc::COST.highest)),
            ("several issues", dossier.len() > bare.len() + 10),
            ("moves the level", moved),
            ("raised, moves the level", risen),
        ] {
            *seen.entry(sort).or_default() += usize::from(is_one);
        }
    }
    assert!(seen.values().all(|count| *count > 100), "{seen:?}");
}

/// The written dossiers draw what a last cost can draw, and nothing else.
#[test]
fn written_edges() {
    let mut seen: BTreeMap<u8, usize> = BTreeMap::new();
    for dossier in edges() {
        let number = accept(&dossier).err().map_or(0, |refusal| refusal.number);
        *seen.entry(number).or_default() += 1;
    }
    let numbers: Vec<u8> = seen.keys().copied().collect();
    assert_eq!(numbers, [0, 2, 3, 4, 6], "{seen:?}");
}
