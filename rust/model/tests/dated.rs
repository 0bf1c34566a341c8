//! Costs with a first hour: which issue counts at an hour, what draws 4, 6, 8 and 20, the lookup,
//! raises, and what the maker makes of them.

mod common;

use common::{energy_level, with};
use model::accept::accepted;
use model::conduct::{energy_test, price_test};
use model::dossier::{records, Record, LONGEST};
use model::levels::levels_of;
use model::make::dated::{edges, fuel_from, many_fuels, without_fuel};
use model::make::forecast::Order;
use model::make::idle::battery;
use model::make::offers;
use model::make::sound::sound;
use model::make::written::{hydro, nuclear_at, plain_thermal, r1, record};
use model::make::{hour, with_first_hour};
use model::raise::is_raise;
use model::random::Random;
use model::table::FIRST_HOUR;
use model::{accept, current, current_start, levels, program, refuse, report, week, OWNER};
use std::collections::{BTreeMap, BTreeSet};

/// The first energy level at an hour, in cents.
fn energy(dossier: &[u8], hour: u32) -> u64 {
    levels(dossier, hour, OWNER).unwrap().energy[0].level
}

/// A thermal station of 8 GJ per MWh whose energy level is 8 times its fuel price in force.
fn station(fuels: &[Vec<u8>]) -> Vec<u8> {
    with(without_fuel(&plain_thermal()), fuels)
}

fn at_hours(dossier: &[u8], hours: &[u32]) -> Vec<u64> {
    hours.iter().map(|hour| energy(dossier, *hour)).collect()
}

const LAST: u32 = u32::MAX;

#[test]
fn the_highest_issue_whose_first_hour_has_come() {
    let dollar = 1_000_000;
    let first = record(b"FU", 1, &[1, dollar, 0]);
    let mut fuels = [
        first,
        fuel_from(2, 10, 2 * dollar),
        fuel_from(3, 20, 3 * dollar),
    ];
    for _ in 0..fuels.len() {
        fuels.rotate_left(1);
        let levels = at_hours(&station(&fuels), &[0, 9, 10, 19, 20, LAST]);
        assert_eq!(levels, [800, 800, 1_600, 1_600, 2_400, 2_400]);
    }
    // a higher issue dated earlier hides a lower one dated later, and an undated one all of them
    let older_later = [
        fuels[0].clone(),
        fuel_from(9, 5, 9 * dollar),
        fuel_from(8, 6, 0),
    ];
    let hidden = station(&older_later);
    assert_eq!(energy(&hidden, 5), 7_200);
    assert_eq!(energy(&hidden, LAST), 7_200);
    let undated = record(b"FU", 10, &[1, 7 * dollar, 0]);
    let hidden = with(hidden, &[undated]);
    assert_eq!(at_hours(&hidden, &[0, 5, 6, LAST]), [5_600; 4]);
}

#[test]
fn first_hours_at_both_ends() {
    let fuels = [fuel_from(0, 0, 1_000_000), fuel_from(1, LAST, 2_000_000)];
    let dossier = station(&fuels);
    assert_eq!(energy_level(&dossier), 800);
    assert_eq!(at_hours(&dossier, &[0, LAST - 1, LAST]), [800, 800, 1_600]);
}

/// Adders and items that lie ahead are none, and the levels are those of a dossier without them.
#[test]
fn adders_and_items_from_an_hour_on() {
    let amount = record(b"AV", 1, &[24, 1, 1, 1, 2_500_000]);
    let reserve = record(b"AV", 2, &[25, 1, 3, 4, 750_000]);
    let item = record(b"MV", 2, &[26, 1, 1, 400_000_000, 1_000, 25_000, 100]);
    let dossier = with(r1(), &[amount, reserve, item]);
    let energies = at_hours(&dossier, &[0, 23, 24, 25, 26]);
    // 2.50 joins at 24, and the item goes from 0.80 to 1.60 at 26
    assert_eq!(energies, [4_230, 4_230, 4_480, 4_480, 4_560]);
    let reserves = [24, 25].map(|hour| levels(&dossier, hour, OWNER).unwrap().reserve);
    assert_eq!(reserves, [Some(25), Some(75)]);
    assert_eq!(levels(&dossier, 23, OWNER), levels(&r1(), 23, OWNER));
}

#[test]
fn one_key_and_issue_under_either_mark_is_4() {
    for (undated, other) in [
        (
            record(b"FU", 7, &[1, 5, 0]),
            record(b"FV", 7, &[9, 1, 6, 0]),
        ),
        (
            record(b"AD", 7, &[2, 3, 4, 5]),
            record(b"AV", 7, &[9, 2, 3, 4, 6]),
        ),
        (
            record(b"MM", 7, &[3, 8, 5, 1, 1, 0]),
            record(b"MV", 7, &[9, 3, 8, 6, 1, 1, 0]),
        ),
    ] {
        let end = plain_thermal().len();
        for (a, b) in [(&undated, &other), (&other, &undated), (&other, &other)] {
            let twins = [&plain_thermal()[..], a, b].concat();
            assert_eq!(accept(&twins), refuse(4, end + a.len()));
        }
        // another first hour makes no difference, another issue does
        let mut newer = other.clone();
        newer[5] = 8;
        let both = with(plain_thermal(), &[undated.clone(), newer.clone()]);
        assert_eq!(accept(&both), Ok(()));
        FIRST_HOUR.write(&mut newer, 10);
        newer[5] = 7;
        let twins = with(plain_thermal(), &[newer, other.clone()]);
        assert_eq!(accept(&twins), refuse(4, end + other.len()));
    }
}

#[test]
fn the_lookup_gives_the_highest_issue_under_either_mark() {
    let ahead = fuel_from(5, LAST, 1);
    let dossier = with(plain_thermal(), &[ahead.clone(), fuel_from(4, 0, 2)]);
    let place = plain_thermal().len();
    for mark in [b"FU", b"FV"] {
        assert_eq!(current(&dossier, mark, &[1]), ahead);
        assert_eq!(current_start(&dossier, mark, &[1]), place);
        assert!(current(&dossier, mark, &[2]).is_empty());
    }
    let undated = record(b"FU", 6, &[1, 3, 0]);
    let dossier = [&dossier[..], &undated].concat();
    assert_eq!(current(&dossier, b"FV", &[1]), undated);
    for mark in [b"AV", b"AD", b"MV", b"RV"] {
        assert!(current(&dossier, mark, &[1]).is_empty());
    }
}

#[test]
fn lengths_and_ranges() {
    let end = r1().len();
    let answer = |more: &[u8]| accept(&[&r1(), more].concat());
    for (mark, length) in [(b"FV", 19), (b"AV", 21), (b"MV", 28)] {
        let mut whole = vec![0; length];
        whole[..2].copy_from_slice(mark);
        for cut in 2..length {
            assert_eq!(answer(&whole[..cut]), refuse(2, end));
        }
        // a key of 0
        assert_eq!(answer(&whole), refuse(3, end));
    }
    for first in [0, 1, i128::from(LAST)] {
        assert_eq!(answer(&record(b"FV", 9, &[first, 1, 0, 0])), Ok(()));
        for (profile, fuel) in [(0, 0), (5, 0), (1, 400_000_001)] {
            let wrong = record(b"FV", 9, &[first, profile, fuel, 0]);
            assert_eq!(answer(&wrong), refuse(3, end));
        }
    }
}

/// 6 is tried on what counts at some hour, and names the lowest start.
#[test]
fn unfit_at_some_hour() {
    let fuel = |issue, first, emission| record(b"FV", issue, &[first, 1, 0, emission]);
    let station = without_fuel(&nuclear_at(5));
    let end = station.len();
    let answer = |more: &[Vec<u8>]| accept(&with(station.clone(), more));
    // until 24, from 24 on, and hidden from its first hour on
    let until = [fuel(1, 0, 7), fuel(2, 24, 0)];
    assert_eq!(answer(&until), refuse(6, end));
    assert_eq!(answer(&[fuel(2, 24, 7), fuel(1, 0, 0)]), refuse(6, end));
    assert_eq!(answer(&[fuel(1, 24, 7), fuel(2, 24, 0)]), Ok(()));
    assert_eq!(answer(&[fuel(1, 25, 7), fuel(2, 24, 0)]), Ok(()));
    assert_eq!(answer(&[fuel(1, 23, 7), fuel(2, 24, 0)]), refuse(6, end));
    // between two that fit
    let three = [fuel(3, 30, 0), fuel(1, 0, 0), fuel(2, 29, 7)];
    assert_eq!(answer(&three), refuse(6, end + 38));
    // an undated one that is current no more counts up to the next first hour
    let older = record(b"FU", 1, &[1, 0, 7]);
    assert_eq!(answer(&[fuel(2, 1, 0), older.clone()]), refuse(6, end + 19));
    assert_eq!(answer(&[fuel(2, 0, 0), older]), Ok(()));
    // the lowest start, whatever the issues; profiles that nothing asks for count too
    let unasked = record(b"FV", 9, &[5, 4, 0, 1]);
    let two = with(unasked, &[station.clone(), fuel(1, 0, 7), fuel(2, 9, 0)]);
    assert_eq!(accept(&two), refuse(6, 0));
    let level = record(b"AV", 1, &[LAST.into(), 1, 1, 4, 0]);
    assert_eq!(answer(&[fuel(1, 0, 0), level]), refuse(6, end + 19));
    let hours = record(b"MV", 1, &[LAST.into(), 1, 1, 1, 1, 1, 1]);
    assert_eq!(answer(&[fuel(1, 0, 0), hours]), refuse(6, end + 19));
}

#[test]
fn fuel_of_any_hour_meets_8() {
    let station = without_fuel(&r1());
    assert_eq!(accept(&station), refuse(8, station.len()));
    let late = with(station, &[fuel_from(1, LAST, 5)]);
    assert_eq!(accept(&late), Ok(()));
    let asked = with(late, &[record(b"RQ", 1, &[1, 0, 9, 3])]);
    assert_eq!(accept(&asked), refuse(8, asked.len()));
    let fuel = record(b"FV", 1, &[LAST.into(), 3, 0, 0]);
    assert_eq!(accept(&with(asked, &[fuel])), Ok(()));
}

/// Every hour query, whatever else is wrong with it but the dossier; nothing else.
#[test]
fn an_hour_without_fuel_is_20() {
    let river = hydro(&[1_000; 50]);
    for station in [r1(), nuclear_at(5), battery(), river.clone()] {
        let price = if station == river { 0 } else { 750_000 };
        let late = with(without_fuel(&station), &[fuel_from(1, 24, price)]);
        let twenty = || refuse(20, 0);
        assert_eq!((accept(&late), week(&late).is_ok()), (Ok(()), true));
        assert_eq!(levels(&late, 23, OWNER), refuse(20, 0));
        assert_eq!(report(&late, 23, OWNER, &mut []), refuse(20, 0));
        assert_eq!(report(&late, 24, OWNER, &mut []), refuse(15, 0));
        assert_eq!(energy_test(&late, 23, OWNER, 9, &[1]), twenty());
        assert_eq!(energy_test(&late, 24, OWNER, 9, &[1]), refuse(14, 0));
        assert_eq!(price_test(&late, 23, OWNER, 9, 9, 0), twenty());
        assert_eq!(price_test(&late, 24, OWNER, 9, 9, 0), refuse(12, 0));
        let input = |hour: u32| [&hour.to_be_bytes()[..], &late].concat();
        assert_eq!(program(&input(23)), b"refused 20 at 0\n");
        assert!(program(&input(24)).starts_with(b"profile 1\n"));
    }
}

/// It is the profile of the hour that needs fuel: one that comes later is no matter elsewhere.
#[test]
fn the_hours_profile_needs_fuel() {
    let records = [
        record(b"RQ", 1, &[1, 10, 19, 2]),
        record(b"FV", 1, &[15, 2, 1_000_000, 0]),
    ];
    let dossier = with(plain_thermal(), &records);
    for hour in [0, 9, 15, 19, 20, LAST] {
        assert!(levels(&dossier, hour, OWNER).is_ok(), "{hour}");
    }
    for hour in 10..15 {
        assert_eq!(levels(&dossier, hour, OWNER), refuse(20, 0), "{hour}");
    }
    // 17 comes before it
    let short = with(without_fuel(&hydro(&[0; 49])), &[fuel_from(1, LAST, 0)]);
    assert_eq!(levels(&short, 0, OWNER), refuse(17, short.len()));
}

#[test]
fn a_raise_leaves_first_hours_alone() {
    let dossier = |first, fuel| station(&[fuel_from(1, first, fuel)]);
    let before = dossier(24, 1_000_000);
    assert!(is_raise(&before, &dossier(24, 1_000_001)));
    for first in [0, 23, 25] {
        assert!(!is_raise(&before, &dossier(first, 1_000_001)));
    }
    // hidden at every hour, at a nuclear station: it may stay and may not move
    let nuclear = |emission| {
        let hidden = record(b"FV", 1, &[9, 1, 0, emission]);
        with(without_fuel(&nuclear_at(5)), &[fuel_from(2, 9, 0), hidden])
    };
    assert_eq!(accept(&nuclear(7)), Ok(()));
    assert!(is_raise(&nuclear(7), &nuclear(7)));
    assert!(!is_raise(&nuclear(7), &nuclear(8)));
}

/// Of a made dossier the records that count at some hour, by what counts at each first hour.
fn seen_at_first_hours<'a>(all: &[Record<'a>], dossier: &'a [u8]) -> BTreeSet<usize> {
    let station = accepted(dossier).unwrap();
    let hours: BTreeSet<u32> = all.iter().map(Record::first_hour).collect();
    let at = |hour: u32| -> Vec<usize> {
        let in_force = station.current.in_force(hour);
        in_force.all().map(|record| record.start).collect()
    };
    hours.into_iter().flat_map(at).collect()
}

#[test]
fn what_counts_at_some_hour_counts_at_its_own_first_hour() {
    let mut random = Random::new(8);
    for _ in 0..4_000 {
        let dossier = sound(&mut random).bytes();
        let all = records(&dossier).unwrap();
        let station = accepted(&dossier).unwrap();
        let counting = station.current.at_some_hour();
        let starts: BTreeSet<usize> = counting.iter().map(|r| r.start).collect();
        assert_eq!(starts.len(), counting.len());
        assert_eq!(starts, seen_at_first_hours(&all, &dossier));
        for record in &all {
            let in_force = station.current.in_force(record.first_hour());
            let own = in_force.get(&record.kind.mark, record.key());
            let is_own = own.is_some_and(|own| own.start == record.start);
            assert_eq!(is_own, starts.contains(&record.start));
            // declared: every higher issue of its key has a later first hour
            let mut higher = all.iter().filter(|other| {
                let key = (other.kind.of, other.key());
                key == (record.kind.of, record.key()) && other.issue() > record.issue()
            });
            let later = higher.all(|other| other.first_hour() > record.first_hour());
            assert_eq!(is_own, later);
        }
    }
}

/// A dated record is left out of an accepted dossier: if what is left is accepted too, nothing is
/// different before its first hour.
#[test]
fn before_its_first_hour_it_changes_nothing() {
    let mut random = Random::new(9);
    let (mut same, mut other) = (0, 0);
    for _ in 0..20_000 {
        let dossier = sound(&mut random).bytes();
        let all = records(&dossier).unwrap();
        let dated: Vec<_> = all.iter().filter(|r| r.first_hour() > 0).collect();
        if dated.is_empty() {
            continue;
        }
        let left_out = random.pick(&dated);
        let others = all.iter().filter(|r| r.start != left_out.start);
        let without: Vec<u8> = others.flat_map(|r| r.bytes).copied().collect();
        if accept(&without).is_err() {
            continue;
        }
        let any = random.between(0, i128::from(left_out.first_hour()) - 1) as u32;
        for hour in [0, any, left_out.first_hour() - 1] {
            assert_eq!(levels(&dossier, hour, OWNER), levels(&without, hour, OWNER));
            same += 1;
        }
        let hour = left_out.first_hour();
        other += usize::from(levels(&dossier, hour, OWNER) != levels(&without, hour, OWNER));
    }
    assert!(same > 3_000 && other > 300, "{same}, {other}");
}

/// Under the dated mark from hour 0 on, every cost means what it means undated.
#[test]
fn from_hour_0_on_is_undated() {
    let mut random = Random::new(10);
    for _ in 0..4_000 {
        let dossier = sound(&mut random).bytes();
        let mut moved = Vec::new();
        for record in records(&dossier).unwrap() {
            let first = Some(record.first_hour()).filter(|first| *first > 0 || random.one_in(2));
            let other = with_first_hour(record.bytes, first);
            moved.extend(other.unwrap_or(record.bytes.to_vec()));
        }
        if moved.len() > LONGEST {
            continue;
        }
        let hour = hour(&mut random, &dossier);
        assert_eq!(accept(&moved), Ok(()));
        assert_eq!(levels(&moved, hour, OWNER), levels(&dossier, hour, OWNER));
        let offer = offers::bytes(&[(1, 4_000)]);
        let test = |dossier: &[u8]| energy_test(dossier, hour, OWNER, 1, &offer);
        assert_eq!(test(&moved), test(&dossier));
    }
}

/// What is to be seen in an accepted dossier at an hour.
fn sorts(dossier: &[u8], hour: u32) -> Vec<(&'static str, bool)> {
    let all = records(dossier).unwrap();
    let station = accepted(dossier).unwrap();
    let dated = station.current.dated;
    let counting = station.current.at_some_hour();
    let current: BTreeSet<usize> = station.current.all().map(|r| r.start).collect();
    let answer = levels_of(&station, hour, OWNER);
    let count = |list: &[Record]| list.iter().filter(|r| r.kind.is_dated()).count();
    let older = |r: &&Record| !current.contains(&r.start);
    let undated = |r: &Record| !r.kind.is_dated();
    vec![
        ("undated", !dated),
        ("all fuels dated", all.iter().all(|r| r.kind.mark != *b"FU")),
        ("without fuel", answer == refuse(20, 0)),
        ("dated, with levels", dated && answer.is_ok()),
        ("hidden for good", count(&all) > count(&counting)),
        ("not current", counting.iter().any(|r| older(&r))),
        (
            "undated, not current",
            counting.iter().filter(older).any(undated),
        ),
        (
            "from the last hour",
            counting.iter().any(|r| r.first_hour() == LAST),
        ),
    ]
}

/// The maker makes histories of every shape, and hours with and without fuel.
#[test]
fn made_histories() {
    let mut random = Random::new(11);
    let mut seen: BTreeMap<&str, usize> = BTreeMap::new();
    for _ in 0..8_000 {
        let dossier = sound(&mut random).bytes();
        let hour = hour(&mut random, &dossier);
        for (sort, is_one) in sorts(&dossier, hour) {
            *seen.entry(sort).or_default() += usize::from(is_one);
        }
    }
    assert!(seen.values().all(|count| *count > 100), "{seen:?}");
}

/// The written dossiers draw what a first hour can draw, and nothing else.
#[test]
fn written_edges() {
    let mut seen: BTreeMap<u8, usize> = BTreeMap::new();
    for dossier in edges() {
        for hour in [0, 23, 24, 25, LAST] {
            let number = levels(&dossier, hour, OWNER).err().map_or(0, |r| r.number);
            *seen.entry(number).or_default() += 1;
        }
    }
    let numbers: Vec<u8> = seen.keys().copied().collect();
    assert_eq!(numbers, [0, 2, 3, 4, 6, 8, 20], "{seen:?}");
}

#[test]
fn three_thousand_of_one_key() {
    for (issues, hours) in [
        (Order::Rising, Order::Rising),
        (Order::Rising, Order::Falling),
        (Order::Falling, Order::Rising),
        (Order::Any, Order::Any),
    ] {
        let dossier = many_fuels(3_000, issues, hours);
        assert_eq!(accept(&dossier), Ok(()));
        assert!(dossier.len() > 57_000);
        // the highest issue counts from its first hour to the end
        let newest = current(&dossier, b"FU", &[1]);
        assert_eq!(newest[2..6], 3_001_u32.to_be_bytes());
        let price = 8 * (4_000_000 + 3_001) + 1_500_000 + 800_000;
        assert_eq!(energy(&dossier, LAST), (price + 5_000) / 10_000);
    }
}
