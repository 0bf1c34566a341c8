//! Third-party payments withdrawn: no level has them, the exact level neither; the report counts those
//! in force; and they are read, checked, looked up and raised as ever.

mod common;

use common::{energy_level, with};
use model::accept::accepted;
use model::dossier::{records, Record};
use model::exact::exact_levels;
use model::levels::{profile_at, retired};
use model::make::hour;
use model::make::sound::sound;
use model::make::withdrawn::{edges, payment, payment_from, stations};
use model::make::written::{plain_thermal, r1, record, R1_LINES};
use model::raise::{is_raise, raised};
use model::random::Random;
use model::table::{ad, ao, Mark, OWNERS, RESERVE};
use model::{accept, current, levels, program, refuse, report, OWNER};
use std::collections::BTreeMap;

const DOLLAR: i128 = 1_000_000;

/// The last line of the report at an hour, which is there once.
fn last_line(dossier: &[u8], hour: u32) -> String {
    let printed = program(&[&hour.to_be_bytes()[..], dossier].concat());
    let text = String::from_utf8(printed).unwrap();
    assert_eq!(text.matches("retired").count(), 1, "{text}");
    let lines = text.strip_suffix('\n').unwrap();
    lines.rsplit('\n').next().unwrap().to_string()
}

/// At every technology, every level that it holds, and the highest amount.
#[test]
fn no_level_has_them() {
    for (technology, station) in stations() {
        let energy = energy_level(&station);
        let before = (levels(&station, 0, OWNER), exact_levels(&station, 0, OWNER));
        let mut dossier = station;
        assert_eq!(last_line(&dossier, 0), "retired 0");
        for (n, level) in (1..).zip(technology.levels()) {
            dossier.extend(payment(1, 1, *level, ad::AMOUNT.highest));
            assert_eq!(energy_level(&dossier), energy);
            assert_eq!(
                (levels(&dossier, 0, OWNER), exact_levels(&dossier, 0, OWNER)),
                before
            );
            assert_eq!(last_line(&dossier, 0), format!("retired {n}"));
        }
    }
}

/// The amounts of the other costs join as before, beside a payment and without it.
#[test]
fn the_other_costs_join() {
    let costs = [1, 2, 3, 4].map(|cost| record(b"AD", 1, &[1, cost, 4, DOLLAR << cost]));
    let reserve = |costs: &[Vec<u8>]| {
        let levels = levels(&with(plain_thermal(), costs), 0, OWNER).unwrap();
        levels.reserve
    };
    assert_eq!(reserve(&costs), Some(1_400));
    assert_eq!(reserve(&costs[..3]), Some(1_400));
    assert_eq!(reserve(&costs[3..]), Some(0));
}

/// One for each level that has a record in force in the hour's profile, whatever its amount.
#[test]
fn those_of_the_hours_profile_are_counted() {
    let more = [
        record(b"RQ", 1, &[1, 10, 19, 2]),
        record(b"FU", 1, &[2, 5 * DOLLAR, 0]),
        payment(1, 1, 1, 0),
        payment(1, 2, 1, DOLLAR),
        payment(1, 2, 2, DOLLAR),
        payment(1, 2, 4, 0),
        payment(1, 3, 3, DOLLAR),
    ];
    let dossier = with(plain_thermal(), &more);
    let lines = [9, 10, 19, 20].map(|hour| last_line(&dossier, hour));
    assert_eq!(lines, ["retired 1", "retired 3", "retired 3", "retired 1"]);
}

/// Of one key it is one record that is in force, and none before the first hour of all.
#[test]
fn first_hours_and_older_issues() {
    let newer = [payment_from(3, 24, 1, 1, 5), payment_from(2, 20, 1, 1, 0)];
    let ahead = with(r1(), &newer);
    let counts = |dossier: &[u8]| [0, 19, 20, 24, u32::MAX].map(|hour| last_line(dossier, hour));
    let [none, one] = ["retired 0", "retired 1"];
    assert_eq!(counts(&ahead), [none, none, one, one, one]);
    let older = with(ahead, &[payment(1, 1, 1, DOLLAR)]);
    assert_eq!(counts(&older), [one; 5]);
    assert_eq!(levels(&older, 24, OWNER), levels(&r1(), 24, OWNER));
}

#[test]
fn read_and_checked_as_ever() {
    let end = r1().len();
    let answer = |more: &[Vec<u8>]| accept(&with(r1(), more));
    let first = || payment(7, 1, 1, DOLLAR);
    assert_eq!(answer(&[first()]), Ok(()));
    let beyond = payment(7, 1, 1, ad::AMOUNT.highest + 1);
    assert_eq!(answer(&[beyond]), refuse(3, end));
    assert_eq!(answer(&[payment(7, 1, 5, 0)]), refuse(3, end));
    assert_eq!(answer(&[first(), first()]), refuse(4, end + 17));
    let twin = payment_from(7, 24, 1, 1, DOLLAR);
    assert_eq!(answer(&[first(), twin]), refuse(4, end + 17));
    for (technology, station) in stations() {
        for level in 1..=RESERVE {
            let expected = match technology.holds(level) {
                true => Ok(()),
                false => refuse(6, station.len()),
            };
            let dossier = with(station.clone(), &[payment(1, 1, level, 0)]);
            assert_eq!(accept(&dossier), expected);
        }
    }
}

#[test]
fn looked_up_as_ever() {
    let newer = payment(9, 1, 4, DOLLAR);
    let dossier = with(r1(), &[newer.clone(), payment(8, 1, 4, 0)]);
    for mark in [b"AD", b"AV"] {
        assert_eq!(current(&dossier, mark, &[1, 4, 4]), newer);
    }
    assert!(current(&dossier, b"AD", &[1, 4, 1]).is_empty());
}

/// Their amounts stay money amounts: a raise of them is a raise, and no answer moves.
#[test]
fn raised_as_ever() {
    let paid = |amount| with(r1(), &[payment(1, 1, 1, amount)]);
    let text = |dossier: &[u8]| program(&[&[0; 4], dossier].concat());
    let before = paid(5);
    for amount in [5, 6, ad::AMOUNT.highest] {
        assert!(is_raise(&before, &paid(amount)));
        assert_eq!(text(&paid(amount)), text(&before));
    }
    for amount in [4, ad::AMOUNT.highest + 1] {
        assert!(!is_raise(&before, &paid(amount)));
    }
}

/// A refusal is its one line, and R1 has its five lines and the last.
#[test]
fn refusals_have_no_such_line() {
    let twice = with(r1(), &[payment(7, 1, 1, 0), payment(7, 1, 1, 0)]);
    let line = format!("refused 4 at {}\n", r1().len() + 17);
    assert_eq!(program(&[vec![0; 4], twice].concat()), line.as_bytes());
    assert!(R1_LINES.ends_with(b"reserve 0.25\nretired 0\n"));
    let length = R1_LINES.len();
    assert_eq!(
        report(&r1(), 0, OWNER, &mut vec![0; length - 1]),
        refuse(15, 0)
    );
    assert_eq!(report(&r1(), 0, OWNER, &mut vec![0; length]), Ok(length));
}

/// A common payment, or one of either owner.
fn is_payment(record: &Record) -> bool {
    match &record.kind.of {
        b"AD" => record.get(ad::COST) == ad::THIRD_PARTY,
        b"AO" => record.get(ao::COST) == ad::THIRD_PARTY,
        _ => false,
    }
}

/// Which payments are in force, by the papers' words: some record of the key has come.
fn counted(dossier: &[u8], hour: u32, owner: u8, profile: u8) -> usize {
    let all = records(dossier).unwrap();
    let come = |mark: &Mark, key: &[u8]| {
        let mut mine = all.iter().filter(|r| r.kind.of == *mark && r.key() == key);
        mine.any(|r| r.first_hour() <= hour)
    };
    let cost = ad::THIRD_PARTY as u8;
    let levels = 1..=RESERVE;
    let common = levels.clone().filter(|l| come(b"AD", &[profile, cost, *l]));
    let own = levels.filter(|l| come(b"AO", &[owner, profile, cost, *l]));
    common.count() + own.count()
}

/// Sound dossiers have the levels that they have without their payments, whose raise moves nothing.
#[test]
fn made_dossiers() {
    let mut random = Random::new(10);
    let mut seen: BTreeMap<usize, usize> = BTreeMap::new();
    for _ in 0..8_000 {
        let dossier = sound(&mut random).bytes();
        let hour = hour(&mut random, &dossier);
        let owner = random.pick(&OWNERS);
        let all = records(&dossier).unwrap();
        let others: Vec<_> = all.iter().filter(|r| !is_payment(r)).collect();
        let without: Vec<u8> = others.iter().flat_map(|r| r.bytes).copied().collect();
        assert_eq!(levels(&dossier, hour, owner), levels(&without, hour, owner));
        assert_eq!(
            exact_levels(&dossier, hour, owner),
            exact_levels(&without, hour, owner)
        );
        let mut other = raised(&mut random, &dossier);
        for record in others {
            other[record.start..][..record.bytes.len()].copy_from_slice(record.bytes);
        }
        assert!(is_raise(&dossier, &other));
        assert_eq!(levels(&dossier, hour, owner), levels(&other, hour, owner));
        let station = accepted(&dossier).unwrap();
        if let Ok(count) = retired(&station, hour, owner) {
            let profile = profile_at(&station, hour);
            assert_eq!(count, counted(&dossier, hour, owner, profile));
            assert_eq!(retired(&accepted(&without).unwrap(), hour, owner), Ok(0));
            *seen.entry(count).or_default() += 1;
        }
    }
    let counts: Vec<usize> = seen.keys().copied().collect();
    assert_eq!(counts, [0, 1, 2, 3, 4, 5, 6, 7, 8], "{seen:?}");
}

/// The written dossiers are accepted, or draw what a payment can draw.
#[test]
fn written_edges() {
    let mut seen: BTreeMap<u8, usize> = BTreeMap::new();
    for dossier in edges() {
        for hour in [0, 23, 24, 25, u32::MAX] {
            let number = levels(&dossier, hour, OWNER).err().map_or(0, |r| r.number);
            *seen.entry(number).or_default() += 1;
        }
    }
    let numbers: Vec<u8> = seen.keys().copied().collect();
    assert_eq!(numbers, [0, 3, 4, 6], "{seen:?}");
}
