//! Two owners at one plant: what an owner adds joins its own queries alone, a query names one of the
//! two, and what one owner adds moves no answer of the other.

mod common;

use common::{energy_level, with};
use model::accept::accepted;
use model::dossier::{records, Record};
use model::exact::{all_near, exact_levels};
use model::levels::{profile_at, reckon, retired, Levels, Micro};
use model::make::offers::{self, condition, level, offer, price, Target};
use model::make::owners::{common as for_all, edges, keys, own};
use model::make::sound::{sound, sound_of};
use model::make::withdrawn::stations;
use model::make::written::{nuclear_at, plain_thermal, r1, record, storage};
use model::make::{hour, owner};
use model::raise::{is_raise, raised};
use model::random::Random;
use model::report::text;
use model::table::{ad, ao, Technology, OWNERS, TECHNOLOGIES};
use model::{accept, current, current_start, week};
use model::{energy_test, levels, price_test, program, refuse, report, OWNER};
use std::collections::BTreeMap;

const DOLLAR: i128 = 1_000_000;

/// Of one profile, cost and level both join; of the owners the one that is named.
#[test]
fn an_owners_amounts_join_the_common_ones() {
    let [mine, yours] = OWNERS.map(|owner| [owner, 1, 3, 4]);
    let more = [
        for_all(1, mine, DOLLAR),
        own(1, mine, 2 * DOLLAR),
        own(1, yours, 4 * DOLLAR),
        own(1, [1, 1, 1, 4], 8 * DOLLAR),
        // another profile, level and cost
        own(1, [1, 2, 3, 4], 16 * DOLLAR),
        own(1, [1, 1, 3, 1], 32 * DOLLAR),
        own(1, [1, 1, 4, 4], 64 * DOLLAR),
    ];
    let dossier = with(plain_thermal(), &more);
    let reserve = |owner| levels(&dossier, 0, owner).unwrap().reserve;
    assert_eq!((reserve(1), reserve(2)), (Some(1_100), Some(500)));
    let energy = |owner| levels(&dossier, 0, owner).unwrap().energy[0].level;
    assert_eq!((energy(1), energy(2)), (4_000 + 3_200, 4_000));
}

/// Every technology and level: the level of the owner rises by the amount, and no other level moves.
#[test]
fn at_every_level_that_is_held() {
    for (technology, station) in stations() {
        let before = levels(&station, 0, 1).unwrap();
        for level in technology.levels() {
            let dossier = with(station.clone(), &[own(1, [2, 1, 1, *level], 900 * DOLLAR)]);
            assert_eq!(levels(&dossier, 0, 1).as_ref(), Ok(&before));
            let after = levels(&dossier, 0, 2).unwrap();
            for number in technology.levels() {
                let rise = after.of(*number).unwrap() - before.of(*number).unwrap();
                let moved = if number == level { 90_000 } else { 0 };
                assert_eq!(rise, moved, "{technology:?}, level {number}");
            }
            assert!(all_near(&after, &exact_levels(&dossier, 0, 2).unwrap()));
        }
    }
}

/// A battery's amounts join the short-run cost alone, as common ones do.
#[test]
fn opportunity_stays() {
    let dossier = |amount| {
        with(
            storage(3_000, 800, &[5_000; 3]),
            &[own(1, [1, 1, 3, 1], amount)],
        )
    };
    assert_eq!(energy_level(&dossier(49 * DOLLAR)), 5_000);
    assert_eq!(energy_level(&dossier(51 * DOLLAR)), 5_100);
}

#[test]
fn the_highest_issue_counts() {
    let key = [2, 1, 3, 4];
    let issues = [
        own(6, key, 9 * DOLLAR),
        own(7, key, 5 * DOLLAR),
        own(5, key, DOLLAR),
    ];
    let mut arrivals = issues.to_vec();
    for turn in 0..3 {
        arrivals.rotate_left(turn);
        let dossier = with(plain_thermal(), &arrivals);
        assert_eq!(levels(&dossier, 0, 2).unwrap().reserve, Some(500));
        assert_eq!(levels(&dossier, 0, 1).unwrap().reserve, Some(0));
        assert_eq!(current(&dossier, b"AO", &key), issues[1]);
    }
}

/// A record of another owner is 3 where it stands; a query of one is 3 at 0, before all else.
#[test]
fn other_owners_are_refused() {
    let end = r1().len();
    for other in [0, 3, 4, 128, 255] {
        let dossier = with(r1(), &[own(1, [other, 1, 3, 1], 0)]);
        assert_eq!(accept(&dossier), refuse(3, end), "{other}");
        assert!(current(&dossier, b"AO", &[other, 1, 3, 1]).is_empty());
        let too_long = vec![0; 60_001];
        for dossier in [
            &r1()[..],
            &dossier,
            &too_long,
            b"",
            b"R",
            b"XY",
            &r1()[31..],
        ] {
            assert_eq!(levels(dossier, 0, other), refuse(3, 0));
            assert_eq!(exact_levels(dossier, 0, other), refuse(3, 0));
            assert_eq!(energy_test(dossier, 0, other, 9, &[1]), refuse(3, 0));
            assert_eq!(price_test(dossier, 0, other, 9, 9, 0), refuse(3, 0));
            let mut buffer = [b'x'; 3];
            assert_eq!(report(dossier, 0, other, &mut buffer), refuse(3, 0));
            assert_eq!(buffer, [b'x'; 3]);
        }
        assert_eq!(levels(&too_long, 0, 2), refuse(13, 0));
    }
}

/// What names no hour names no owner: it is refused with neither owner's question.
#[test]
fn what_has_no_hour_has_no_owner() {
    let dossier = with(nuclear_at(0), &[own(1, [2, 1, 5, 1], 7)]);
    assert_eq!(accept(&dossier), Ok(()));
    assert!(week(&dossier).is_ok());
    assert_eq!(current(&dossier, b"AO", &[2, 1, 5, 1]).len(), 18);
}

#[test]
fn the_program_names_owner_1() {
    let more = OWNERS.map(|owner| own(1, [owner, 1, 1, 4], i128::from(owner) * DOLLAR));
    let dossier = with(r1(), &more);
    let printed = program(&[vec![0; 4], dossier.clone()].concat());
    assert_eq!(printed, text(&dossier, 0, 1).unwrap());
    assert!(printed.ends_with(b"\nreserve 1.25\nretired 0\n"));
    assert_ne!(printed, text(&dossier, 0, 2).unwrap());
}

/// The key is four bytes; AD has another, though profile, cost and level are the same.
#[test]
fn looked_up_by_four_bytes() {
    let all: Vec<Vec<u8>> = (0..)
        .zip(keys())
        .map(|(n, key)| own(n, key, n.into()))
        .collect();
    let dossier = with(vec![], &all);
    for (n, key) in keys().iter().enumerate() {
        assert_eq!(current(&dossier, b"AO", key), all[n]);
        assert_eq!(current_start(&dossier, b"AO", key), 18 * n);
        assert!(current(&dossier, b"AO", &key[1..]).is_empty());
        assert!(current(&dossier, b"AD", &key[1..]).is_empty());
        assert!(current(&dossier, b"AV", &key[1..]).is_empty());
    }
    for beyond in [
        [0, 1, 1, 1],
        [3, 1, 1, 1],
        [1, 5, 1, 1],
        [1, 1, 6, 1],
        [1, 1, 1, 5],
    ] {
        assert!(current(&dossier, b"AO", &beyond).is_empty());
    }
}

#[test]
fn twins() {
    let end = r1().len();
    let [mine, yours] = OWNERS.map(|owner| [owner, 1, 3, 1]);
    let answer = |more: &[Vec<u8>]| accept(&with(r1(), more));
    let fellows = [own(7, mine, 1), own(7, yours, 2), for_all(7, mine, 3)];
    assert_eq!(answer(&fellows), Ok(()));
    assert_eq!(answer(&[own(7, mine, 1), own(8, mine, 1)]), Ok(()));
    assert_eq!(
        answer(&[own(7, mine, 1), own(7, mine, 2)]),
        refuse(4, end + 18)
    );
    let three = [own(7, yours, 1), own(7, mine, 1), own(7, yours, 1)];
    assert_eq!(answer(&three), refuse(4, end + 36));
}

/// 6 judges both owners' amounts, whoever asks.
#[test]
fn unfit_as_a_common_one() {
    for (technology, station) in stations() {
        for key in keys() {
            let [_, _, cost, level] = key;
            let nuclear = technology == Technology::Nuclear;
            let fits = technology.holds(level) && (cost != 5 || nuclear);
            let dossier = with(station.clone(), &[own(1, key, 0)]);
            let common = with(station.clone(), &[for_all(9, key, 0)]);
            let place = station.len();
            let expected = if fits { Ok(()) } else { refuse(6, place) };
            assert_eq!(accept(&dossier), expected, "{technology:?}, {key:?}");
            assert_eq!(accept(&common), expected, "{technology:?}, {key:?}");
            for owner in OWNERS {
                assert_eq!(levels(&dossier, 0, owner).map(|_| ()), expected);
            }
        }
    }
}

#[test]
fn ranges_are_those_of_a_common_one() {
    let end = r1().len();
    let answer = |key, amount| accept(&with(r1(), &[own(1, key, amount)]));
    assert_eq!(answer([1, 1, 1, 1], ad::AMOUNT.highest), Ok(()));
    assert_eq!(answer([1, 1, 1, 1], ad::AMOUNT.highest + 1), refuse(3, end));
    for beyond in [
        [1, 0, 1, 1],
        [1, 5, 1, 1],
        [1, 1, 0, 1],
        [1, 1, 6, 1],
        [1, 1, 1, 0],
        [1, 1, 1, 5],
    ] {
        assert_eq!(answer(beyond, 0), refuse(3, end), "{beyond:?}");
    }
    let whole = own(1, [1, 1, 1, 1], 0);
    for length in 2..whole.len() {
        let cut = with(r1(), &[whole[..length].to_vec()]);
        assert_eq!(accept(&cut), refuse(2, end));
    }
}

/// No mark has a first hour and an owner both.
#[test]
fn no_dated_form() {
    for mark in [b"AP", b"OV", b"VO", b"A\0"] {
        let other = [&mark[..], &own(1, [1, 1, 1, 1], 0)[2..]].concat();
        assert_eq!(accept(&with(r1(), &[other])), refuse(1, r1().len()));
    }
}

#[test]
fn raised_as_a_common_one() {
    let with_own = |key, amount| with(r1(), &[own(1, key, amount)]);
    for owner in OWNERS {
        let key = [owner, 1, 3, 1];
        let before = with_own(key, 5);
        for amount in [5, 6, ao::AMOUNT.highest] {
            assert!(is_raise(&before, &with_own(key, amount)));
        }
        for amount in [4, ao::AMOUNT.highest + 1] {
            assert!(!is_raise(&before, &with_own(key, amount)));
        }
        let other = [3 - owner, 1, 3, 1];
        assert!(!is_raise(&before, &with_own(other, 5)));
    }
}

/// A payment of an owner counts in its queries alone, and no level has it.
#[test]
fn payments_are_counted_for_their_owner() {
    let paid = |owner, level| own(1, [owner, 1, 4, level], 9 * DOLLAR);
    let more = [
        paid(1, 1),
        paid(2, 1),
        paid(2, 2),
        own(1, [2, 2, 4, 3], DOLLAR),
        record(b"AD", 1, &[1, 4, 1, DOLLAR]),
    ];
    let dossier = with(r1(), &more);
    let ends = |owner, line: &[u8]| text(&dossier, 0, owner).unwrap().ends_with(line);
    assert!(ends(1, b"\nretired 2\n") && ends(2, b"\nretired 3\n"));
    for owner in OWNERS {
        assert_eq!(levels(&dossier, 0, owner), levels(&r1(), 0, owner));
    }
}

/// The amounts that an owner adds to a level at an hour, by the papers' words.
fn added(dossier: &[u8], owner: u8, profile: u8, level: u8) -> u128 {
    let costs = (1..=5).filter(|cost| i128::from(*cost) != ad::THIRD_PARTY);
    let found = costs.map(|cost| current(dossier, b"AO", &[owner, profile, cost, level]));
    let amounts = found.filter(|record| !record.is_empty());
    amounts.map(|r| ao::AMOUNT.read(r).unsigned_abs()).sum()
}

/// The dossier with the AO records of this owner left out.
fn without(dossier: &[u8], owner: u8) -> Vec<u8> {
    let of_owner = |r: &Record| r.kind.mark == *b"AO" && r.get(ao::OWNER) == i128::from(owner);
    let all = records(dossier).unwrap();
    let others = all.iter().filter(|r| !of_owner(r));
    others.flat_map(|r| r.bytes).copied().collect()
}

/// Every sum is the one without the owner's records and what they add; a battery's energy is no less.
#[test]
fn what_an_owner_adds_in_made_dossiers() {
    let mut random = Random::new(12);
    let mut seen: BTreeMap<Technology, [usize; 2]> = BTreeMap::new();
    for n in 0..8_000 {
        let technology = TECHNOLOGIES[n % 4];
        let dossier = sound_of(&mut random, technology).bytes();
        let (hour, owner) = (hour(&mut random, &dossier), random.pick(&OWNERS));
        let bare = without(&dossier, owner);
        let [full, less] = [&dossier, &bare].map(|d| accepted(d).unwrap());
        let sums = |station| -> Result<Levels<Micro>, _> { reckon(station, hour, owner) };
        let (Ok(more), Ok(before)) = (sums(&full), sums(&less)) else {
            assert_eq!(levels(&dossier, hour, owner), refuse(20, 0));
            continue;
        };
        let profile = profile_at(&full, hour);
        for number in technology.levels() {
            let (now, then) = (more.of(*number).unwrap().0, before.of(*number).unwrap().0);
            let added = added(&dossier, owner, profile, *number);
            let battery = technology == Technology::Storage && *number == 1;
            assert!(then + added == now || battery && then <= now && now <= then + added);
            seen.entry(technology).or_default()[usize::from(added > 0)] += 1;
        }
    }
    assert!(
        seen.len() == 4 && seen.values().all(|n| n[0] > 200 && n[1] > 200),
        "{seen:?}"
    );
}

/// Whatever the other owner's amounts are, levels, reports and verdicts stay.
#[test]
fn the_other_owners_amounts_move_nothing() {
    let mut random = Random::new(13);
    let (mut moved, mut other) = (0, 0);
    for _ in 0..8_000 {
        let before = sound(&mut random).bytes();
        let (hour, owner) = (hour(&mut random, &before), random.pick(&OWNERS));
        let mut after = before.clone();
        for record in records(&before).unwrap() {
            if record.kind.mark == *b"AO" && record.get(ao::OWNER) != i128::from(owner) {
                let amount = random.spread(0, ao::AMOUNT.highest);
                ao::AMOUNT.write(&mut after[record.start..], amount);
            }
        }
        moved += usize::from(before != after);
        assert_eq!(accept(&after), Ok(()));
        assert_eq!(text(&before, hour, owner), text(&after, hour, owner));
        assert_eq!(
            exact_levels(&before, hour, owner),
            exact_levels(&after, hour, owner)
        );
        let target = Target::of(&before, hour, owner);
        let condition = condition(&mut random);
        let level = level(&mut random, &target);
        let offer = offer(&mut random, &target, condition);
        let price = price(&mut random, &target, level, condition);
        let energy = |d: &[u8]| energy_test(d, hour, owner, condition, &offer);
        let single = |d: &[u8]| price_test(d, hour, owner, level, condition, price);
        assert_eq!(
            (energy(&before), single(&before)),
            (energy(&after), single(&after))
        );
        let second = 3 - owner;
        other += usize::from(levels(&before, hour, second) != levels(&after, hour, second));
    }
    assert!(moved > 4_000 && other > 1_000, "{moved}, {other}");
}

/// Without an AO both owners have the same answers, whatever is asked.
#[test]
fn common_stations_are_the_same_to_both() {
    let mut random = Random::new(14);
    for _ in 0..2_000 {
        let dossier = without(&without(&sound(&mut random).bytes(), 1), 2);
        let hour = hour(&mut random, &dossier);
        assert_eq!(text(&dossier, hour, 1), text(&dossier, hour, 2));
    }
}

/// Raises move AO amounts too, and the owners that are drawn are those there are and some others.
#[test]
fn the_maker_draws_them() {
    let mut random = Random::new(15);
    let (mut owners, mut kept) = (BTreeMap::new(), [0; 2]);
    let mut risen = 0;
    for _ in 0..4_000 {
        *owners.entry(owner(&mut random)).or_insert(0) += 1;
        let dossier = sound(&mut random).bytes();
        let station = accepted(&dossier).unwrap();
        for record in station.current.of_mark(b"AO") {
            kept[record.get(ao::OWNER) as usize - 1] += 1;
        }
        let after = raised(&mut random, &dossier);
        let pairs = records(&dossier)
            .unwrap()
            .into_iter()
            .zip(records(&after).unwrap());
        risen += pairs
            .filter(|(a, b)| a.kind.mark == *b"AO" && a.bytes != b.bytes)
            .count();
        let hour = hour(&mut random, &dossier);
        assert!(retired(&station, hour, 1).map_or(0, |count| count) <= 8);
    }
    let drawn: Vec<u8> = owners.keys().copied().collect();
    assert_eq!(drawn, [0, 1, 2, 3, 255], "{owners:?}");
    assert!(
        kept.iter().all(|count| *count > 5_000) && risen > 5_000,
        "{kept:?}, {risen}"
    );
}

/// The written dossiers are accepted, or draw what an AO can draw.
#[test]
fn written_edges() {
    let mut seen: BTreeMap<u8, usize> = BTreeMap::new();
    for dossier in edges() {
        for owner in OWNERS {
            let number = levels(&dossier, 0, owner).err().map_or(0, |r| r.number);
            *seen.entry(number).or_default() += 1;
        }
    }
    let numbers: Vec<u8> = seen.keys().copied().collect();
    assert_eq!(numbers, [0, 2, 3, 4, 6], "{seen:?}");
}

/// An offer that fails for one owner passes for the other, whose level is higher.
#[test]
fn verdicts_go_by_the_owner() {
    let more = [
        own(1, [2, 1, 3, 1], 5 * DOLLAR),
        record(b"TH", 1, &[1, 1, 50, 2_500, 0]),
    ];
    let dossier = with(r1(), &more);
    let test = |owner, price| {
        let offer = offers::bytes(&[(1_000, price)]);
        energy_test(&dossier, 0, owner, 1, &offer).unwrap() == model::Verdict::Passes
    };
    // 42.30 and 47.30, and half of it more
    assert_eq!([test(1, 6_345), test(1, 6_346)], [true, false]);
    assert_eq!([test(2, 7_095), test(2, 7_096)], [true, false]);
    assert_eq!(OWNER, 1);
}
