//! What the maker makes is what it says: sound dossiers are accepted, each damage draws its number,
//! every number occurs, and demand 3 holds over raises.

use model::accept::accepted;
use model::dossier::records;
use model::exact::{all_near, exact_levels_of};
use model::levels::{levels_of, reckon, Levels, Micro};
use model::make::damage::{damaged_by, DAMAGES};
use model::make::offers::{condition, level, offer, price, Target};
use model::make::{dossier, hour, owner, sized, sound};
use model::raise::{is_raise, none_lower, raised};
use model::random::Random;
use model::table::{Field, Mark, Role, OWNERS, TECHNOLOGIES};
use model::{accept, energy_test, price_test, program, refuse, report, Refusal, Verdict, OWNER};
use std::collections::BTreeSet;

#[test]
fn sound_dossiers_are_accepted() {
    let mut random = Random::new(1);
    let mut lengths = BTreeSet::new();
    for _ in 0..20_000 {
        let dossier = sound::sound(&mut random).bytes();
        assert_eq!(accept(&dossier), Ok(()));
        lengths.insert(dossier.len());
    }
    assert!(lengths.len() > 1_000);
}

/// Dossiers made to a length are accepted, have almost that length, and no level is 0.
#[test]
fn sized_dossiers_are_accepted() {
    for technology in TECHNOLOGIES {
        let lengths = [1_000, 1_999, 4_444, 32_000, 60_000];
        let makers = [sized::sized, sized::sized_dated, sized::sized_owned];
        for (length, make) in lengths.iter().flat_map(|l| makers.map(|m| (*l, m))) {
            let dossier = make(technology, length);
            assert!((length - 31..=length).contains(&dossier.len()));
            let station = accepted(&dossier).unwrap();
            assert_eq!(station.technology, technology);
            let levels = levels_of(&station, 0, OWNER).unwrap();
            assert!(levels.all().all(|level| *level > 0));
        }
    }
}

#[test]
fn a_full_week_is_full() {
    let week = sized::full_week();
    assert_eq!(accept(&week), Ok(()));
    let records = records(&week).unwrap();
    let of = |mark: &Mark| records.iter().filter(|r| r.kind.mark == *mark).count();
    assert_eq!((of(b"HR"), of(b"CH")), (168, 2_016));
}

#[test]
fn sums_meet_the_half_cent() {
    let mut random = Random::new(6);
    let met = (0..1_000).filter(|_| {
        let dossier = sound::at_half_cent(&mut random);
        let sums: Levels<Micro> = reckon(&accepted(&dossier).unwrap(), 0, OWNER).unwrap();
        let near = |sum: &Micro| [4_999, 5_000].contains(&(sum.0 % 10_000));
        let met = sums.all().any(near);
        met
    });
    assert!(met.count() > 800);
}

#[test]
fn each_damage_draws_its_number() {
    let mut random = Random::new(2);
    for damage in DAMAGES {
        let times = if damage.number == 13 { 20 } else { 500 };
        for _ in 0..times {
            let answer = accept(&damaged_by(&mut random, damage));
            let number = answer.err().map(|refusal| refusal.number);
            assert_eq!(number, Some(damage.number), "{}", damage.name);
        }
    }
}

#[test]
fn every_number_occurs() {
    let mut random = Random::new(3);
    let mut numbers = BTreeSet::new();
    let mut note = |answer: Result<Verdict, Refusal>| match answer {
        Err(refusal) => drop(numbers.insert(refusal.number)),
        Ok(Verdict::Passes) => drop(numbers.insert(100)),
        Ok(Verdict::Fails(_)) => drop(numbers.insert(200)),
    };
    for _ in 0..20_000 {
        let dossier = dossier(&mut random);
        let hour = hour(&mut random, &dossier);
        let owner = owner(&mut random);
        let target = Target::of(&dossier, hour, owner);
        let condition = condition(&mut random);
        let level = level(&mut random, &target);
        let offer = offer(&mut random, &target, condition);
        note(energy_test(&dossier, hour, owner, condition, &offer));
        let price = price(&mut random, &target, level, condition);
        note(price_test(&dossier, hour, owner, level, condition, price));
        if let Err(refusal) = report(&dossier, hour, owner, &mut [0; 20]) {
            note(Err(refusal));
        }
    }
    assert_eq!(program(&[0; 3]), b"refused 16 at 0\n");
    let expected: BTreeSet<u8> = (1..=15).chain([17, 20, 100, 200]).collect();
    assert_eq!(numbers, expected);
}

/// The levels of an accepted dossier, all near the exact ones.
fn near_levels(dossier: &[u8], hour: u32, owner: u8) -> Result<Levels<u64>, Refusal> {
    let station = accepted(dossier).unwrap();
    let levels = levels_of(&station, hour, owner)?;
    let exact = exact_levels_of(&station, hour, owner)?;
    assert!(all_near(&levels, &exact));
    Ok(levels)
}

#[test]
fn demand_3_holds() {
    let mut random = Random::new(4);
    let (mut risen, mut without_fuel) = (0, 0);
    for _ in 0..8_000 {
        let before = sound::sound(&mut random).bytes();
        let after = raised(&mut random, &before);
        assert!(is_raise(&before, &after) && is_raise(&before, &before));
        let hour = hour(&mut random, &before);
        let owner = random.pick(&OWNERS);
        let levels = [&before, &after].map(|dossier| near_levels(dossier, hour, owner));
        let [Ok(lows), Ok(highs)] = levels else {
            assert_eq!(levels, [refuse(20, 0), refuse(20, 0)]);
            without_fuel += 1;
            continue;
        };
        assert!(none_lower(&lows, &highs));
        risen += usize::from(lows != highs);
        let target = Target::of(&before, hour, owner);
        let condition = condition(&mut random);
        let level = level(&mut random, &target);
        let offer = offer(&mut random, &target, condition);
        let price = price(&mut random, &target, level, condition);
        let passes = Ok(Verdict::Passes);
        let energy = |d: &[u8]| energy_test(d, hour, owner, condition, &offer) == passes;
        let single = |d: &[u8]| price_test(d, hour, owner, level, condition, price) == passes;
        assert!(!energy(&before) || energy(&after));
        assert!(!single(&before) || single(&after));
    }
    assert!(
        risen > 1_000 && without_fuel > 100,
        "{risen}, {without_fuel}"
    );
}

/// Neither a lower amount, nor one beyond its limit, nor any other byte makes a raise.
#[test]
fn other_changes_are_no_raise() {
    let mut random = Random::new(5);
    let mut refused = |before: &[u8], at: usize, field: Option<Field>| {
        let mut after = before.to_vec();
        let Some(field) = field else {
            after[at] ^= random.between(1, 255) as u8;
            return !is_raise(before, &after);
        };
        let lower = field.read(&before[at..]) - 1;
        let beyond = random.pick(&[field.highest + 1, lower]);
        field.write(&mut after[at..], beyond);
        beyond < 0 && !field.signed || !is_raise(before, &after)
    };
    for seed in 0..20 {
        let before = sound::sound(&mut Random::new(seed)).bytes();
        assert!(!is_raise(&before, &before[1..]));
        for record in records(&before).unwrap() {
            for field in record.kind.fields {
                let money = (field.role == Role::Money).then_some(*field);
                let at = record.start + if money.is_some() { 0 } else { field.at };
                assert!(refused(&before, at, money));
            }
        }
    }
}
