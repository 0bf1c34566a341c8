//! Levels, with the promised distance to the exact levels and under a raise.

use crate::refusal;
use model::cases::{run, same, seed, Check};
use model::dossier::{records, Record};
use model::exact::{all_near, exact_levels};
use model::levels::{Lamination, Levels};
use model::make::nearest::terms;
use model::make::owners::own;
use model::make::written::{evenly_rising, r1};
use model::make::{self, sound};
use model::memo::{examples, made_weeks, told, written_weeks};
use model::raise::{none_lower, raised};
use model::random::Random;
use model::report::level_lines;
use model::table::{ad, ao, Technology, OWNERS};
use model::vectors::{read, Vector};
use model::{refuse, Refusal, OWNER};

const STEPS: usize = 20;

/// The words that stand for levels.
fn words(levels: &Levels<u64>) -> Vec<u64> {
    let mut words = vec![levels.profile.into(), levels.energy.len() as u64];
    let none = Lamination {
        from: 0,
        to: 0,
        level: 0,
    };
    for i in 0..STEPS {
        let step = levels.energy.get(i).unwrap_or(&none);
        words.extend([step.from.into(), step.to.into(), step.level]);
    }
    let held = levels.single().map(|(number, _)| 1 << (number - 1));
    words.push(1 + held.sum::<u64>());
    let single = [levels.start, levels.no_load, levels.reserve];
    words.extend(single.map(|level| level.unwrap_or(0)));
    words
}

/// What the model leaves in a list of words, and the answer beside it.
fn expected(
    levels: &Result<Levels<u64>, Refusal>,
    mut list: Vec<u64>,
) -> (Result<usize, Refusal>, Vec<u64>) {
    let written = levels.as_ref().map_err(|r| *r).and_then(|levels| {
        let words = words(levels);
        let short = Refusal {
            number: 15,
            place: 0,
        };
        let head = list.get_mut(..words.len()).ok_or(short)?;
        head.copy_from_slice(&words);
        Ok(words.len())
    });
    (written, list)
}

/// Bench's answer in the model's terms.
fn model_levels(dossier: &[u8], hour: u32, owner: u8) -> Result<Levels<u64>, Refusal> {
    let levels = bench::levels(dossier, hour, owner).map_err(refusal)?;
    let steps = levels.energy.iter().map(|step| Lamination {
        from: step.from,
        to: step.to,
        level: step.level,
    });
    Ok(Levels {
        profile: levels.profile,
        energy: steps.collect(),
        start: levels.start,
        no_load: levels.no_load,
        reserve: levels.reserve,
    })
}

fn check_hour(random: &mut Random, dossier: &[u8], hour: u32, owner: u8) -> Check {
    let model = model::levels(dossier, hour, owner);
    let found = model_levels(dossier, hour, owner);
    same(&format!("levels at {hour}, owner {owner}"), &found, &model)?;
    let count = random.pick(&[0, 65, 66, 70]);
    let before: Vec<u64> = (0..count).map(|_| random.next()).collect();
    let mut list = before.clone();
    let written = bench::levels_into(dossier, hour, owner, &mut list).map_err(refusal);
    let what = format!("{count} words at {hour}, owner {owner}");
    same(&what, (written, list), expected(&model, before))?;
    match found {
        Ok(found) => {
            let exact = exact_levels(dossier, hour, owner).expect("an accepted dossier");
            same("the promised distance", all_near(&found, &exact), true)
        }
        Err(_) => Ok(()),
    }
}

fn check(random: &mut Random, dossier: &[u8]) -> Check {
    for _ in 0..3 {
        let hour = make::hour(random, dossier);
        let owner = make::owner(random);
        check_hour(random, dossier, hour, owner)?;
    }
    Ok(())
}

/// 210,000 sound dossiers with an hour.
#[test]
fn sound_dossiers() {
    let make = |random: &mut Random| sound::sound(random).bytes();
    run("levels of sound dossiers", 70_000, make, check);
}

#[test]
fn dossiers_of_every_sort() {
    run("levels", 20_000, make::dossier, check);
}

/// Weeks with charging and without, each with a last charging cost and without.
#[test]
fn batteries() {
    let make = |random: &mut Random| sound::sound_of(random, Technology::Storage).bytes();
    run("levels of batteries", 10_000, make, check);
}

/// The library says what the papers print, and what the model does.
#[test]
fn the_memos_examples() {
    for example in examples() {
        let levels = model_levels(&example.dossier, 0, OWNER).unwrap();
        assert_eq!(levels.energy.len(), 1, "{}", example.name);
        assert_eq!(levels.energy[0].level, example.level, "{}", example.name);
        check(&mut Random::new(0), &example.dossier).unwrap();
    }
}

/// A battery idle for a week compares with the memo.
#[test]
fn weeks_by_the_memo() {
    let mut random = Random::new(seed());
    let made = (0..400).map(|_| made_weeks(&mut random));
    for weeks in made.chain([written_weeks().0]) {
        for (dossier, level) in told(&weeks).into_iter().flat_map(|week| week.dossiers) {
            let levels = bench::levels(&dossier, 0, OWNER).unwrap();
            assert_eq!(levels.energy[0].level, level, "{weeks:?}");
        }
    }
}

/// Each division less than half a micro-dollar past a whole one, half, and more.
#[test]
fn each_division_goes_half_up() {
    for term in terms() {
        for (dossier, cents) in term.dossiers.iter().zip([0, 1, 1]) {
            let levels = model_levels(dossier, 0, OWNER).unwrap();
            for level in term.levels {
                assert_eq!(levels.of(*level), Some(&cents), "{} in {level}", term.name);
            }
        }
    }
}

#[test]
fn sums_at_the_half_cent() {
    let check = |random: &mut Random, dossier: &[u8]| check_hour(random, dossier, 0, OWNER);
    run(
        "levels at the half cent",
        10_000,
        sound::at_half_cent,
        check,
    );
}

#[test]
fn a_raise_lowers_no_level() {
    let make = |random: &mut Random| sound::sound(random).bytes();
    run("levels of a raise", 20_000, make, |random, dossier| {
        let raised = raised(random, dossier);
        let hour = make::hour(random, dossier);
        let owner = random.pick(&OWNERS);
        let before = model_levels(dossier, hour, owner);
        let after = model_levels(&raised, hour, owner);
        match (&before, &after) {
            (Ok(before), Ok(after)) => same("no level is lower", none_lower(before, after), true),
            // an hour without fuel has none before or after
            _ => same("neither", (before, after), (refuse(20, 0), refuse(20, 0))),
        }
    });
}

/// A station has the levels that it has without its payments, whatever these come to: raised they move
/// no level.
#[test]
fn payments_join_no_level() {
    let cost = |r: &Record| match &r.kind.of {
        b"AD" => Some(r.get(ad::COST)),
        b"AO" => Some(r.get(ao::COST)),
        _ => None,
    };
    let make = |random: &mut Random| sound::sound(random).bytes();
    run("payments", 20_000, make, |random, dossier| {
        let hour = make::hour(random, dossier);
        let owner = random.pick(&OWNERS);
        let (mut without, mut raised) = (Vec::new(), dossier.to_vec());
        for record in records(dossier).expect("a sound dossier") {
            if cost(&record) == Some(ad::THIRD_PARTY) {
                let amount = record.kind.fields.last().expect("an amount");
                amount.write(&mut raised[record.start..], amount.highest);
            } else {
                without.extend(record.bytes);
            }
        }
        let levels = model_levels(dossier, hour, owner);
        same(
            "without them",
            model_levels(&without, hour, owner),
            levels.clone(),
        )?;
        same("with more", model_levels(&raised, hour, owner), levels)
    });
}

/// Whatever the other owner's amounts are, an owner's levels stay.
#[test]
fn the_other_owner_moves_nothing() {
    let make = |random: &mut Random| sound::sound(random).bytes();
    run("two owners", 20_000, make, |random, dossier| {
        let (hour, owner) = (make::hour(random, dossier), random.pick(&OWNERS));
        let mut moved = dossier.to_vec();
        for record in records(dossier).expect("a sound dossier") {
            if record.kind.mark == *b"AO" && record.get(ao::OWNER) != i128::from(owner) {
                let amount = random.spread(0, ao::AMOUNT.highest);
                ao::AMOUNT.write(&mut moved[record.start..], amount);
            }
        }
        let before = model_levels(dossier, hour, owner);
        same("levels", model_levels(&moved, hour, owner), before)
    });
}

/// Every byte for the owner: the levels of one of the two, or 3 at 0.
#[test]
fn owners() {
    let both = OWNERS.map(|owner| own(1, [owner, 1, 1, 4], 1_000_000 * i128::from(owner)));
    let dossier = [r1(), both.concat()].concat();
    for owner in 0..=255 {
        check_hour(&mut Random::new(0), &dossier, 0, owner).unwrap();
        check_hour(&mut Random::new(0), &vec![0; 60_001], 0, owner).unwrap();
        let reserve = model_levels(&dossier, 0, owner).map(|levels| levels.reserve);
        let expected = match owner {
            1 => Ok(Some(125)),
            2 => Ok(Some(225)),
            _ => refuse(3, 0),
        };
        assert_eq!(reserve, expected, "{owner}");
    }
}

#[test]
fn edges() {
    for points in 2..=22 {
        check(&mut Random::new(0), &evenly_rising(points, 1_000)).unwrap();
    }
    for dossier in make::edges() {
        check(&mut Random::new(0), &dossier).unwrap();
    }
    let mut random = Random::new(60_000);
    for _ in 0..10 {
        let mut dossier = sound::filled(&mut random, 60_000).bytes();
        check_hour(&mut random, &dossier, 0, OWNER).unwrap();
        dossier.push(0);
        check_hour(&mut random, &dossier, 0, OWNER).unwrap();
    }
}

#[test]
fn every_vector() {
    for vector in read() {
        let Vector::Program { input, output } = &vector else {
            continue;
        };
        if output.starts_with(b"profile") {
            let (hour, dossier) = input.split_first_chunk().expect("an hour");
            let levels = model_levels(dossier, u32::from_be_bytes(*hour), OWNER);
            // the last line counts what no level has
            let lines = level_lines(&levels.unwrap()) + "retired ";
            assert!(output.starts_with(lines.as_bytes()), "{vector:?}");
        }
    }
}
