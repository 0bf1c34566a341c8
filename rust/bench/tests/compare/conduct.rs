//! The conduct test of energy offers and single prices, also under a raise.

use crate::refusal;
use model::cases::{run, same, Check};
use model::make::offers::{bytes, condition, level, offer, price, Target};
use model::make::owners::own;
use model::make::written::{r1, record};
use model::make::{self, sound};
use model::raise::raised;
use model::random::Random;
use model::vectors::read;
use model::{Failing, Verdict, OWNER};

type Answer = Result<Verdict, model::Refusal>;

/// The model's answer from Bench's.
fn answer(answer: Result<bench::Verdict, bench::Refusal>) -> Answer {
    let verdict = |verdict| match verdict {
        bench::Verdict::Passes => Verdict::Passes,
        bench::Verdict::Fails(bench::Failing { pair, lamination }) => {
            Verdict::Fails(Failing { pair, lamination })
        }
    };
    answer.map(verdict).map_err(refusal)
}

fn energy(dossier: &[u8], hour: u32, owner: u8, condition: u8, offer: &[u8]) -> Answer {
    answer(bench::energy_test(dossier, hour, owner, condition, offer))
}

fn single(dossier: &[u8], hour: u32, owner: u8, level: u8, condition: u8, price: i32) -> Answer {
    answer(bench::price_test(
        dossier, hour, owner, level, condition, price,
    ))
}

/// Mostly dossiers that the test gets beyond acceptance with.
fn mostly_sound(random: &mut Random) -> Vec<u8> {
    if random.one_in(8) {
        make::dossier(random)
    } else {
        sound::sound(random).bytes()
    }
}

/// Four offers and four prices; what passes must pass under a raise too.
fn check(random: &mut Random, dossier: &[u8]) -> Check {
    let hour = make::hour(random, dossier);
    let owner = make::owner(random);
    let target = Target::of(dossier, hour, owner);
    let raise = model::accept(dossier)
        .map(|()| raised(random, dossier))
        .ok();
    for _ in 0..4 {
        let condition = condition(random);
        let offer = offer(random, &target, condition);
        let verdict = energy(dossier, hour, owner, condition, &offer);
        let model = model::energy_test(dossier, hour, owner, condition, &offer);
        same(
            &format!("at {hour}, owner {owner}, {condition}, {offer:?}"),
            verdict,
            model,
        )?;
        let level = level(random, &target);
        let price = price(random, &target, level, condition);
        let single_verdict = single(dossier, hour, owner, level, condition, price);
        let model = model::price_test(dossier, hour, owner, level, condition, price);
        let what = format!("at {hour}, owner {owner}, {condition}, level {level}, {price}");
        same(&what, single_verdict, model)?;
        let Some(raise) = &raise else { continue };
        if verdict == Ok(Verdict::Passes) {
            let after = energy(raise, hour, owner, condition, &offer);
            same("under a raise", after, verdict)?;
        }
        if single_verdict == Ok(Verdict::Passes) {
            let after = single(raise, hour, owner, level, condition, price);
            same("under a raise", after, single_verdict)?;
        }
    }
    Ok(())
}

/// 200,000 offers and as many prices.
#[test]
fn offers_and_prices() {
    run("conduct", 50_000, mostly_sound, check);
}

#[test]
fn edges() {
    for dossier in make::edges() {
        check(&mut Random::new(0), &dossier).unwrap();
    }
}

#[test]
fn twenty_pairs_and_other_lengths() {
    let dossier = [r1(), record(b"TH", 1, &[1, 1, 50, 2_500, 0])].concat();
    for top in [6_345, 6_346] {
        let pairs: Vec<_> = (1..=22).map(|n| (n, top)).collect();
        let offer = bytes(&pairs);
        for length in 0..offer.len() {
            let offer = &offer[..length];
            let model = model::energy_test(&dossier, 0, OWNER, 1, offer);
            same("verdict", energy(&dossier, 0, OWNER, 1, offer), model).unwrap();
        }
    }
}

/// Every byte for level and condition.
#[test]
fn levels_and_conditions() {
    let dossier = [r1(), record(b"TH", 1, &[3, 4, 0, 0, 0])].concat();
    for (level, condition) in (0..=255).flat_map(|l| (0..=255).map(move |c| (l, c))) {
        let model = model::price_test(&dossier, 0, OWNER, level, condition, 26);
        let verdict = single(&dossier, 0, OWNER, level, condition, 26);
        same("verdict", verdict, model).unwrap();
    }
}

/// Every byte for the owner, on a plant whose owners have other levels: one of each, or 3 at 0.
#[test]
fn owners() {
    let limit = record(b"TH", 1, &[1, 4, 0, 0, 0]);
    let both = [(1, 1_000_000), (2, 2_000_000)];
    let both = both.map(|(owner, amount)| own(1, [owner, 1, 1, 4], amount));
    let dossier = [r1(), limit, both.concat()].concat();
    let mut passed = Vec::new();
    for owner in 0..=255 {
        for price in [125, 126, 225, 226] {
            let verdict = single(&dossier, 0, owner, 4, 1, price);
            let model = model::price_test(&dossier, 0, owner, 4, 1, price);
            same("verdict", verdict, model).unwrap();
            if verdict == Ok(Verdict::Passes) {
                passed.push((owner, price));
            }
        }
    }
    assert_eq!(passed, [(1, 125), (2, 125), (2, 126), (2, 225)]);
}

#[test]
fn every_vector() {
    for vector in read() {
        if let Some((found, expected)) = vector.judged(energy, single) {
            assert_eq!(found, *expected, "{vector:?}");
        }
    }
}
