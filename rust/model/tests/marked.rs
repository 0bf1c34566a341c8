//! The marked values M1 to M9 and the worked examples of the storage memo (source document 002).

mod common;

use common::{energy_level, with};
use model::accept::{accepted, hours_of_charge};
use model::costs::{charging_cost, opportunity_cost};
use model::levels::Micro;
use model::make::offers;
use model::make::written::{nuclear_at, plain_thermal, r1, record, storage, R1_LINES};
use model::memo::examples;
use model::{accept, energy_test, levels, price_test, program, report, Failing, Verdict, OWNER};

const fn fails(pair: usize, lamination: usize) -> Verdict {
    Verdict::Fails(Failing { pair, lamination })
}

/// The line behind them is that of request 10.
#[test]
fn m1_five_lines() {
    let mut buffer = [b'x'; 100];
    assert_eq!(report(&r1(), 0, OWNER, &mut buffer), Ok(R1_LINES.len()));
    assert!(buffer.starts_with(R1_LINES));
    assert!(buffer[R1_LINES.len()..].iter().all(|b| *b == b'x'));
    assert_eq!(program(&[vec![0; 4], r1()].concat()), R1_LINES);
}

#[test]
fn m2_half_up() {
    assert_eq!(energy_level(&nuclear_at(42_304_999)), 4_230);
    assert_eq!(energy_level(&nuclear_at(42_305_000)), 4_231);
}

#[test]
fn m3_percent_is_the_lesser() {
    let dossier = with(r1(), &[record(b"TH", 1, &[1, 1, 50, 2_500, 0])]);
    assert_eq!(energy_level(&dossier), 4_230);
    let test = |price| energy_test(&dossier, 0, OWNER, 1, &offers::bytes(&[(1_000, price)]));
    assert_eq!(test(6_345), Ok(Verdict::Passes));
    assert_eq!(test(6_346), Ok(fails(1, 1)));
}

#[test]
fn m4_at_least_the_floor() {
    let costs = [
        record(b"AD", 1, &[1, 1, 4, 10_000_000]),
        record(b"TH", 1, &[1, 4, 50, 2_500, 2_500]),
    ];
    let dossier = with(plain_thermal(), &costs);
    assert_eq!(levels(&dossier, 0, OWNER).unwrap().reserve, Some(1_000));
    assert_eq!(
        price_test(&dossier, 0, OWNER, 4, 1, 2_499),
        Ok(Verdict::Passes)
    );
    assert_eq!(price_test(&dossier, 0, OWNER, 4, 1, 2_500), Ok(fails(0, 0)));
}

/// Table 4 of the memo, rows "Storage Duration", "DA State of Charge" and "RT State of Charge"
/// (lines 538 to 540): 168 hours, and ROUNDDOWN (300.0 ÷ 80.0) = 3 hours.
#[test]
fn m5_hours_of_charge() {
    let dossier = storage(3_000, 800, &[0; 168]);
    assert_eq!(hours_of_charge(&accepted(&dossier).unwrap()), 3);
}

#[test]
fn m6_to_m8_the_memos_examples() {
    for example in examples() {
        let level = energy_level(&example.dossier);
        assert_eq!(level, example.level, "{}", example.name);
    }
}

#[test]
fn equal_prices_count_each() {
    let dossier = storage(3_000, 800, &[5_000, 9_000, 5_000, 9_000, 9_000]);
    let station = accepted(&dossier).unwrap();
    assert_eq!(opportunity_cost::<Micro>(&station), Micro(90_000_000));
}

/// Equation 3 of the memo (line 378), which comes without numbers of its own: the price times the
/// energy of each of the week's 2,016 intervals, over the week's energy. Half the week at 20.00
/// and half at 50.00 with twice the energy must give 40.00.
#[test]
fn equation_3_over_a_full_week() {
    let interval = |i| {
        let (price, energy) = if i % 2 == 0 { (2_000, 5) } else { (5_000, 10) };
        record(b"CH", 1, &[i, price, energy])
    };
    let week: Vec<_> = (1..=2_016).map(interval).collect();
    let dossier = with(storage(3_000, 800, &[0; 3]), &week);
    let station = accepted(&dossier).unwrap();
    assert_eq!(charging_cost::<Micro>(&station), Micro(40_000_000));
}

#[test]
fn m9_the_highest_issue_counts() {
    let level = |issues: [u32; 2], fuels: [i128; 2]| {
        let fuel = |i: usize| record(b"FU", issues[i], &[1, fuels[i], 0]);
        energy_level(&with(plain_thermal(), &[fuel(0), fuel(1)]))
    };
    // 8 GJ per MWh
    assert_eq!(level([7, 6], [5_000_000, 9_000_000]), 4_000);
    assert_eq!(level([6, 7], [9_000_000, 5_000_000]), 4_000);
}

/// Each term rounded to cents would give 0.02; the sum is 0.01.
#[test]
fn only_the_sum_is_rounded() {
    let more = [
        record(b"AD", 1, &[1, 1, 4, 5_000]),
        record(b"AD", 1, &[1, 2, 4, 5_000]),
    ];
    let dossier = with(plain_thermal(), &more);
    assert_eq!(accept(&dossier), Ok(()));
    assert_eq!(levels(&dossier, 0, OWNER).unwrap().reserve, Some(1));
}

/// The pair from 40.0 to 60.0 MW overlaps both laminations and is tested in the lower one too.
#[test]
fn a_pair_is_not_tested_only_at_its_top() {
    let records = [
        record(b"RS", 1, &[1, 1_000, 1_000, 0, 0, 0, 0, 0, 0]),
        record(b"HP", 1, &[1, 0, 0]),
        record(b"HP", 1, &[2, 500, 100_000]),
        record(b"HP", 1, &[3, 1_000, 500_000]),
        record(b"FU", 1, &[1, 1_000_000, 0]),
        record(b"TH", 1, &[1, 1, 0, 0, 0]),
    ];
    let test =
        |pairs: &[(u16, i32)]| energy_test(&records.concat(), 0, OWNER, 1, &offers::bytes(pairs));
    assert_eq!(test(&[(400, 200), (600, 800)]), Ok(fails(2, 1)));
    assert_eq!(test(&[(500, 200), (600, 800)]), Ok(Verdict::Passes));
    assert_eq!(test(&[(500, 200), (600, 801)]), Ok(fails(2, 2)));
}
