//! Every call on a thread that has no more stack than the documents ask for.

use bench::{Verdict, REPORT_BYTES};
use model::make::dated::many_fuels;
use model::make::forecast::{full, Order, FULL_LEVEL};
use model::make::offers;
use model::make::written::record;
use model::OWNER;
use std::thread::Builder;

const STACK: usize = 256 * 1024;

/// The dossiers that take the most, each with an hour and its first energy level: a forecast asks for
/// the wide index, an older record behind a newer one for the search for twins, and first hours for
/// that of what counts at some hour.
fn deepest() -> Vec<(Vec<u8>, u32, u64)> {
    let older = record(b"FU", 0, &[1, 0, 0]);
    let forecast = [full(Order::Any, Order::Any), older].concat();
    let ahead = record(b"FV", 2, &[7, 1, 0, 0]);
    let dated = [&forecast[..], &ahead].concat();
    let fuels = many_fuels(3_000, Order::Any, Order::Any);
    let level = model::levels(&fuels, 2_999, OWNER).unwrap().energy[0].level;
    vec![
        (forecast, 0, FULL_LEVEL),
        (dated, 0, FULL_LEVEL),
        (fuels, 2_999, level),
    ]
}

fn every_call(dossier: &[u8], hour: u32, level: u64) {
    assert_eq!(bench::accept(dossier), Ok(()));
    assert_eq!(bench::current(dossier, *b"RS", 0).bytes.len(), 31);
    let levels = bench::levels(dossier, hour, OWNER).unwrap();
    assert_eq!(levels.energy[0].level, level);
    let offer = offers::bytes(&[(1_000, level as i32)]);
    let verdict = bench::energy_test(dossier, hour, OWNER, 1, &offer);
    assert_eq!(verdict, Ok(Verdict::Passes));
    let verdict = bench::price_test(dossier, hour, OWNER, 4, 1, 25);
    assert_eq!(verdict, Ok(Verdict::Passes));
    let mut buffer = [0; REPORT_BYTES];
    assert!(bench::report(dossier, hour, OWNER, &mut buffer).is_ok());
    assert!(bench::week(dossier).is_ok());
}

#[test]
fn on_a_small_stack() {
    for (dossier, hour, level) in deepest() {
        let thread = Builder::new().stack_size(STACK);
        let calls = thread.spawn(move || every_call(&dossier, hour, level));
        calls.unwrap().join().unwrap();
    }
}
