//! Runs of many cases, each made from the run's seed and its own number.

use crate::random::Random;
use crate::vectors::hex;
use std::fmt::Debug;
use std::io::Write;
use std::sync::atomic::{AtomicBool, Ordering};

/// What is wrong with a case, if anything is.
pub type Check = Result<(), String>;

const THREADS: u64 = 2;

/// The seed in BENCH_SEED, or a fixed one.
pub fn seed() -> u64 {
    match std::env::var("BENCH_SEED") {
        Ok(seed) => seed.parse().expect("BENCH_SEED is a number"),
        Err(_) => 14_250,
    }
}

/// Makes and checks this many cases. The first wrong one stops the run, which then prints the seed,
/// the number of the case and its bytes.
pub fn run(
    name: &str,
    count: u64,
    make: impl Fn(&mut Random) -> Vec<u8> + Sync,
    check: impl Fn(&mut Random, &[u8]) -> Check + Sync,
) {
    let seed = seed();
    // straight to the terminal: a test's own printing is shown only if it fails
    let _ = writeln!(std::io::stderr(), "{name}: {count} cases, seed {seed}");
    let stop = AtomicBool::new(false);
    let share = |thread: u64| {
        for case in (thread..count).step_by(THREADS as usize) {
            let mut random = Random::of_case(seed, case);
            let bytes = make(&mut random);
            if let Err(what) = check(&mut random, &bytes) {
                stop.store(true, Ordering::Relaxed);
                let bytes = hex(&bytes);
                panic!("{name}, seed {seed}, case {case}: {what}\ndossier {bytes}");
            }
            if stop.load(Ordering::Relaxed) {
                return;
            }
        }
    };
    std::thread::scope(|scope| {
        for thread in 0..THREADS {
            let share = &share;
            scope.spawn(move || share(thread));
        }
    });
}

/// What came out must be what was expected.
pub fn same<T: PartialEq + Debug>(what: &str, came: T, expected: T) -> Check {
    if came == expected {
        Ok(())
    } else {
        Err(format!("{what}: {came:?}, expected {expected:?}"))
    }
}
