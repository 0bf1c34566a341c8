//! The report, with the lent buffer compared to its last byte.

use crate::refusal;
use model::cases::{run, same, Check};
use model::make::owners::own;
use model::make::withdrawn::{payment, stations};
use model::make::written::{r1, R1_LINES};
use model::make::{self, sound};
use model::random::Random;
use model::report::{refusal_line, text};
use model::table::{OWNERS, TECHNOLOGIES};
use model::vectors::{read, Vector};
use model::OWNER;

/// One buffer of this length, filled before the call.
fn check_buffer(
    random: &mut Random,
    dossier: &[u8],
    (hour, owner): (u32, u8),
    length: usize,
) -> Check {
    let before: Vec<u8> = (0..length).map(|_| random.next() as u8).collect();
    let (mut mine, mut yours) = (before.clone(), before);
    let written = bench::report(dossier, hour, owner, &mut mine).map_err(refusal);
    let model = model::report(dossier, hour, owner, &mut yours);
    let what = format!("a buffer of {length} bytes at {hour}, owner {owner}");
    same(&what, (written, mine), (model, yours))
}

/// Buffers just too short, just long enough, and far from either.
fn check(random: &mut Random, dossier: &[u8]) -> Check {
    let hour = make::hour(random, dossier);
    let owner = make::owner(random);
    let length = text(dossier, hour, owner).map_or(3, |text| text.len());
    let far = random.spread(0, 2_000) as usize;
    for length in [length - 1, length, length + 1, far] {
        check_buffer(random, dossier, (hour, owner), length)?;
    }
    Ok(())
}

#[test]
fn dossiers_of_every_sort() {
    run("report", 50_000, make::dossier, check);
}

#[test]
fn every_length_of_a_buffer() {
    let mut random = Random::new(1);
    for n in 0..20 {
        let technology = TECHNOLOGIES[n % TECHNOLOGIES.len()];
        let dossier = sound::with_levels_at(&mut random, technology, 0).bytes();
        let length = text(&dossier, 0, OWNER).unwrap().len();
        let enough = bench::REPORT_BYTES;
        for length in (0..length + 20).chain(enough - 1..enough + 2) {
            check_buffer(&mut random, &dossier, (0, OWNER), length).unwrap();
        }
    }
}

#[test]
fn r1_byte_for_byte() {
    let mut buffer = [b'x'; 100];
    assert_eq!(
        bench::report(&r1(), 0, OWNER, &mut buffer),
        Ok(R1_LINES.len())
    );
    assert!(buffer.starts_with(R1_LINES));
    assert!(buffer[R1_LINES.len()..].iter().all(|byte| *byte == b'x'));
}

/// The last line: one payment for each level that has one.
#[test]
fn retired_payments() {
    for (technology, mut dossier) in stations() {
        for (count, level) in (1..).zip(technology.levels()) {
            dossier.extend(payment(1, 1, *level, 1_000_000_000_000));
            let mut buffer = [b'x'; bench::REPORT_BYTES];
            let length = bench::report(&dossier, 0, OWNER, &mut buffer).unwrap();
            let line = format!("\nretired {count}\n");
            assert!(buffer[..length].ends_with(line.as_bytes()));
            check(&mut Random::new(0), &dossier).unwrap();
        }
    }
}

/// Payments of an owner are counted in its reports alone: common ones, and up to four of its own.
#[test]
fn retired_payments_of_an_owner() {
    for (technology, station) in stations() {
        let mut dossier = station.clone();
        for level in technology.levels() {
            dossier.extend(payment(1, 1, *level, 7));
            dossier.extend(own(1, [2, 1, 4, *level], 7));
        }
        let held = technology.levels().len();
        for (owner, count) in OWNERS.into_iter().zip([held, 2 * held]) {
            let mut buffer = [b'x'; bench::REPORT_BYTES];
            let length = bench::report(&dossier, 0, owner, &mut buffer).unwrap();
            let line = format!("\nretired {count}\n");
            assert!(buffer[..length].ends_with(line.as_bytes()), "{owner}");
        }
        check(&mut Random::new(0), &dossier).unwrap();
    }
}

#[test]
fn edges() {
    for dossier in make::edges() {
        check(&mut Random::new(0), &dossier).unwrap();
    }
}

#[test]
fn the_longest_dossiers() {
    let make = |random: &mut Random| sound::filled(random, 60_000).bytes();
    run("report of 60,000 bytes", 10, make, check);
}

#[test]
fn every_vector() {
    for vector in read() {
        let Vector::Program { input, output } = &vector else {
            continue;
        };
        if let Some((hour, dossier)) = input.split_first_chunk() {
            let mut buffer = vec![b'x'; output.len()];
            let written = bench::report(dossier, u32::from_be_bytes(*hour), OWNER, &mut buffer);
            let text = match written.map_err(refusal) {
                Ok(length) => buffer[..length].to_vec(),
                Err(refusal) => refusal_line(refusal),
            };
            assert_eq!(text, *output, "{vector:?}");
        }
    }
}
