//! Acceptance, and the lookup of current records.

use crate::refusal;
use model::cases::{run, same, Check};
use model::dossier::records;
use model::make::written::{evenly_rising, r1};
use model::make::{self, forecast, sound};
use model::raise::raised;
use model::random::Random;
use model::report::refusal_line;
use model::table::{kind_of, Field, Kind, Role, TABLE};
use model::vectors::{read, Vector};

fn check(_: &mut Random, dossier: &[u8]) -> Check {
    let answer = bench::accept(dossier).map_err(refusal);
    same("accept", answer, model::accept(dossier))
}

#[test]
fn dossiers_of_every_sort() {
    run("accept", 200_000, make::dossier, check);
}

#[test]
fn raised_dossiers_stay_accepted() {
    let make = |random: &mut Random| sound::sound(random).bytes();
    run("accept a raise", 20_000, make, |random, dossier| {
        let raised = raised(random, dossier);
        same("accept", bench::accept(dossier), Ok(()))?;
        same("accept the raise", bench::accept(&raised), Ok(()))
    });
}

#[test]
fn the_longest_dossiers() {
    let make = |random: &mut Random| {
        let mut dossier = sound::filled(random, 60_000).bytes();
        dossier.resize(random.pick(&[60_000, 60_000, 59_999, 60_001]), b'H');
        dossier
    };
    run("accept 60,000 bytes", 40, make, check);
}

#[test]
fn edges() {
    let mut edges = vec![vec![], b"R".to_vec(), b"RS".to_vec(), b"XY".to_vec()];
    edges.extend([vec![0; 60_000], vec![0; 60_001]]);
    edges.extend([evenly_rising(21, 1_000), evenly_rising(22, 1_000)]);
    edges.extend((0..r1().len()).map(|length| r1()[..length].to_vec()));
    edges.extend(make::edges());
    for dossier in edges {
        check(&mut Random::new(0), &dossier).unwrap();
    }
}

/// The model's part for a key that is given as a number: empty if the number has more bytes than
/// the mark's key.
fn part<'a>(dossier: &'a [u8], mark: [u8; 2], key: u32) -> bench::Part<'a> {
    let width = kind_of(&mark).map_or(4, |kind| kind.key_width);
    let bytes = key.to_be_bytes();
    let (above, key) = bytes.split_at(4 - width);
    if above.iter().any(|byte| *byte != 0) {
        return bench::Part {
            start: 0,
            bytes: &[],
        };
    }
    bench::Part {
        start: model::current_start(dossier, &mark, key),
        bytes: model::current(dossier, &mark, key),
    }
}

fn number(key: &[u8]) -> u32 {
    key.iter()
        .fold(0, |number, byte| number << 8 | u32::from(*byte))
}

/// Some keys of a mark in bounds, and keys out of bounds by one field or by their width.
fn keys(random: &mut Random, kind: &Kind) -> Vec<u32> {
    let width = kind.key_width;
    let is_key = |field: &&Field| field.role == Role::Key;
    let key_fields: Vec<_> = kind.fields.iter().filter(is_key).collect();
    let mut record = vec![0; kind.length];
    // one byte more than the key has; there is none above the four bytes of AO
    let above = 1_u32.checked_shl(8 * width as u32);
    let mut keys = vec![0, 1, u32::MAX];
    keys.extend(above);
    for _ in 0..2 {
        for field in &key_fields {
            let inside = random.between(field.lowest, field.highest);
            field.write(&mut record, inside);
        }
        let inside = number(kind.key(&record));
        keys.push(inside);
        keys.extend(above.map(|above| inside + above));
    }
    if let Some(field) = key_fields.first() {
        let beyond = random.pick(&[field.lowest - 1, field.highest + 1]);
        field.write(&mut record, beyond);
        keys.push(number(kind.key(&record)));
    }
    keys
}

fn check_lookup(random: &mut Random, dossier: &[u8]) -> Check {
    let mut asked: Vec<([u8; 2], u32)> = vec![(*b"XX", 1), (*b"rs", 0), (*b"UF", 1), ([0, 0], 0)];
    for kind in &TABLE {
        asked.extend(keys(random, kind).into_iter().map(|key| (kind.mark, key)));
    }
    let present = records(dossier).unwrap_or_default();
    for _ in 0..present.len().min(12) {
        let record = random.pick(&present);
        // under either mark of its key
        let marks = TABLE.iter().filter(|kind| kind.of == record.kind.of);
        asked.extend(marks.map(|kind| (kind.mark, number(record.key()))));
    }
    for (mark, key) in asked {
        let what = format!("current {mark:?} {key}");
        let found = bench::current(dossier, mark, key);
        same(&what, found, part(dossier, mark, key))?;
    }
    Ok(())
}

#[test]
fn keys_present_absent_and_out_of_bounds() {
    run("current", 2_500, make::dossier, check_lookup);
}

/// Keys of FP in and out of bounds, where the forecast is full and where the dossier draws 17.
#[test]
fn every_place_of_a_forecast() {
    let full = forecast::full(forecast::Order::Any, forecast::Order::Any);
    for dossier in [&full[..], &full[..full.len() - 12]] {
        for key in (0..=4_100).step_by(41).chain([1, 3_999, 4_000, 4_001]) {
            let found = bench::current(dossier, *b"FP", key);
            same(&format!("FP {key}"), found, part(dossier, *b"FP", key)).unwrap();
        }
        check_lookup(&mut Random::new(0), dossier).unwrap();
    }
}

/// Of a program's output, acceptance decides whether it is a refusal, and which. It names no hour, so
/// that 20 is none of its own.
#[test]
fn every_vector() {
    for vector in read() {
        match &vector {
            Vector::Program { input, output } if input.len() >= 4 => {
                let refused = bench::accept(&input[4..]).map_err(refusal).err();
                let expected = Some(output).filter(|line| line.starts_with(b"refused"));
                let expected = expected.filter(|line| *line != b"refused 20 at 0\n");
                assert_eq!(refused.map(refusal_line).as_ref(), expected, "{vector:?}");
            }
            Vector::Lookup {
                dossier,
                mark,
                key,
                part,
            } => {
                let (start, bytes) = part.clone().unwrap_or_default();
                let found = bench::current(dossier, *mark, number(key));
                assert_eq!(
                    (found.start, found.bytes),
                    (start, &bytes[..]),
                    "{vector:?}"
                );
            }
            _ => {}
        }
    }
}
