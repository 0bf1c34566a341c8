//! The program `levels` as its users run it: bytes in, lines out.

use model::cases::{run, same, Check};
use model::make;
use model::make::written::r1;
use model::random::Random;
use model::vectors::{read, Vector};
use std::io::{ErrorKind, Write};
use std::process::{Command, Stdio};

const PROGRAM: &str = concat!(env!("CARGO_MANIFEST_DIR"), "/../../target/bin/levels");

/// Standard output for this standard input.
fn output(input: &[u8]) -> Result<Vec<u8>, String> {
    let mut program = Command::new(PROGRAM)
        .stdin(Stdio::piped())
        .stdout(Stdio::piped())
        .stderr(Stdio::piped())
        .spawn()
        .map_err(|error| format!("target/bin/levels: {error}"))?;
    let mut stdin = program.stdin.take().expect("a pipe");
    match stdin.write_all(input) {
        // It may answer an overlong input before it has read it all.
        Err(error) if error.kind() != ErrorKind::BrokenPipe => return Err(error.to_string()),
        _ => drop(stdin),
    }
    let done = program.wait_with_output().map_err(|e| e.to_string())?;
    same("ends by itself", done.status.code().is_some(), true)?;
    same("says nothing else", done.stderr.is_empty(), true)?;
    Ok(done.stdout)
}

fn check(_: &mut Random, input: &[u8]) -> Check {
    let lines = |bytes: &[u8]| String::from_utf8_lossy(bytes).into_owned();
    let (printed, model) = (output(input)?, model::program(input));
    same("output", lines(&printed), lines(&model))
}

/// An hour and a dossier and, now and then, less than an hour.
fn input(random: &mut Random) -> Vec<u8> {
    let dossier = make::dossier(random);
    let hour = make::hour(random, &dossier);
    let mut input = [&hour.to_be_bytes()[..], &dossier].concat();
    if random.one_in(50) {
        input.truncate(random.below(5) as usize);
    }
    input
}

#[test]
fn inputs_of_every_sort() {
    run("program", 20_000, input, check);
}

#[test]
fn every_vector() {
    for vector in read() {
        if let Vector::Program {
            input,
            output: expected,
        } = &vector
        {
            let printed = output(input).unwrap();
            assert_eq!(printed, *expected, "{vector:?}");
        }
    }
}

#[test]
fn short_empty_and_overlong_inputs() {
    let whole = [vec![0; 4], r1()].concat();
    let mut inputs: Vec<Vec<u8>> = (0..whole.len()).map(|n| whole[..n].to_vec()).collect();
    for length in [60_003, 60_004, 60_005, 65_536, 1_000_000] {
        let mut long = whole.clone();
        long.resize(length, b'F');
        inputs.push(long);
    }
    let mut random = Random::new(60_000);
    let full = make::sound::filled(&mut random, 60_000).bytes();
    inputs.push([vec![0; 4], full].concat());
    for input in inputs {
        check(&mut random, &input).unwrap();
    }
}

#[test]
fn edges() {
    for dossier in make::edges() {
        let input = [vec![0; 4], dossier].concat();
        check(&mut Random::new(0), &input).unwrap();
    }
}
