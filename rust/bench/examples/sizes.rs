//! The times of the calls by the length of the dossier: for each technology from 1,000 to 60,000
//! bytes, without first hours, with them and with amounts of two owners, and for 375 to 3,000 fuels of
//! one key in every order of issues and first hours, the library beside the model.
//!
//! usage: sizes [ROUNDS] [--write FOLDER]
//!
//! A table for each of these: a cell is the nanoseconds of the model and of the library, and
//! their ratio. The last row shows the growth: nanoseconds of the library per byte, on the shortest
//! dossier and on the longest, and their ratio, about 1 or less where the time is linear. A nuclear
//! station has no single price to test. The status is 1 if an answer differs, and 2 if an argument
//! is wrong.
//!
//! --write leaves each dossier in the folder, and with them the smallest of each technology, some
//! batteries that charged now and then and some dossiers that are refused, behind what the calls
//! are asked, as anchor/ratio reads them, which is kept beside this repository and takes the inputs
//! that lie beside it. From the root of the repository, this times them beside the fastest unproved
//! C:
//!
//!     mkdir -p target/anchor
//!     cp ../shared/anchor/ratio ../shared/anchor/*.c target/anchor
//!     cargo run --profile timed --offline --quiet --manifest-path rust/Cargo.toml -p bench \
//!         --example sizes -- 1 --write target/anchor/inputs
//!     target/anchor/ratio --upto 12 --rounds 31

mod calls;
mod times;

use calls::{status, Input, CONDITION, HOUR, NAMES};
use model::make::dated::many_fuels;
use model::make::forecast::orders;
use model::make::sized::{sized, sized_dated, sized_owned};
use model::make::small::{charged, least, refused, small};
use model::table::{Technology, RESERVE, TECHNOLOGIES};
use std::fs;
use std::process::ExitCode;
use times::{cells, head, rounds, row, row_of, Times};

const LENGTHS: [usize; 7] = [1_000, 2_000, 4_000, 8_000, 16_000, 32_000, 60_000];

/// Records FV of one key, from 7 to 57 kilobytes.
const COUNTS: [u32; 4] = [375, 750, 1_500, 3_000];

/// The number of rounds and the folder.
fn arguments<'a>(words: &[&'a str]) -> Result<(usize, Option<&'a str>), String> {
    let (count, folder) = match *words {
        [] => (None, None),
        ["--write", folder] => (None, Some(folder)),
        [count] => (Some(count), None),
        [count, "--write", folder] | ["--write", folder, count] => (Some(count), Some(folder)),
        _ => return Err("usage: sizes [ROUNDS] [--write FOLDER]".to_string()),
    };
    Ok((rounds(count)?, folder))
}

/// Writes what the calls are put to: hour, condition, set of conditions, level, whether it is
/// refused, how many dossiers, the mark and key to look up, the offer behind its length, and the
/// dossier. A name begins with the first request whose C knows the station.
fn write(folder: &str, name: &str, input: &Input) -> Result<(), String> {
    let level = input.single.map_or(RESERVE, |(level, _)| level);
    let refused = u8::from(name.starts_with("refused"));
    let set = 1 << (CONDITION - 1);
    let asked = [CONDITION, set, level, refused, 1];
    let length = (input.offer.len() as u16).to_be_bytes();
    let ahead = [&HOUR.to_be_bytes()[..], &asked, b"FU\0\0\0\x01", &length].concat();
    let bytes = [&ahead[..], &input.offer, &input.dossier].concat();
    let request = match name {
        _ if name.starts_with("owned") => 12,
        _ if name.starts_with("dated") => 8,
        _ if name.starts_with("hydro") => 1,
        _ => 0,
    };
    let path = format!("{folder}/{request:02}-00-{name}");
    let written = fs::create_dir_all(folder).and_then(|()| fs::write(&path, bytes));
    written.map_err(|fault| format!("{path}: {fault}"))
}

/// Writes the smallest dossiers, and some that are refused.
fn write_small(folder: &str) -> Result<(), String> {
    for technology in TECHNOLOGIES {
        for (name, dossier) in small(technology) {
            let name = format!("{technology:?}-{name}").to_lowercase();
            write(folder, &name, &Input::of(dossier))?;
        }
    }
    for (name, dossier) in charged() {
        write(folder, &format!("storage-{name}"), &Input::of(dossier))?;
    }
    let mut input = Input::of(least(Technology::Thermal));
    for (name, dossier) in refused() {
        input.dossier = dossier;
        write(folder, &format!("refused-{name}"), &input)?;
    }
    Ok(())
}

/// Dossiers that grow, under a name.
struct Growing {
    name: String,
    /// The first is the shortest and the last the longest.
    inputs: Vec<Input>,
}

/// The tables: every technology without first hours, then with them, then with two owners, then fuels
/// of one key.
fn tables() -> Vec<Growing> {
    let of = |name: String, make: fn(Technology, usize) -> Vec<u8>, technology| Growing {
        name,
        inputs: LENGTHS
            .map(|length| Input::of(make(technology, length)))
            .into(),
    };
    let undated = TECHNOLOGIES.map(|t| of(format!("{t:?}"), sized, t));
    let dated = TECHNOLOGIES.map(|t| of(format!("Dated {t:?}"), sized_dated, t));
    let owned = TECHNOLOGIES.map(|t| of(format!("Owned {t:?}"), sized_owned, t));
    let fuels = orders().map(|(issues, hours)| Growing {
        name: format!("Dated fuels, issues {issues:?}, first hours {hours:?}"),
        inputs: COUNTS
            .map(|count| Input::of(many_fuels(count, issues, hours)))
            .into(),
    });
    let sized = undated.into_iter().chain(dated).chain(owned);
    sized.chain(fuels).collect()
}

/// Prints a table; whether all answers are the same.
fn table(growing: &Growing, rounds: usize, folder: Option<&str>) -> Result<bool, String> {
    println!("### {}\n\n{}", growing.name, head(&["bytes"]));
    let mut all_same = true;
    for input in &growing.inputs {
        let length = input.dossier.len();
        if let Some(folder) = folder {
            let name = growing
                .name
                .to_lowercase()
                .replace(", ", "-")
                .replace(' ', "-");
            write(folder, &format!("{name}-{length:05}"), input)?;
        }
        let cells = cells(rounds, input);
        println!("{}", row(&[&length.to_string()], &cells));
        all_same &= cells.iter().flatten().all(|cell| cell.same);
    }
    if let [shortest, .., longest] = &growing.inputs[..] {
        println!("{}\n", growth(rounds, shortest, longest));
    }
    Ok(all_same)
}

/// The last row: nanoseconds of the library per byte of two dossiers, and their ratio.
fn growth(rounds: usize, shortest: &Input, longest: &Input) -> String {
    let [short, long] = [shortest, longest].map(|input| input.dossier.len() as f64);
    let texts = NAMES.map(|name| {
        let (first, second) = (shortest.call(name)?, longest.call(name)?);
        let times = Times::of(rounds, &*first.library, &*second.library);
        let (first, second) = (times.first / short, times.second / long);
        let ratio = times.ratio * short / long;
        Some(format!("{first:.2} / {second:.2} / {ratio:.2}"))
    });
    row_of(&["ns per byte"], texts)
}

/// Prints every table; whether all answers are the same.
fn run(words: &[&str]) -> Result<bool, String> {
    let (rounds, folder) = arguments(words)?;
    let mut all_same = true;
    if let Some(folder) = folder {
        write_small(folder)?;
    }
    for growing in tables() {
        all_same &= table(&growing, rounds, folder)?;
    }
    Ok(all_same)
}

fn main() -> ExitCode {
    status(run, "An answer differs.")
}
