//! Several files as one station, `--together`: texts and bytes in any mix, joined record by record.
//!
//! Each file is taken by itself before it is joined, so that neither a missing line end nor a cut
//! record at the end of one can reach into the next.

use crate::answer::{files, one, only_file, readable, Said, Status, Stop, Streams};
use crate::args::Args;
use crate::form::Form;
use crate::input::{self, Input, Name};
use crate::json::{object, Json};
use crate::lines::{Lines, Part};
use crate::record::records;
use std::ffi::OsString;

/// Asks for the one station that these files form, and writes the answer.
pub fn ask(
    files: &[OsString],
    streams: &mut Streams,
    form: &Form,
    ask: impl Fn(&Input) -> Said,
) -> Result<Status, Stop> {
    let (name, said) = match join(files) {
        Ok(input) => (input.name.clone(), told(&input, ask(&input))),
        Err(wrong) => (Name::joined(files), with_files(files, wrong)),
    };
    Ok(one(form, streams, &name, &said)?)
}

/// What is said of a station, with the names of its files where there are several.
pub fn told(input: &Input, said: Said) -> Said {
    let names = input.lines.parts.iter().map(|part| part.name.clone());
    match &names.collect::<Vec<Name>>()[..] {
        [] => said,
        names => with_names(names, said),
    }
}

/// The station of a call that takes one: from its only file, or from all of them together. Without
/// one, what is said of that, under its name.
pub fn only(args: &Args) -> Result<Result<Input, (Name, Said)>, Stop> {
    if args.has("together") {
        let files = files(args)?;
        let wrong = |said| (Name::joined(&files), with_files(&files, said));
        return Ok(join(&files).map_err(wrong));
    }
    if args.files.len() > 1 {
        let says = "it takes one file, or several as one station with --together";
        return Err(Stop::Use(says.to_string()));
    }
    let file = only_file(args)?;
    let wrong = |error: input::NoInput| (input::name(&file), error.said());
    Ok(input::read(&file).map_err(wrong))
}

/// Asks for the station of a call that takes one, as a picture does, and writes the answer.
pub fn ask_only(
    args: &Args,
    streams: &mut Streams,
    form: &Form,
    ask: impl Fn(&Input) -> Result<Said, Stop>,
) -> Result<Status, Stop> {
    let (name, said) = match only(args)? {
        Ok(input) => (input.name.clone(), told(&input, ask(&input)?)),
        Err(wrong) => wrong,
    };
    Ok(one(form, streams, &name, &said)?)
}

/// What is said of files that form no station, with their names.
pub fn with_files(files: &[OsString], said: Said) -> Said {
    let names: Vec<Name> = files.iter().map(|file| input::name(file)).collect();
    with_names(&names, said)
}

/// The names of the files in an answer's object, before what is said of them.
fn with_names(names: &[Name], said: Said) -> Said {
    let json = Name::list(names).and(said.json);
    Said { json, ..said }
}

/// The station that files form, or what is said of those that can't be taken.
pub fn join(files: &[OsString]) -> Result<Input, Said> {
    let (mut dossier, mut lines, mut wrong) = (Vec::new(), Lines::default(), Vec::new());
    for file in files {
        match alone(file) {
            Ok(input) => append(&mut dossier, &mut lines, input),
            Err(said) => wrong.push((input::name(file), said)),
        }
    }
    let name = Name::joined(files);
    match wrong.is_empty() {
        true => Ok(Input {
            name,
            dossier,
            lines,
        }),
        false => Err(all_wrong(wrong)),
    }
}

/// A file that is whole by itself: a text that packs, or bytes that the library can read, with a
/// record at least.
fn alone(file: &OsString) -> Result<Input, Said> {
    let input = input::read(file).map_err(|error| error.said())?;
    readable(&input.dossier, &input.lines)?;
    Ok(input)
}

fn append(dossier: &mut Vec<u8>, lines: &mut Lines, input: Input) {
    lines.parts.push(Part {
        name: input.name,
        records: lines.lines.len(),
        bytes: dossier.len(),
    });
    let count = records(&input.dossier).count();
    let line = |index| input.lines.get(index).copied().unwrap_or(0);
    lines.lines.extend((0..count).map(line));
    dossier.extend(input.dossier);
}

/// What is said of files that can't be taken, each under its name.
fn all_wrong(wrong: Vec<(Name, Said)>) -> Said {
    let told = |(name, said): &(Name, Said)| {
        format!(
            "\n  {name}: {}",
            said.words.trim_end().replace('\n', "\n  ")
        )
    };
    let words: String = wrong.iter().map(told).collect();
    let object = |(name, said): &(Name, Said)| name.json().and(said.json.clone());
    let objects = wrong.iter().map(object).collect();
    let head = match wrong.len() {
        1 => "a file can't be taken".to_string(),
        n => format!("{n} files can't be taken"),
    };
    let weightiest = wrong.iter().map(|(_, said)| said);
    let weightiest = weightiest.max_by_key(|said| said.status);
    let first = wrong.first().map_or(String::new(), |(name, said)| {
        format!(", {name}: {}", said.line)
    });
    Said {
        status: weightiest.map_or(Status::Wrong, |said| said.status),
        counts_as: weightiest.map_or("refused", |said| said.counts_as),
        line: format!("{head}{first}"),
        words: format!("{head}{words}\n"),
        json: self::object([("wrong-files", Json::List(objects))]),
    }
}
