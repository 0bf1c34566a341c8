//! `bench pack` and `bench unpack`: a dossier from text, and text from a dossier.

use crate::answer::{one, only_file, readable, refused, wrong_lines, Said, Status, Stop, Streams};
use crate::args::Args;
use crate::explain::of_dossier;
use crate::form::Form;
use crate::input::{is_cut, name, read_bytes, Name};
use crate::lines::Lines;
use crate::output;
use crate::plain::has_record;
use crate::text::{is_meant_as_text, is_text, pack as packed, unpack as unpacked};
use crate::together::only;
use bench::Refusal;

/// A dossier from text; one in bytes stays as it is. Several files are one dossier `--together`.
pub fn pack(args: &Args, streams: &mut Streams) -> Result<Status, Stop> {
    let (name, packed) = match only(args)? {
        Ok(input) => {
            let packed = readable(&input.dossier, &input.lines).map(|()| input.dossier);
            (input.name, packed)
        }
        Err((name, said)) => (name, Err(said)),
    };
    finish(args, streams, &name, packed)
}

/// Text from a dossier, and tidy text from text.
pub fn unpack(args: &Args, streams: &mut Streams) -> Result<Status, Stop> {
    convert(args, streams, |input| {
        let dossier = match is_text_here(input) {
            true => packed(input).map_err(|lines| wrong_lines(&lines))?.dossier,
            false => input.to_vec(),
        };
        readable(&dossier, &Lines::default())?;
        Ok(unpacked(&dossier).into_bytes())
    })
}

/// Whether `unpack` takes an input for text. A dossier of LC alone may look like text; it is bytes if
/// the library can read it and no line begins as that of a record.
fn is_text_here(input: &[u8]) -> bool {
    let is_bytes = || !has_record(input) && readable(input, &Lines::default()).is_ok();
    is_meant_as_text(input) && !is_bytes()
}

/// Writes what becomes of the one input; nothing is opened for writing before it is all there.
fn convert(
    args: &Args,
    streams: &mut Streams,
    become_of: impl Fn(&[u8]) -> Result<Vec<u8>, Said>,
) -> Result<Status, Stop> {
    let file = only_file(args)?;
    let name = name(&file);
    let bytes = match read_bytes(&file) {
        Ok(bytes) => bytes,
        Err(says) => return Err(Stop::Failed(format!("{name}: {says}"))),
    };
    let result = if is_cut(&bytes) {
        let refusal = Refusal {
            number: 13,
            place: 0,
        };
        Err(refused(&of_dossier(refusal, &[], &Lines::default())))
    } else {
        become_of(&bytes)
    };
    finish(args, streams, &name, result)
}

/// Writes what became of the input, or says why there is nothing.
fn finish(
    args: &Args,
    streams: &mut Streams,
    name: &Name,
    result: Result<Vec<u8>, Said>,
) -> Result<Status, Stop> {
    match (result, args.value("out")) {
        (Ok(bytes), Some(path)) => output::write(path, &bytes)?,
        (Ok(bytes), None) => print(streams, &bytes)?,
        (Err(said), _) => return Ok(one(&Form::Words, streams, name, &said)?),
    }
    Ok(Status::Done)
}

fn print(streams: &mut Streams, bytes: &[u8]) -> Result<(), Stop> {
    if streams.out_watched && !is_text(bytes) {
        let says = "a dossier is bytes: send them to a file, with --out OUT";
        return Err(Stop::Use(says.to_string()));
    }
    Ok(streams.out.write_all(bytes)?)
}
