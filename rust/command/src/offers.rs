//! `bench offers`: many stations, hours, conditions, offers and prices in one run, one a line:
//! `station=gas.txt hour=7 condition=narrow offer=50.0@42.30,100.0@63.46`.

mod line;

use crate::answer::{only_file, wrong_lines, Said, Status, Stop, Streams};
use crate::args::Args;
use crate::conduct::test;
use crate::csv;
use crate::form::Form;
use crate::input::{is_cut, name, read, read_bytes, Input, Name, MOST};
use crate::json::{object, Json};
use crate::many::{count, counted, Progress};
use crate::output::apart_from_standard_output;
use crate::plain::{encoding, is_meant_as_text};
use crate::text::WrongLine;
use crate::together::{join, told, with_files};
use line::Asked;
use std::ffi::OsString;

pub fn run(args: &Args, streams: &mut Streams) -> Result<Status, Stop> {
    let form = Form::of(args, csv::OFFERS)?;
    let file = only_file(args)?;
    let text = text(&file).map_err(|says| Stop::Failed(format!("{}: {says}", name(&file))))?;
    let lines = line::all(&text);
    if lines.is_empty() {
        return Err(Stop::Use(format!("{} has no offer", name(&file))));
    }
    apart_from_standard_output(&stations(&lines))?;
    write!(streams.out, "{}", form.head())?;
    let (mut status, mut counts, mut shelf) = (Status::Done, Vec::new(), Shelf::default());
    let mut progress = Progress::new(lines.len(), "offers");
    for (number, asked) in &lines {
        progress.next(streams)?;
        let answer = Answer::to(*number, asked, &mut shelf);
        status = status.max(answer.said.status);
        count(&mut counts, answer.said.counts_as);
        progress.give_way(streams)?;
        write!(streams.out, "{}", answer.shown(&form))?;
    }
    progress.clear(streams)?;
    if form.is_words() {
        let offers = match lines.len() {
            1 => "1 offer".to_string(),
            n => format!("{n} offers"),
        };
        writeln!(streams.out, "{offers}: {}", counted(&counts))?;
    }
    Ok(status)
}

/// The files that the lines name.
fn stations(lines: &[(usize, Result<Asked, String>)]) -> Vec<OsString> {
    let asked = lines.iter().filter_map(|(_, asked)| asked.as_ref().ok());
    let mut stations: Vec<OsString> = asked.flat_map(|asked| asked.stations.clone()).collect();
    stations.sort_unstable();
    stations.dedup();
    stations
}

/// The text of an offers file.
fn text(file: &OsString) -> Result<Vec<u8>, String> {
    let bytes = read_bytes(file)?;
    if is_cut(&bytes) {
        return Err(format!("it has more than {} MiB", MOST >> 20));
    }
    match (encoding(&bytes), is_meant_as_text(&bytes)) {
        (Some(encoding), _) => Err(format!("the text is {encoding}: save it as UTF-8")),
        (None, false) => Err("it is no text with an offer a line".to_string()),
        (None, true) => Ok(bytes),
    }
}

/// The station that was read last: offers to one station stand together as a rule, and no more than
/// one is kept.
#[derive(Default)]
struct Shelf {
    files: Vec<OsString>,
    station: Option<Input>,
}

impl Shelf {
    /// The station that files form, or what is said of files that form none.
    fn station(&mut self, files: &[OsString]) -> Result<&Input, Said> {
        if self.station.is_none() || self.files != files {
            self.files = files.to_vec();
            self.station = None;
            self.station = Some(match files {
                [file] => read(file).map_err(|error| error.said())?,
                files => join(files).map_err(|said| with_files(files, said))?,
            });
        }
        self.station.as_ref().ok_or_else(|| wrong_lines(&[]))
    }
}

/// What is said of one line of the offers file.
struct Answer {
    line: usize,
    /// The station's name, where the line tells one.
    station: Option<Name>,
    said: Said,
}

impl Answer {
    fn to(line: usize, asked: &Result<Asked, String>, shelf: &mut Shelf) -> Answer {
        let asked = match asked {
            Ok(asked) => asked,
            Err(says) => {
                let says = says.clone();
                return Answer {
                    line,
                    station: None,
                    said: wrong_lines(&[WrongLine { line, says }]),
                };
            }
        };
        Answer {
            line,
            station: Some(Name::joined(&asked.stations)),
            said: match shelf.station(&asked.stations) {
                Ok(input) => told(input, test(input, &asked.question)),
                Err(said) => said,
            },
        }
    }

    fn shown(&self, form: &Form) -> String {
        match (form, &self.station) {
            (Form::Words, Some(station)) => {
                let refused = self.said.json.member("refused");
                let details = refused.map_or(String::new(), csv::details);
                format!(
                    "line {}: {station}: {}{details}\n",
                    self.line, self.said.line
                )
            }
            (Form::Words, None) => format!("{}\n", self.said.line),
            (Form::Json, _) => format!("{}\n", self.json()),
            (Form::Csv(columns), _) => csv::rows(columns, &self.json()),
        }
    }

    fn json(&self) -> Json {
        let unnamed = || object([("file", Json::Null)]);
        let file = self.station.as_ref().map_or_else(unnamed, Name::json);
        let line = object([("line", Json::whole(self.line))]);
        line.and(file).and(self.said.json.clone())
    }
}
