//! What a command says of an input: in a line, in words and in JSON, with the status it ends with.

use crate::args::Args;
use crate::explain::{of_dossier, Explained};
use crate::form::Form;
use crate::input::{Name, NoInput, STANDARD};
use crate::json::{object, Json};
use crate::lines::Lines;
use crate::output::apart_from_standard_output;
use crate::text::{WrongLine, MOST_WRONG};
use std::ffi::OsString;
use std::io::{self, IsTerminal, Write};

/// How a call ends: its exit status. A later one weighs more where many inputs are asked for.
#[derive(Clone, Copy, Debug, PartialEq, Eq, PartialOrd, Ord)]
pub enum Status {
    /// All that was asked for was done.
    Done,
    /// An offer fails.
    Fails,
    /// Some of what was asked for is refused, and the rest is answered: a day with hours without fuel.
    Partly,
    /// A refusal, by the library or of a line of text.
    Refused,
    /// The call itself can't be carried out.
    Wrong,
}

impl Status {
    pub fn code(self) -> u8 {
        match self {
            Status::Done => 0,
            Status::Partly | Status::Refused => 1,
            Status::Wrong => 2,
            Status::Fails => 3,
        }
    }
}

/// Where a command writes, and which of it a person watches.
pub struct Streams<'a> {
    pub out: &'a mut dyn Write,
    pub err: &'a mut dyn Write,
    /// Whether standard output is a terminal.
    pub out_watched: bool,
    /// Whether standard error is one.
    pub err_watched: bool,
}

/// Why a command ends before its answer.
#[derive(Debug)]
pub enum Stop {
    /// Wrong use, and what is wrong.
    Use(String),
    /// What the call asked for can't be done, though it was called as it should be.
    Failed(String),
    Io(io::Error),
}

impl From<io::Error> for Stop {
    fn from(error: io::Error) -> Stop {
        Stop::Io(error)
    }
}

impl From<String> for Stop {
    fn from(says: String) -> Stop {
        Stop::Use(says)
    }
}

/// What is said of one input.
#[derive(Debug)]
pub struct Said {
    pub status: Status,
    /// What it counts as among many: `accepted`, `refused`.
    pub counts_as: &'static str,
    pub line: String,
    pub words: String,
    /// The members of the answer's object behind the file's name.
    pub json: Json,
}

impl Said {
    /// The same with more members behind those that it has.
    pub fn with(self, members: Json) -> Said {
        let json = self.json.and(members);
        Said { json, ..self }
    }
}

/// A refusal of an input as an answer.
pub fn refused(explained: &Explained) -> Said {
    let (status, counts_as) = match explained.rule.is_known() {
        true => (Status::Refused, "refused"),
        false => (Status::Wrong, "not understood"),
    };
    Said {
        status,
        counts_as,
        line: explained.line(),
        words: explained.words(),
        json: object([("refused", explained.json())]),
    }
}

/// Whether the library can read a dossier that has a record at all. What a later rule refuses has a
/// text all the same, and needs one most; a file without a record is one that wasn't written.
pub fn readable(dossier: &[u8], lines: &Lines) -> Result<(), Said> {
    match bench::accept(dossier) {
        Err(refusal) if dossier.is_empty() || !matches!(refusal.number, 4..=9 | 17) => {
            Err(refused(&of_dossier(refusal, dossier, lines)))
        }
        _ => Ok(()),
    }
}

impl NoInput {
    /// Why an input gave no dossier, as an answer.
    pub fn said(&self) -> Said {
        match self {
            NoInput::Unreadable(says) => Said {
                status: Status::Wrong,
                counts_as: "unreadable",
                line: says.clone(),
                words: format!("{says}\n"),
                json: object([("unreadable", Json::text(says))]),
            },
            NoInput::Wrong(lines) => wrong_lines(lines),
        }
    }
}

/// How many wrong lines of one input are told in words.
const MOST_LINES: usize = 20;

/// Lines that can't be packed, as an answer.
pub fn wrong_lines(lines: &[WrongLine]) -> Said {
    let told = lines.iter().take(MOST_LINES).map(WrongLine::words);
    let told: Vec<String> = told.collect();
    let (line, words) = match &told[..] {
        [first, _, ..] => {
            let least = match lines.len() < MOST_WRONG {
                true => "",
                false => "at least ",
            };
            let head = format!("{least}{} wrong lines", lines.len());
            let more = if lines.len() > told.len() {
                "\n  and more"
            } else {
                ""
            };
            let list = told.join("\n  ");
            (
                format!("{head}, {first}"),
                format!("{head}\n  {list}{more}\n"),
            )
        }
        _ => (told.concat(), told.concat() + "\n"),
    };
    let lines = lines.iter().map(WrongLine::json).collect();
    Said {
        status: Status::Refused,
        counts_as: "refused",
        line,
        words,
        json: object([("wrong-lines", Json::List(lines))]),
    }
}

impl WrongLine {
    fn words(&self) -> String {
        format!("line {}: {}", self.line, self.says)
    }

    fn json(&self) -> Json {
        object([
            ("line", Json::whole(self.line)),
            ("says", Json::text(&self.says)),
        ])
    }
}

/// The files of a call; standard input without any.
pub fn named_or_standard(args: &Args) -> Vec<OsString> {
    match args.files.is_empty() {
        true => vec![STANDARD.into()],
        false => args.files.clone(),
    }
}

/// The files of a call that reads them; without any a person must not be sitting there.
pub fn files(args: &Args) -> Result<Vec<OsString>, Stop> {
    if args.files.is_empty() && io::stdin().is_terminal() {
        return Err(Stop::Use("a file is missing".to_string()));
    }
    let files = named_or_standard(args);
    apart_from_standard_output(&files)?;
    Ok(files)
}

/// The one file of a call that takes no more.
pub fn only_file(args: &Args) -> Result<OsString, Stop> {
    match &files(args)?[..] {
        [file] => Ok(file.clone()),
        _ => Err(Stop::Use("it takes one file".to_string())),
    }
}

/// The answer to a single input, in full. A refusal is an error; in JSON and in a table it is an
/// answer as well.
pub fn one(form: &Form, streams: &mut Streams, name: &Name, said: &Said) -> io::Result<Status> {
    if matches!(said.status, Status::Refused | Status::Wrong) {
        write!(streams.err, "{name}: {}", said.words)?;
    } else if form.is_words() {
        write!(streams.out, "{}", said.words)?;
    }
    if !form.is_words() {
        write!(
            streams.out,
            "{}{}",
            form.head(),
            form.among_many(name, said)
        )?;
    }
    Ok(said.status)
}

/// The answer as an object.
pub fn with_file(name: &Name, said: &Said) -> Json {
    name.json().and(said.json.clone())
}
