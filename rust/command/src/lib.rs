//! The command `bench`: dossiers as text, answers in words and JSON, tables and pictures.
//!
//! It computes no level and takes no verdict: each comes from the proved library, through the crate
//! `bench`. What is said beside them, in words, is read from the dossier's records.

pub mod answer;
pub mod args;
mod changes;
mod check;
mod conduct;
mod csv;
mod day;
pub mod explain;
mod form;
mod help;
pub mod input;
pub mod json;
mod lacks;
mod levels;
pub mod lines;
mod many;
pub mod marks;
mod near;
pub mod needs;
pub mod new;
pub mod offer;
mod offers;
mod output;
mod pack;
pub mod picture;
mod pipe;
pub mod plain;
pub mod query;
pub mod record;
pub mod rules;
mod table;
pub mod terms;
pub mod text;
mod together;
pub mod unit;
mod week;

use answer::{Status, Stop, Streams};
use args::{Args, Choice};
use pipe::Pipe;
use std::ffi::OsString;

/// One subcommand.
struct Command {
    name: &'static str,
    choices: &'static [Choice],
    help: &'static str,
    run: fn(&Args, &mut Streams) -> Result<Status, Stop>,
}

const COMMANDS: [Command; 10] = [
    Command {
        name: "new",
        choices: &[],
        help: help::NEW,
        run: new::run,
    },
    Command {
        name: "pack",
        choices: &[("out", true), ("together", false)],
        help: help::PACK,
        run: pack::pack,
    },
    Command {
        name: "unpack",
        choices: &[("out", true)],
        help: help::UNPACK,
        run: pack::unpack,
    },
    Command {
        name: "check",
        choices: &[("together", false), ("json", false)],
        help: help::CHECK,
        run: check::run,
    },
    Command {
        name: "levels",
        choices: &[
            ("hour", true),
            ("owner", true),
            ("together", false),
            ("json", false),
            ("csv", false),
        ],
        help: help::LEVELS,
        run: levels::run,
    },
    Command {
        name: "explain",
        choices: &[
            ("hour", true),
            ("owner", true),
            ("level", true),
            ("together", false),
            ("json", false),
        ],
        help: help::EXPLAIN,
        run: terms::run,
    },
    Command {
        name: "test",
        choices: &[
            ("hour", true),
            ("owner", true),
            ("condition", true),
            ("offer", true),
            ("level", true),
            ("price", true),
            ("together", false),
            ("json", false),
            ("csv", false),
        ],
        help: help::TEST,
        run: conduct::run,
    },
    Command {
        name: "offers",
        choices: &[("json", false), ("csv", false)],
        help: help::OFFERS,
        run: offers::run,
    },
    Command {
        name: "day",
        choices: &[
            ("from", true),
            ("hours", true),
            ("owner", true),
            ("svg", true),
            ("at", true),
            ("svg-day", true),
            ("condition", true),
            ("offer", true),
            ("together", false),
            ("json", false),
            ("csv", false),
        ],
        help: help::DAY,
        run: day::run,
    },
    Command {
        name: "week",
        choices: &[
            ("all", false),
            ("svg", true),
            ("together", false),
            ("json", false),
            ("csv", false),
        ],
        help: help::WEEK,
        run: week::run,
    },
];

/// Carries out a call, given the words behind the program's name.
pub fn run(words: &[OsString], streams: &mut Streams) -> Status {
    let mut streams = Streams {
        out: &mut Pipe::new(streams.out),
        err: &mut Pipe::new(streams.err),
        ..*streams
    };
    let done = called(words, &mut streams).and_then(|status| {
        streams.out.flush()?;
        Ok(status)
    });
    let (says, hint) = match done {
        Ok(status) => return status,
        Err(Stop::Io(error)) => (format!("the answer can't be written: {error}"), false),
        Err(Stop::Failed(says)) => (says, false),
        Err(Stop::Use(says)) => (says, true),
    };
    let name = words.first().and_then(|word| command(word));
    let name = name.map_or(String::new(), |c| format!(" {}", c.name));
    // Nothing is left to tell if standard error can't be written either.
    let _ = writeln!(streams.err, "bench{name}: {says}");
    if hint {
        let _ = writeln!(streams.err, "'bench{name} --help' says how it is called");
    }
    Status::Wrong
}

fn command(word: &OsString) -> Option<&'static Command> {
    COMMANDS.iter().find(|c| *word == *c.name)
}

/// Pages of help beside those of the commands.
const PAGES: [&str; 2] = ["fields", "records"];

/// What may stand in place of a command.
const OTHERS: [&str; 3] = ["help", "--help", "--version"];

/// What a call prints that asks for nothing but help or the version.
fn page(words: &[OsString]) -> Option<String> {
    let words = words.iter().take(2).map(|word| word.to_str().unwrap_or(""));
    match words.collect::<Vec<&str>>()[..] {
        ["--help" | "-h", ..] | ["help"] | ["help", "help" | "--help" | "-h"] => {
            Some(help::ALL.to_string())
        }
        ["--version" | "-V", ..] => Some(format!("bench {}\n", env!("CARGO_PKG_VERSION"))),
        ["help", "fields"] => Some(help::fields()),
        ["help", "records"] => Some(new::page()),
        _ => None,
    }
}

fn called(words: &[OsString], streams: &mut Streams) -> Result<Status, Stop> {
    if let Some(page) = page(words) {
        write!(streams.out, "{page}")?;
        return Ok(Status::Done);
    }
    let (first, rest) = match words {
        [] => return Err(Stop::Use("a command is missing".to_string())),
        [help, of, ..] if help == "help" => (of, &[OsString::from("--help")][..]),
        [first, rest @ ..] => (first, rest),
    };
    let command = command(first).ok_or_else(|| no_command(first, words[0] == "help"))?;
    let mut options = rest.iter().take_while(|word| *word != "--");
    if options.any(|word| word == "--help" || word == "-h") {
        write!(streams.out, "{}", command.help)?;
        return Ok(Status::Done);
    }
    let args = Args::read(rest, command.choices)?;
    output::check(&args)?;
    (command.run)(&args, streams)
}

/// What is said of a command that there isn't, or of a page of help.
fn no_command(word: &OsString, help: bool) -> Stop {
    let word = word.to_string_lossy();
    let others = if help { &PAGES[..] } else { &OTHERS };
    let names = COMMANDS
        .iter()
        .map(|c| c.name)
        .chain(others.iter().copied());
    let names: Vec<&str> = names.collect();
    let (shown, meant) = (text::quoted(&word), near::hint(&word, &names));
    Stop::Use(format!("no command is called {shown}{meant}"))
}
