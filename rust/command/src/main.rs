//! The program: what the system hands over goes to `command::run`, and its status back.

use command::answer::Streams;
use std::ffi::OsString;
use std::io::{self, BufWriter, IsTerminal};
use std::process::ExitCode;

fn main() -> ExitCode {
    let words: Vec<OsString> = std::env::args_os().skip(1).collect();
    let mut streams = Streams {
        out: &mut BufWriter::new(io::stdout().lock()),
        err: &mut io::stderr().lock(),
        out_watched: io::stdout().is_terminal(),
        err_watched: io::stderr().is_terminal(),
    };
    ExitCode::from(command::run(&words, &mut streams).code())
}
