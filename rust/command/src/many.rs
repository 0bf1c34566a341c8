//! Many inputs at once: a line each, a count at the end, and for a person who waits how far it is.

use crate::answer::{files, one, Said, Status, Stop, Streams};
use crate::args::Args;
use crate::form::Form;
use crate::input::{name, read, Input};
use crate::together;
use std::ffi::OsString;
use std::io;
use std::time::{Duration, Instant};

/// Asks for each input of a call and writes the answers; a single one is answered in full.
pub fn each(
    args: &Args,
    streams: &mut Streams,
    form: &Form,
    ask: impl Fn(&Input) -> Said,
) -> Result<Status, Stop> {
    let files = files(args)?;
    if args.has("together") {
        return together::ask(&files, streams, form, ask);
    }
    let said = |file: &OsString| match read(file) {
        Ok(input) => ask(&input),
        Err(error) => error.said(),
    };
    if let [file] = &files[..] {
        return Ok(one(form, streams, &name(file), &said(file))?);
    }
    let (mut status, mut counts) = (Status::Done, Vec::new());
    let mut progress = Progress::new(files.len(), "files");
    write!(streams.out, "{}", form.head())?;
    for file in &files {
        progress.next(streams)?;
        let said = said(file);
        status = status.max(said.status);
        count(&mut counts, said.counts_as);
        progress.give_way(streams)?;
        write!(streams.out, "{}", form.among_many(&name(file), &said))?;
    }
    progress.clear(streams)?;
    if form.is_words() {
        writeln!(streams.out, "{} files: {}", files.len(), counted(&counts))?;
    }
    Ok(status)
}

/// Counts one more answer of a sort.
pub fn count(counts: &mut Vec<(&'static str, usize)>, what: &'static str) {
    match counts.iter_mut().find(|(w, _)| *w == what) {
        Some((_, n)) => *n += 1,
        None => counts.push((what, 1)),
    }
}

/// The counts in words.
pub fn counted(counts: &[(&'static str, usize)]) -> String {
    let counts = counts.iter().map(|(what, n)| format!("{n} {what}"));
    counts.collect::<Vec<String>>().join(", ")
}

/// How often the line changes at most.
const PAUSE: Duration = Duration::from_millis(100);

/// A line on the terminal of standard error that says how far the work is, written over again and
/// again.
pub struct Progress {
    of: usize,
    /// What is counted.
    what: &'static str,
    at: usize,
    /// When the line was last written.
    written: Option<Instant>,
    /// Whether it is there.
    shown: bool,
}

impl Progress {
    pub fn new(of: usize, what: &'static str) -> Progress {
        Progress {
            of,
            what,
            at: 0,
            written: None,
            shown: false,
        }
    }

    /// Goes on to the next input.
    pub fn next(&mut self, streams: &mut Streams) -> io::Result<()> {
        self.at += 1;
        if streams.err_watched && self.written.is_none_or(|t| t.elapsed() > PAUSE) {
            self.written = Some(Instant::now());
            self.shown = true;
            streams.out.flush()?;
            let Progress { of, what, at, .. } = self;
            write!(streams.err, "\r\x1b[K{at} of {of} {what}")?;
            streams.err.flush()?;
        }
        Ok(())
    }

    /// Takes the line away where an answer comes to stand on the same screen.
    pub fn give_way(&mut self, streams: &mut Streams) -> io::Result<()> {
        match streams.out_watched {
            true => self.clear(streams),
            false => Ok(()),
        }
    }

    pub fn clear(&mut self, streams: &mut Streams) -> io::Result<()> {
        if std::mem::take(&mut self.shown) {
            write!(streams.err, "\r\x1b[K")?;
            streams.err.flush()?;
        }
        Ok(())
    }
}
