//! Where a record was read: its line, where it came as text, and its file, where a station comes
//! from several.

use crate::input::Name;
use crate::json::{object, Json};
use crate::record::Record;

/// One file of a station that comes from several.
#[derive(Clone, Debug, PartialEq, Eq)]
pub struct Part {
    pub name: Name,
    /// How many records of the dossier lie before its first.
    pub records: usize,
    /// How many bytes do.
    pub bytes: usize,
}

/// The lines of a dossier's records, and its files where there are several.
#[derive(Clone, Debug, Default, PartialEq, Eq)]
pub struct Lines {
    /// A line for each record, 0 for one that came as bytes; none at all for a dossier in bytes.
    pub lines: Vec<usize>,
    /// The files in their order, where there are several.
    pub parts: Vec<Part>,
}

/// Where a record stands in what it was read from.
#[derive(Clone, Debug, PartialEq, Eq)]
pub struct Origin {
    /// Its file, where there are several.
    pub file: Option<Name>,
    /// Its line, where the file is text.
    pub line: Option<usize>,
    /// Its first byte in a file of bytes; in the dossier, where there is one file.
    pub place: usize,
}

/// The lines of a single text.
impl From<Vec<usize>> for Lines {
    fn from(lines: Vec<usize>) -> Lines {
        let parts = Vec::new();
        Lines { lines, parts }
    }
}

impl Lines {
    /// The line of a record by its place among the records, from 0.
    pub fn get(&self, index: usize) -> Option<&usize> {
        self.lines.get(index).filter(|line| **line > 0)
    }

    pub fn origin(&self, record: &Record) -> Origin {
        let before = |part: &&Part| part.records < record.number;
        let part = self.parts.iter().rev().find(before);
        Origin {
            file: part.map(|p| p.name.clone()),
            line: self.get(record.number - 1).copied(),
            place: record.start - part.map_or(0, |p| p.bytes),
        }
    }
}

impl Origin {
    /// Line or place, and the file where there are several; empty for a single file in bytes, whose
    /// place is the dossier's.
    pub fn words(&self) -> String {
        match (self.line, &self.file) {
            (Some(line), Some(file)) => format!("line {line} of {file}"),
            (None, Some(file)) => format!("byte {} of {file}", self.place),
            (Some(line), None) => format!("line {line}"),
            (None, None) => String::new(),
        }
    }

    /// The members of a record's object that tell its file and, where that is bytes, its place there;
    /// none where there is one file.
    pub fn json(&self) -> Json {
        let place = match self.line {
            Some(_) => Json::Null,
            None => Json::whole(self.place),
        };
        match &self.file {
            Some(file) => file.json().with("place-in-file", place),
            None => object([]),
        }
    }
}
