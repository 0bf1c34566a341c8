//! Where a dossier comes from: a file or standard input, text or bytes.

use crate::json::{object, Json};
use crate::lines::Lines;
use crate::text::{is_meant_as_text, pack, WrongLine};
use std::ffi::{OsStr, OsString};
use std::fmt::{self, Display, Formatter};
use std::fs::File;
use std::io::{self, Read};
use std::os::unix::ffi::OsStrExt;

/// A dossier with the name of its input and where each record stands in that.
#[derive(Debug)]
pub struct Input {
    pub name: Name,
    pub dossier: Vec<u8>,
    pub lines: Lines,
}

/// Why there is no dossier.
#[derive(Debug)]
pub enum NoInput {
    Unreadable(String),
    Wrong(Vec<WrongLine>),
}

/// The most that is read of an input. A text with comments may be longer than its dossier; what is
/// longer than this, perhaps without end, draws 13 as the dossier it would be.
pub const MOST: u64 = 16 << 20;

/// What stands for standard input among the files.
pub const STANDARD: &str = "-";

/// How a file is called in answers.
#[derive(Clone, Debug, PartialEq, Eq)]
pub struct Name {
    words: String,
    /// The value of an object's member `file`.
    file: Json,
    /// Its bytes, where they are no text.
    bytes: Option<Json>,
}

impl Name {
    /// How several files that form one station are called.
    pub fn joined(files: &[OsString]) -> Name {
        if let [file] = files {
            return name(file);
        }
        let names: Vec<String> = files.iter().map(|file| name(file).words).collect();
        let words = names.join(" + ");
        Name {
            words: short(&words),
            file: Json::Text(words),
            bytes: None,
        }
    }

    /// The members of an object that name several files one by one.
    pub fn list(names: &[Name]) -> Json {
        let files = names.iter().map(|name| name.file.clone());
        let files = object([("files", Json::List(files.collect()))]);
        if names.iter().all(|name| name.bytes.is_none()) {
            return files;
        }
        let bytes = |name: &Name| name.bytes.clone().unwrap_or(Json::Null);
        let bytes = names.iter().map(bytes).collect();
        files.with("files-bytes", Json::List(bytes))
    }

    /// The members of an object that name it.
    pub fn json(&self) -> Json {
        let file = object([("file", self.file.clone())]);
        match &self.bytes {
            Some(bytes) => file.with("file-bytes", bytes.clone()),
            None => file,
        }
    }
}

impl Display for Name {
    fn fmt(&self, to: &mut Formatter<'_>) -> fmt::Result {
        to.write_str(&self.words)
    }
}

const STANDARD_WORDS: &str = "standard input";

/// How an input or output is called in answers. No two are called alike: standard input keeps its `-`
/// in JSON, which is no name for a file, and bytes that are no text are told.
pub fn name(file: &OsStr) -> Name {
    let words = match file.to_str() {
        Some(STANDARD) => STANDARD_WORDS.to_string(),
        Some(STANDARD_WORDS) => format!("./{STANDARD_WORDS}"),
        Some("") => "''".to_string(),
        _ => short(&shown(file, |c| c.is_control())),
    };
    let bytes = || file.as_bytes().iter().map(|b| format!("{b:02x}"));
    Name {
        words,
        file: Json::Text(shown(file, |_| false)),
        bytes: match file.to_str() {
            Some(_) => None,
            None => Some(Json::Text(bytes().collect())),
        },
    }
}

/// A name with some characters, and all bytes that are no text, as their codes: a terminal must not
/// obey a name.
fn shown(file: &OsStr, coded: impl Fn(char) -> bool) -> String {
    let mut shown = String::new();
    for chunk in file.as_bytes().utf8_chunks() {
        let letter = |c: char| match coded(c) {
            true => c.escape_default().collect(),
            false => String::from(c),
        };
        shown.extend(chunk.valid().chars().map(letter));
        shown.extend(chunk.invalid().iter().map(|b| format!("\\x{b:02x}")));
    }
    shown
}

/// The longest name that is told in full, in letters.
const LONGEST_NAME: usize = 240;

/// A name in words, of a very long one both ends.
fn short(name: &str) -> String {
    let count = name.chars().count();
    if count <= LONGEST_NAME {
        return name.to_string();
    }
    let (half, letters) = (LONGEST_NAME / 2, || name.chars());
    let ends = letters().take(half).chain(['…']);
    ends.chain(letters().skip(count - half)).collect()
}

/// Whether more was there than is read.
pub fn is_cut(bytes: &[u8]) -> bool {
    bytes.len() as u64 > MOST
}

/// The bytes of a file or of standard input.
pub fn read_bytes(file: &OsString) -> Result<Vec<u8>, String> {
    let mut bytes = Vec::new();
    let read = if file == STANDARD {
        io::stdin().lock().take(MOST + 1).read_to_end(&mut bytes)
    } else {
        File::open(file).and_then(|f| f.take(MOST + 1).read_to_end(&mut bytes))
    };
    match read {
        Ok(_) => Ok(bytes),
        Err(error) => Err(format!("can't be read: {error}")),
    }
}

/// The dossier of a file or of standard input; text and bytes are told apart.
pub fn read(file: &OsString) -> Result<Input, NoInput> {
    let bytes = read_bytes(file).map_err(NoInput::Unreadable)?;
    let name = name(file);
    if is_cut(&bytes) || !is_meant_as_text(&bytes) {
        return Ok(Input {
            name,
            dossier: bytes,
            lines: Lines::default(),
        });
    }
    let packed = pack(&bytes).map_err(NoInput::Wrong)?;
    Ok(Input {
        name,
        dossier: packed.dossier,
        lines: packed.lines.into(),
    })
}
