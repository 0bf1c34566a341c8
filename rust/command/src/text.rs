//! A dossier as plain text: one record a line, `FU issue=3 profile=1 fuel=4.00 emission=1.00`.
//!
//! Every field is written, in any order and just once: a gap is never filled. What stands behind a
//! `#` is a comment. `pack` and `unpack` undo each other.

use crate::marks::{listed, Field, Mark, MARKS};
use crate::near::hint;
use crate::plain::{bytes_behind, clean, encoding, lines};
pub use crate::plain::{is_meant_as_text, is_text, BOM};
use crate::record::records;

/// The longest dossier, in bytes.
pub const LONGEST: usize = 60_000;

/// How many wrong lines of a text are looked for: a file that is no dossier at all has one a line.
pub const MOST_WRONG: usize = 100;

/// A dossier, and the line that each of its records came from.
#[derive(Clone, Debug, Default, PartialEq, Eq)]
pub struct Packed {
    pub dossier: Vec<u8>,
    pub lines: Vec<usize>,
}

/// A line that can't be packed: its number, from 1, and what is wrong.
#[derive(Clone, Debug, PartialEq, Eq)]
pub struct WrongLine {
    pub line: usize,
    pub says: String,
}

/// The dossier of a text, or the wrong lines of it, up to [`MOST_WRONG`].
pub fn pack(text: &[u8]) -> Result<Packed, Vec<WrongLine>> {
    if let Some(encoding) = encoding(text).filter(|_| !is_text(text)) {
        let says = format!("the text is {encoding}: save it as UTF-8");
        return Err(vec![WrongLine { line: 1, says }]);
    }
    let text = text.strip_prefix(BOM).unwrap_or(text);
    let behind = bytes_behind(text);
    let text = &text[..behind.as_ref().map_or(text.len(), |(line, _)| *line)];
    let (packed, mut wrong) = read_lines(text);
    if let Some((_, says)) = behind.filter(|_| wrong.len() < MOST_WRONG) {
        let line = lines(text).count();
        wrong.push(WrongLine { line, says });
    }
    match wrong.is_empty() {
        true => Ok(packed),
        false => Err(wrong),
    }
}

/// The records of a text's lines, and what is wrong with the others.
fn read_lines(text: &[u8]) -> (Packed, Vec<WrongLine>) {
    let (mut packed, mut wrong) = (Packed::default(), Vec::new());
    for (line, content) in (1..).zip(lines(text)) {
        match record(content) {
            Ok(bytes) if bytes.is_empty() => {}
            Ok(bytes) if packed.dossier.len() + bytes.len() > LONGEST => {
                let says = format!("with this record the dossier is longer than {LONGEST} bytes");
                wrong.push(WrongLine { line, says });
                break;
            }
            Ok(bytes) => {
                packed.dossier.extend(bytes);
                packed.lines.push(line);
            }
            Err(says) => wrong.push(WrongLine { line, says }),
        }
        if wrong.len() == MOST_WRONG {
            break;
        }
    }
    (packed, wrong)
}

/// The text of a dossier that draws none of 13 and 1 to 3.
pub fn unpack(dossier: &[u8]) -> String {
    records(dossier).map(|r| r.text() + "\n").collect()
}

/// The bytes of a line's record, none for a line without one.
fn record(line: &[u8]) -> Result<Vec<u8>, String> {
    let content = clean(line)?.split('#').next().unwrap_or("");
    let mut words = content.split([' ', '\t']).filter(|w| !w.is_empty());
    let Some(letters) = words.next() else {
        return Ok(Vec::new());
    };
    let Some(mark) = Mark::of(letters.as_bytes()) else {
        let known: Vec<&str> = MARKS.iter().map(|m| m.letters).collect();
        return Err(unknown(letters, "mark", &known));
    };
    let numbers = numbers(mark, words).map_err(|says| format!("{letters}: {says}"))?;
    let fields = mark.fields.iter().zip(numbers);
    let bytes = fields.flat_map(|(field, number)| field.bytes(number));
    Ok(letters.bytes().chain(bytes).collect())
}

/// The numbers of a line's fields in the order of the bytes, if 3 allows them, or all that is wrong.
fn numbers<'a>(mark: &Mark, words: impl Iterator<Item = &'a str>) -> Result<Vec<i128>, String> {
    let (values, mut wrong) = values(mark, words);
    let mut numbers = Vec::new();
    for (field, value) in mark.fields.iter().zip(values) {
        let missing = || Err(format!("{} is missing: {}", field.name, field.range()));
        match value.map_or_else(missing, |value| number(field, value)) {
            Ok(number) => numbers.push(Some(number)),
            Err(says) => {
                numbers.push(None);
                wrong.push(says);
            }
        }
    }
    wrong.extend(mark.disagrees(|name| numbers[mark.position(name)]));
    match wrong.is_empty() {
        true => Ok(numbers.into_iter().flatten().collect()),
        false => Err(wrong.join("; ")),
    }
}

/// How many words of one line are told that are no field.
const MOST_WORDS: usize = 20;

/// The values of a line's fields in the order of the bytes, and what is wrong with its words.
fn values<'a>(
    mark: &Mark,
    words: impl Iterator<Item = &'a str>,
) -> (Vec<Option<&'a str>>, Vec<String>) {
    let (mut values, mut wrong) = (vec![None; mark.fields.len()], Vec::new());
    for word in words {
        match value(mark, word) {
            Ok((at, _)) if values[at].is_some() => {
                wrong.push(format!("{} stands twice", mark.fields[at].name));
            }
            Ok((at, value)) => values[at] = Some(value),
            Err(says) => wrong.push(says),
        }
        if wrong.len() == MOST_WORDS {
            wrong.push("and perhaps more".to_string());
            break;
        }
    }
    (values, wrong)
}

/// Which field a word is for, and its value.
fn value<'a>(mark: &Mark, word: &'a str) -> Result<(usize, &'a str), String> {
    let Some((name, value)) = word.split_once('=') else {
        return Err(format!("{} is no field: name=value", quoted(word)));
    };
    let names: Vec<&str> = mark.fields.iter().map(|f| f.name).collect();
    match names.iter().position(|n| *n == name) {
        Some(at) => Ok((at, value)),
        None => Err(unknown(name, "field", &names)),
    }
}

/// What a word is not, the one that was perhaps meant, and those that there are.
pub fn unknown(word: &str, what: &str, known: &[&str]) -> String {
    let (shown, meant) = (quoted(word), hint(word, known));
    format!("{shown} is no {what}{meant}: {}", listed(known))
}

/// The number of a field, if it lies in its range.
fn number(field: &Field, value: &str) -> Result<i128, String> {
    let says = match field.unit.read(value) {
        Ok(number) if field.allows(number) => return Ok(number),
        Err(why) if !field.is_word() => why.says(),
        _ => String::new(),
    };
    let meant = hint(value, &field.unit.all_words());
    let (name, value) = (field.name, shortened(value));
    Err(format!("{name}={value}{says}{meant}: {}", field.range()))
}

/// A word of the text between quotes.
pub fn quoted(word: &str) -> String {
    format!("'{}'", shortened(word))
}

/// A word of the text that is safe to show: no control characters, and not longer than a line.
pub fn shortened(word: &str) -> String {
    let letter = |c: char| match c {
        '\'' | '"' => String::from(c),
        c => c.escape_debug().collect(),
    };
    let mut shown: String = word.chars().take(40).map(letter).collect();
    if word.chars().nth(40).is_some() {
        shown.push('…');
    }
    shown
}
