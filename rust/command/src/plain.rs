//! Text and bytes told apart, and what in a text is no text.

use crate::marks::Mark;
use crate::record::{records, Record};

/// What some programs write before a text, to say that it is UTF-8.
pub const BOM: &[u8] = b"\xEF\xBB\xBF";

/// Whether an input is text. A byte that no text has, a control character but tab and line ends,
/// lies in every record in range but LC, so that no dossier with another record is taken for text.
pub fn is_text(input: &[u8]) -> bool {
    let control = |c: char| c.is_ascii_control() && !matches!(c, '\t' | '\n' | '\r');
    std::str::from_utf8(input).is_ok_and(|text| !text.contains(control))
}

/// Whether an input is text or was meant to be: one with some bytes that no text has. It doesn't begin
/// with a sound record in bytes, and has lines as a text has them, or little else than letters.
pub fn is_meant_as_text(input: &[u8]) -> bool {
    is_text(input)
        || !begins_in_bytes(input) && (encoding(input).is_some() || looks_like_text(input))
}

/// Whether the first record is whole and in range. An LC says nothing: a line of text may be one.
fn begins_in_bytes(input: &[u8]) -> bool {
    let first = records(input).find(|r| r.mark.letters != "LC");
    first.is_some_and(|record| record.faults().is_empty())
}

fn looks_like_text(input: &[u8]) -> bool {
    let letters = input.iter().filter(|b| is_of_text(**b)).count();
    letters * 4 >= input.len() * 3 || has_record(input)
}

fn is_of_text(byte: u8) -> bool {
    matches!(byte, b' '..=b'~' | b'\t' | b'\n' | b'\r')
}

/// Whether a line begins as that of a record does.
pub fn has_record(input: &[u8]) -> bool {
    lines(input).any(is_record)
}

/// Whether this is the beginning of such a line: a mark, a blank and the name of a field.
fn is_record(line: &[u8]) -> bool {
    let line = line.trim_ascii_start();
    let Some((letters, rest)) = line.split_at_checked(2) else {
        return false;
    };
    let rest = match Mark::of(letters) {
        Some(_) if rest.starts_with(b" ") || rest.starts_with(b"\t") => rest.trim_ascii_start(),
        _ => return false,
    };
    let name = rest.split(|b| *b == b'=').next().unwrap_or(rest);
    let in_name = |b: &u8| b.is_ascii_lowercase() || *b == b'-';
    name.len() < rest.len() && name.iter().all(in_name)
}

/// The encoding of a text that isn't UTF-8, where a mark of byte order or the zeros beside its letters
/// tell it.
pub fn encoding(input: &[u8]) -> Option<&'static str> {
    let begins = |marks: [&[u8]; 2]| marks.iter().any(|mark| input.starts_with(mark));
    // The longer one first: its mark may begin with that of the other.
    if begins([b"\xFF\xFE\0\0", b"\0\0\xFE\xFF"]) || has_zeros(input, 4) {
        Some("UTF-32")
    } else if begins([b"\xFF\xFE", b"\xFE\xFF"]) || has_zeros(input, 2) {
        Some("UTF-16")
    } else {
        None
    }
}

/// Whether three of four groups of so many bytes have a letter at the same end, and zeros beside it.
fn has_zeros(input: &[u8], width: usize) -> bool {
    let groups = || input.chunks_exact(width).take(200);
    let letters_at = |end: usize| {
        let at_end = |group: &&[u8]| (0..width).all(|i| (group[i] == 0) != (i == end));
        groups().filter(at_end).count()
    };
    letters_at(0).max(letters_at(width - 1)) * 4 > groups().count() * 3
}

/// The lines of a text, which end with a line feed, a carriage return or both.
pub fn lines(text: &[u8]) -> impl Iterator<Item = &[u8]> {
    let mut rest = Some(text);
    std::iter::from_fn(move || {
        let text = rest?;
        let end = text.iter().position(is_line_end);
        let line = &text[..end.unwrap_or(text.len())];
        rest = end.map(|end| {
            let behind = &text[end..];
            behind.strip_prefix(b"\r\n").unwrap_or(&behind[1..])
        });
        Some(line)
    })
}

fn is_line_end(byte: &u8) -> bool {
    matches!(byte, b'\n' | b'\r')
}

/// A line as text, or what in it is none.
pub fn clean(line: &[u8]) -> Result<&str, String> {
    if line.starts_with(BOM) {
        return Err(wrong_byte(0, "a mark of byte order, as a text begins with"));
    }
    let text = line.utf8_chunks().next().map_or("", |chunk| chunk.valid());
    match text
        .char_indices()
        .find_map(|(at, c)| Some((at, no_text(c)?)))
    {
        Some((at, what)) => Err(wrong_byte(at, &what)),
        None if text.len() == line.len() => Ok(text),
        None => Err(no_utf_8(text.len(), line[text.len()])),
    }
}

fn wrong_byte(at: usize, what: &str) -> String {
    format!("byte {} is {what}: take it out", at + 1)
}

/// What a character is that no text has.
fn no_text(letter: char) -> Option<String> {
    Some(match letter {
        '\t' => return None,
        '\0' => "NUL".to_string(),
        '\u{b}' => "a vertical tab".to_string(),
        '\u{c}' => "a form feed".to_string(),
        '\u{1a}' => "^Z, which ended texts in older systems".to_string(),
        '\u{1b}' => "an escape".to_string(),
        '\u{7f}' => "a delete".to_string(),
        // Some programs begin a line behind these, so that a record seems to stand where none is.
        '\u{85}' | '\u{2028}' | '\u{2029}' => {
            format!("U+{:04X}, which ends no line here", u32::from(letter))
        }
        c if c.is_control() => format!("the control character {}", u32::from(c)),
        _ => return None,
    })
}

fn no_utf_8(at: usize, byte: u8) -> String {
    let (number, other) = (at + 1, windows_1252(byte));
    format!("byte {number} is {byte}, which is no UTF-8{other}: save the text as UTF-8")
}

/// What a byte is in the encoding that older programs write, where it is a letter or sign there.
fn windows_1252(byte: u8) -> String {
    // From 0x80 on; a space where there is none.
    let signs = "€ ‚ƒ„…†‡ˆ‰Š‹Œ Ž  ‘’“”•–—˜™š›œ žŸ";
    let letter = match byte {
        0x80..0xA0 => signs.chars().nth(usize::from(byte) - 0x80),
        _ => Some(char::from(byte)),
    };
    match letter.filter(|c| !c.is_whitespace()) {
        Some(letter) => format!("; in Windows-1252 it is '{letter}'"),
        None => String::new(),
    }
}

/// Where the line begins in which bytes follow text, and what is said of it.
pub fn bytes_behind(text: &[u8]) -> Option<(usize, String)> {
    if is_text(text) {
        return None;
    }
    let record_at = |at: usize| records(&text[at..]).next().filter(is_in_bytes);
    let (at, record) = (0..text.len()).find_map(|at| Some((at, record_at(at)?)))?;
    let before = text[..at].iter().rposition(is_line_end);
    let line = before.map_or(0, |end| end + 1);
    let (byte, letters) = (at - line + 1, record.mark.letters);
    let says = format!(
        "byte {byte} begins a record {letters} in bytes, behind text: join texts, or bytes"
    );
    Some((line, says))
}

/// Whether a record is sound, and has so many bytes that no text has that it is no part of one.
fn is_in_bytes(record: &Record) -> bool {
    let others = record.bytes.iter().filter(|b| !is_of_text(**b)).count();
    others > 2 && record.faults().is_empty()
}

/// Where text begins behind the records of a dossier in bytes, up to the place that it is refused at,
/// and its first line.
pub fn text_behind(dossier: &[u8], place: usize) -> Option<(usize, String)> {
    let starts = records(dossier).map(|r| r.start).take_while(|s| *s < place);
    let mut starts = starts.chain([place]).filter(|start| *start > 0);
    starts.find_map(|start| Some((start, first_line(dossier.get(start..)?)?)))
}

/// The first line of a text that isn't blank, if it is a comment or begins as that of a record.
fn first_line(text: &[u8]) -> Option<String> {
    let text = text.strip_prefix(BOM).unwrap_or(text);
    let first = lines(text).find(|line| !line.trim_ascii().is_empty())?;
    let comment = first.starts_with(b"#") && first.len() > 1 && is_meant_as_text(text);
    (comment || is_record(first)).then(|| String::from_utf8_lossy(first).into_owned())
}
