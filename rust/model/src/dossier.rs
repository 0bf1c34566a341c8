//! "At most 60,000 bytes of records, back to back": the records of a dossier, with 13, then 1 to 3
//! for each record in turn.

use crate::table::{as_in, kind_of, rq, Field, Kind, Mark, FIRST_HOUR, HEAD};
use crate::{refuse, Refusal};

pub const LONGEST: usize = 60_000;

/// A whole record whose fields are in range.
#[derive(Clone, Copy, Debug)]
pub struct Record<'a> {
    pub start: usize,
    pub kind: &'static Kind,
    pub bytes: &'a [u8],
}

impl<'a> Record<'a> {
    pub fn issue(&self) -> u32 {
        let issue = self.bytes[2..HEAD].try_into();
        u32::from_be_bytes(issue.expect("4 bytes"))
    }

    pub fn key(&self) -> &'a [u8] {
        self.kind.key(self.bytes)
    }

    /// The hour from which it counts; 0 for a mark without one.
    pub fn first_hour(&self) -> u32 {
        if self.kind.is_dated() {
            FIRST_HOUR.read(self.bytes) as u32
        } else {
            0
        }
    }

    /// Mark, issue and key together: no two records may share all three. FU and FV are one here, as
    /// AD and AV and as MM and MV are.
    pub fn claim(&self) -> (Mark, u32, &'a [u8]) {
        (self.kind.of, self.issue(), self.key())
    }

    /// A field of the undated mark, which a dated record has too.
    pub fn get(&self, field: Field) -> i128 {
        field.read(&self.bytes[self.kind.shift()..])
    }

    /// A field that is never negative.
    pub fn amount(&self, field: Field) -> u128 {
        self.get(field).unsigned_abs()
    }
}

/// The records in the order they lie, or 13, 1, 2 or 3.
pub fn records(dossier: &[u8]) -> Result<Vec<Record<'_>>, Refusal> {
    in_turn(dossier)?.collect()
}

/// The records in the order they lie, each read when it is asked for; the first that draws 1, 2 or
/// 3 is the last. 13 comes before them all.
pub fn in_turn<'a>(
    dossier: &'a [u8],
) -> Result<impl Iterator<Item = Result<Record<'a>, Refusal>>, Refusal> {
    if dossier.len() > LONGEST {
        return refuse(13, 0);
    }
    let mut start = 0;
    Ok(std::iter::from_fn(move || {
        if start >= dossier.len() {
            return None;
        }
        let record = record(dossier, start);
        start += record.as_ref().map_or(dossier.len(), |r| r.bytes.len());
        Some(record)
    }))
}

/// The record that starts here, tried for its mark, its length and its ranges.
fn record(dossier: &[u8], start: usize) -> Result<Record<'_>, Refusal> {
    let rest = &dossier[start..];
    let Some(mark) = rest.first_chunk() else {
        return refuse(2, start);
    };
    let Some(kind) = kind_of(mark) else {
        return refuse(1, start);
    };
    let Some(bytes) = rest.get(..kind.length) else {
        return refuse(2, start);
    };
    let record = Record { start, kind, bytes };
    let mut fields = kind.fields.iter();
    let in_range = fields.all(|f| as_in(bytes, f).allows(f.read(bytes)));
    let in_turn = kind.mark != *b"RQ" || record.get(rq::FIRST) <= record.get(rq::LAST);
    if in_range && in_turn {
        Ok(record)
    } else {
        refuse(3, start)
    }
}
