//! The records of a dossier, as people speak of them.

use crate::marks::{Field, Mark};

/// A whole record with a known mark; its fields may be out of range.
#[derive(Clone, Copy, Debug)]
pub struct Record<'a> {
    /// Where it stands among the records, from 1.
    pub number: usize,
    pub start: usize,
    pub mark: &'static Mark,
    pub bytes: &'a [u8],
}

/// The records in the order they lie, up to the first with an unknown mark or cut short.
pub fn records(dossier: &[u8]) -> impl Iterator<Item = Record<'_>> {
    let (mut number, mut start) = (0, 0);
    std::iter::from_fn(move || {
        let mark = Mark::of(dossier.get(start..start + 2)?)?;
        let bytes = dossier.get(start..start + mark.length())?;
        let record = Record {
            number: number + 1,
            start,
            mark,
            bytes,
        };
        number += 1;
        start += bytes.len();
        Some(record)
    })
}

impl Record<'_> {
    /// The fields with their numbers, the issue first.
    pub fn fields(&self) -> impl Iterator<Item = (&'static Field, i128)> + '_ {
        let number = |(field, at): (&'static Field, usize)| {
            (field, field.number(&self.bytes[at..at + field.width]))
        };
        self.mark.places().map(number)
    }

    /// The number of a field, which the mark must have.
    pub fn get(&self, name: &str) -> i128 {
        self.named(name).1
    }

    /// A field as people write it; the mark must have it.
    pub fn value(&self, name: &str) -> String {
        let (field, number) = self.named(name);
        field.unit.write(number)
    }

    fn named(&self, name: &str) -> (&'static Field, i128) {
        let mut fields = self.fields().skip(self.mark.position(name));
        fields.next().expect("as many as the mark has")
    }

    /// The record as a line of text.
    pub fn text(&self) -> String {
        format!("{} {}", self.mark.letters, joined(self.fields()))
    }

    /// The key in words, empty where the mark has none.
    pub fn key(&self) -> String {
        let key = self.mark.key_fields();
        joined(self.fields().skip(key.start).take(key.len()))
    }

    /// The key's bytes as one number, as the library's lookup takes it; 0 where there is none.
    pub fn key_number(&self) -> u32 {
        let key = self.mark.key_fields();
        let fields = self.mark.places().skip(key.start).take(key.len());
        let bytes = fields.flat_map(|(field, at)| &self.bytes[at..at + field.width]);
        bytes.fold(0, |number, byte| number << 8 | u32::from(*byte))
    }

    /// The mark that it shares its keys with, and its key: records that have both alike take one
    /// another's place.
    pub fn of_key(&self) -> (&'static str, u32) {
        (self.mark.of, self.key_number())
    }

    /// The hour from which it counts; 0 for a mark without one.
    pub fn first_hour(&self) -> u32 {
        match self.mark.is_dated() {
            true => u32::try_from(self.get("first")).unwrap_or(u32::MAX),
            false => 0,
        }
    }

    /// The owner for whom alone it counts; none for a mark that counts for both.
    pub fn owner(&self) -> Option<u8> {
        let owner = (self.mark.letters == "AO").then(|| self.get("owner"))?;
        u8::try_from(owner).ok()
    }

    /// Whether it is an amount added to a level, for both owners or for one.
    pub fn is_adder(&self) -> bool {
        matches!(self.mark.of, "AD" | "AO")
    }

    /// Whether it is a payment to a third party: these are withdrawn, and join no level.
    pub fn is_withdrawn(&self) -> bool {
        self.is_adder() && self.value("cost") == "third-party"
    }

    /// Mark, key and issue: what no two records may share, under either mark of a key.
    pub fn claim(&self) -> ((&'static str, u32), i128) {
        (self.of_key(), self.get("issue"))
    }

    /// What is out of range in it, in words.
    pub fn faults(&self) -> Vec<String> {
        let wrong = self.fields().filter(|(f, n)| !f.allows(*n));
        let mut faults: Vec<String> = wrong
            .map(|(f, n)| format!("{}: {}", f.text(n), f.range()))
            .collect();
        faults.extend(self.mark.disagrees(|name| Some(self.get(name))));
        faults
    }
}

/// Fields in a row, as they stand in a line.
fn joined(fields: impl Iterator<Item = (&'static Field, i128)>) -> String {
    let fields: Vec<String> = fields.map(|(f, n)| f.text(n)).collect();
    fields.join(" ")
}

#[cfg(test)]
mod tests {
    use super::*;

    const LINE: &[u8] = b"LC\0\0\0\x03\0\0\0\x0a";

    #[test]
    fn fields_by_name() {
        let record = records(LINE).next().expect("a record");
        assert_eq!((record.get("issue"), record.get("cost")), (3, 10));
        assert_eq!(record.value("cost"), "0.00001");
    }

    const DATED: &[u8] = b"AV\0\0\0\x03\0\0\x1c\x98\x02\x03\x04\0\0\0\0\0\0\0\x05";

    #[test]
    fn a_first_hour_is_no_part_of_the_key() {
        let record = records(DATED).next().expect("a record");
        assert_eq!(record.first_hour(), 7_320);
        assert_eq!(record.of_key(), ("AD", 0x02_03_04));
        assert_eq!(record.key(), "profile=2 cost=consumables level=reserve");
        let text = "AV issue=3 first=7320 profile=2 cost=consumables level=reserve amount=0.000005";
        assert_eq!(record.text(), text);
        assert_eq!(records(LINE).next().expect("a record").first_hour(), 0);
    }

    #[test]
    fn payments_to_third_parties_are_withdrawn() {
        for (cost, withdrawn) in [(3, false), (4, true), (5, false)] {
            let mut dated = DATED.to_vec();
            dated[11] = cost;
            let record = records(&dated).next().expect("a record");
            assert_eq!(record.is_withdrawn(), withdrawn);
        }
        assert!(!records(LINE).next().expect("a record").is_withdrawn());
    }

    #[test]
    fn a_record_of_an_owner() {
        let own = b"AO\0\0\0\x03\x02\x01\x04\x01\0\0\0\0\0\x0b\x71\xb0";
        let record = records(own).next().expect("a record");
        assert_eq!(record.owner(), Some(2));
        assert_eq!(record.of_key(), ("AO", 0x02_01_04_01));
        let text = "AO issue=3 owner=2 profile=1 cost=third-party level=energy amount=0.75";
        assert_eq!(record.text(), text);
        assert!(record.is_adder() && record.is_withdrawn());
        assert_eq!(records(DATED).next().expect("a record").owner(), None);
    }

    #[test]
    #[should_panic(expected = "LC has no field 'csot'")]
    fn a_misspelt_field_is_no_0() {
        records(LINE).next().expect("a record").get("csot");
    }

    #[test]
    #[should_panic(expected = "LC has no field 'fuel'")]
    fn a_field_of_another_mark_is_not_empty() {
        records(LINE).next().expect("a record").value("fuel");
    }
}
