//! Document 01's list of marks as people write it: one table of the records' fields, with their
//! names, units and ranges. Lengths, places and keys follow from it.

use crate::unit::{
    decimal, parts, whole, Unit, CONDITION, DOLLARS, DOLLARS_PER_MWH, FINE_DOLLARS, LEVEL,
    MEGAWATTS, PLAIN,
};
use std::ops::Range;

/// One kind of record.
#[derive(Debug)]
pub struct Mark {
    pub letters: &'static str,
    /// What such a record holds.
    pub holds: &'static str,
    /// The mark that it shares its keys with: its own, or for a dated one that without a first hour.
    pub of: &'static str,
    /// The fields in the order of their bytes. The issue number, which every record begins with, is
    /// the first; behind it come the first hour of a dated one and the fields of the key.
    pub fields: &'static [Field],
    /// How many fields form the key.
    pub key: usize,
}

/// One field: its name, its bytes, the numbers it may hold and how they are written.
#[derive(Clone, Copy, Debug)]
pub struct Field {
    pub name: &'static str,
    pub width: usize,
    pub lowest: i128,
    pub highest: i128,
    /// 0 is allowed too, though it lies below `lowest`.
    pub or_zero: bool,
    pub unit: Unit,
}

const ANY: i128 = 4_294_967_295;
const PRICE: i128 = 200_000;

const fn field(name: &'static str, width: usize, lowest: i128, highest: i128, unit: Unit) -> Field {
    Field {
        name,
        width,
        lowest,
        highest,
        or_zero: false,
        unit,
    }
}

/// A field from 0.
const fn to(name: &'static str, width: usize, highest: i128, unit: Unit) -> Field {
    field(name, width, 0, highest, unit)
}

/// A field of the key, from 1.
const fn key(name: &'static str, width: usize, highest: i128) -> Field {
    field(name, width, 1, highest, PLAIN)
}

/// A factor in thousandths, or 0.
const fn factor(name: &'static str, highest: i128) -> Field {
    Field {
        or_zero: true,
        ..field(name, 2, 500, highest, parts(3, ""))
    }
}

const ISSUE: Field = to("issue", 4, ANY, PLAIN);
const PRICED: Field = field("price", 4, -PRICE, PRICE, DOLLARS_PER_MWH);
/// The first hour of a request, and that of a dated cost.
const FIRST: Field = to("first", 4, ANY, PLAIN);
const PROFILE: Field = key("profile", 1, 4);
const OF_COST: Field = field("cost", 1, 1, 5, COST);
const OF_LEVEL: Field = field("level", 1, 1, 4, LEVEL);
const AMOUNT: Field = to("amount", 8, 1_000_000_000_000, FINE_DOLLARS);

const TECHNOLOGY: Unit =
    PLAIN.with_words(&[("thermal", 1), ("nuclear", 2), ("storage", 3), ("hydro", 4)]);
const COST: Unit = PLAIN.with_words(&[
    ("scheduled", 1),
    ("unscheduled", 2),
    ("consumables", 3),
    ("third-party", 4),
    ("prorated-start", 5),
]);

const HYDRO: i128 = 4;
const SHORT_WINDOW: i128 = 168;
const WINDOW: &str = "hours (168 at most unless technology=hydro)";

/// A mark with keys of its own.
const fn mark(
    letters: &'static str,
    holds: &'static str,
    fields: &'static [Field],
    key: usize,
) -> Mark {
    Mark {
        letters,
        holds,
        of: letters,
        fields,
        key,
    }
}

/// The fields of a mark with a first hour behind the issue.
const fn with_first<const N: usize>(fields: &[Field]) -> [Field; N] {
    let mut dated = [FIRST; N];
    dated[0] = fields[0];
    let mut at = 2;
    while at < N {
        dated[at] = fields[at - 1];
        at += 1;
    }
    dated
}

/// Another mark with a first hour: all but letters and words is that mark's. A macro, as no function
/// of a mark can say how many fields its answer has.
macro_rules! dated {
    ($letters:literal, $holds:literal, $of:ident) => {
        Mark {
            letters: $letters,
            holds: $holds,
            fields: &with_first::<{ $of.fields.len() + 1 }>($of.fields),
            ..$of
        }
    };
}

const FU: Mark = mark(
    "FU",
    "the fuel of a profile",
    &[
        ISSUE,
        PROFILE,
        to("fuel", 4, 400_000_000, FINE_DOLLARS),
        to("emission", 4, 400_000_000, decimal(6, 2, "dollars per GJ")),
    ],
    1,
);

const AD: Mark = mark(
    "AD",
    "an amount added to a level",
    &[ISSUE, PROFILE, OF_COST, OF_LEVEL, AMOUNT],
    3,
);

const MM: Mark = mark(
    "MM",
    "a maintenance item",
    &[
        ISSUE,
        PROFILE,
        key("item", 1, 8),
        to("cost", 8, 100_000_000_000, DOLLARS),
        field("output", 2, 1, 20_000, MEGAWATTS),
        field("interval", 4, 1, 1_000_000, whole("hours")),
        to("start-hours", 2, 10_000, parts(1, "hours per start")),
    ],
    2,
);

pub static MARKS: [Mark; 15] = [
    mark(
        "RS",
        "the station",
        &[
            ISSUE,
            field("technology", 1, 1, 4, TECHNOLOGY),
            field("capacity", 2, 1, 20_000, MEGAWATTS),
            factor("factor", 2_000),
            to("start-heat", 4, 20_000_000, whole("MJ per start")),
            to("no-load-heat", 4, 20_000_000, whole("MJ per hour")),
            to(
                "incremental-fuel",
                4,
                1_000_000,
                whole("mg of uranium per MWh"),
            ),
            to("charge", 4, 1_000_000, parts(1, "MWh")),
            factor("efficiency", 1_000),
            to("window", 2, 4_000, whole(WINDOW)),
        ],
        0,
    ),
    mark(
        "HP",
        "a point of the heat curve",
        &[
            ISSUE,
            key("point", 1, 21),
            to("output", 2, 20_000, MEGAWATTS),
            to("heat", 4, 20_000_000, whole("MJ per hour")),
        ],
        1,
    ),
    FU,
    dated!("FV", "the fuel of a profile from an hour on", FU),
    AD,
    dated!("AV", "an amount added to a level from an hour on", AD),
    mark(
        "AO",
        "an amount added to a level for one owner",
        &[
            ISSUE,
            key("owner", 1, 2),
            PROFILE,
            OF_COST,
            OF_LEVEL,
            AMOUNT,
        ],
        4,
    ),
    MM,
    dated!("MV", "a maintenance item from an hour on", MM),
    mark(
        "RQ",
        "a request for a profile",
        &[
            ISSUE,
            key("request", 1, 16),
            FIRST,
            to("last", 4, ANY, PLAIN),
            to("profile", 1, 4, PLAIN.with_words(&[("withdrawn", 0)])),
        ],
        1,
    ),
    mark(
        "HR",
        "the price of an hour of the window",
        &[ISSUE, key("hour", 1, 168), PRICED],
        1,
    ),
    mark(
        "CH",
        "an interval of charging",
        &[
            ISSUE,
            key("interval", 2, 2_016),
            PRICED,
            to("energy", 4, 1_000_000, whole("kWh")),
        ],
        1,
    ),
    mark(
        "TH",
        "the thresholds of a condition and level",
        &[
            ISSUE,
            field("condition", 1, 1, 3, CONDITION),
            OF_LEVEL,
            to("percent", 2, 10_000, PLAIN),
            to("margin", 4, ANY, DOLLARS.with_words(&[("none", ANY)])),
            to("floor", 4, ANY, DOLLARS),
        ],
        2,
    ),
    mark(
        "FP",
        "a price of the forecast",
        &[ISSUE, key("place", 2, 4_000), PRICED],
        1,
    ),
    mark(
        "LC",
        "the last charging cost",
        &[
            ISSUE,
            to("cost", 4, 2_000_000_000, decimal(6, 2, "dollars per MWh")),
        ],
        0,
    ),
];

impl Mark {
    pub fn of(letters: &[u8]) -> Option<&'static Mark> {
        MARKS.iter().find(|m| m.letters.as_bytes() == letters)
    }

    /// Whether its records have a first hour.
    pub fn is_dated(&self) -> bool {
        self.letters != self.of
    }

    /// Whether records of its keys may have a first hour.
    pub fn can_be_dated(&self) -> bool {
        let mut dated = MARKS.iter().filter(|mark| mark.is_dated());
        dated.any(|mark| mark.of == self.of)
    }

    /// Where the fields of the key stand among the fields.
    pub fn key_fields(&self) -> Range<usize> {
        let first = 1 + usize::from(self.is_dated());
        first..first + self.key
    }

    /// The whole length of such a record.
    pub fn length(&self) -> usize {
        let widths = self.fields.iter().map(|f| f.width);
        self.letters.len() + widths.sum::<usize>()
    }

    /// The field of a name, with the place of its first byte.
    pub fn field(&self, name: &str) -> Option<(&'static Field, usize)> {
        self.places().find(|(f, _)| f.name == name)
    }

    /// The fields, each with the place of its first byte.
    pub fn places(&self) -> impl Iterator<Item = (&'static Field, usize)> {
        let mut at = self.letters.len();
        self.fields.iter().map(move |field| {
            let place = at;
            at += field.width;
            (field, place)
        })
    }

    /// Where a field stands among the fields. To ask for one that the mark doesn't have is an error of
    /// the program.
    pub fn position(&self, name: &str) -> usize {
        let place = self.fields.iter().position(|f| f.name == name);
        place.unwrap_or_else(|| panic!("{} has no field '{name}'", self.letters))
    }

    /// What 3 asks of two fields together, in words: a request's hours, and the window of an RS that
    /// isn't hydroelectric. `number` gives the number of a field, if it is known.
    pub fn disagrees(&self, number: impl Fn(&str) -> Option<i128>) -> Option<String> {
        match self.letters {
            "RQ" => {
                let (first, last) = (number("first")?, number("last")?);
                (first > last).then(|| format!("first={first} is after last={last}"))
            }
            "RS" => {
                let (technology, window) = (number("technology")?, number("window")?);
                let says = || {
                    format!("window={window}: 0 to {SHORT_WINDOW} hours unless technology=hydro")
                };
                (technology != HYDRO && window > SHORT_WINDOW).then(says)
            }
            _ => None,
        }
    }
}

impl Field {
    /// The field's number, in bytes that are just its own: big-endian, signed if its range is.
    pub fn number(&self, bytes: &[u8]) -> i128 {
        let size = bytes.iter().fold(0, |n, b| n << 8 | i128::from(*b));
        let limit = 1 << (8 * bytes.len());
        if self.lowest < 0 && size >= limit / 2 {
            size - limit
        } else {
            size
        }
    }

    /// The bytes of a number in range.
    pub fn bytes(&self, number: i128) -> Vec<u8> {
        let bytes = number.to_be_bytes();
        bytes[bytes.len() - self.width..].to_vec()
    }

    pub fn allows(&self, number: i128) -> bool {
        (self.lowest..=self.highest).contains(&number) || self.or_zero && number == 0
    }

    /// The field with a number, as it stands in a line.
    pub fn text(&self, number: i128) -> String {
        format!("{}={}", self.name, self.unit.write(number))
    }

    /// Whether each of its numbers is written as a word.
    pub fn is_word(&self) -> bool {
        (self.lowest..=self.highest).all(|n| self.unit.word(n).is_some())
    }

    /// The range in words.
    pub fn range(&self) -> String {
        let words = self.unit.all_words();
        if self.is_word() {
            return listed(&words);
        }
        let number = |n: &i128| self.unit.word(*n).is_none();
        let numbers = self.lowest..=self.highest;
        let lowest = numbers.clone().find(number).unwrap_or(self.lowest);
        let highest = numbers.rev().find(number).unwrap_or(self.highest);
        let name = self.unit.name;
        let gap = if name.is_empty() { "" } else { " " };
        let (lowest, highest) = (self.unit.write(lowest), self.unit.write(highest));
        let mut range = format!("{lowest} to {highest}{gap}{name}");
        if self.or_zero {
            range = format!("0 or {range}");
        }
        if !words.is_empty() {
            range = format!("{range}, or {}", listed(&words));
        }
        range
    }
}

/// Words in a row: `a, b or c`.
pub fn listed(words: &[&str]) -> String {
    match words {
        [] => String::new(),
        [only] => only.to_string(),
        [first @ .., last] => format!("{} or {last}", first.join(", ")),
    }
}

#[cfg(test)]
mod tests {
    use super::*;

    #[test]
    fn lengths_are_those_of_the_paper() {
        let lengths: Vec<usize> = MARKS.iter().map(Mark::length).collect();
        let paper = [31, 13, 15, 19, 17, 21, 18, 24, 28, 16, 11, 16, 18, 12, 10];
        assert_eq!(lengths, paper);
    }

    /// A dated mark is the one that it shares its keys with, with a first hour behind the issue.
    #[test]
    fn dated_marks_have_a_first_hour_more() {
        let dated: Vec<&Mark> = MARKS.iter().filter(|m| m.is_dated()).collect();
        assert_eq!(dated.len(), 3);
        for mark in dated {
            let undated = Mark::of(mark.of.as_bytes()).unwrap();
            let names = |mark: &Mark| mark.fields.iter().map(|f| f.name).collect::<Vec<_>>();
            let mut with_first = names(undated);
            with_first.insert(1, "first");
            assert_eq!(names(mark), with_first);
            assert_eq!(
                (mark.key, mark.length()),
                (undated.key, undated.length() + 4)
            );
        }
    }

    /// The mark of an owner is AD with an owner first in its key, and no first hour.
    #[test]
    fn an_owner_comes_first_in_the_key() {
        let [common, own] = ["AD", "AO"].map(|letters| Mark::of(letters.as_bytes()).unwrap());
        let names = |mark: &Mark| mark.fields.iter().map(|f| f.name).collect::<Vec<_>>();
        let mut with_owner = names(common);
        with_owner.insert(1, "owner");
        assert_eq!(names(own), with_owner);
        assert_eq!(
            (own.key, own.length()),
            (common.key + 1, common.length() + 1)
        );
        assert!(common.can_be_dated() && !own.can_be_dated() && !own.is_dated());
    }

    #[test]
    fn ranges_in_words() {
        let range = |mark: &str, name: &str| {
            let mark = Mark::of(mark.as_bytes()).unwrap();
            mark.field(name).unwrap().0.range()
        };
        assert_eq!(range("FU", "emission"), "0.00 to 400.00 dollars per GJ");
        assert_eq!(range("RS", "factor"), "0 or 0.500 to 2.000");
        assert_eq!(
            range("RS", "technology"),
            "thermal, nuclear, storage or hydro"
        );
        assert_eq!(
            range("TH", "margin"),
            "0.00 to 42949672.94 dollars, or none"
        );
        assert_eq!(range("RQ", "profile"), "1 to 4, or withdrawn");
        assert_eq!(range("HR", "price"), "-2000.00 to 2000.00 dollars per MWh");
        assert_eq!(range("HP", "point"), "1 to 21");
        assert_eq!(range("AO", "owner"), "1 to 2");
    }

    #[test]
    fn a_negative_price_is_not_read_as_unsigned() {
        for price in [-200_000, -1, 0, 1, 200_000] {
            assert_eq!(PRICED.number(&PRICED.bytes(price)), price);
        }
    }
}
