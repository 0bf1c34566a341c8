//! "A constant table holds each mark's whole length and key bounds": the fifteen marks, their
//! fields with their ranges, and what each technology holds and uses.

pub use crate::field::{Field, Role, FIRST_HOUR, HEAD};

pub type Mark = [u8; 2];

/// Every value of a 4-byte field.
const ANY: i128 = 4_294_967_295;

/// Prices, in cents per MWh.
pub const PRICE: i128 = 200_000;

/// The owners of a plant, of whom a query names one.
pub const OWNERS: [u8; 2] = [1, 2];

pub mod rs {
    use super::Field;
    pub const TECHNOLOGY: Field = Field::first(1, 1, 4);
    pub const CAPACITY: Field = TECHNOLOGY.next(2, 1, 20_000);
    pub const FACTOR: Field = CAPACITY.next(2, 500, 2_000).or_zero();
    pub const START_HEAT: Field = FACTOR.next(4, 0, 20_000_000);
    pub const NO_LOAD_HEAT: Field = START_HEAT.next(4, 0, 20_000_000);
    pub const INCREMENTAL_FUEL: Field = NO_LOAD_HEAT.next(4, 0, 1_000_000);
    pub const CHARGE: Field = INCREMENTAL_FUEL.next(4, 0, 1_000_000);
    pub const EFFICIENCY: Field = CHARGE.next(2, 500, 1_000).or_zero();
    pub const WINDOW: Field = EFFICIENCY.next(2, 0, 168);
    /// The window in an RS that says hydro.
    pub const LONG_WINDOW: Field = EFFICIENCY.next(2, 0, 4_000);
}

pub mod hp {
    use super::Field;
    pub const POINT: Field = Field::first(1, 1, 21).key();
    pub const OUTPUT: Field = POINT.next(2, 0, 20_000);
    pub const HEAT: Field = OUTPUT.next(4, 0, 20_000_000);
}

pub mod fu {
    use super::Field;
    pub const PROFILE: Field = Field::first(1, 1, 4).key();
    pub const FUEL: Field = PROFILE.next(4, 0, 400_000_000).money();
    pub const EMISSION: Field = FUEL.next(4, 0, 400_000_000).money();
}

pub mod ad {
    use super::Field;
    pub const PROFILE: Field = Field::first(1, 1, 4).key();
    pub const COST: Field = PROFILE.next(1, 1, 5).key();
    pub const LEVEL: Field = COST.next(1, 1, 4).key();
    pub const AMOUNT: Field = LEVEL.next(8, 0, 1_000_000_000_000).money();
    /// Payments to third parties, which are withdrawn: their amounts join no level.
    pub const THIRD_PARTY: i128 = 4;
    /// The prorated start-up cost.
    pub const PRORATED: i128 = 5;
}

/// "AD with an owner byte, 1 or 2, first in its key".
pub mod ao {
    use super::{ad, Field, OWNERS};
    pub const OWNER: Field = Field::first(1, OWNERS[0] as i128, OWNERS[1] as i128).key();
    pub const PROFILE: Field = ad::PROFILE.behind(OWNER);
    pub const COST: Field = ad::COST.behind(OWNER);
    pub const LEVEL: Field = ad::LEVEL.behind(OWNER);
    pub const AMOUNT: Field = ad::AMOUNT.behind(OWNER);
}

pub mod mm {
    use super::Field;
    pub const PROFILE: Field = Field::first(1, 1, 4).key();
    pub const ITEM: Field = PROFILE.next(1, 1, 8).key();
    pub const C: Field = ITEM.next(8, 0, 100_000_000_000).money();
    pub const W: Field = C.next(2, 1, 20_000);
    pub const T: Field = W.next(4, 1, 1_000_000);
    pub const S: Field = T.next(2, 0, 10_000);
}

pub mod rq {
    use super::{Field, ANY};
    pub const REQUEST: Field = Field::first(1, 1, 16).key();
    pub const FIRST: Field = REQUEST.next(4, 0, ANY);
    pub const LAST: Field = FIRST.next(4, 0, ANY);
    pub const PROFILE: Field = LAST.next(1, 0, 4);
    /// The profile of a withdrawn request.
    pub const WITHDRAWN: i128 = 0;
}

pub mod hr {
    use super::{Field, PRICE as P};
    pub const HOUR: Field = Field::first(1, 1, 168).key();
    pub const PRICE: Field = HOUR.next(4, -P, P).money();
}

pub mod ch {
    use super::{Field, PRICE as P};
    pub const INTERVAL: Field = Field::first(2, 1, 2_016).key();
    pub const PRICE: Field = INTERVAL.next(4, -P, P).money();
    pub const ENERGY: Field = PRICE.next(4, 0, 1_000_000);
}

pub mod th {
    use super::{Field, ANY};
    pub const CONDITION: Field = Field::first(1, 1, 3).key();
    pub const LEVEL: Field = CONDITION.next(1, 1, 4).key();
    pub const PERCENT: Field = LEVEL.next(2, 0, 10_000);
    pub const MARGIN: Field = PERCENT.next(4, 0, ANY);
    pub const FLOOR: Field = MARGIN.next(4, 0, ANY);
    /// The margin that means there is none.
    pub const NONE: i128 = ANY;
}

pub mod fp {
    use super::{Field, PRICE as P};
    pub const PLACE: Field = Field::first(2, 1, 4_000).key();
    pub const PRICE: Field = PLACE.next(4, -P, P).money();
    /// Greater than 98% of the forecast: the place from the top is the window over this.
    pub const ONE_IN: u128 = 50;
}

pub mod lc {
    use super::Field;
    /// The last charging cost, in micro-dollars per MWh.
    pub const COST: Field = Field::first(4, 0, 2_000_000_000).money();
}

/// The records of one mark.
#[derive(Debug)]
pub struct Kind {
    pub mark: Mark,
    /// The mark that it shares its keys with: FU for FV, AD for AV, MM for MV, else its own.
    pub of: Mark,
    pub length: usize,
    /// How many bytes the key takes; they follow the head and, in a dated record, the first hour.
    pub key_width: usize,
    pub fields: &'static [Field],
}

impl Kind {
    /// Whether its records have a first hour.
    pub fn is_dated(&self) -> bool {
        self.mark != self.of
    }

    /// How far behind its place in the undated mark a field stands.
    pub fn shift(&self) -> usize {
        if self.is_dated() {
            FIRST_HOUR.width
        } else {
            0
        }
    }

    /// The key's bytes in a whole record.
    pub fn key<'a>(&self, record: &'a [u8]) -> &'a [u8] {
        &record[HEAD + self.shift()..][..self.key_width]
    }

    /// Where the key of a whole record in range stands among all keys in bounds, the lowest at 0.
    pub fn slot(&self, record: &[u8]) -> usize {
        let fields = self.fields[usize::from(self.is_dated())..].iter();
        let key = fields.take_while(|f| f.role == Role::Key);
        key.fold(0, |slot, field| {
            let above = |number| (number - field.lowest) as usize;
            slot * (above(field.highest) + 1) + above(field.read(record))
        })
    }
}

const fn kind(mark: &Mark, length: usize, key_width: usize, fields: &'static [Field]) -> Kind {
    Kind {
        mark: *mark,
        of: *mark,
        length,
        key_width,
        fields,
    }
}

/// The first hour, and behind it the fields of a mark without one.
const fn behind_first_hour<const N: usize>(fields: &[Field]) -> [Field; N] {
    let mut dated = [FIRST_HOUR; N];
    let mut at = 1;
    while at < N {
        dated[at] = fields[at - 1].dated();
        at += 1;
    }
    dated
}

/// Another mark "with a first hour (4) after the issue": other letters, and all else is that mark's.
/// A macro, as no function of a mark can say how many fields its answer has.
macro_rules! dated {
    ($mark:literal, $of:ident) => {
        Kind {
            mark: *$mark,
            length: $of.length + FIRST_HOUR.width,
            fields: &behind_first_hour::<{ $of.fields.len() + 1 }>($of.fields),
            ..$of
        }
    };
}

const FU: Kind = kind(b"FU", 15, 1, &[fu::PROFILE, fu::FUEL, fu::EMISSION]);
const AD: Kind = kind(
    b"AD",
    17,
    3,
    &[ad::PROFILE, ad::COST, ad::LEVEL, ad::AMOUNT],
);
const MM: Kind = kind(
    b"MM",
    24,
    2,
    &[mm::PROFILE, mm::ITEM, mm::C, mm::W, mm::T, mm::S],
);

pub static TABLE: [Kind; 15] = [
    kind(
        b"RS",
        31,
        0,
        &[
            rs::TECHNOLOGY,
            rs::CAPACITY,
            rs::FACTOR,
            rs::START_HEAT,
            rs::NO_LOAD_HEAT,
            rs::INCREMENTAL_FUEL,
            rs::CHARGE,
            rs::EFFICIENCY,
            rs::WINDOW,
        ],
    ),
    kind(b"HP", 13, 1, &[hp::POINT, hp::OUTPUT, hp::HEAT]),
    FU,
    AD,
    kind(
        b"AO",
        18,
        4,
        &[ao::OWNER, ao::PROFILE, ao::COST, ao::LEVEL, ao::AMOUNT],
    ),
    MM,
    kind(
        b"RQ",
        16,
        1,
        &[rq::REQUEST, rq::FIRST, rq::LAST, rq::PROFILE],
    ),
    kind(b"HR", 11, 1, &[hr::HOUR, hr::PRICE]),
    kind(b"CH", 16, 2, &[ch::INTERVAL, ch::PRICE, ch::ENERGY]),
    kind(
        b"TH",
        18,
        2,
        &[th::CONDITION, th::LEVEL, th::PERCENT, th::MARGIN, th::FLOOR],
    ),
    kind(b"FP", 12, 2, &[fp::PLACE, fp::PRICE]),
    kind(b"LC", 10, 0, &[lc::COST]),
    dated!(b"FV", FU),
    dated!(b"AV", AD),
    dated!(b"MV", MM),
];

/// The kind that a mark names, if it names one.
pub fn kind_of(mark: &Mark) -> Option<&'static Kind> {
    TABLE.iter().find(|kind| kind.mark == *mark)
}

/// The kind of a mark's records with a first hour, if there is one.
pub fn dated_kind_of(mark: &Mark) -> Option<&'static Kind> {
    TABLE
        .iter()
        .find(|kind| kind.is_dated() && kind.of == *mark)
}

/// A field with the range that it has in this record: 3 goes by what an RS itself says.
pub fn as_in<'f>(record: &[u8], field: &'f Field) -> &'f Field {
    if *field == rs::WINDOW && rs::TECHNOLOGY.read(record) == Technology::Hydro.byte() {
        &rs::LONG_WINDOW
    } else {
        field
    }
}

#[derive(Clone, Copy, Debug, PartialEq, Eq, PartialOrd, Ord)]
pub enum Technology {
    Thermal,
    Nuclear,
    Storage,
    Hydro,
}

pub const TECHNOLOGIES: [Technology; 4] = [
    Technology::Thermal,
    Technology::Nuclear,
    Technology::Storage,
    Technology::Hydro,
];

pub const ENERGY: u8 = 1;
pub const START: u8 = 2;
pub const NO_LOAD: u8 = 3;
pub const RESERVE: u8 = 4;

impl Technology {
    /// The byte that stands for it in an RS.
    pub fn byte(self) -> i128 {
        match self {
            Technology::Thermal => 1,
            Technology::Nuclear => 2,
            Technology::Storage => 3,
            Technology::Hydro => 4,
        }
    }

    /// The levels it has.
    pub fn levels(self) -> &'static [u8] {
        match self {
            Technology::Thermal => &[ENERGY, START, NO_LOAD, RESERVE],
            Technology::Nuclear => &[ENERGY],
            Technology::Storage | Technology::Hydro => &[ENERGY, RESERVE],
        }
    }

    pub fn holds(self, level: u8) -> bool {
        self.levels().contains(&level)
    }

    /// The RS fields that it uses, of those that not every technology uses.
    pub fn uses(self) -> &'static [Field] {
        match self {
            Technology::Thermal => &[rs::FACTOR, rs::START_HEAT, rs::NO_LOAD_HEAT],
            Technology::Nuclear => &[rs::FACTOR, rs::INCREMENTAL_FUEL],
            Technology::Storage => &[rs::CHARGE, rs::EFFICIENCY, rs::WINDOW],
            Technology::Hydro => &[rs::WINDOW],
        }
    }

    /// The prices of an FU or FV that it wants 0.
    pub fn unpriced(self) -> &'static [Field] {
        match self {
            Technology::Thermal => &[],
            Technology::Nuclear | Technology::Storage => &[fu::EMISSION],
            Technology::Hydro => &[fu::FUEL, fu::EMISSION],
        }
    }
}

#[cfg(test)]
mod tests {
    use super::*;

    /// The key comes first, behind a first hour if there is one; fields lie back to back, and they
    /// fill the printed length.
    #[test]
    fn fields_fill_their_records() {
        for kind in &TABLE {
            let mut at = HEAD;
            for field in kind.fields {
                assert_eq!(field.at, at);
                let key = HEAD + kind.shift()..HEAD + kind.shift() + kind.key_width;
                assert_eq!(field.role == Role::Key, key.contains(&at));
                at += field.width;
            }
            assert_eq!(at, kind.length, "{:?}", kind.mark);
        }
    }

    /// No record of an owner has a first hour.
    #[test]
    fn a_record_of_an_owner_is_another_with_an_owner() {
        let [common, own] = [b"AD", b"AO"].map(|mark| kind_of(mark).unwrap());
        let fields: Vec<Field> = common.fields.iter().map(|f| f.behind(ao::OWNER)).collect();
        assert_eq!(own.fields[1..], fields);
        assert_eq!(own.length, common.length + 1);
        assert_eq!(own.key_width, common.key_width + 1);
        let allowed: Vec<i128> = (0..=255).filter(|n| ao::OWNER.allows(*n)).collect();
        assert_eq!(allowed, [1, 2]);
        assert!(dated_kind_of(b"AO").is_none());
    }

    #[test]
    fn a_dated_record_is_another_with_a_first_hour() {
        let dated: Vec<&Kind> = TABLE.iter().filter(|kind| kind.is_dated()).collect();
        assert_eq!(dated.len(), 3);
        for kind in dated {
            let undated = kind_of(&kind.of).unwrap();
            let fields: Vec<Field> = undated.fields.iter().map(|f| f.dated()).collect();
            assert_eq!(kind.fields[0], FIRST_HOUR);
            assert_eq!(kind.fields[1..], fields);
            assert_eq!(kind.length, undated.length + 4);
            assert_eq!(kind.key_width, undated.key_width);
        }
    }
}
