//! The reference levels of a station, and the conduct test: safe functions over Bench's static
//! library.
//!
//! A market operator holds a station's energy and reserve offers against reference levels, which
//! come from the station's costs. Bench is lent these costs as a *dossier*, a list of bytes, and
//! says what the levels are at an hour, and whether an offer passes the conduct test. What it
//! answers is proved for every dossier there is; `docs/PROMISE.md` of the repository has the
//! theorems in words.
//!
//! # The dossier
//!
//! At most 60,000 bytes of records, back to back, in any order. A record has a mark of two letters,
//! an issue number and some fields, which begin with its key (a heat point has its number as key, a
//! fuel price the profile that it is for). Of the records with one mark and key, the one with the
//! highest issue is *current*, wherever it lies; older ones stay and say nothing. Fuel, adders and
//! maintenance may have a first hour (FV, AV and MV in place of FU, AD and MM, with the same keys): at
//! an hour the highest issue whose first hour has come counts. A plant may be offered by two owners,
//! 1 and 2, of whom a call with an hour names one: what one owner adds to a level (AO) counts in calls
//! that name it, and in no other. `docs/LIBRARY.md` lists the marks with their fields.
//!
//! ```
#![doc = include_str!("../doc/r1.rs")]
//!
//! # fn main() -> Result<(), bench::Refusal> {
//! let dossier = dossier();
//! bench::accept(&dossier)?;
//!
//! let owner = 1;
//! let levels = bench::levels(&dossier, 0, owner)?;
//! assert_eq!(levels.energy[0].level, 4_230); // 42.30 dollars per MWh
//! assert_eq!(levels.reserve, Some(25));
//! # Ok(())
//! # }
//! ```
//!
//! # What the calls answer
//!
//! - [`accept`]: whether the dossier is one that levels can be worked out from.
//! - [`levels`] and [`levels_into`]: the levels at an hour and for an owner, as a struct or as words.
//! - [`energy_test`] and [`price_test`]: whether an owner's offer passes the conduct test at an hour.
//! - [`report`]: the levels at an hour and for an owner as lines of text, and how many withdrawn
//!   payments there are.
//! - [`week`] and [`week_into`]: a battery's charging week, as a struct or in two lists.
//! - [`current`]: where the current record of a mark and key lies.
//!
//! A call is refused where the dossier, the offer or what is asked breaks a rule: a [`Refusal`] has
//! the number of the rule and the place. A refused call shows no level and writes nothing to what
//! it is lent.
//!
//! ```
//! # mod r1 { include!(concat!(env!("CARGO_MANIFEST_DIR"), "/doc/r1.rs")); }
//! # use r1::{dossier, record};
//! // a fuel price with the issue of one that is there
//! let twice = record(b"FU", 1, &[(1, 1), (4, 5_000_000), (4, 1_000_000)]);
//! let longer = [dossier(), twice].concat();
//!
//! let refusal = bench::accept(&longer).unwrap_err();
//! assert_eq!(refusal.number, 4); // a mark, key and issue that came before
//! assert_eq!(refusal.place, 166); // where the later of the two begins
//! assert_eq!(bench::levels(&longer, 0, 1), Err(refusal));
//! ```
//!
//! # Units
//!
//! Levels and prices are in cents: per MWh for energy, per start, per hour for no-load, per MW for
//! reserve. Quantities are in 0.1 MW, charged energy in kWh. An hour is any number from 0 to
//! 4,294,967,295, and means what it means in the dossier's requests (RQ) and first hours; places are
//! in bytes, from 0. Levels and conditions have numbers:
//!
//! | Number | Level | Condition |
//! |---|---|---|
//! | 1 | energy | narrow |
//! | 2 | start | broad |
//! | 3 | no-load | global |
//! | 4 | reserve | |
//!
//! # Panics
//!
//! No function panics on any input. Each does where the library answers what its proved contract
//! rules out ("the library answered with class 7"): then another library has been linked.
//!
//! # Memory and threads
//!
//! The library has no state and allocates nothing; here only [`levels`] and [`week`] do, for their
//! lists. Any number of threads may call at once. A call takes at most 135,000 bytes of stack, so
//! that a thread should have 256 KiB; those that `std` starts have 2 MiB.
#![warn(missing_docs)]

mod accept;
mod conduct;
mod levels;
mod raw;
mod report;
mod week;

pub use accept::{accept, current, Part};
pub use conduct::{energy_test, price_test, Failing, Verdict};
pub use levels::{levels, levels_into, Lamination, Levels, WORDS};
pub use report::{report, REPORT_BYTES};
pub use week::{week, week_into, Week, INTERVALS};

use std::fmt;

/// Why a call is turned back. It prints as the program `levels` does.
///
/// ```
/// let refusal = bench::accept(b"").unwrap_err();
/// assert_eq!(refusal.to_string(), "refused 5 at 0"); // no station record
/// ```
#[derive(Clone, Copy, Debug, PartialEq, Eq)]
pub struct Refusal {
    /// The rule, 1 to 17 or 20; README.md of the repository lists them.
    pub number: u8,
    /// The byte of the dossier where the refused record begins, or of the offer where the refused
    /// pair does; the length of either where the whole of it is refused; 0 for the rest, as for an
    /// owner that isn't 1 or 2.
    ///
    /// An offer above 4,294,967,295 bytes has its length cut to the low 32 bits.
    pub place: usize,
}

impl fmt::Display for Refusal {
    fn fmt(&self, out: &mut fmt::Formatter<'_>) -> fmt::Result {
        write!(out, "refused {} at {}", self.number, self.place)
    }
}

impl std::error::Error for Refusal {}

/// The library's answer word, taken apart.
#[derive(Clone, Copy, Debug, PartialEq, Eq)]
enum Word {
    Value(u64),
    Fails(Failing),
    Refused(Refusal),
}

impl Word {
    fn of(word: u64) -> Word {
        let a = (word >> 32) as u32 & 0xFF_FFFF;
        let b = word as u32 as usize;
        match word >> 56 {
            0 => Word::Value(word),
            1 => Word::Fails(Failing {
                pair: a as usize,
                lamination: b,
            }),
            2 => Word::Refused(Refusal {
                number: u8::try_from(a).expect("the library refuses with a number of README.md"),
                place: b,
            }),
            class => panic!("the library answered with class {class}"),
        }
    }

    /// The answer of a function that doesn't judge an offer.
    fn value(word: u64) -> Result<u64, Refusal> {
        match Word::of(word) {
            Word::Value(value) => Ok(value),
            Word::Refused(refusal) => Err(refusal),
            fails => panic!("the library answered with {fails:?}"),
        }
    }
}
