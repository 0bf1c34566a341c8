//! Document 01 with requests 1 to 3, 6, 8, 10 and 12 of document 02 in plain Rust: a dossier's
//! acceptance, its levels, the conduct test, the report and the charging week.
//!
//! Bench is run against this crate. It is written to be read beside the papers, goes over a dossier
//! once for each question, and shares no code with Bench. The functions named at the end of this
//! page take bytes and give whole answers; the modules follow the paper's order.

pub mod accept;
pub mod cases;
pub mod conduct;
pub mod costs;
pub mod dossier;
pub mod exact;
pub mod field;
pub mod levels;
pub mod make;
pub mod memo;
pub mod raise;
pub mod random;
pub mod report;
pub mod station;
pub mod table;
pub mod vectors;
pub mod week;
pub mod whole;

pub use accept::{accept, Answer};
pub use conduct::{energy_test, price_test, Failing, Verdict};
pub use exact::exact_levels;
pub use levels::levels;
pub use report::{program, report, OWNER};
pub use station::{current, current_start};
pub use week::{week, week_into, Week};

/// Why a call is turned back: the number of the rule, and the place where it broke.
#[derive(Clone, Copy, Debug, PartialEq, Eq)]
pub struct Refusal {
    pub number: u8,
    pub place: usize,
}

/// The refusal as the error of a result, which is how every function here hands it on.
pub fn refuse<T>(number: u8, place: usize) -> Result<T, Refusal> {
    Err(Refusal { number, place })
}
