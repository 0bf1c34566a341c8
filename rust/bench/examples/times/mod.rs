//! How long calls take, by rounds, and the rows of a table.
//!
//! All times and ratios are medians over the rounds.

use crate::calls::{Call, Input, Side, NAMES};
use std::time::Instant;

/// How long each side is called in a round, in nanoseconds: so short that most rounds go through
/// without a pause on a machine that does other things too.
const ROUND: f64 = 5e5;

const MOST_ROUNDS: usize = 10_000;

/// The number of rounds that an argument says, 31 without one.
pub fn rounds(argument: Option<&str>) -> Result<usize, String> {
    let Some(word) = argument else {
        return Ok(31);
    };
    let number = word.parse().ok().filter(|n| (1..=MOST_ROUNDS).contains(n));
    number.ok_or(format!("{word} is no number of rounds, 1 to {MOST_ROUNDS}"))
}

/// Two that are called in turn: their nanoseconds, and the second over the first within a round.
pub struct Times {
    pub first: f64,
    pub second: f64,
    pub ratio: f64,
}

impl Times {
    pub fn of(rounds: usize, first: &dyn Side, second: &dyn Side) -> Times {
        let (firsts, seconds) = (repeats(first), repeats(second));
        let round = |_| (lap(first, firsts), lap(second, seconds));
        let times: Vec<(f64, f64)> = (0..rounds).map(round).collect();
        let middle = |of: fn(&(f64, f64)) -> f64| median(times.iter().map(of).collect());
        Times {
            first: middle(|t| t.0),
            second: middle(|t| t.1),
            ratio: middle(|t| t.1 / t.0),
        }
    }
}

/// One call on one dossier: the model, then the library.
pub struct Cell {
    pub times: Times,
    pub same: bool,
}

impl Cell {
    fn of(rounds: usize, call: Call) -> Cell {
        Cell {
            times: Times::of(rounds, &*call.model, &*call.library),
            same: call.same(),
        }
    }

    fn text(&self) -> String {
        let differs = if self.same { "" } else { " DIFFERS" };
        let Times {
            first,
            second,
            ratio,
        } = self.times;
        format!("{first:.0} / {second:.0} / {ratio:.2}{differs}")
    }
}

/// How many calls make up a round.
fn repeats(side: &dyn Side) -> u32 {
    (ROUND / lap(side, 3)) as u32 + 1
}

/// Nanoseconds of one call, over some of them.
fn lap(side: &dyn Side, repeats: u32) -> f64 {
    let start = Instant::now();
    for _ in 0..repeats {
        side.once();
    }
    start.elapsed().as_nanos() as f64 / f64::from(repeats)
}

fn median(mut times: Vec<f64>) -> f64 {
    let middle = times.len() / 2;
    *times.select_nth_unstable_by(middle, f64::total_cmp).1
}

/// By the names of the calls; none where a station has no such call.
pub type Cells<C = Cell> = [Option<C>; NAMES.len()];

pub fn cells(rounds: usize, input: &Input) -> Cells {
    NAMES.map(|name| Some(Cell::of(rounds, input.call(name)?)))
}

/// The head of a table: these columns, then one for each call.
pub fn head(columns: &[&str]) -> String {
    let rule = "---|".repeat(columns.len() + NAMES.len());
    let names = NAMES.map(|name| format!("`{name}`"));
    format!(
        "| {} | {} |\n|{rule}",
        columns.join(" | "),
        names.join(" | ")
    )
}

pub fn row(columns: &[&str], cells: &Cells) -> String {
    let texts = cells.each_ref().map(|cell| cell.as_ref().map(Cell::text));
    row_of(columns, texts)
}

/// A row with other text in its cells.
pub fn row_of(columns: &[&str], texts: Cells<String>) -> String {
    let texts = texts.map(|text| text.unwrap_or("-".to_string()));
    format!("| {} | {} |", columns.join(" | "), texts.join(" | "))
}
