//! The time of a full forecast: calls of the library beside those of the model, on all 4,000 places
//! in every order of arrival and of prices.
//!
//! usage: forecast [ROUNDS]
//!
//! A cell is the nanoseconds of the model and of the library, and their ratio. The status is 1 if
//! an answer differs or a ratio is above 3, and 2 if ROUNDS is no number.

mod calls;
mod times;

use calls::{status, Input};
use model::make::forecast::{full, orders};
use std::process::ExitCode;
use times::{cells, head, rounds, row, Cell};

const MOST: f64 = 3.0;

fn holds(cell: &Cell) -> bool {
    cell.same && cell.times.ratio <= MOST
}

/// Prints the table; whether every cell holds.
fn run(words: &[&str]) -> Result<bool, String> {
    let rounds = rounds(words.first().copied())?;
    println!("{}", head(&["Places arrive", "Prices by place"]));
    let mut all_hold = true;
    for (arrival, prices) in orders() {
        let cells = cells(rounds, &Input::of(full(arrival, prices)));
        let (arrival, prices) = (format!("{arrival:?}"), format!("{prices:?}"));
        println!("{}", row(&[&arrival, &prices], &cells));
        all_hold &= cells.iter().flatten().all(holds);
    }
    Ok(all_hold)
}

fn main() -> ExitCode {
    let otherwise = format!("An answer differs, or a ratio is above {MOST}.");
    status(run, &otherwise)
}
