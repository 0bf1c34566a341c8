//! Request 6: the charging week, a price and an energy for each of its intervals.

use crate::accept::accepted;
use crate::table::ch;
use crate::{refuse, Refusal};

/// Five minutes each, over seven days.
pub const INTERVALS: usize = ch::INTERVAL.highest as usize;

/// Interval n stands at place n - 1 of both lists.
#[derive(Clone, Debug, PartialEq, Eq)]
pub struct Week {
    /// In cents per MWh.
    pub prices: Vec<i32>,
    /// In kWh.
    pub energies: Vec<u32>,
}

impl Week {
    /// The week of a dossier without CH.
    pub fn without_record() -> Week {
        Week {
            prices: vec![0; INTERVALS],
            energies: vec![0; INTERVALS],
        }
    }

    /// Puts down what the record of an interval, from 1, says.
    pub fn put(&mut self, interval: usize, price: i32, energy: u32) {
        self.prices[interval - 1] = price;
        self.energies[interval - 1] = energy;
    }
}

/// The week of an accepted dossier: what the current record of each interval says, and 0 where
/// there is none.
pub fn week(dossier: &[u8]) -> Result<Week, Refusal> {
    let station = accepted(dossier)?;
    let mut week = Week::without_record();
    for record in station.current.of_mark(b"CH") {
        let [interval, energy] = [ch::INTERVAL, ch::ENERGY].map(|field| record.amount(field));
        week.put(
            interval as usize,
            record.get(ch::PRICE) as i32,
            energy as u32,
        );
    }
    Ok(week)
}

/// Writes the week to the first places of two lists and gives their number. A refused call, 15 for a
/// short list among them, leaves every place of both.
pub fn week_into(
    dossier: &[u8],
    prices: &mut [i32],
    energies: &mut [u32],
) -> Result<usize, Refusal> {
    let week = week(dossier)?;
    let (prices, energies) = (prices.get_mut(..INTERVALS), energies.get_mut(..INTERVALS));
    let (Some(prices), Some(energies)) = (prices, energies) else {
        return refuse(15, 0);
    };
    prices.copy_from_slice(&week.prices);
    energies.copy_from_slice(&week.energies);
    Ok(INTERVALS)
}
