//! A battery's charging cost, by document 01 and request 2 of document 02.

use super::costs::share;
use super::words::paid;

/// What intervals of charging come to.
#[derive(Clone, Copy, Debug, Default, PartialEq, Eq)]
pub struct Charged {
    /// In kWh.
    pub energy: i128,
    /// The sum of price × energy, in cents per MWh times kWh.
    pub paid: i128,
}

impl Charged {
    /// The sums over intervals, each a price in cents per MWh and an energy in kWh.
    pub fn of(intervals: impl Iterator<Item = (i128, i128)>) -> Charged {
        intervals.fold(Charged::default(), |sum, (price, energy)| Charged {
            energy: sum.energy + energy,
            paid: sum.paid + price * energy,
        })
    }

    /// The charging cost in micro-dollars per MWh, and how it comes about: the mean price of the
    /// energy; where none was charged, the last charging cost.
    pub fn cost(&self, last: Option<i128>) -> (i128, String) {
        if self.energy > 0 {
            let below = if self.paid < 0 { ", counted as 0," } else { "" };
            let (sum, energy) = (paid(self.paid), self.energy);
            let working = format!("paid {sum}{below} / {energy} kWh × 1000");
            return (share(self.paid.max(0) * 10_000, energy), working);
        }
        let working = match last {
            Some(_) => "no energy was charged: the last charging cost",
            None => "no energy was charged, and there is no LC",
        };
        (last.unwrap_or(0), working.to_string())
    }
}
