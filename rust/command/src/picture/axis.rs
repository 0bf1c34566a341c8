//! The price axis: which prices it shows, and its ticks.

use super::words::money;
use super::{Lines, Run};

/// The price axis in cents: its ends, and its ticks with the most useful first.
pub struct Axis {
    pub low: i128,
    pub high: i128,
    pub ticks: Vec<i128>,
    /// On a logarithmic axis, the price up to which it is nearly even.
    pub unit: Option<i128>,
}

impl Axis {
    pub fn of(lines: &Lines) -> Axis {
        let shown = || lines.levels.iter().chain(&lines.prices).map(|run| run.2);
        let limits = || lines.limits.iter().map(|run| run.2);
        let low = shown().chain(limits()).min().unwrap_or(0);
        let high = shown().max().unwrap_or(low);
        // A limit further up than this would press the levels and the offer flat.
        let reach = 5 * low.abs().max(high.abs()) / 2;
        let near = |limit: &i128| reach == 0 || *limit <= reach;
        let top = limits().filter(near).fold(high, i128::max);
        let whole = top.max(0) - low.min(0);
        if crowded(&lines.levels, whole) || crowded(&lines.prices, whole) {
            let least = shown().map(i128::abs).filter(|size| *size > 0).min();
            return Axis::logarithmic(low.min(0), top.max(0), least.unwrap_or(1));
        }
        // From 0, unless that leaves most of the plot empty and the curve too flat to read.
        if low < high && (high - low) * 7 < top && low * 2 > top {
            Axis::even(low, top, 8)
        } else {
            Axis::even(low.min(0), top.max(0), 8)
        }
    }

    /// The same height for each dollar, in at most so many parts.
    pub fn even(low: i128, high: i128, parts: i128) -> Axis {
        let high = if low == high { low + 100 } else { high };
        // Room for the price printed over the highest line or under the lowest.
        let spare = (high - low) / 12 + 1;
        let low = if low == 0 { 0 } else { low - spare };
        let step = round_step(high + spare - low, parts);
        let low = low.div_euclid(step);
        let high = (high + spare + step - 1).div_euclid(step);
        Axis {
            low: low * step,
            high: high * step,
            ticks: (low..=high).map(|tick| tick * step).collect(),
            unit: None,
        }
    }

    /// Both ways from 0, about the same height for each further digit; least is the smallest price
    /// that must be told from 0.
    fn logarithmic(low: i128, high: i128, least: i128) -> Axis {
        let end = |size: i128| round_step(size + size / 2, 1);
        let (low, high) = (if low < 0 { -end(-low) } else { 0 }, end(high));
        let mut ticks = vec![0];
        for first in [1, 5, 2] {
            let sizes = (0..21).rev().map(|zeros| first * 10_i128.pow(zeros));
            ticks.extend(sizes.flat_map(|size| [size, -size]));
        }
        ticks.retain(|tick| (low..=high).contains(tick));
        Axis {
            low,
            high,
            ticks,
            unit: Some(10_i128.pow(least.ilog10())),
        }
    }

    /// Where a price lies from the low end, 0, to the high end, 1.
    pub fn share(&self, price: i128) -> f64 {
        let bent = |price: i128| match self.unit {
            None => (price - self.low) as f64,
            Some(unit) => {
                let size = (price.abs() as f64 / unit as f64).ln_1p();
                size.copysign(price as f64)
            }
        };
        let (low, high) = (bent(self.low), bent(self.high));
        ((bent(price) - low) / (high - low)).clamp(0.0, 1.0)
    }

    /// A tick in dollars. On an even axis all ticks have cents or none has.
    pub fn text(&self, tick: i128) -> String {
        let cents = self.unit.is_none() && self.ticks.iter().any(|tick| tick % 100 != 0);
        let text = money(tick);
        let whole = text.strip_suffix(".00").filter(|_| !cents);
        whole.unwrap_or(&text).to_string()
    }
}

/// Whether most of these would seem to lie on an even axis's zero line.
fn crowded(runs: &[Run], whole: i128) -> bool {
    let small = |run: &&Run| run.2 != 0 && run.2.abs() * 25 < whole;
    runs.iter().filter(small).count() * 2 > runs.len()
}

/// The least of 1, 2, 5, 10, 20, ... that cuts the range into at most so many parts.
pub fn round_step(range: i128, parts: i128) -> i128 {
    let mut ten = 1;
    loop {
        let steps = [ten, 2 * ten, 5 * ten];
        if let Some(step) = steps.into_iter().find(|step| step * parts >= range) {
            return step;
        }
        ten *= 10;
    }
}
