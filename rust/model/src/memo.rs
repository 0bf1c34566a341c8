//! Document 002's examples, and its own rule for the charging cost of a battery, week after week,
//! written apart from the formulas (`costs`): the tests hold the model and Bench against both.

use crate::make::idle::{battery, last_cost};
use crate::make::written::{record, storage};
use crate::random::Random;

/// The price in cents and the energy in kWh of intervals in which a battery may charge.
pub type Week = Vec<(i128, i128)>;

pub fn is_idle(week: &Week) -> bool {
    week.iter().all(|(_, energy)| *energy == 0)
}

/// The memo's Charging Commodity Cost, week after week, in micro-dollars per MWh.
#[derive(Default)]
struct Memo {
    last_non_zero: Option<i128>,
}

impl Memo {
    /// Equation 3, and below it (line 384): "If no charging has been conducted during the previous
    /// seven-day period, the IESO uses the last non-zero value for the Charging Commodity Cost
    /// calculated". A cost below 0 is 0, by document 01.
    fn cost_of(&mut self, week: &Week) -> i128 {
        let scheduled: i128 = week.iter().map(|(_, energy)| energy).sum();
        if scheduled == 0 {
            return self.last_non_zero.unwrap_or(0);
        }
        let withdrawn = week.iter().map(|(price, energy)| price * energy);
        let paid = withdrawn.sum::<i128>().max(0) * 10_000;
        // to the nearest micro-dollar, half up, by request 3
        let cost = (2 * paid + scheduled) / (2 * scheduled);
        if cost > 0 {
            self.last_non_zero = Some(cost);
        }
        cost
    }
}

/// The energy level of `battery` in cents at a charging cost in micro-dollars: 0.75 more, over 0.8,
/// to the nearest micro-dollar.
pub fn level_at(cost: i128) -> u64 {
    let micro = ((cost + 750_000) * 5 + 2) / 4;
    (micro as u64 + 5_000) / 10_000
}

/// A station of the memo's examples, and the energy level that the papers print for it, in cents.
pub struct Example {
    pub name: &'static str,
    pub dossier: Vec<u8>,
    pub level: u64,
}

/// The memo's examples, M6 to M8 of document 01.
pub fn examples() -> Vec<Example> {
    let of = |name, dossier, level| Example {
        name,
        dossier,
        level,
    };
    let [day_ahead, real_time] = [[20_550, 10_640, 30_250], [31_520, 20_550, 10_640]];
    vec![
        of("M6, three hours", ranked(&day_ahead), 20_480),
        of("M6, out of 168", ranked(&among_168(day_ahead)), 20_480),
        of("M7, three hours", ranked(&real_time), 20_903),
        of("M7, out of 168", ranked(&among_168(real_time)), 20_903),
        of("M8, the charging cost alone", charged(0, 1_000), 125),
        of("M8, with fuel and efficiency", charged(750_000, 800), 250),
    ]
}

/// Table 4, row "Ranking" (line 545): DA (205.50 + 106.40 + 302.50) ÷ 3 = 204.80 $/MWh, RT (315.20 +
/// 205.50 + 106.40) ÷ 3 = 209.03 $/MWh; of 300.0 MWh and 80.0 MW, ROUNDDOWN (300.0 ÷ 80.0) = 3 hours
/// (lines 538 to 540).
fn ranked(prices: &[i128]) -> Vec<u8> {
    storage(3_000, 800, prices)
}

/// The memo ranks the three out of 168 hours.
fn among_168(best: [i128; 3]) -> [i128; 168] {
    let mut week = [10_639; 168];
    [week[167], week[0], week[80]] = best;
    week
}

/// 1,000 kWh at 20.00 and 3,000 at -5.00, at a fuel price in micro-dollars and an efficiency.
fn charged(fuel: i128, efficiency: i128) -> Vec<u8> {
    let more = [
        record(b"RS", 2, &[3, 800, 0, 0, 0, 0, 3_000, efficiency, 3]),
        record(b"CH", 1, &[1, 2_000, 1_000]),
        record(b"CH", 1, &[2, -500, 3_000]),
        record(b"FU", 2, &[1, fuel, 0]),
    ];
    [storage(3_000, 800, &[0; 3]), more.concat()].concat()
}

/// What the memo says of a week.
pub struct Told {
    pub cost: i128,
    /// The battery's dossiers with the level of each: without a last charging cost, where an idle
    /// week costs 0, and with those sent so far.
    pub dossiers: [(Vec<u8>, u64); 2],
}

/// Weeks in turn. Since the first cost above 0 each sends the last of them as a new issue of LC, which
/// lies amid the older ones.
pub fn told(weeks: &[Week]) -> Vec<Told> {
    let mut memo = Memo::default();
    let mut sent: Vec<Vec<u8>> = Vec::new();
    let turn = |(issue, week): (u32, &Week)| {
        let interval = |(i, (price, energy)): (i128, &_)| record(b"CH", 1, &[i, *price, *energy]);
        let intervals: Vec<_> = (1..).zip(week).map(interval).collect();
        let without = [battery(), intervals.concat()].concat();
        if let Some(cost) = memo.last_non_zero {
            sent.insert(sent.len() / 2, last_cost(issue, cost));
        }
        let with = [&without[..], &sent.concat()].concat();
        let cost = memo.cost_of(week);
        let alone = if is_idle(week) { 0 } else { cost };
        Told {
            cost,
            dossiers: [(without, level_at(alone)), (with, level_at(cost))],
        }
    };
    (1..).zip(weeks).map(turn).collect()
}

/// Weeks in turn with the cost that the memo gives each, in micro-dollars.
pub fn written_weeks() -> (Vec<Week>, Vec<i128>) {
    let weeks = [
        (vec![], 0),
        (vec![(2_000, 1_000), (-500, 3_000)], 1_250_000),
        (vec![], 1_250_000),
        (vec![(9_000, 0), (-9_000, 0)], 1_250_000),
        (vec![(3_000, 700), (5_000, 700), (9_000, 0)], 40_000_000),
        // costs of 0, which no idle week carries on
        (vec![(-500, 1)], 0),
        (vec![], 40_000_000),
        (vec![(0, 1_000_000)], 0),
        (vec![(100, 50), (-100, 50)], 0),
        (vec![(9_000, 0)], 40_000_000),
        (vec![], 40_000_000),
        // thirds of a micro-dollar, and half of one
        (vec![(1_000, 2), (1_001, 1)], 10_003_333),
        (vec![], 10_003_333),
        (vec![(1_000, 1), (1_001, 2)], 10_006_667),
        (vec![(1, 1), (0, 29_999)], 0),
        (vec![], 10_006_667),
        (vec![(1, 1), (0, 19_999)], 1),
        (vec![], 1),
        (vec![(200_000, 1_000_000)], 2_000_000_000),
        (vec![], 2_000_000_000),
    ];
    weeks.into_iter().unzip()
}

/// Twelve weeks, each of any sort.
pub fn made_weeks(random: &mut Random) -> Vec<Week> {
    let week = |_| {
        let (low, high) = random.pick(&[(-200_000, 200_000), (-40, 0), (1, 9_000)]);
        let most = random.pick(&[0, 1, 1_000_000]);
        let count = random.below(4);
        let mut interval = |_| (random.between(low, high), random.between(0, most));
        (0..count).map(&mut interval).collect()
    };
    (0..12).map(week).collect()
}
