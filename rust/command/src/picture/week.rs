//! The picture of a charging week as SVG: the price and the energy of each interval as bars over the
//! seven days, the charging cost as a line, and a tint where no energy was charged.

use super::axis::Axis;
use super::sheet::*;
use super::words::{grouped, money, width};
use super::{joined, note, places, range, rows, Lines, Run};
use bench::INTERVALS;

/// What a week's picture shows.
#[derive(Clone, Debug)]
pub struct Week<'a> {
    pub title: &'a str,
    /// The week in words, for those who hear it.
    pub description: &'a str,
    /// The intervals in which energy was charged, counted from 0, by rising number: their prices in
    /// cents per MWh, and their energies in kWh.
    pub prices: Vec<Run>,
    pub energies: Vec<Run>,
    /// All that was charged, in kWh.
    pub total: i128,
    /// The charging cost in micro-dollars per MWh, if the station has one.
    pub cost: Option<i128>,
    /// Why nothing was charged, where nothing was.
    pub none: Option<&'a str>,
}

const END: u16 = INTERVALS as u16;
const DAYS: u16 = 7;
const PER_DAY: u16 = END / DAYS;
const IDLE: &str = "#eeeeee";
const PRICE: &str = BLUE;
const ENERGY: &str = ORANGE;
const DAY_EDGE: &str = "stroke='#999999' stroke-width='1'";
/// The height of the plot of energy, the gap above it, and what stands below it.
const LOW: f64 = 116.0;
const GAP: f64 = 22.0;
const FOOT: f64 = 86.0;
/// How high a bar is at least.
const LEAST: f64 = 2.5;
/// Axes and prices count hundredths, dollars as cents; so energies are put to them in hundredths.
const HUNDREDTHS: i128 = 100;
/// Micro-dollars in a cent.
const PER_CENT: i128 = 10_000;

pub fn svg(week: &Week) -> String {
    let (prices, energies) = (&week.prices, in_hundredths(&week.energies));
    let cost = week.cost.map(to_cents);
    let axes = [price_axis(prices, cost), energy_axis(&energies)];
    let legend = legend(week, &axes);
    let places = places(&legend);
    let bottom = HEIGHT - FOOT - ROW * rows(&places);
    let [above, below] = plots(axes, cost, bottom);
    let mut sheet = Sheet::open(week.title, week.description);
    for (plot, name) in [
        (&above, "Price (dollars per MWh)"),
        (&below, "Energy (kWh)"),
    ] {
        sheet.idle(plot, prices);
        sheet.price_axis(plot, name);
        sheet.day_edges(plot);
    }
    sheet.bars(&above, prices, PRICE);
    sheet.bars(&below, &energies, ENERGY);
    if let Some(cost) = cost {
        sheet.cost(&above, cost);
    }
    if let Some(why) = week.none {
        sheet.text_within(&above, why);
    }
    sheet.frame(&above);
    sheet.frame(&below);
    sheet.day_axis(&below);
    sheet.legend(&legend, &places);
    sheet.out + "</svg>\n"
}

fn in_hundredths(energies: &[Run]) -> Vec<Run> {
    let run = |(from, to, kwh): &Run| (*from, *to, kwh * HUNDREDTHS);
    energies.iter().map(run).collect()
}

/// Bars stand on 0, so that the axis has it.
fn axis_from_0(runs: impl Iterator<Item = Run>) -> Axis {
    Axis::of(&Lines {
        levels: runs.chain([(0, 0, 0)]).collect(),
        ..Lines::default()
    })
}

fn price_axis(prices: &[Run], cost: Option<i128>) -> Axis {
    let cost = cost.map(|cents| (0, 0, cents));
    axis_from_0(prices.iter().copied().chain(cost))
}

/// Fewer ticks than that of prices, as its plot is lower, and none below a whole kWh.
fn energy_axis(energies: &[Run]) -> Axis {
    let axis = axis_from_0(energies.iter().copied());
    let most = energies.iter().map(|run| run.2).max().unwrap_or(0);
    match axis.unit {
        Some(_) => axis,
        None => Axis::even(0, most.max(4 * HUNDREDTHS), 4),
    }
}

/// The plots of prices and of energies, as wide as the charging cost beside them lets them be.
fn plots(axes: [Axis; 2], cost: Option<i128>, bottom: f64) -> [Plot; 2] {
    let left = axes.iter().map(left_of).fold(0.0, f64::max);
    let beside = cost.map_or(0.0, |cents| width(&beside(cents), SIZE));
    let right = quarter(WIDTH - 32.0 - beside);
    let plot = |top: f64, bottom: f64, axis: Axis| Plot {
        left,
        right,
        top,
        bottom,
        end: END,
        axis,
    };
    let [price, energy] = axes;
    [
        plot(TOP, bottom - LOW - GAP, price),
        plot(bottom - LOW, bottom, energy),
    ]
}

/// Micro-dollars to the cent, half up.
fn to_cents(micro: i128) -> i128 {
    (micro + PER_CENT / 2) / PER_CENT
}

/// What stands at the right of the charging cost's line.
fn beside(cost: i128) -> String {
    format!("cost {}", money(cost))
}

/// What the picture shows, in the order of the legend.
fn legend(week: &Week, [price, energy]: &[Axis; 2]) -> Vec<(Mark, String)> {
    let mut legend = Vec::new();
    if !week.prices.is_empty() {
        let text = format!("price where it charged{}", range(&week.prices));
        legend.push((Mark::Band(PRICE), text));
        let text = format!("energy, {} kWh in all", grouped(week.total.unsigned_abs()));
        legend.push((Mark::Band(ENERGY), text));
    }
    if let Some(cost) = week.cost.map(to_cents) {
        let text = format!("charging cost, {}", money(cost));
        legend.push((Mark::Line(LIMIT), text));
    }
    if week.prices.len() < INTERVALS {
        legend.push((Mark::Band(IDLE), "idle".to_string()));
    }
    legend.extend(note("price", price));
    legend.extend(note("energy", energy));
    legend
}

impl Sheet {
    /// The tint where nothing was charged.
    fn idle(&mut self, plot: &Plot, charged: &[Run]) {
        let mut from = 0;
        for (start, end, _) in charged.iter().copied().chain([(END, END, 0)]) {
            if start > from {
                self.band(
                    Area(plot.x(from), plot.top, plot.x(start), plot.bottom),
                    IDLE,
                );
            }
            from = end;
        }
    }

    /// Bars that stand on 0, or hang from it. Their edge has their colour, so that five minutes are seen.
    fn bars(&mut self, plot: &Plot, runs: &[Run], colour: &str) {
        let zero = plot.y(0);
        // So is what is little beside the rest.
        let end = |size: i128| match size.signum() {
            1 => plot.y(size).min(zero - LEAST),
            -1 => plot.y(size).max(zero + LEAST),
            _ => zero,
        };
        for unbroken in joined(runs.to_vec()).chunk_by(|a, b| a.1 == b.0) {
            let mut line = format!("M{} {zero}", plot.x(unbroken[0].0));
            for (_, to, size) in unbroken {
                line += &format!("V{}H{}", end(*size), plot.x(*to));
            }
            self.out += &format!(
                "<path d='{line}V{zero}Z' fill='{colour}' stroke='{colour}' stroke-width='1.5'/>\n"
            );
        }
    }

    /// The charging cost over the bars, and its value beside the plot.
    fn cost(&mut self, plot: &Plot, cents: i128) {
        let y = plot.y(cents);
        let line = format!("M{} {y}H{}", plot.left, plot.right);
        self.path(&line, WHITE_EDGE);
        self.path(&line, LIMIT);
        self.take((plot.left, y), (plot.right, y));
        self.text(plot.right + 8.0, y + 4.5, "start", BLACK, &beside(cents));
    }

    /// A text in a plot that shows nothing else but perhaps the charging cost.
    fn text_within(&mut self, plot: &Plot, text: &str) {
        let x = quarter((plot.left + plot.right) / 2.0);
        let share = |part: f64| quarter(plot.top + (plot.bottom - plot.top) * part);
        let mut places = [0.5, 0.4, 0.6].map(share).into_iter();
        places.find(|y| self.text_if_free(x, *y, "middle", BLACK, text));
    }

    /// A line between each day and the next.
    fn day_edges(&mut self, plot: &Plot) {
        for day in 1..DAYS {
            let x = plot.x(day * PER_DAY);
            self.path(&format!("M{x} {}V{}", plot.top, plot.bottom), DAY_EDGE);
        }
    }

    /// Every sixth hour below the plot, and the days below them.
    fn day_axis(&mut self, plot: &Plot) {
        for quarter_day in 1..4 * DAYS {
            let x = plot.x(quarter_day * (PER_DAY / 4));
            self.path(&format!("M{x} {}V{}", plot.bottom, plot.bottom + 5.0), DARK);
            let hour = quarter_day % 4 * 6;
            if hour > 0 {
                self.text_if_free(x, plot.bottom + 20.0, "middle", BLACK, &hour.to_string());
            }
        }
        for day in 0..DAYS {
            let x = plot.x(day * PER_DAY + PER_DAY / 2);
            let name = format!("day {}", day + 1);
            self.text(x, plot.bottom + 39.0, "middle", BLACK, &name);
        }
        let middle = quarter((plot.left + plot.right) / 2.0);
        self.text(
            middle,
            plot.bottom + 60.0,
            "middle",
            BLACK,
            "Hours of each day",
        );
    }
}

#[cfg(test)]
mod tests {
    use super::super::tests::{check, check_texts};
    use super::*;

    /// Intervals in a row, from one on, with what is said of each.
    fn runs(from: u16, count: u16, of: impl Fn(u16) -> i128) -> Vec<Run> {
        let run = |n| (n, n + 1, of(n));
        (from..from + count).map(run).collect()
    }

    fn drawn(prices: Vec<Run>, energies: Vec<Run>, cost: Option<i128>) -> String {
        let total: i128 = energies.iter().map(|run| run.2).sum();
        let out = svg(&Week {
            title: "a week",
            description: "what it shows",
            none: prices.is_empty().then_some("no energy was charged"),
            prices,
            energies,
            total,
            cost,
        });
        check(&out);
        check_texts(&out);
        out
    }

    /// How many bars of a colour there are: intervals in a row are one path.
    fn bars(out: &str, colour: &str) -> usize {
        out.matches(&format!("Z' fill='{colour}' stroke")).count()
    }

    #[test]
    fn prices_energies_and_the_cost() {
        let prices = [
            runs(12, 2, |n| 2_000 - 150 * i128::from(n - 12)),
            runs(48, 1, |_| -500),
        ];
        let energies = [runs(12, 2, |_| 1_000), runs(48, 1, |_| 3_000)];
        let out = drawn(prices.concat(), energies.concat(), Some(7_884_615));
        for part in [
            ">price where it charged, -5.00 to 20.00<",
            ">energy, 5,000 kWh in all<",
            ">charging cost, 7.88<",
            ">cost 7.88<",
            ">idle<",
            ">day 1<",
            ">day 7<",
            ">Energy (kWh)<",
            ">Price (dollars per MWh)<",
            "<desc>what it shows</desc>",
        ] {
            assert!(out.contains(part), "{part} in {out}");
        }
        assert_eq!((bars(&out, PRICE), bars(&out, ENERGY)), (2, 2));
        assert!(!out.contains("axis is logarithmic") && !out.contains("no energy"));
    }

    /// Every interval charged: nothing is idle.
    #[test]
    fn a_full_week_has_no_idle_interval() {
        let price = |n: u16| i128::from(n * 7 % 1_000) - 200;
        let out = drawn(runs(0, END, price), runs(0, END, i128::from), Some(1));
        assert!(!out.contains("idle") && !out.contains(IDLE), "{out}");
        let out = drawn(runs(1, END - 1, price), runs(1, END - 1, |_| 1), Some(1));
        assert!(out.contains(">idle<"));
        assert_eq!(out.matches(IDLE).count(), 3);
    }

    #[test]
    fn a_week_without_charging() {
        for cost in [None, Some(0), Some(21_400_000), Some(2_000_000_000)] {
            let out = drawn(Vec::new(), Vec::new(), cost);
            assert!(out.contains(">no energy was charged<") && out.contains(">idle<"));
            assert_eq!(out.contains(">charging cost, "), cost.is_some());
            assert_eq!(bars(&out, PRICE) + bars(&out, ENERGY), 0);
        }
    }

    /// The ends of the ranges beside what is small: all of it is seen, and the axes say how.
    #[test]
    fn extreme_prices_and_energies() {
        let far = [(0, 1, -200_000), (1_000, 1_001, 200_000)];
        let prices = [&far[..], &runs(1_500, 30, |_| 20)].concat();
        let little = runs(1_500, 30, |_| 1);
        let energies = [&[(0, 1, 1_000_000), (1_000, 1_001, 1)], &little[..]].concat();
        let out = drawn(prices, energies, Some(0));
        assert!(out.contains("The price axis is logarithmic."), "{out}");
        assert!(out.contains("The energy axis is logarithmic."), "{out}");
        assert!(out.contains(">price where it charged, -2,000.00 to 2,000.00<"));
        assert_eq!(bars(&out, PRICE), 3);
    }

    /// A price below 0 hangs from the zero line, and one above stands on it.
    #[test]
    fn prices_below_0_lie_below_it() {
        let out = drawn(
            vec![(5, 6, -900), (9, 10, 900)],
            vec![(5, 6, 1), (9, 10, 1)],
            Some(0),
        );
        let paths = out
            .lines()
            .filter(|line| line.contains(&format!("fill='{PRICE}' stroke")));
        let ends = paths.map(|path| {
            let numbers: Vec<f64> = path
                .split(['M', ' ', 'V', 'H'])
                .filter_map(|n| n.parse().ok())
                .collect();
            numbers[2] - numbers[1]
        });
        let ends: Vec<f64> = ends.collect();
        assert!(
            ends.len() == 2 && ends[0] > 20.0 && ends[1] < -20.0,
            "{ends:?}"
        );
    }

    #[test]
    fn weeks_of_every_sort_are_drawn() {
        let sizes = [1, 70, 2_000, 9_999, 200_000];
        for (i, price) in sizes.into_iter().enumerate() {
            for (j, energy) in [1, 6_600, 1_000_000].into_iter().enumerate() {
                for step in [1_u16, 2, 97, 700] {
                    let numbers = (0..END).step_by(step.into());
                    let run = |n: u16, most: i128| (n, n + 1, i128::from(n % 13 + 1) * most / 13);
                    let sign = |n: u16| {
                        if (n as usize + i + j).is_multiple_of(3) {
                            -1
                        } else {
                            1
                        }
                    };
                    let prices = numbers.clone().map(|n| run(n, price * sign(n)));
                    let energies = numbers.map(|n| run(n, energy));
                    let cost = price * 10_000 / 2;
                    drawn(prices.collect(), energies.collect(), Some(cost));
                }
            }
        }
    }
}
