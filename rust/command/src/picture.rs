//! The picture of one hour's energy curve as SVG: the level and, over it, an offer with its limits.
//! It depends on nothing but its input, so the same input gives the same bytes.

mod axis;
pub mod day;
mod sheet;
#[cfg(test)]
mod tests;
pub mod week;
mod words;

use crate::offer::Pair;
use axis::Axis;
use bench::{Failing, Lamination};
use sheet::*;
use words::{megawatts, money, shorten, width};

/// An offer with what the test says of it.
#[derive(Clone, Debug)]
pub struct Offer<'a> {
    pub pairs: &'a [Pair],
    pub condition: &'a str,
    /// For each step the highest price that passes there, None if every price does.
    pub highest: &'a [Option<i32>],
    /// The first failing pair and lamination.
    pub fails: Option<Failing>,
}

/// What a picture shows.
#[derive(Clone, Debug)]
pub struct Picture<'a> {
    pub title: &'a str,
    pub steps: &'a [Lamination],
    pub offer: Option<Offer<'a>>,
}

/// A title that fits the sheet: of a long name its beginning, and all that stands behind it.
pub fn title(name: &str, behind: &str) -> String {
    let room = TITLE_ROOM - width(behind, TITLE);
    shorten(name, TITLE, room) + behind
}

pub fn svg(picture: &Picture) -> String {
    let lines = Lines::of(picture);
    let axis = Axis::of(&lines);
    let legend = legend(picture, &lines, &axis);
    let places = places(&legend);
    let plot = Plot::of(&lines, axis, HEIGHT - 66.0 - ROW * rows(&places));
    let mut sheet = Sheet::open(picture.title, &description(picture, &lines));
    sheet.price_axis(&plot, "Price (dollars per MWh)");
    sheet.output_axis(&plot);
    if let Some(failure) = failure(picture, &lines) {
        sheet.failure(&plot, &failure);
    }
    sheet.lines(&plot, &lines);
    sheet.legend(&legend, &places);
    sheet.out + "</svg>\n"
}

/// From and to in 0.1 MW, and the price between them in cents: a step, a pair or a limit. Pictures
/// over time have hours or intervals in place of MW.
pub type Run = (u16, u16, i128);

/// Runs that go on at the same price are one.
fn joined(runs: Vec<Run>) -> Vec<Run> {
    let mut all: Vec<Run> = Vec::new();
    for run in runs {
        match all.last_mut() {
            Some(last) if last.1 == run.0 && last.2 == run.2 => last.1 = run.1,
            _ => all.push(run),
        }
    }
    all
}

#[derive(Default)]
struct Lines {
    levels: Vec<Run>,
    prices: Vec<Run>,
    limits: Vec<Run>,
}

impl Lines {
    fn of(picture: &Picture) -> Lines {
        let none: (&[Pair], &[Option<i32>]) = (&[], &[]);
        let offer = picture.offer.as_ref();
        let (pairs, highest) = offer.map_or(none, |offer| (offer.pairs, offer.highest));
        let level = |step: &Lamination| (step.from, step.to, i128::from(step.level));
        let limit = |(step, price): (&Lamination, &Option<i32>)| {
            price.map(|price| (step.from, step.to, i128::from(price)))
        };
        // A pair that was tested reaches no higher than a capacity.
        let end = |pair: &Pair| pair.quantity.clamp(0, u16::MAX.into()) as u16;
        let starts = [0].into_iter().chain(pairs.iter().map(end));
        let price = |(from, pair): (u16, &Pair)| (from, end(pair), pair.price);
        let limited = picture.steps.iter().zip(highest);
        Lines {
            levels: picture.steps.iter().map(level).collect(),
            prices: starts.zip(pairs).map(price).collect(),
            limits: limited.filter_map(limit).collect(),
        }
    }
}

/// Where the first failing pair and lamination overlap, their name, and the price that fails.
struct Failure {
    from: u16,
    to: u16,
    name: String,
    price: String,
}

fn failure(picture: &Picture, lines: &Lines) -> Option<Failure> {
    let offer = picture.offer.as_ref()?;
    let Failing { pair, lamination } = offer.fails?;
    let price = lines.prices.get(pair.checked_sub(1)?)?;
    let level = lines.levels.get(lamination.checked_sub(1)?)?;
    let highest = offer.highest.get(lamination - 1).copied().flatten();
    let above = highest.map(|limit| format!(" above {}", money(limit.into())));
    let failure = Failure {
        from: price.0.max(level.0),
        to: price.1.min(level.1),
        name: format!("first failure: pair {pair} in lamination {lamination}"),
        price: money(price.2) + &above.unwrap_or_default(),
    };
    (failure.from < failure.to).then_some(failure)
}

/// What the picture shows, in the order of the legend.
fn legend(picture: &Picture, lines: &Lines, axis: &Axis) -> Vec<(Mark, String)> {
    let level = format!("energy level{}", range(&lines.levels));
    let mut legend = vec![(Mark::Line(LEVEL), level)];
    if let Some(offer) = &picture.offer {
        legend.extend(offer_legend(offer, lines, axis));
    }
    if let Some(Failure { name, price, .. }) = failure(picture, lines) {
        legend.push((Mark::Failure, format!("{name}, {price}")));
    }
    legend.extend(note("price", axis));
    legend
}

/// What is to be known of an axis that isn't even, or doesn't start at 0.
fn note(name: &str, axis: &Axis) -> Option<(Mark, String)> {
    let says = match (axis.unit, axis.low) {
        (Some(_), _) => "is logarithmic",
        (None, 1..) => "doesn't start at 0",
        _ => return None,
    };
    Some((Mark::Nothing, format!("The {name} axis {says}.")))
}

fn offer_legend(offer: &Offer, lines: &Lines, axis: &Axis) -> Vec<(Mark, String)> {
    let condition = shorten(offer.condition, SIZE, 200.0);
    let text = format!("offer, {} ({condition})", verdict(offer));
    let mut legend = vec![(Mark::Offer, text)];
    if !lines.limits.is_empty() {
        let text = format!("highest price that passes ({condition})");
        legend.push((Mark::Line(LIMIT), text));
    }
    let mut beyond = lines.limits.clone();
    beyond.retain(|limit| limit.2 > axis.high);
    if !beyond.is_empty() {
        let text = format!("above the price axis{}", range(&beyond));
        legend.push((Mark::Arrow, text));
    }
    if offer.highest.contains(&None) {
        let text = format!("where no limit is drawn, every price passes ({condition})");
        legend.push((Mark::Nothing, text));
    }
    legend
}

/// Where each entry of the legend starts, and in which row below the plot.
fn places(legend: &[(Mark, String)]) -> Vec<(f64, f64)> {
    let (mut x, mut row) = (40.0, 0.0);
    let place = |(mark, text): &(Mark, String)| {
        let wide = quarter(mark.width() + width(text, SIZE));
        if x > 40.0 && x + wide > RIGHT + 20.0 {
            (x, row) = (40.0, row + 1.0);
        }
        let place = (x, row);
        x += wide + 24.0;
        place
    };
    legend.iter().map(place).collect()
}

/// How many rows these places take.
fn rows(places: &[(f64, f64)]) -> f64 {
    places.last().map_or(0.0, |place| place.1 + 1.0)
}

/// The picture in words, for those who hear it.
fn description(picture: &Picture, lines: &Lines) -> String {
    let run = |(from, to, price): &Run| {
        let (from, to) = (megawatts(*from), megawatts(*to));
        format!("{from} to {to} MW at {}", money(*price))
    };
    let list = |runs: &[Run]| runs.iter().map(run).collect::<Vec<_>>().join("; ");
    let mut text = format!("Dollars per MWh. Energy level: {}.", list(&lines.levels));
    if let Some(offer) = &picture.offer {
        let (verdict, condition) = (verdict(offer), offer.condition);
        text += &format!(" Offer, {verdict} ({condition}): {}.", list(&lines.prices));
        text += &format!(" Highest price that passes: {}.", list(&lines.limits));
        if offer.highest.contains(&None) {
            text += " Elsewhere every price passes.";
        }
    }
    if let Some(Failure { name, price, .. }) = failure(picture, lines) {
        text += &format!(" The {name}, {price}.");
    }
    text
}

fn verdict(offer: &Offer) -> &'static str {
    if offer.fails.is_some() {
        "fails"
    } else {
        "passes"
    }
}

/// The lowest and highest price of some runs, to go behind their name.
fn range(runs: &[Run]) -> String {
    let prices = || runs.iter().map(|run| run.2);
    match (prices().min(), prices().max()) {
        (Some(low), Some(high)) if low < high => format!(", {} to {}", money(low), money(high)),
        (Some(price), _) => format!(", {}", money(price)),
        _ => String::new(),
    }
}
