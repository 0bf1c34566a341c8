//! The picture of a day as SVG: each level over the hours as steps, the profiles as bands behind
//! them, a line where another cost begins to count, and refused hours hatched. The levels but energy
//! have plots of their own below.

#[cfg(test)]
mod tests;

use super::axis::{round_step, Axis};
use super::sheet::*;
use super::words::{megawatts, money, width};
use super::{joined, note, places, range, rows, Lines, Run};
use bench::{Levels, Refusal};

/// What a day's picture shows: hours in a row, each with its levels or its refusal.
#[derive(Clone, Debug)]
pub struct Day<'a> {
    pub title: &'a str,
    pub from: u32,
    pub hours: Vec<Result<&'a Levels, Refusal>>,
    /// The hours from which another cost counts.
    pub changed: Vec<u32>,
}

/// Hours in a row that are alike: from and to, counted from the first of the picture.
struct Stretch<'a> {
    from: u16,
    to: u16,
    found: Result<&'a Levels, Refusal>,
}

/// One level over the hours: its name, and its runs of hours and cents.
struct Course {
    name: String,
    runs: Vec<Run>,
}

/// Light tints of four profiles that stay apart in grey.
const TINTS: [&str; 4] = ["#ffffff", "#dcebf7", "#fbe3cf", "#d5d5d5"];
const EDGE: &str = "stroke='#bbbbbb' stroke-width='1'";
const STEP: &str = "stroke='#0063a6' stroke-width='3'";
const THIN_STEP: &str = "stroke='#0063a6' stroke-width='1.25'";
const CHANGE: &str = "stroke='#000000' stroke-width='1.5' stroke-dasharray='2 4'";
/// How many hours of change the legend names, and how many stretches of refused hours.
const MOST_HOURS: usize = 6;
const MOST_STRETCHES: usize = 3;
/// How many lines of change a plot has room for.
const MOST_LINES: usize = 96;
/// The height of a plot below that of energy, and the gap above it.
const LOW: f64 = 62.0;
const GAP: f64 = 18.0;
const FOOT: f64 = 66.0;
/// How far apart the names of levels stand at least.
const SPACE: f64 = 17.0;

pub fn svg(day: &Day) -> String {
    let stretches = stretches(day);
    let energy = energy(&stretches);
    let others = others(&stretches);
    let axis = Axis::of(&lines(&energy));
    let mut legend = legend(day, &stretches, &energy);
    legend.extend(note("energy", &axis));
    let places = places(&legend);
    let bottom = HEIGHT - FOOT - ROW * rows(&places);
    let plots = plots(day, (&energy, axis), &others, bottom);
    let mut sheet = Sheet::open(day.title, &description(day, &stretches));
    sheet.bands(&plots, &stretches);
    let courses = [&energy[..]].into_iter().chain(others.chunks(1));
    for (index, (plot, courses)) in plots.iter().zip(courses).enumerate() {
        sheet.price_axis(plot, axis_name(plot, index == 0));
        sheet.frame(plot);
        sheet.changes(plot, day);
        sheet.courses(plot, courses);
    }
    if let Some(plot) = plots.last() {
        sheet.hour_axis(plot, day.from);
    }
    sheet.legend(&legend, &places);
    sheet.out + "</svg>\n"
}

/// The name of a plot's axis, short where a long one would reach into the plot below.
fn axis_name(plot: &Plot, is_energy: bool) -> &'static str {
    let long = "Energy (dollars per MWh)";
    match is_energy {
        true if width(long, SIZE) > plot.bottom - plot.top + GAP => "Energy ($/MWh)",
        true => long,
        false => "Dollars",
    }
}

fn stretches<'a>(day: &Day<'a>) -> Vec<Stretch<'a>> {
    let mut stretches: Vec<Stretch> = Vec::new();
    for (index, found) in (0..).zip(&day.hours) {
        match stretches.last_mut() {
            Some(last) if last.found == *found => last.to = index + 1,
            _ => stretches.push(Stretch {
                from: index,
                to: index + 1,
                found: *found,
            }),
        }
    }
    stretches
}

/// The levels of each stretch that has them, with its ends.
fn found<'a, 's>(
    stretches: &'s [Stretch<'a>],
) -> impl Iterator<Item = (u16, u16, &'a Levels)> + 's {
    let of = |s: &Stretch<'a>| s.found.ok().map(|levels| (s.from, s.to, levels));
    stretches.iter().filter_map(of)
}

/// Each lamination over the hours.
fn energy(stretches: &[Stretch]) -> Vec<Course> {
    let most = found(stretches)
        .map(|(.., levels)| levels.energy.len())
        .max();
    let course = |index: usize| {
        let steps = found(stretches).filter_map(|(from, to, levels)| {
            let step = levels.energy.get(index)?;
            Some((step.to, (from, to, i128::from(step.level))))
        });
        let (ends, runs): (Vec<u16>, Vec<Run>) = steps.unzip();
        Course {
            name: format!("to {} MW", megawatts(ends.last().copied().unwrap_or(0))),
            runs: joined(runs),
        }
    };
    (0..most.unwrap_or(0)).map(course).collect()
}

/// The other levels that are held.
fn others(stretches: &[Stretch]) -> Vec<Course> {
    let names = crate::levels::others;
    let course = |index: usize| {
        let runs = found(stretches).filter_map(|(from, to, levels)| {
            let cents = names(levels)[index].1?;
            Some((from, to, i128::from(cents)))
        });
        let name = found(stretches)
            .next()
            .map_or("", |(.., levels)| names(levels)[index].0);
        Course {
            name: name.to_string(),
            runs: joined(runs.collect()),
        }
    };
    let mut courses: Vec<Course> = (0..3).map(course).collect();
    courses.retain(|course| !course.runs.is_empty());
    courses
}

fn lines(courses: &[Course]) -> Lines {
    Lines {
        levels: courses.iter().flat_map(|c| c.runs.clone()).collect(),
        ..Lines::default()
    }
}

/// The plot of energy, and below it one for each other level, all as wide.
fn plots(
    day: &Day,
    (energy, axis): (&[Course], Axis),
    others: &[Course],
    bottom: f64,
) -> Vec<Plot> {
    let highest = |course: &Course| course.runs.iter().map(|run| run.2).max();
    let mut axes = vec![axis];
    axes.extend(
        others
            .iter()
            .map(|c| Axis::even(0, highest(c).unwrap_or(0), 2)),
    );
    let left = axes.iter().map(left_of).fold(0.0, f64::max);
    let names = energy.iter().chain(others).map(|c| width(&c.name, SIZE));
    let right = quarter(WIDTH - 24.0 - names.fold(0.0, f64::max));
    let count = others.len() as f64;
    let first = bottom - count * (LOW + GAP);
    let plot = |(index, axis): (usize, Axis)| {
        let below = index as f64 * (LOW + GAP);
        Plot {
            left,
            right,
            top: if index == 0 { TOP } else { first + below - LOW },
            bottom: first + below,
            end: day.hours.len().max(1) as u16,
            axis,
        }
    };
    axes.into_iter().enumerate().map(plot).collect()
}

/// What the picture shows, in the order of the legend.
fn legend(day: &Day, stretches: &[Stretch], energy: &[Course]) -> Vec<(Mark, String)> {
    let runs: Vec<Run> = energy.iter().flat_map(|c| c.runs.clone()).collect();
    let text = format!("energy level by lamination{}", range(&runs));
    let mut legend = vec![(Mark::Line(style(energy)), text)];
    let mut profiles: Vec<u8> = found(stretches)
        .map(|(.., levels)| levels.profile)
        .collect();
    profiles.sort_unstable();
    profiles.dedup();
    for profile in profiles {
        legend.push((Mark::Band(tint(profile)), format!("profile {profile}")));
    }
    let refusal = |s: &Stretch| s.found.err().map(|refusal| refusal.number);
    let mut numbers: Vec<u8> = stretches.iter().filter_map(refusal).collect();
    numbers.sort_unstable();
    numbers.dedup();
    for number in numbers {
        let refused = stretches.iter().filter(|s| refusal(s) == Some(number));
        let refused: Vec<Span> = refused.map(|stretch| span(day, stretch)).collect();
        let text = format!("{}: refused {number}", named(&refused, MOST_STRETCHES));
        legend.push((Mark::Failure, text));
    }
    if let Some(begun) = begun(day) {
        let left_out = lined(day).len() < day.changed.len();
        let some = if left_out { " (not all are drawn)" } else { "" };
        legend.push((Mark::Line(CHANGE), format!("a cost begins{some}: {begun}")));
    }
    legend
}

/// The line of levels: thin where it goes up and down, or beside others, in little room.
fn style(courses: &[Course]) -> &'static str {
    let close = courses.len() > 8 || courses.iter().any(|course| course.runs.len() > 100);
    if close {
        THIN_STEP
    } else {
        STEP
    }
}

/// The hours from which another cost counts, in words.
fn begun(day: &Day) -> Option<String> {
    let hours = day.changed.iter().map(|hour| u64::from(*hour));
    let hours: Vec<Span> = hours.map(|hour| (hour, hour)).collect();
    (!hours.is_empty()).then(|| named(&hours, MOST_HOURS))
}

/// Those of them that have a line: of such as lie too close the first.
fn lined(day: &Day) -> Vec<u32> {
    let apart = day.hours.len().div_ceil(MOST_LINES) as u32;
    let mut lined: Vec<u32> = Vec::new();
    for hour in &day.changed {
        if lined
            .last()
            .is_none_or(|last| hour.saturating_sub(*last) >= apart)
        {
            lined.push(*hour);
        }
    }
    lined
}

/// A stretch of hours in words.
pub fn hours(first: u32, last: u32) -> String {
    named(&[(first.into(), last.into())], 1)
}

/// A first and a last hour.
type Span = (u64, u64);

/// Hours in words, the first ones of many.
fn named(spans: &[Span], most: usize) -> String {
    let span = |(first, last): &Span| match first == last {
        true => first.to_string(),
        false => format!("{first} to {last}"),
    };
    let mut named: Vec<String> = spans.iter().take(most).map(span).collect();
    if spans.len() > most {
        named.push("and more".to_string());
    }
    let one = matches!(spans, [(first, last)] if first == last);
    format!("hour{} {}", if one { "" } else { "s" }, named.join(", "))
}

fn tint(profile: u8) -> &'static str {
    TINTS[usize::from(profile.max(1) - 1) % TINTS.len()]
}

fn span(day: &Day, stretch: &Stretch) -> Span {
    let hour = |index: u16| u64::from(day.from) + u64::from(index);
    (hour(stretch.from), hour(stretch.to - 1))
}

/// The picture in words, for those who hear it.
fn description(day: &Day, stretches: &[Stretch]) -> String {
    let levels = |levels: &Levels| {
        let step =
            |l: &bench::Lamination| format!("to {} MW {}", megawatts(l.to), money(l.level.into()));
        let energy: Vec<String> = levels.energy.iter().map(step).collect();
        let held = crate::levels::others(levels).into_iter();
        let others =
            held.filter_map(|(name, level)| Some(format!("; {name} {}", money(level?.into()))));
        let others: String = others.collect();
        format!(
            "profile {}; energy {}{others}",
            levels.profile,
            energy.join(", ")
        )
    };
    let told = |stretch: &Stretch| {
        let found = match &stretch.found {
            Ok(found) => levels(found),
            Err(refusal) => format!("refused {} at {}", refusal.number, refusal.place),
        };
        format!(" {}: {found}.", named(&[span(day, stretch)], 1))
    };
    let told: String = stretches.iter().map(told).collect();
    let begun = begun(day).map(|hours| format!(" A cost begins: {hours}."));
    let begun = begun.unwrap_or_default();
    format!("Energy in dollars per MWh, the other levels in dollars.{told}{begun}")
}

/// Where the names of levels stand beside their last prices, as near as they can without lying on one
/// another; of levels that lie too close for it, every second, third and so on has its name. The
/// levels rise from the first on, as laminations do.
fn beside<'c>(plot: &Plot, courses: &'c [Course]) -> Vec<(f64, &'c str)> {
    let end = |course: &Course| plot.y(course.runs.last().map_or(0, |run| run.2));
    let ends = || courses.iter().map(end);
    let reach = ends().fold(0.0, f64::max) - ends().fold(f64::MAX, f64::min);
    // One more than fit between the lowest and the highest, so that two that lie close both have theirs.
    let room = (reach / SPACE).max(0.0) as usize + 2;
    let every = courses.len().div_ceil(room).max(1);
    let named = courses.iter().rev().step_by(every).collect::<Vec<_>>();
    let mut names: Vec<(f64, &str)> = Vec::new();
    let mut lowest = plot.bottom;
    for course in named.into_iter().rev() {
        let place = (end(course) + 4.5).min(lowest);
        names.push((place, &course.name));
        lowest = place - SPACE;
    }
    // What was pushed out at the top comes down again, and pushes the others.
    let mut highest = plot.top + 10.0;
    for (place, _) in names.iter_mut().rev() {
        *place = place.max(highest);
        highest = *place + SPACE;
    }
    names
}

impl Sheet {
    /// The profiles behind the plots, and refused hours hatched, with their names above.
    fn bands(&mut self, plots: &[Plot], stretches: &[Stretch]) {
        let Some(first) = plots.first() else {
            return;
        };
        for plot in plots {
            for stretch in stretches {
                let area = Area(
                    plot.x(stretch.from),
                    plot.top,
                    plot.x(stretch.to),
                    plot.bottom,
                );
                match stretch.found {
                    Ok(levels) => self.band(area, tint(levels.profile)),
                    Err(_) => self.hatch(area),
                }
            }
        }
        let name = |stretch: &Stretch| match stretch.found {
            Ok(levels) => format!("profile {}", levels.profile),
            Err(refusal) => format!("refused {}", refusal.number),
        };
        // Within a profile levels may change: its name stands once, and not over others.
        for alike in stretches.chunk_by(|a, b| name(a) == name(b)) {
            let name = name(&alike[0]);
            let (from, to) = (alike[0].from, alike[alike.len() - 1].to);
            let (left, right) = (first.x(from), first.x(to));
            if 2.0 * (right - left) >= width(&name, SIZE) {
                self.text_above(first, (left + right) / 2.0, &name);
            }
        }
    }

    /// A line where another cost begins to count.
    fn changes(&mut self, plot: &Plot, day: &Day) {
        for hour in lined(day) {
            let index = u16::try_from(hour.saturating_sub(day.from)).unwrap_or(u16::MAX);
            // Beside the axis, not on it.
            let x = plot.x(index).max(plot.left + 3.0);
            self.upright(plot, x, CHANGE);
        }
    }

    /// Levels as steps, their names at the right and their prices where there is room.
    fn courses(&mut self, plot: &Plot, courses: &[Course]) {
        for course in courses {
            for unbroken in course.runs.chunk_by(|a, b| a.1 == b.0) {
                self.stairs(plot, unbroken, style(courses));
            }
        }
        for (y, name) in beside(plot, courses) {
            self.text_if_free(plot.right + 8.0, y, "start", BLUE, name);
        }
        for course in courses {
            self.prices(plot, &course.runs, BLUE);
        }
    }

    /// The hours below the lowest plot, each in the middle of its column.
    fn hour_axis(&mut self, plot: &Plot, from: u32) {
        let step = round_step(i128::from(plot.end), 24) as usize;
        let column = (plot.right - plot.left) / f64::from(plot.end);
        for index in (0..plot.end).step_by(step) {
            let x = quarter(plot.x(index) + column / 2.0);
            let hour = (u64::from(from) + u64::from(index)).to_string();
            if self.text_if_free(x, plot.bottom + 20.0, "middle", BLACK, &hour) {
                self.path(&format!("M{x} {}V{}", plot.bottom, plot.bottom + 5.0), EDGE);
            }
        }
        let middle = quarter((plot.left + plot.right) / 2.0);
        self.text(middle, plot.bottom + 40.0, "middle", BLACK, "Hour");
    }
}
