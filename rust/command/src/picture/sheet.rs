//! The sheet and what is drawn on it: axes, lines, prices, the failure and the legend.

use super::axis::{round_step, Axis};
use super::words::{escape, megawatts, money, shorten, width};
use super::{rows, Failure, Lines, Run};

pub const WIDTH: f64 = 960.0;
pub const HEIGHT: f64 = 600.0;
pub const TOP: f64 = 76.0;
pub const RIGHT: f64 = 920.0;
pub const ROW: f64 = 21.0;
pub const SIZE: f64 = 13.0;
pub const TITLE: f64 = 20.0;
/// How wide a title may be.
pub const TITLE_ROOM: f64 = WIDTH - 80.0;

// Blue, dark orange and near-black stay apart for colour-blind eyes. For black-and-white print the
// lines also differ in width and pattern.
pub const BLUE: &str = "#0063a6";
pub const ORANGE: &str = "#b34700";
pub const BLACK: &str = "#222222";
pub const LEVEL: &str = "stroke='#0063a6' stroke-width='6'";
const OFFER: &str = "stroke='#b34700' stroke-width='2.25' stroke-dasharray='14 4 3 4'";
pub const LIMIT: &str = "stroke='#222222' stroke-width='1.75' stroke-dasharray='6 5'";
const HATCH: &str = "stroke='#94658d'";
pub const GRID: &str = "stroke='#dddddd'";
pub const DARK: &str = "stroke='#444444' stroke-width='1.5'";
// Where a line lies on another, this white edge keeps the two apart.
pub const WHITE_EDGE: &str = "stroke='#ffffff' stroke-width='3.5'";

/// Where the plot lies on the sheet, and its axes.
pub struct Plot {
    pub left: f64,
    pub right: f64,
    pub top: f64,
    pub bottom: f64,
    /// What lies at the right edge: an output in 0.1 MW, or a number of hours.
    pub end: u16,
    pub axis: Axis,
}

impl Plot {
    pub fn of(lines: &Lines, axis: Axis, bottom: f64) -> Plot {
        let runs = lines.levels.iter().chain(&lines.prices);
        let end = runs.map(|run| run.0.max(run.1)).max().unwrap_or(0).max(1);
        Plot {
            left: left_of(&axis),
            right: RIGHT,
            top: TOP,
            bottom,
            end,
            axis,
        }
    }

    pub fn x(&self, quantity: u16) -> f64 {
        let share = f64::from(quantity) / f64::from(self.end);
        quarter(self.left + (self.right - self.left) * share)
    }

    pub fn y(&self, price: i128) -> f64 {
        quarter(self.bottom - (self.bottom - self.top) * self.axis.share(price))
    }
}

/// Where a plot begins, behind the prices of its axis.
pub fn left_of(axis: &Axis) -> f64 {
    let widths = axis.ticks.iter().map(|tick| width(&axis.text(*tick), SIZE));
    quarter(48.0 + widths.fold(0.0, f64::max))
}

/// Every place on the sheet is a multiple of a quarter: f64 holds and adds these exactly, and
/// prints them with two decimals at most.
pub fn quarter(value: f64) -> f64 {
    (value * 4.0).round() / 4.0
}

/// Left, top, right and bottom.
#[derive(Clone, Copy)]
pub struct Area(pub f64, pub f64, pub f64, pub f64);

impl Area {
    fn meets(&self, other: &Area) -> bool {
        let across = self.0 < other.2 && other.0 < self.2;
        across && self.1 < other.3 && other.1 < self.3
    }

    /// What a text takes, with a little air.
    fn of_text(x: f64, y: f64, anchor: &str, text: &str) -> Area {
        let width = width(text, SIZE) + 4.0;
        let left = match anchor {
            "start" => x - 2.0,
            "middle" => x - width / 2.0,
            _ => x + 2.0 - width,
        };
        Area(left, y - 12.0, left + width, y + 5.0)
    }
}

/// Whether an area is apart from what this text takes.
fn apart_from(x: f64, y: f64, anchor: &str, text: &str) -> impl Fn(&Area) -> bool {
    let area = Area::of_text(x, y, anchor, text);
    move |other| !other.meets(&area)
}

/// What is drawn so far, and what texts and lines take of it.
pub struct Sheet {
    pub out: String,
    taken: Vec<Area>,
    /// What faint lines take, on which a price may stand that has no other place.
    faint: Vec<Area>,
}

impl Sheet {
    pub fn open(title: &str, description: &str) -> Sheet {
        let short = escape(&shorten(title, TITLE, TITLE_ROOM));
        let (title, description) = (escape(title), escape(description));
        let out = format!(
            "<svg xmlns='http://www.w3.org/2000/svg' viewBox='0 0 {WIDTH} {HEIGHT}' width='100%' \
             height='100%' role='img' font-family='sans-serif'>\n<title>{title}</title>\n\
             <desc>{description}</desc>\n\
             <rect x='0' y='0' width='{WIDTH}' height='{HEIGHT}' fill='#ffffff'/>\n\
             <text x='480' y='36' font-size='{TITLE}' text-anchor='middle' fill='{BLACK}'>{short}\
             </text>\n"
        );
        Sheet {
            out,
            taken: Vec::new(),
            faint: Vec::new(),
        }
    }

    pub fn path(&mut self, line: &str, style: &str) {
        self.out += &format!("<path d='{line}' fill='none' {style}/>\n");
    }

    /// Notes that a line goes from here to there, so that no price is printed on it.
    pub fn take(&mut self, (x, y): (f64, f64), (to_x, to_y): (f64, f64)) {
        let (left, top) = (x.min(to_x) - 2.0, y.min(to_y) - 3.0);
        let (right, bottom) = (x.max(to_x) + 2.0, y.max(to_y) + 3.0);
        self.taken.push(Area(left, top, right, bottom));
    }

    /// A faint line from the top of a plot to its bottom, which prices avoid where they can.
    pub fn upright(&mut self, plot: &Plot, x: f64, style: &str) {
        self.path(&format!("M{x} {}V{}", plot.top, plot.bottom), style);
        self.faint.push(Area(x, plot.top, x, plot.bottom));
    }

    /// A text with a white edge that keeps it readable over grid and hatching.
    pub fn text(&mut self, x: f64, y: f64, anchor: &str, colour: &str, text: &str) {
        self.taken.push(Area::of_text(x, y, anchor, text));
        let text = escape(text);
        self.out += &format!(
            "<text x='{x}' y='{y}' font-size='{SIZE}' text-anchor='{anchor}' fill='{colour}' \
             stroke='#ffffff' stroke-width='3' paint-order='stroke'>{text}</text>\n"
        );
    }

    /// The same if nothing lies there.
    pub fn text_if_free(&mut self, x: f64, y: f64, anchor: &str, colour: &str, text: &str) -> bool {
        let free = self.taken.iter().all(apart_from(x, y, anchor, text));
        if free {
            self.text(x, y, anchor, colour, text);
        }
        free
    }

    pub fn price_axis(&mut self, plot: &Plot, name: &str) {
        let (left, right, bottom) = (plot.left, plot.right, plot.bottom);
        for tick in &plot.axis.ticks {
            let (y, text) = (plot.y(*tick), plot.axis.text(*tick));
            // Ticks of a logarithmic axis crowd near 0; the less useful ones give way.
            if self.text_if_free(left - 8.0, y + 4.5, "end", BLACK, &text) {
                self.path(&format!("M{left} {y}H{right}"), GRID);
            }
        }
        if plot.axis.low < 0 {
            let zero = plot.y(0);
            self.path(&format!("M{left} {zero}H{right}"), DARK);
            self.take((left, zero), (right, zero));
        }
        let middle = quarter((plot.top + bottom) / 2.0);
        self.out += &format!(
            "<text x='22' y='{middle}' transform='rotate(-90 22 {middle})' font-size='{SIZE}' \
             text-anchor='middle' fill='{BLACK}'>{name}</text>\n"
        );
    }

    /// The axes' own lines, at the left and at the bottom.
    pub fn frame(&mut self, plot: &Plot) {
        let Plot {
            left,
            right,
            top,
            bottom,
            ..
        } = plot;
        self.path(&format!("M{left} {top}V{bottom}H{right}"), DARK);
    }

    pub fn output_axis(&mut self, plot: &Plot) {
        let (left, bottom) = (plot.left, plot.bottom);
        let step = round_step(i128::from(plot.end), 10) as usize;
        let end = (!usize::from(plot.end).is_multiple_of(step)).then_some(plot.end);
        for tick in (0..=plot.end).step_by(step).chain(end) {
            let (x, text) = (plot.x(tick), megawatts(tick));
            let whole = text.strip_suffix(".0").filter(|_| step.is_multiple_of(10));
            self.path(&format!("M{x} {TOP}V{bottom}"), GRID);
            self.text_if_free(x, bottom + 22.0, "middle", BLACK, whole.unwrap_or(&text));
        }
        self.path(&format!("M{left} {TOP}V{bottom}H{RIGHT}"), DARK);
        let middle = quarter((left + RIGHT) / 2.0);
        self.text(middle, bottom + 42.0, "middle", BLACK, "Output (MW)");
    }

    /// A hatched band over the first failure, and what it is above the plot.
    pub fn failure(&mut self, plot: &Plot, failure: &Failure) {
        // A thin band must be seen too.
        let left = plot.x(failure.from).min(RIGHT - 4.0);
        let right = plot.x(failure.to).max(left + 4.0);
        self.hatch(Area(left, TOP, right, plot.bottom));
        for side in [left, right] {
            self.taken.push(Area(side, TOP, side, plot.bottom));
        }
        self.text_above(plot, (left + right) / 2.0, &failure.name);
    }

    /// A text between title and plot, as near to this place as the plot's sides let it be.
    pub fn text_above(&mut self, plot: &Plot, x: f64, text: &str) {
        let half = width(text, SIZE) / 2.0;
        let x = x.max(plot.left + half).min(plot.right - half);
        self.text_if_free(quarter(x), plot.top - 10.0, "middle", BLACK, text);
    }

    pub fn lines(&mut self, plot: &Plot, lines: &Lines) {
        self.stairs(plot, &lines.levels, LEVEL);
        self.stairs(plot, &lines.prices, WHITE_EDGE);
        for limit in &lines.limits {
            self.stairs(plot, &[*limit], LIMIT);
            // A limit that the axis doesn't reach is an arrow at the top, its value above.
            if limit.2 > plot.axis.high {
                let x = quarter((plot.x(limit.0) + plot.x(limit.1)) / 2.0);
                self.arrow(x, TOP);
                self.text_above(plot, x, &money(limit.2));
            }
        }
        self.stairs(plot, &lines.prices, OFFER);
        for price in &lines.prices {
            self.point(plot.x(price.1), plot.y(price.2));
        }
        self.prices(plot, &lines.levels, BLUE);
        self.prices(plot, &lines.prices, ORANGE);
        self.prices(plot, &lines.limits, BLACK);
    }

    /// A line that goes along each run and up or down to the next.
    pub fn stairs(&mut self, plot: &Plot, runs: &[Run], style: &str) {
        let mut line = String::new();
        let mut before = None;
        for run in runs {
            let (left, right, y) = (plot.x(run.0), plot.x(run.1), plot.y(run.2));
            let join = if before.is_some() { 'L' } else { 'M' };
            line += &format!("{join}{left} {y}H{right}");
            self.take((left, before.unwrap_or(y)), (left, y));
            self.take((left, y), (right, y));
            before = Some(y);
        }
        if before.is_some() {
            self.path(&line, style);
        }
    }

    /// Prices at their lines, over or under them, where there is room.
    pub fn prices(&mut self, plot: &Plot, runs: &[Run], colour: &str) {
        for run in runs.iter().filter(|run| run.2 <= plot.axis.high) {
            let (text, y) = (money(run.2), plot.y(run.2));
            let half = width(&text, SIZE) / 2.0;
            let (first, last) = (plot.x(run.0) + half, plot.x(run.1) - half);
            // A price may stand out a little over its line's ends, but not over the plot's.
            let from = (first - 6.0).max(plot.left + half);
            let to = (last + 6.0).min(plot.right - half);
            if from > to {
                continue;
            }
            let (middle, fourth) = ((first + last) / 2.0, (last - first) / 4.0);
            let aside = [5.0, fourth, 2.0 * fourth - 5.0].into_iter();
            let places = [middle]
                .into_iter()
                .chain(aside.flat_map(|by| [middle - by, middle + by]));
            let places = places.map(|x| quarter(x.clamp(from, to)));
            let places = places.flat_map(|x| [(x, y - 8.0), (x, y + 18.0)]);
            let within = plot.top + 12.0..plot.bottom - 4.0;
            let places: Vec<(f64, f64)> = places.filter(|(_, y)| within.contains(y)).collect();
            self.text_at_first(&places, colour, &text);
        }
    }

    /// A text at the first of these places that is free, and off faint lines if one is.
    fn text_at_first(&mut self, places: &[(f64, f64)], colour: &str, text: &str) {
        let off = |areas: &[Area], (x, y): (f64, f64)| {
            let apart = apart_from(x, y, "middle", text);
            areas.iter().all(apart)
        };
        let places = places.iter().copied();
        let mut free = places.filter(|place| off(&self.taken, *place)).peekable();
        let first = free.peek().copied();
        if let Some((x, y)) = free.find(|place| off(&self.faint, *place)).or(first) {
            self.text(x, y, "middle", colour, text);
        }
    }

    /// The end of a pair.
    fn point(&mut self, x: f64, y: f64) {
        self.take((x - 4.0, y - 3.0), (x + 4.0, y + 3.0));
        self.out += &format!(
            "<circle cx='{x}' cy='{y}' r='4.5' fill='#ffffff' stroke='{ORANGE}' \
             stroke-width='2.25'/>\n"
        );
    }

    /// A filled arrow with its tip here.
    fn arrow(&mut self, x: f64, y: f64) {
        self.take((x - 6.0, y), (x + 6.0, y + 10.0));
        let (left, right, base) = (x - 6.0, x + 6.0, y + 10.0);
        let line = format!("M{x} {y}L{left} {base}H{right}Z");
        self.out += &format!("<path d='{line}' fill='{BLACK}'/>\n");
    }

    /// Slanted lines over an area, between its two sides.
    pub fn hatch(&mut self, Area(left, top, right, bottom): Area) {
        let mut line = format!("M{left} {top}V{bottom}M{right} {top}V{bottom}");
        // On each slanted line x and y have one sum.
        let mut sum = left + top + 10.0;
        while sum < right + bottom {
            let (from, to) = (left.max(sum - bottom), right.min(sum - top));
            line += &format!("M{from} {}L{to} {}", sum - from, sum - to);
            sum += 10.0;
        }
        self.path(&line, HATCH);
    }

    /// A tint over an area.
    pub fn band(&mut self, Area(left, top, right, bottom): Area, colour: &str) {
        let (width, height) = (right - left, bottom - top);
        self.out += &format!(
            "<rect x='{left}' y='{top}' width='{width}' height='{height}' fill='{colour}'/>\n"
        );
    }

    /// The legend at its places, at the foot of the sheet.
    pub fn legend(&mut self, legend: &[(Mark, String)], places: &[(f64, f64)]) {
        let last = rows(places) - 1.0;
        for ((mark, text), (x, row)) in legend.iter().zip(places) {
            self.entry(mark, text, *x, HEIGHT - 12.0 - ROW * (last - row));
        }
    }

    /// One entry of the legend.
    fn entry(&mut self, mark: &Mark, text: &str, x: f64, y: f64) {
        let (end, middle) = (x + 42.0, y - 4.5);
        let line = format!("M{x} {middle}H{end}");
        match mark {
            Mark::Line(style) => self.path(&line, style),
            Mark::Offer => {
                self.path(&line, OFFER);
                self.point(x + 21.0, middle);
            }
            Mark::Band(colour) => {
                let (top, bottom) = (y - 12.0, y + 3.0);
                self.band(Area(x, top, end, bottom), colour);
                self.path(&format!("M{x} {top}H{end}V{bottom}H{x}Z"), GRID);
            }
            Mark::Failure => self.hatch(Area(x, y - 12.0, end, y + 3.0)),
            Mark::Arrow => self.arrow(x + 21.0, y - 10.0),
            Mark::Nothing => {}
        }
        self.text(x + mark.width(), y, "start", BLACK, text);
    }
}

/// What stands before a text of the legend.
pub enum Mark {
    Line(&'static str),
    Offer,
    Band(&'static str),
    Failure,
    Arrow,
    Nothing,
}

impl Mark {
    pub fn width(&self) -> f64 {
        match self {
            Mark::Nothing => 0.0,
            _ => 50.0,
        }
    }
}
