//! `bench week`: a battery's charging week as a table, and a picture of it.

use crate::answer::{refused, Said, Status, Stop, Streams};
use crate::args::Args;
use crate::csv;
use crate::explain::of_dossier;
use crate::form::Form;
use crate::input::Input;
use crate::json::{object, Json};
use crate::lacks::current;
use crate::many::each;
use crate::output;
use crate::picture;
use crate::table;
use crate::terms::charging::Charged;
use crate::terms::words::{cents, fine, micro, paid, paid_to};
use crate::together::ask_only;
use bench::{Refusal, INTERVALS};

const DAYS: usize = 7;
/// How many intervals a day has, and how many minutes one of them.
const PER_DAY: usize = INTERVALS / DAYS;
const MINUTES: usize = 24 * 60 / PER_DAY;

/// A station's week.
struct Week {
    technology: String,
    /// Every interval, idle ones too.
    intervals: Vec<Interval>,
    charged: Charged,
    /// The charging cost in micro-dollars per MWh, and how it comes about; none at a station that
    /// isn't storage.
    cost: Option<(i128, String)>,
}

#[derive(Clone, Copy)]
struct Interval {
    /// From 1.
    number: usize,
    /// In cents per MWh.
    price: i128,
    /// In kWh.
    energy: i128,
}

pub fn run(args: &Args, streams: &mut Streams) -> Result<Status, Stop> {
    let form = Form::of(args, csv::WEEK)?;
    let all = args.has("all");
    let Some(path) = args.value("svg") else {
        return each(args, streams, &form, |input| match asked(input) {
            Ok(week) => week.said(all),
            Err(said) => said,
        });
    };
    ask_only(args, streams, &form, |input| {
        let week = match asked(input) {
            Ok(week) => week,
            Err(said) => return Ok(said),
        };
        output::write(path, week.drawn(input).as_bytes())?;
        Ok(week.said(all))
    })
}

fn asked(input: &Input) -> Result<Week, Said> {
    let Input { dossier, lines, .. } = input;
    Week::of(dossier).map_err(|refusal| refused(&of_dossier(refusal, dossier, lines)))
}

impl Week {
    /// The week as the library gives it, and what it comes to.
    fn of(dossier: &[u8]) -> Result<Week, Refusal> {
        let week = bench::week(dossier)?;
        let pairs = week.prices.iter().zip(&week.energies);
        let intervals: Vec<Interval> = (1..)
            .zip(pairs)
            .map(|(number, (price, energy))| Interval {
                number,
                price: i128::from(*price),
                energy: i128::from(*energy),
            })
            .collect();
        let charged = Charged::of(intervals.iter().map(|i| (i.price, i.energy)));
        let last = current(dossier, "LC", 0).map(|lc| lc.get("cost"));
        let station = current(dossier, "RS", 0);
        let technology = station.map_or(String::new(), |rs| rs.value("technology"));
        let cost = (technology == "storage").then(|| charged.cost(last));
        Ok(Week {
            technology,
            intervals,
            charged,
            cost,
        })
    }

    /// The intervals in which energy was charged.
    fn charging(&self) -> impl Iterator<Item = &Interval> + Clone {
        self.intervals.iter().filter(|i| i.energy > 0)
    }

    fn days(&self) -> Vec<Day<'_>> {
        let days = self.intervals.chunks(PER_DAY).zip(1..);
        days.map(|(intervals, number)| Day { number, intervals })
            .collect()
    }

    fn said(&self, all: bool) -> Said {
        let counts_as = match (&self.cost, self.charged.energy) {
            (None, _) => "not storage",
            (Some(_), 0) => "idle",
            (Some(_), _) => "charged",
        };
        let listed = self.listed(all);
        Said {
            status: Status::Done,
            counts_as,
            line: self.line(),
            words: self.words(&listed),
            json: object([("week", self.json(&listed))]),
        }
    }

    /// The intervals that are told: those of which there is something to tell, or all.
    fn listed(&self, all: bool) -> Vec<&Interval> {
        let all = all && self.cost.is_some();
        let told = |i: &&Interval| all || i.price != 0 || i.energy != 0;
        self.intervals.iter().filter(told).collect()
    }

    fn summary(&self) -> String {
        let (count, Charged { energy, paid: sum }) = (self.charging().count(), self.charged);
        if self.cost.is_none() {
            return format!("no charging week: the station is {}", self.technology);
        }
        let charged = format!("{count} of {INTERVALS} intervals charged");
        match energy {
            0 => charged,
            _ => format!("{charged}: {energy} kWh, paid {} dollars", paid(sum)),
        }
    }

    /// The charging cost, to stand behind the summary.
    fn cost_words(&self) -> Option<String> {
        let (cost, _) = self.cost.as_ref()?;
        Some(format!("charging cost {} dollars per MWh", fine(*cost)))
    }

    /// The summary and the charging cost in one line.
    fn line(&self) -> String {
        let cost = self.cost_words().map(|cost| format!("; {cost}"));
        self.summary() + &cost.unwrap_or_default()
    }

    /// The summary, a table of the days if there is charging in any, and one of the intervals.
    fn words(&self, listed: &[&Interval]) -> String {
        let mut words = self.summary() + "\n";
        if let (Some(cost), Some((_, working))) = (self.cost_words(), &self.cost) {
            let joined = if self.charged.energy > 0 { " =" } else { ";" };
            words += &format!("{cost}{joined} {working}\n");
        }
        if !listed.is_empty() {
            words += "\nprices in dollars per MWh, energy in kWh, paid in dollars\n";
        }
        if self.charged.energy > 0 {
            let days = self.days();
            let places = places(days.iter().map(|day| day.charged().paid));
            let mut rows = vec![heads(&DAY)];
            rows.extend(days.iter().map(|day| day.cells(places)));
            words += &format!("{}\n", table::written(&rows, 1));
        }
        if !listed.is_empty() {
            let places = places(listed.iter().map(|i| i.paid()));
            let mut rows = vec![heads(&INTERVAL)];
            rows.extend(listed.iter().map(|i| i.cells(places)));
            words += &table::written(&rows, 1);
        }
        words
    }

    fn json(&self, listed: &[&Interval]) -> Json {
        let (cost, working, days) = match &self.cost {
            Some((cost, working)) => (
                Json::Number(micro(*cost)),
                Json::text(working),
                self.days().iter().map(Day::json).collect(),
            ),
            None => (Json::Null, Json::Null, Vec::new()),
        };
        let intervals = listed.iter().map(|i| i.json()).collect();
        object([
            ("technology", Json::text(&self.technology)),
            ("charged", Json::whole(self.charging().count())),
            ("energy", Json::Number(self.charged.energy.to_string())),
            ("paid", Json::Number(paid(self.charged.paid))),
            ("cost", cost),
            ("working", working),
            ("days", Json::List(days)),
            ("intervals", Json::List(intervals)),
        ])
    }

    fn drawn(&self, input: &Input) -> String {
        let title = picture::title(&input.name.to_string(), ", charging week");
        let run = |i: &Interval, of: i128| (i.number as u16 - 1, i.number as u16, of);
        let none = match (&self.cost, self.charged.energy) {
            (None, _) => Some(self.summary()),
            (Some((_, working)), 0) => Some(working.clone()),
            _ => None,
        };
        picture::week::svg(&picture::week::Week {
            title: &title,
            description: &self.description(),
            prices: self.charging().map(|i| run(i, i.price)).collect(),
            energies: self.charging().map(|i| run(i, i.energy)).collect(),
            total: self.charged.energy,
            cost: self.cost.as_ref().map(|(cost, _)| *cost),
            none: none.as_deref(),
        })
    }

    /// The picture in words, for those who hear it.
    fn description(&self) -> String {
        let days = self.days();
        let days = days.iter().filter(|day| day.charging().next().is_some());
        let days: String = days.map(Day::told).collect();
        format!("{}.{days}", self.line())
    }
}

/// A day of the week, from 1.
struct Day<'a> {
    number: usize,
    intervals: &'a [Interval],
}

impl Day<'_> {
    fn charging(&self) -> impl Iterator<Item = &Interval> + Clone {
        self.intervals.iter().filter(|i| i.energy > 0)
    }

    fn charged(&self) -> Charged {
        Charged::of(self.charging().map(|i| (i.price, i.energy)))
    }

    /// The lowest and the highest price at which it charged.
    fn ends(&self) -> [Option<i128>; 2] {
        let prices = self.charging().map(|i| i.price);
        [prices.clone().min(), prices.max()]
    }

    /// Its row; what was paid has so many places after the point.
    fn cells(&self, places: usize) -> Vec<String> {
        let Charged { energy, paid: sum } = self.charged();
        let count = self.charging().count();
        let mut cells = vec![self.number.to_string(), count.to_string()];
        cells.extend([energy.to_string(), paid_to(sum, places)]);
        cells.extend(self.ends().into_iter().flatten().map(cents));
        cells
    }

    fn json(&self) -> Json {
        let Charged { energy, paid: sum } = self.charged();
        let price = |price: Option<i128>| price.map_or(Json::Null, |n| Json::Number(cents(n)));
        let [lowest, highest] = self.ends().map(price);
        object([
            ("day", Json::whole(self.number)),
            ("charged", Json::whole(self.charging().count())),
            ("energy", Json::Number(energy.to_string())),
            ("paid", Json::Number(paid(sum))),
            ("lowest", lowest),
            ("highest", highest),
        ])
    }

    /// The day in a sentence.
    fn told(&self) -> String {
        let (day, count, energy) = (self.number, self.charging().count(), self.charged().energy);
        let ends: Vec<String> = self.ends().into_iter().flatten().map(cents).collect();
        let charged = format!("{count} of {PER_DAY} intervals charged");
        let ends = ends.join(" to ");
        format!(" Day {day}: {charged}, {energy} kWh at {ends} dollars per MWh.")
    }
}

const DAY: [&str; 6] = ["day", "charged", "energy", "paid", "lowest", "highest"];
const INTERVAL: [&str; 7] = ["interval", "day", "from", "to", "price", "energy", "paid"];

/// How many places after the point what was paid has in a column, so that all of it is exact.
fn places(sums: impl Iterator<Item = i128>) -> usize {
    let needed = |sum| paid(sum).split('.').next_back().map_or(0, str::len);
    sums.map(needed).max().unwrap_or(0)
}

fn heads(names: &[&str]) -> Vec<String> {
    names.iter().map(|name| name.to_string()).collect()
}

impl Interval {
    /// Its day, and the times at which it begins and ends, by the clock of a week that begins at 00:00.
    fn times(&self) -> (usize, String, String) {
        let (day, of_day) = ((self.number - 1) / PER_DAY, (self.number - 1) % PER_DAY);
        let time = |minutes: usize| format!("{:02}:{:02}", minutes / 60, minutes % 60);
        let from = of_day * MINUTES;
        (day + 1, time(from), time(from + MINUTES))
    }

    /// In cents per MWh times kWh.
    fn paid(&self) -> i128 {
        self.price * self.energy
    }

    /// Its row; what was paid has so many places after the point.
    fn cells(&self, places: usize) -> Vec<String> {
        let (day, from, to) = self.times();
        let mut cells = vec![self.number.to_string(), day.to_string(), from, to];
        cells.extend([cents(self.price), self.energy.to_string()]);
        cells.push(paid_to(self.paid(), places));
        cells
    }

    fn json(&self) -> Json {
        let (day, from, to) = self.times();
        object([
            ("interval", Json::whole(self.number)),
            ("day", Json::whole(day)),
            ("from", Json::text(from)),
            ("to", Json::text(to)),
            ("price", Json::Number(cents(self.price))),
            ("energy", Json::Number(self.energy.to_string())),
            ("paid", Json::Number(paid(self.paid()))),
        ])
    }
}
