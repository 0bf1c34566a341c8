//! The formulas of document 01, "From records to levels", with those of requests 1 to 3, 10 and 12 of
//! document 02, in micro-dollars: every division to the nearest, half up, no payment to a third party,
//! and what an owner adds beside the common amounts.

use super::book::Book;
use super::charging::Charged;
use super::words::{cents, fine};
use super::{Level, Place, Side, Term};
use crate::record::Record;
use crate::unit::MEGAWATTS;

const ENERGY: u8 = 1;
const START: u8 = 2;
const NO_LOAD: u8 = 3;
const RESERVE: u8 = 4;

/// A quotient of numbers that aren't below 0, to the nearest, half up.
pub fn share(of: i128, by: i128) -> i128 {
    (2 * of + by) / (2 * by)
}

/// The levels that the technology holds, as an owner has them, in the order of the report.
pub fn levels(book: &Book, owner: u8) -> Vec<Level> {
    let Some(station) = book.counting("RS", 0) else {
        return Vec::new();
    };
    let fuel = book.counting("FU", book.profile.into());
    let Some(fuel) = fuel else {
        return Vec::new();
    };
    let costs = Costs {
        book,
        owner,
        station,
        fuel,
    };
    match station.value("technology").as_str() {
        "thermal" => {
            let mut levels = costs.thermal();
            levels.extend([costs.start(), costs.no_load(), costs.reserve()]);
            levels
        }
        "nuclear" => vec![costs.whole(vec![costs.nuclear()])],
        "storage" => vec![costs.whole(costs.storage()), costs.reserve()],
        _ => vec![costs.whole(vec![costs.hydro()]), costs.reserve()],
    }
}

/// The levels that a dated cost may join: fuel all but reserve, an adder its own, though it joins with
/// nothing where it is withdrawn, an item energy and starts.
pub fn joined(record: &Record) -> Vec<u8> {
    match record.mark.of {
        "FU" => vec![ENERGY, START, NO_LOAD],
        "AD" => u8::try_from(record.get("level")).into_iter().collect(),
        _ => vec![ENERGY, START],
    }
}

/// What the levels of a station rest on.
struct Costs<'b, 'a> {
    book: &'b Book<'a>,
    /// The owner whose own amounts join the common ones.
    owner: u8,
    station: Record<'a>,
    fuel: Record<'a>,
}

/// A level with one side.
fn level(level: u8, terms: Vec<Term>) -> Level {
    let lamination = None;
    let name = "cost";
    Level {
        place: Place { level, lamination },
        sides: vec![Side { name, terms }],
    }
}

impl Costs<'_, '_> {
    fn term(&self, name: &str, amount: i128, working: String, records: &[Record]) -> Term {
        Term {
            name: name.to_string(),
            amount,
            working,
            records: records.iter().map(|r| self.book.cited(r)).collect(),
            steps: Vec::new(),
        }
    }

    /// The adders of a level; one that is withdrawn joins with nothing. The owner's own are named so.
    fn added(&self, level: u8) -> Vec<Term> {
        let term = |r: &Record| {
            let (amount, working) = match r.is_withdrawn() {
                true => (0, format!("withdrawn: {} was claimed", r.value("amount"))),
                false => (r.get("amount"), String::new()),
            };
            let own = r.owner().map(|owner| format!(" of owner {owner}"));
            let name = r.value("cost") + &own.unwrap_or_default();
            self.term(&name, amount, working, &[*r])
        };
        let adders = self.book.adders(level, self.owner);
        adders.iter().map(term).collect()
    }

    /// The maintenance items, by a formula.
    fn items(&self, formula: impl Fn(&Record) -> (i128, String)) -> Vec<Term> {
        let term = |r: &Record| {
            let (amount, working) = formula(r);
            self.term(&format!("item {}", r.get("item")), amount, working, &[*r])
        };
        self.book.of_profile("MM").iter().map(term).collect()
    }

    /// What adders and items add to energy.
    fn energy_added(&self) -> Vec<Term> {
        let mut terms = self.added(ENERGY);
        terms.extend(self.items(|r| {
            let [cost, output, interval] = ["cost", "output", "interval"].map(|n| r.value(n));
            let amount = share(r.get("cost") * 100_000, r.get("output") * r.get("interval"));
            (amount, format!("{cost} / ({output} MW × {interval} h)"))
        }));
        terms
    }

    /// A side of energy that adders and items join.
    fn joined(&self, name: &'static str, first: Term) -> Side {
        let mut terms = vec![first];
        terms.extend(self.energy_added());
        Side { name, terms }
    }

    /// Energy in one lamination, from 0 to the capacity.
    fn whole(&self, sides: Vec<Side>) -> Level {
        let capacity = u16::try_from(self.station.get("capacity")).unwrap_or(u16::MAX);
        let lamination = Some((1, 0, capacity));
        let place = Place {
            level: ENERGY,
            lamination,
        };
        Level { place, sides }
    }

    /// One lamination between each point and the next; the first reaches down to 0.
    fn thermal(&self) -> Vec<Level> {
        let points = self.book.all("HP");
        let lamination = |(i, ends): (usize, &[Record])| {
            let output = |r: &Record| u16::try_from(r.get("output")).unwrap_or(u16::MAX);
            let from = if i == 0 { 0 } else { output(&ends[0]) };
            let mut terms = self.along(&ends[0], &ends[1]);
            terms.extend(self.energy_added());
            let place = Place {
                level: ENERGY,
                lamination: Some((i + 1, from, output(&ends[1]))),
            };
            Level {
                place,
                ..level(ENERGY, terms)
            }
        };
        points.windows(2).enumerate().map(lamination).collect()
    }

    /// Fuel and emission between two points of the curve.
    fn along(&self, from: &Record, to: &Record) -> Vec<Term> {
        let rise = |name| to.get(name) - from.get(name);
        let (heat, output) = (rise("heat"), rise("output"));
        let factor = self.station.get("factor");
        let burnt = share(heat * self.fuel.get("fuel") * factor, 100_000 * output);
        let emitted = share(heat * self.fuel.get("emission"), 100 * output);
        let over = MEGAWATTS.write(output);
        let [price, emission] = ["fuel", "emission"].map(|n| self.fuel.value(n));
        let factor = self.station.value("factor");
        let records = [*from, *to, self.fuel, self.station];
        let gas = format!("{heat} MJ / 1000 × {price} × {factor} / {over} MW");
        let smoke = format!("{heat} MJ / 1000 × {emission} / {over} MW");
        vec![
            self.term("fuel", burnt, gas, &records),
            self.term("emission", emitted, smoke, &records[..3]),
        ]
    }

    /// Fuel and emission of a heat of the station record, per start or per hour.
    fn burnt(&self, heat: &str) -> Vec<Term> {
        let heat = self.station.get(heat);
        let burnt = heat * self.fuel.get("fuel") * self.station.get("factor");
        let emitted = heat * self.fuel.get("emission");
        let [price, emission] = ["fuel", "emission"].map(|n| self.fuel.value(n));
        let factor = self.station.value("factor");
        let gas = format!("{heat} MJ / 1000 × {price} × {factor}");
        let smoke = format!("{heat} MJ / 1000 × {emission}");
        let records = [self.station, self.fuel];
        vec![
            self.term("fuel", share(burnt, 1_000_000), gas, &records),
            self.term("emission", share(emitted, 1_000), smoke, &records),
        ]
    }

    fn start(&self) -> Level {
        let mut terms = self.burnt("start-heat");
        terms.extend(self.added(START));
        terms.extend(self.items(|r| {
            let [cost, hours, interval] = ["cost", "start-hours", "interval"].map(|n| r.value(n));
            let per_start = r.get("cost") * r.get("start-hours") * 1_000;
            let working = format!("{cost} × {hours} h / {interval} h");
            (share(per_start, r.get("interval")), working)
        }));
        level(START, terms)
    }

    fn no_load(&self) -> Level {
        let mut terms = self.burnt("no-load-heat");
        terms.extend(self.added(NO_LOAD));
        level(NO_LOAD, terms)
    }

    fn reserve(&self) -> Level {
        level(RESERVE, self.added(RESERVE))
    }

    fn nuclear(&self) -> Side {
        let used = self.station.get("incremental-fuel");
        let amount = used * self.fuel.get("fuel") * self.station.get("factor");
        let (price, factor) = (self.fuel.value("fuel"), self.station.value("factor"));
        let working = format!("{used} mg / 1000000 × {price} × {factor}");
        let records = [self.station, self.fuel];
        let fuel = self.term("fuel", share(amount, 1_000_000_000), working, &records);
        self.joined("cost", fuel)
    }

    /// The short-run cost, which adders and items join, and the opportunity cost.
    fn storage(&self) -> Vec<Side> {
        let charging = self.charging();
        let (fuel, efficiency) = (self.fuel.get("fuel"), self.station.get("efficiency"));
        let bought = (charging.amount + fuel) * 1_000;
        let (cost, price) = (fine(charging.amount), self.fuel.value("fuel"));
        let working = format!("({cost} + {price}) / {}", self.station.value("efficiency"));
        let records = [self.fuel, self.station];
        let mut stored = self.term(
            "charging and fuel",
            share(bought, efficiency),
            working,
            &records,
        );
        stored.steps.push(charging);
        vec![self.joined("short-run cost", stored), self.opportunity()]
    }

    /// The charging cost, on the intervals of the week or on the last charging cost.
    fn charging(&self) -> Term {
        let intervals = self.book.all("CH");
        let charged = Charged::of(intervals.iter().map(|r| (r.get("price"), r.get("energy"))));
        let last = self.book.counting("LC", 0);
        let (amount, working) = charged.cost(last.map(|r| r.get("cost")));
        let records = match (charged.energy, last) {
            (0, Some(last)) => vec![last],
            _ => intervals,
        };
        self.term("charging cost", amount, working, &records)
    }

    /// The mean of the highest prices of the window, as many as there are full hours of charge.
    fn opportunity(&self) -> Side {
        let [charge, capacity, window] =
            ["charge", "capacity", "window"].map(|n| self.station.get(n));
        let hours = charge / capacity;
        let prices = self.book.highest("HR", window);
        let taken = &prices[..prices.len().min(usize::try_from(hours).unwrap_or(0))];
        let sum: i128 = taken.iter().map(|r| r.get("price")).sum();
        let below = if sum < 0 { ", counted as 0" } else { "" };
        let working = format!(
            "the {hours} highest of {window} hours, as {} MWh last {hours} full hours at {} MW; their sum {}{below} / {hours}",
            self.station.value("charge"),
            self.station.value("capacity"),
            cents(sum)
        );
        let amount = share(sum.max(0) * 10_000, hours);
        let term = self.term("prices of the window", amount, working, taken);
        let terms = vec![term];
        let name = "opportunity cost";
        Side { name, terms }
    }

    /// The forecast's price at its place from the top, which adders and items join.
    fn hydro(&self) -> Side {
        let window = self.station.get("window");
        let place = window / 50;
        let prices = self.book.highest("FP", window);
        let at = usize::try_from(place - 1).ok().and_then(|i| prices.get(i));
        let price = at.map_or(0, |r| r.get("price"));
        let below = if price < 0 { ", counted as 0" } else { "" };
        let working = format!(
            "place {place} from the top of {window}, {window} / 50: {}{below}",
            cents(price)
        );
        let records: Vec<Record> = at.into_iter().copied().collect();
        let forecast = self.term("forecast", price.max(0) * 10_000, working, &records);
        self.joined("cost", forecast)
    }
}
