//! Levels term by term, in words and in JSON.

use super::{Explanation, Level, Place, Side, Term};
use crate::explain::{why, Standing};
use crate::json::{object, Json};
use crate::levels::megawatts;
use crate::unit::{decimal, parts, DOLLARS, FINE_DOLLARS, LEVEL};

/// Micro-dollars with all their places.
pub fn micro(amount: i128) -> String {
    parts(6, "dollars").write(amount)
}

/// Micro-dollars with the places that they need.
pub fn fine(amount: i128) -> String {
    FINE_DOLLARS.write(amount)
}

/// Cents as dollars.
pub fn cents(amount: i128) -> String {
    DOLLARS.write(amount)
}

/// What was paid for charged energy, a sum of cents per MWh times kWh, as dollars.
pub fn paid(sum: i128) -> String {
    paid_to(sum, DOLLARS.places)
}

/// The same with so many places after the point at least.
pub fn paid_to(sum: i128, shown: usize) -> String {
    decimal(5, shown, "dollars").write(sum)
}

/// How many records of a term are told in words; in JSON all are.
const MOST: usize = 24;

impl Place {
    pub fn words(&self) -> String {
        let name = LEVEL.write(self.level.into());
        match self.lamination {
            Some((number, from, to)) => {
                let (from, to) = (megawatts(from), megawatts(to));
                format!("{name} {number}, {from} to {to} MW")
            }
            None => name,
        }
    }

    fn json(&self) -> Json {
        let number = |n: String| Json::Number(n);
        let lamination = self.lamination;
        object([
            ("level", Json::text(LEVEL.write(self.level.into()))),
            (
                "lamination",
                lamination.map_or(Json::Null, |(n, ..)| Json::whole(n)),
            ),
            (
                "from",
                lamination.map_or(Json::Null, |(_, from, _)| number(megawatts(from))),
            ),
            (
                "to",
                lamination.map_or(Json::Null, |(.., to)| number(megawatts(to))),
            ),
        ])
    }
}

impl Explanation {
    /// The levels, each under its name, behind the profile and what asks for it.
    pub fn words(&self) -> String {
        let why = why(self.request.as_ref());
        let mut words = format!("{}: profile {}, {why}\n", self.asked, self.profile);
        if let Some(station) = &self.station {
            words += &format!("station: {}\n", station.short());
        }
        let levels = self.levels.iter().map(|level| {
            let there = self.library.iter().find(|(place, _)| *place == level.place);
            level.words(there.map(|(_, cents)| *cents))
        });
        words + &levels.collect::<String>() + &self.ahead_words()
    }

    /// The costs that lie ahead, each with the hour from which it counts.
    fn ahead_words(&self) -> String {
        let told = self.ahead.iter().take(MOST);
        let told = told.map(|ahead| {
            let (first, record) = (ahead.first, ahead.record.short());
            let withdrawn = if ahead.withdrawn { ", withdrawn" } else { "" };
            format!("  from hour {first} on: {record}{withdrawn}\n")
        });
        let more = match self.ahead.len().saturating_sub(MOST) {
            0 => String::new(),
            more => format!("  and {more} more, which --json lists\n"),
        };
        match self.ahead.is_empty() {
            true => String::new(),
            false => format!("\nahead\n{}{more}", told.collect::<String>()),
        }
    }

    pub fn json(&self, differences: &[String]) -> Json {
        let levels = self.levels.iter().map(|level| {
            let there = self.library.iter().find(|(place, _)| *place == level.place);
            let library = there.map_or(Json::Null, |(_, n)| Json::Number(cents(*n)));
            level.json().with("library", library)
        });
        let cited = |record: &Option<Standing>| record.as_ref().map_or(Json::Null, Standing::json);
        let explained = object([
            ("profile", Json::whole(self.profile.into())),
            ("request", cited(&self.request)),
            ("station", cited(&self.station)),
            ("levels", Json::List(levels.collect())),
            (
                "differences",
                Json::List(differences.iter().map(Json::text).collect()),
            ),
            (
                "ahead",
                Json::List(self.ahead.iter().map(|a| a.record.json()).collect()),
            ),
        ]);
        self.query.hour().and(explained).and(self.query.owner())
    }
}

/// How wide the column of amounts is at least.
const WIDTH: usize = 14;

impl Level {
    /// The sides below the level's name. No amount is longer than the greatest sum, as none is below 0.
    fn words(&self, library: Option<i128>) -> String {
        let sums = self.sides.iter().map(|side| micro(side.sum()).len());
        let width = sums.fold(WIDTH, usize::max);
        let sides = self
            .sides
            .iter()
            .map(|side| side.words(self.sides.len(), width));
        let sides: String = sides.collect();
        let taken = match (self.sides.len(), self.taken()) {
            (2.., Some(side)) => {
                let (sum, name) = (micro(self.sum()), side.name);
                format!("  {sum:>width$}  the greater, {name}\n")
            }
            _ => String::new(),
        };
        let library = library.map_or("none".to_string(), cents);
        let (place, level) = (self.place.words(), cents(self.cents()));
        let level =
            format!("  {level:>width$}  to the cent, half up; the library's level is {library}\n");
        format!("\n{place}\n{sides}{taken}{level}")
    }

    fn json(&self) -> Json {
        let sides = self.sides.iter().map(Side::json).collect();
        let taken = self
            .taken()
            .map_or(Json::Null, |side| Json::text(side.name));
        self.place.json().and(object([
            ("sides", Json::List(sides)),
            ("taken", taken),
            ("sum", Json::Number(micro(self.sum()))),
            ("dollars", Json::Number(cents(self.cents()))),
        ]))
    }
}

impl Side {
    /// The terms and their sum; with its name where there is another side.
    fn words(&self, sides: usize, width: usize) -> String {
        let terms = self.terms.iter().map(|term| term.words("", width));
        let terms: String = terms.collect();
        let (name, of) = match sides {
            1 => (String::new(), String::new()),
            _ => (format!("  {}:\n", self.name), format!(", {}", self.name)),
        };
        format!("{name}{terms}  {:>width$}  sum{of}\n", micro(self.sum()))
    }

    fn json(&self) -> Json {
        object([
            ("side", Json::text(self.name)),
            (
                "terms",
                Json::List(self.terms.iter().map(Term::json).collect()),
            ),
            ("sum", Json::Number(micro(self.sum()))),
        ])
    }
}

impl Term {
    /// The amount, how it comes about, and the records under it.
    fn words(&self, inset: &str, width: usize) -> String {
        let (amount, name) = (micro(self.amount), &self.name);
        let working = match self.working.is_empty() {
            true => String::new(),
            false => format!(" = {}", self.working),
        };
        let mut words = format!("  {inset}{amount:>width$}  {name}{working}\n");
        let gap = format!("  {inset}{:>width$}    ", "");
        // The station's record stands in the head.
        let told: Vec<&Standing> = self.records.iter().filter(|r| r.mark != "RS").collect();
        for record in told.iter().take(MOST) {
            words += &format!("{gap}{}\n", record.short());
        }
        if told.len() > MOST {
            let more = told.len() - MOST;
            words += &format!("{gap}and {more} more, which --json lists\n");
        }
        let inset = format!("  {inset}");
        let steps = self.steps.iter().map(|step| step.words(&inset, width));
        words + &steps.collect::<String>()
    }

    fn json(&self) -> Json {
        let records = self.records.iter().map(Standing::json).collect();
        object([
            ("term", Json::text(&self.name)),
            ("amount", Json::Number(micro(self.amount))),
            ("working", Json::text(&self.working)),
            ("records", Json::List(records)),
            (
                "steps",
                Json::List(self.steps.iter().map(Term::json).collect()),
            ),
        ])
    }
}
