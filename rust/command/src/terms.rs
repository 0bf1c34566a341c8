//! `bench explain`: each level of an hour term by term, with the records that it rests on.
//!
//! The library works the levels out. Here the terms are put beside them: the records come from the
//! library's lookup, each term from a formula of the papers, and where the terms don't come to the
//! library's level the answer says so and is an error.

pub mod book;
pub mod charging;
mod costs;
pub mod words;

use crate::answer::{refused, Said, Status, Stop, Streams};
use crate::args::Args;
use crate::explain::{of_hour, of_offer, standing, Standing};
use crate::form::Form;
use crate::input::Input;
use crate::levels::{self, others};
use crate::many::each;
use crate::offer::read_level;
use crate::query::Query;
use crate::record::Record;
use crate::unit::LEVEL;
use bench::{Levels, Refusal};
use book::Book;

/// An amount that a level is made of, in micro-dollars.
#[derive(Debug)]
pub struct Term {
    pub name: String,
    pub amount: i128,
    /// How the amount comes about, in numbers.
    pub working: String,
    pub records: Vec<Standing>,
    /// What is worked out on the way to the amount.
    pub steps: Vec<Term>,
}

/// Terms that are added up. A battery's energy has two sides, of which the greater is taken.
#[derive(Debug)]
pub struct Side {
    pub name: &'static str,
    pub terms: Vec<Term>,
}

impl Side {
    pub fn sum(&self) -> i128 {
        self.terms.iter().map(|term| term.amount).sum()
    }
}

/// A level's name and, for energy, its lamination: number, and ends in 0.1 MW.
#[derive(Clone, Copy, Debug, PartialEq, Eq)]
pub struct Place {
    pub level: u8,
    pub lamination: Option<(usize, u16, u16)>,
}

/// What a level is made of.
#[derive(Debug)]
pub struct Level {
    pub place: Place,
    pub sides: Vec<Side>,
}

/// Micro-dollars in a cent.
const PER_CENT: i128 = 10_000;

impl Level {
    /// The side that is taken: the greater one, and the first of two that are equal.
    pub fn taken(&self) -> Option<&Side> {
        // Of equal ones the last is found, so they are turned round.
        self.sides.iter().rev().max_by_key(|side| side.sum())
    }

    /// The sum of the side that is taken, in micro-dollars.
    pub fn sum(&self) -> i128 {
        self.taken().map_or(0, Side::sum)
    }

    /// The sum to the cent, half up.
    pub fn cents(&self) -> i128 {
        (self.sum() + PER_CENT / 2).div_euclid(PER_CENT)
    }
}

/// The levels of an hour, term by term, beside what the library says they are.
#[derive(Debug)]
pub struct Explanation {
    pub query: Query,
    /// The hour in words, with the owner where that makes a difference.
    pub asked: String,
    pub profile: u8,
    /// The request that asks for the profile.
    pub request: Option<Standing>,
    pub station: Option<Standing>,
    pub levels: Vec<Level>,
    /// Each level in cents as the library has it.
    pub library: Vec<(Place, i128)>,
    pub library_profile: u8,
    /// The costs of the profile that count from a later hour on.
    pub ahead: Vec<Ahead>,
}

/// A cost that lies ahead.
#[derive(Debug)]
pub struct Ahead {
    pub first: u32,
    /// The levels that it joins.
    pub levels: Vec<u8>,
    /// Whether it joins them with nothing.
    pub withdrawn: bool,
    pub record: Standing,
}

pub fn run(args: &Args, streams: &mut Streams) -> Result<Status, Stop> {
    let query = Query::of(args)?;
    let level = args.get("level", read_level)?;
    let form = Form::of(args, &[])?;
    each(args, streams, &form, |input| explain(input, query, level))
}

fn explain(input: &Input, query: Query, level: Option<u8>) -> Said {
    let Input { dossier, lines, .. } = input;
    let hour = query.hour;
    if let Some(refusal) = level.and_then(|level| unheld(dossier, query, level)) {
        return refused(&of_offer(refusal, dossier, lines, (hour, &[]))).with(query.json());
    }
    match Explanation::of(input, query) {
        Ok(explanation) => explanation.only(level).said(),
        Err(refusal) => refused(&of_hour(refusal, dossier, lines, hour)).with(query.json()),
    }
}

/// The library's refusal of a level that the technology doesn't hold, 12.
fn unheld(dossier: &[u8], query: Query, level: u8) -> Option<Refusal> {
    const ENERGY: u8 = 1;
    let Query { hour, owner } = query;
    let refusal = bench::price_test(dossier, hour, owner, level, 1, 0).err()?;
    (refusal.number == 12 && level != ENERGY).then_some(refusal)
}

impl Explanation {
    /// The levels of an hour and owner; a refusal is the library's.
    pub fn of(input: &Input, query: Query) -> Result<Explanation, Refusal> {
        let levels = levels::at(&input.dossier, query)?;
        let book = Book::open(&input.dossier, &input.lines, query.hour);
        let cited = |record| standing(&record, &input.lines);
        Ok(Explanation {
            query,
            asked: query.words(&input.dossier),
            profile: book.profile,
            request: book.request.map(cited),
            station: book.counting("RS", 0).map(cited),
            levels: costs::levels(&book, query.owner),
            library: library(&levels),
            library_profile: levels.profile,
            ahead: book.ahead().iter().map(|r| Ahead::of(r, input)).collect(),
        })
    }

    /// The same with one level alone, if one is asked for.
    pub fn only(mut self, level: Option<u8>) -> Explanation {
        let asked = |place: &Place| level.is_none_or(|level| place.level == level);
        self.levels.retain(|level| asked(&level.place));
        self.library.retain(|(place, _)| asked(place));
        let joins = |ahead: &Ahead| level.is_none_or(|level| ahead.levels.contains(&level));
        self.ahead.retain(joins);
        self
    }

    /// Where the terms don't come to what the library says, in words.
    pub fn differences(&self) -> Vec<String> {
        let mut differences = Vec::new();
        if self.profile != self.library_profile {
            let (here, there) = (self.profile, self.library_profile);
            differences.push(format!("profile {here} here, {there} in the library"));
        }
        let count = self.levels.len().max(self.library.len());
        differences.extend((0..count).filter_map(|i| self.difference(i)));
        differences
    }

    /// How the level at this place of the list differs, if it does.
    fn difference(&self, index: usize) -> Option<String> {
        let here = self.levels.get(index).map(|l| (l.place, l.cents()));
        let there = self.library.get(index).copied();
        if here == there {
            return None;
        }
        let told = |level: Option<(Place, i128)>| match level {
            Some((place, cents)) => format!("{} is {}", place.words(), words::cents(cents)),
            None => "there is no such level".to_string(),
        };
        Some(format!(
            "by the terms {}; by the library {}",
            told(here),
            told(there)
        ))
    }

    /// The answer. Terms that don't come to the library's levels are an error of this program.
    pub fn said(&self) -> Said {
        let differences = self.differences();
        let mut words = self.words();
        let mut status = Status::Done;
        if !differences.is_empty() {
            let told: String = differences.iter().map(|d| format!("  {d}\n")).collect();
            words = format!("the terms don't add up to the library's levels, an error of this program\n{told}{words}");
            status = Status::Wrong;
        }
        Said {
            status,
            counts_as: if status == Status::Done {
                "explained"
            } else {
                "not explained"
            },
            line: String::new(),
            words,
            json: self.json(&differences),
        }
    }
}

impl Ahead {
    fn of(record: &Record, input: &Input) -> Ahead {
        Ahead {
            first: record.first_hour(),
            levels: costs::joined(record),
            withdrawn: record.is_withdrawn(),
            record: standing(record, &input.lines),
        }
    }
}

/// The library's levels in the order of the report.
fn library(levels: &Levels) -> Vec<(Place, i128)> {
    let energy = levels.energy.iter().zip(1..).map(|(l, number)| {
        let lamination = Some((number, l.from, l.to));
        let place = Place {
            level: 1,
            lamination,
        };
        (place, i128::from(l.level))
    });
    let others = others(levels).into_iter().filter_map(|(name, cents)| {
        let level = LEVEL.read(name).ok().and_then(|n| u8::try_from(n).ok())?;
        let lamination = None;
        Some((Place { level, lamination }, i128::from(cents?)))
    });
    energy.chain(others).collect()
}
