//! `bench test`: an offer or a single price held against the levels of an hour.

use crate::answer::{refused, Said, Status, Stop, Streams};
use crate::args::Args;
use crate::csv;
use crate::explain::of_offer;
use crate::form::Form;
use crate::input::Input;
use crate::json::{object, Json};
use crate::levels::{self, dollars, megawatts};
use crate::many::each;
use crate::offer::{self, highest_for, highest_in, Pair};
use crate::query::Query;
use crate::unit::{CONDITION, DOLLARS, LEVEL, MEGAWATTS};
use bench::{energy_test, price_test, Failing, Lamination, Verdict};

/// What is put to the test.
#[derive(Debug)]
pub enum Offered {
    Energy(Vec<Pair>),
    Price { level: u8, price: i32 },
}

/// An offer with its hour, owner and condition.
#[derive(Debug)]
pub struct Question {
    pub query: Query,
    pub condition: u8,
    pub offered: Offered,
}

pub fn run(args: &Args, streams: &mut Streams) -> Result<Status, Stop> {
    let question = Question {
        query: Query::of(args)?,
        condition: args.need("condition", offer::read_condition)?,
        offered: offered(args)?,
    };
    let form = Form::of(args, csv::TEST)?;
    each(args, streams, &form, |input| test(input, &question))
}

fn offered(args: &Args) -> Result<Offered, Stop> {
    let single = args.has("level") || args.has("price");
    match args.get("offer", offer::read)? {
        Some(_) if single => Err(Stop::Use(
            "--offer is for energy; --level and --price are for the others".to_string(),
        )),
        Some(pairs) => Ok(Offered::Energy(pairs)),
        None if single => Ok(Offered::Price {
            level: args.need("level", offer::read_level)?,
            price: args.need("price", offer::read_price)?,
        }),
        None => Err(Stop::Use(
            "--offer is missing, or --level and --price".to_string(),
        )),
    }
}

impl Question {
    /// Hour, condition and level as members of an answer.
    fn json(&self) -> Json {
        let level = match self.offered {
            Offered::Energy(_) => 1,
            Offered::Price { level, .. } => level,
        };
        let condition = CONDITION.write(self.condition.into());
        self.query.hour().and(object([
            ("condition", Json::text(condition)),
            ("level", Json::text(LEVEL.write(level.into()))),
        ]))
    }
}

/// What the library says of an offer to a station, in words and JSON.
pub fn test(input: &Input, question: &Question) -> Said {
    let Question {
        query: Query { hour, owner },
        condition,
        offered,
    } = question;
    let Input { dossier, lines, .. } = input;
    let (verdict, pairs) = match offered {
        Offered::Energy(pairs) => {
            let offer = offer::bytes(pairs);
            let verdict = energy_test(dossier, *hour, *owner, *condition, &offer);
            (verdict, &pairs[..])
        }
        Offered::Price { level, price } => {
            let verdict = price_test(dossier, *hour, *owner, *level, *condition, *price);
            (verdict, &[][..])
        }
    };
    match verdict {
        Err(refusal) => {
            let explained = of_offer(refusal, dossier, lines, (*hour, pairs));
            let asked = question.json().and(question.query.owner());
            refused(&explained).with(asked)
        }
        Ok(Verdict::Passes) => judged(input, question, None),
        Ok(Verdict::Fails(failing)) => judged(input, question, Some(failing)),
    }
}

/// What there is to say of an offer that drew no refusal, beside its verdict.
struct Judged {
    /// What passes or fails.
    what: String,
    /// Which prices pass, a line for each lamination.
    passing: String,
    highest: Vec<Option<i32>>,
}

/// The answer to an offer that drew no refusal: whether it passes, and which prices do.
fn judged(input: &Input, question: &Question, fails: Option<Failing>) -> Said {
    let judged = match &question.offered {
        Offered::Energy(pairs) => energy(input, question, pairs, fails),
        Offered::Price { level, price } => single(input, question, *level, *price),
    };
    let under = CONDITION.write(question.condition.into());
    let word = word(fails.is_some());
    let line = format!(
        "{word} under {under} at {}: {}",
        question.query.words(&input.dossier),
        judged.what
    );
    let price = |p: Option<i32>| p.map_or(Json::Null, |p| Json::Number(DOLLARS.write(p.into())));
    let highest = judged.highest.into_iter().map(price).collect();
    Said {
        status: if fails.is_some() {
            Status::Fails
        } else {
            Status::Done
        },
        counts_as: if fails.is_some() { "fail" } else { "pass" },
        words: format!("{line}\n{}", judged.passing),
        line,
        json: question
            .json()
            .and(verdict(fails))
            .with("highest", Json::List(highest))
            .and(question.query.owner()),
    }
}

fn word(fails: bool) -> &'static str {
    match fails {
        true => "fails",
        false => "passes",
    }
}

/// A verdict as an object. A single price that fails has neither pair nor lamination.
pub fn verdict(fails: Option<Failing>) -> Json {
    let named = |number| match number {
        Some(number @ 1..) => Json::whole(number),
        _ => Json::Null,
    };
    object([
        ("verdict", Json::text(word(fails.is_some()))),
        ("pair", named(fails.map(|f| f.pair))),
        ("lamination", named(fails.map(|f| f.lamination))),
    ])
}

fn energy(input: &Input, question: &Question, pairs: &[Pair], fails: Option<Failing>) -> Judged {
    let dossier = &input.dossier;
    let levels = levels::at(dossier, question.query);
    let steps = levels.map_or(Vec::new(), |levels| levels.energy);
    let highest = |step| highest_in(dossier, question.query, question.condition, step);
    let highest: Vec<Option<i32>> = steps.iter().map(highest).collect();
    let line = |(i, step): (usize, &Lamination)| {
        let (from, to) = (megawatts(step.from), megawatts(step.to));
        let (level, passes) = (dollars(step.level), passing(highest[i]));
        let number = i + 1;
        format!("  lamination {number}, {from} to {to} MW: level {level}, {passes}\n")
    };
    Judged {
        what: match fails {
            Some(fails) => failing(pairs, fails),
            None => "the energy offer".to_string(),
        },
        passing: steps.iter().enumerate().map(line).collect(),
        highest,
    }
}

/// The pair that fails, and where.
fn failing(pairs: &[Pair], fails: Failing) -> String {
    let Failing { pair, lamination } = fails;
    let before = pair.checked_sub(2).and_then(|i| pairs.get(i));
    let from = MEGAWATTS.write(before.map_or(0, |p| p.quantity));
    let this = pair.checked_sub(1).and_then(|i| pairs.get(i));
    let to = this.map_or(String::new(), Pair::text);
    format!("pair {pair}, {from} to {to}, in lamination {lamination}")
}

fn single(input: &Input, question: &Question, level: u8, price: i32) -> Judged {
    let name = LEVEL.write(level.into());
    let highest = highest_for(&input.dossier, question.query, level, question.condition);
    Judged {
        what: format!("{name} at {}", DOLLARS.write(price.into())),
        passing: format!("  {name}: {}\n", passing(highest)),
        highest: vec![highest],
    }
}

/// Which prices pass, in words.
fn passing(highest: Option<i32>) -> String {
    match highest {
        Some(price) => format!("prices up to {} pass", DOLLARS.write(price.into())),
        None => "every price passes".to_string(),
    }
}
