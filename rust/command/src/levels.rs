//! `bench levels`: the levels at an hour.

use crate::answer::{refused, Said, Status, Stop, Streams};
use crate::args::Args;
use crate::csv;
use crate::explain::of_hour;
use crate::form::Form;
use crate::input::Input;
use crate::json::{object, Json};
use crate::many::each;
use crate::query::Query;
use crate::unit::{DOLLARS, MEGAWATTS};
use bench::{Lamination, Levels, Refusal};

pub fn run(args: &Args, streams: &mut Streams) -> Result<Status, Stop> {
    let query = Query::of(args)?;
    let form = Form::of(args, csv::LEVELS)?;
    each(args, streams, &form, |input| levels(input, query))
}

fn levels(input: &Input, query: Query) -> Said {
    let Input { dossier, lines, .. } = input;
    match at(dossier, query).and_then(|l| Ok((l, report(dossier, query)?))) {
        Ok((levels, report)) => Said {
            status: Status::Done,
            counts_as: "with levels",
            line: format!("{}; retired {}", line(&levels), retired(&report)),
            json: json(query, &levels)
                .with("retired", Json::whole(retired(&report)))
                .and(query.owner()),
            words: report,
        },
        Err(refusal) => {
            let explained = of_hour(refusal, dossier, lines, query.hour);
            refused(&explained).with(query.json())
        }
    }
}

/// The levels that a query asks for.
pub fn at(dossier: &[u8], query: Query) -> Result<Levels, Refusal> {
    bench::levels(dossier, query.hour, query.owner)
}

/// The report, as the library writes it.
fn report(dossier: &[u8], query: Query) -> Result<String, Refusal> {
    let mut buffer = [0; bench::REPORT_BYTES];
    let length = bench::report(dossier, query.hour, query.owner, &mut buffer)?;
    Ok(String::from_utf8_lossy(&buffer[..length]).into_owned())
}

/// What the last line of a report counts: third-party payments in force, which no level has.
fn retired(report: &str) -> usize {
    let last = report.lines().last();
    let count = last.and_then(|line| line.strip_prefix("retired ")?.parse().ok());
    count.expect("a report of the library ends with what is retired")
}

/// A level in dollars.
pub fn dollars(cents: u64) -> String {
    DOLLARS.write(cents.into())
}

/// An output in MW.
pub fn megawatts(tenths: u16) -> String {
    MEGAWATTS.write(tenths.into())
}

/// The levels but energy by name, `None` where the technology lacks them.
pub fn others(levels: &Levels) -> [(&'static str, Option<u64>); 3] {
    [
        ("start", levels.start),
        ("no-load", levels.no_load),
        ("reserve", levels.reserve),
    ]
}

/// The levels in one line.
fn line(levels: &Levels) -> String {
    let energy: Vec<String> = levels.energy.iter().map(|l| dollars(l.level)).collect();
    let mut line = format!("profile {}; energy {}", levels.profile, energy.join(", "));
    for (name, level) in others(levels) {
        if let Some(cents) = level {
            line += &format!("; {name} {}", dollars(cents));
        }
    }
    line
}

/// The levels of an hour as an object, without the owner; a level that the technology lacks is null.
pub fn json(query: Query, levels: &Levels) -> Json {
    let number = |text: String| Json::Number(text);
    let lamination = |(i, l): (usize, &Lamination)| {
        object([
            ("lamination", Json::whole(i + 1)),
            ("from", number(megawatts(l.from))),
            ("to", number(megawatts(l.to))),
            ("level", number(dollars(l.level))),
        ])
    };
    let energy = levels.energy.iter().enumerate().map(lamination).collect();
    let [start, no_load, reserve] =
        others(levels).map(|(_, level)| level.map_or(Json::Null, |cents| number(dollars(cents))));
    query.hour().and(object([
        ("profile", Json::whole(levels.profile.into())),
        ("energy", Json::List(energy)),
        ("start", start),
        ("no-load", no_load),
        ("reserve", reserve),
    ]))
}
