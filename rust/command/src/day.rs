//! `bench day`: the levels over hours as a table, with the hours at which one changes, and a picture
//! of one hour's energy curve.

use crate::answer::{refused, Said, Status, Stop, Streams};
use crate::args::{hour, whole, Args};
use crate::changes::Change;
use crate::conduct::verdict;
use crate::csv;
use crate::explain::{of_hour, of_offer};
use crate::form::Form;
use crate::input::Input;
use crate::json::{object, Json};
use crate::levels::{self, dollars, json, megawatts, others};
use crate::many::each;
use crate::offer::{self, highest_in, Pair};
use crate::output;
use crate::picture::{self, Picture};
use crate::query::{asked_owner, behind, Query};
use crate::table;
use crate::together::ask_only;
use crate::unit::CONDITION;
use bench::{energy_test, Failing, Levels, Refusal, Verdict};

/// The hours asked for, and the offer that is put to them.
#[derive(Debug)]
struct Question {
    from: u32,
    hours: u32,
    owner: u8,
    /// The hour in the picture.
    at: u32,
    offer: Option<(u8, Vec<Pair>)>,
}

/// The hours that have levels, and those that are refused.
struct Day {
    owner: u8,
    hours: Vec<Hour>,
    refused: Vec<(u32, Refusal)>,
}

/// One hour of the answer.
struct Hour {
    hour: u32,
    owner: u8,
    levels: Levels,
    verdict: Option<Verdict>,
    /// Where the levels are other than in the hour before.
    change: Option<Change>,
}

/// A year of hours: more is no table that a person reads.
const MOST_HOURS: u32 = 8_784;

pub fn run(args: &Args, streams: &mut Streams) -> Result<Status, Stop> {
    let question = question(args)?;
    let form = Form::of(args, csv::DAY)?;
    if !args.has("svg") && !args.has("svg-day") {
        return each(args, streams, &form, |input| answer(input, &question));
    }
    ask_only(args, streams, &form, |input| {
        let day = match asked(input, &question) {
            Ok(day) => day,
            Err(said) => return Ok(said),
        };
        draw(args, input, &question, &day)?;
        Ok(said(input, &day))
    })
}

/// What is said of the hours of one station.
fn answer(input: &Input, question: &Question) -> Said {
    match asked(input, question) {
        Ok(day) => said(input, &day),
        Err(said) => said,
    }
}

/// Writes the pictures that a call asks for.
fn draw(args: &Args, input: &Input, question: &Question, day: &Day) -> Result<(), Stop> {
    let at = day.hours.iter().find(|h| h.hour == question.at);
    if let (Some(path), Some(hour)) = (args.value("svg"), at) {
        output::write(path, drawn(input, hour, question).as_bytes())?;
    }
    if let Some(path) = args.value("svg-day") {
        output::write(path, drawn_day(input, question, day).as_bytes())?;
    }
    Ok(())
}

fn question(args: &Args) -> Result<Question, Stop> {
    let from = args.need("from", hour)?;
    let hours = args.get("hours", |text| whole(text, 1, MOST_HOURS))?;
    let hours = hours.unwrap_or(24);
    let Some(last) = from.checked_add(hours - 1) else {
        return Err(Stop::Use(format!("the last hour there is is {}", u32::MAX)));
    };
    let at = args.get("at", |text| whole(text, from, last))?;
    if at.is_some() && !args.has("svg") {
        return Err(Stop::Use("--at is for --svg".to_string()));
    }
    let condition = args.get("condition", offer::read_condition)?;
    let offer = match (condition, args.get("offer", offer::read)?) {
        (Some(condition), Some(pairs)) => Some((condition, pairs)),
        (None, None) => None,
        _ => return Err(Stop::Use("--offer and --condition go together".to_string())),
    };
    Ok(Question {
        from,
        hours,
        owner: asked_owner(args)?,
        at: at.unwrap_or(from),
        offer,
    })
}

/// Every hour's levels and verdict. Where no hour has them, that is the refusal of the first.
fn asked(input: &Input, question: &Question) -> Result<Day, Said> {
    let mut day = Day {
        owner: question.owner,
        hours: Vec::new(),
        refused: Vec::new(),
    };
    let earlier = question.from.checked_sub(1);
    let earlier = earlier.map(|hour| question.query(hour));
    let earlier = earlier.and_then(|query| levels::at(&input.dossier, query).ok());
    for n in 0..question.hours {
        let hour = question.from + n;
        match at(input, question, hour) {
            Ok(mut now) => {
                let last = day.hours.last().filter(|last| last.hour + 1 == hour);
                let before = match n {
                    0 => earlier.as_ref(),
                    _ => last.map(|last| &last.levels),
                };
                now.change = Change::at(input, hour, before, &now.levels);
                day.hours.push(now);
            }
            Err(refusal) => day.refused.push((hour, refusal)),
        }
    }
    match day.refused.first() {
        Some((hour, refusal)) if day.hours.is_empty() => {
            let pairs = question.offer.as_ref().map_or(&[][..], |(_, pairs)| pairs);
            Err(refused(&of_offer(
                *refusal,
                &input.dossier,
                &input.lines,
                (*hour, pairs),
            )))
        }
        _ => Ok(day),
    }
}

impl Question {
    fn query(&self, hour: u32) -> Query {
        let owner = self.owner;
        Query { hour, owner }
    }
}

fn at(input: &Input, question: &Question, hour: u32) -> Result<Hour, Refusal> {
    let query = question.query(hour);
    let verdict = match &question.offer {
        Some((condition, pairs)) => Some(tested(input, query, *condition, pairs)?),
        None => None,
    };
    Ok(Hour {
        hour,
        owner: question.owner,
        levels: levels::at(&input.dossier, query)?,
        verdict,
        change: None,
    })
}

fn tested(input: &Input, query: Query, condition: u8, pairs: &[Pair]) -> Result<Verdict, Refusal> {
    let (Query { hour, owner }, offer) = (query, offer::bytes(pairs));
    energy_test(&input.dossier, hour, owner, condition, &offer)
}

fn said(input: &Input, day: &Day) -> Said {
    let fails = day.hours.iter().any(|h| h.fails().is_some());
    let offered = day.hours.iter().any(|h| h.verdict.is_some());
    let (status, counts_as) = match (day.refused.is_empty(), fails, offered) {
        (false, ..) => (Status::Partly, "refused at some hours"),
        (true, true, _) => (Status::Fails, "fail"),
        (true, false, true) => (Status::Done, "pass"),
        (true, false, false) => (Status::Done, "with levels"),
    };
    let refusals = day.refused.iter().map(|(hour, refusal)| {
        let explained = of_hour(*refusal, &input.dossier, &input.lines, *hour);
        (*hour, explained)
    });
    let of_owner = behind(day.owner, &input.dossier);
    let (mut words, mut hours) = (table(&day.hours, &of_owner), Vec::new());
    hours.extend(day.hours.iter().map(|hour| (hour.hour, hour.json())));
    words += &changes(&day.hours);
    for (hour, explained) in refusals {
        words += &format!("hour {hour}: {}{}\n", explained.line(), explained.behind());
        let owner = day.owner;
        let asked = Query { hour, owner };
        let json = asked.hour().with("refused", explained.json());
        hours.push((hour, json.and(asked.owner())));
    }
    hours.sort_by_key(|(hour, _)| *hour);
    let hours = hours.into_iter().map(|(_, json)| json).collect();
    Said {
        status,
        counts_as,
        line: String::new(),
        words,
        json: object([("hours", Json::List(hours))]),
    }
}

impl Hour {
    fn query(&self) -> Query {
        let Hour { hour, owner, .. } = *self;
        Query { hour, owner }
    }

    fn json(&self) -> Json {
        let json = json(self.query(), &self.levels);
        let json = match self.verdict {
            Some(_) => json.with("offer", verdict(self.fails())),
            None => json,
        };
        let change = self.change.as_ref().map_or(Json::Null, Change::json);
        json.with("change", change).and(self.query().owner())
    }

    /// The first pair and lamination that fail, if the offer does.
    fn fails(&self) -> Option<Failing> {
        match self.verdict? {
            Verdict::Fails(failing) => Some(failing),
            Verdict::Passes => None,
        }
    }

    /// The verdict in a few words, where there is an offer.
    fn offer(&self) -> Option<String> {
        self.verdict?;
        Some(match self.fails() {
            Some(Failing { pair, lamination }) => {
                format!("fails: pair {pair}, lamination {lamination}")
            }
            None => "passes".to_string(),
        })
    }

    /// The row of the hour; `marked` says that some hour has a mark behind it.
    fn cells(&self, marked: bool) -> Vec<String> {
        let mark = match (&self.change, marked) {
            (Some(_), _) => CHANGED,
            (None, true) => " ",
            (None, false) => "",
        };
        let hour = format!("{}{mark}", self.hour);
        let mut cells = vec![hour, self.levels.profile.to_string()];
        cells.extend(self.levels.energy.iter().map(|l| dollars(l.level)));
        cells.extend(
            others(&self.levels)
                .into_iter()
                .filter_map(|(_, level)| level.map(dollars)),
        );
        cells.extend(self.offer());
        cells
    }

    fn heads(&self, marked: bool) -> Vec<String> {
        let hour = if marked { "hour " } else { "hour" };
        let mut heads = vec![hour.to_string(), "profile".to_string()];
        let end = |l: &bench::Lamination| format!("to {} MW", megawatts(l.to));
        heads.extend(self.levels.energy.iter().map(end));
        let held = others(&self.levels)
            .into_iter()
            .filter(|(_, level)| level.is_some());
        heads.extend(held.map(|(name, _)| name.to_string()));
        heads.extend(self.verdict.map(|_| "offer".to_string()));
        heads
    }
}

/// What stands behind an hour at which a level changes.
const CHANGED: &str = "*";

/// The hours at which a level changes, each with what changes and why.
fn changes(hours: &[Hour]) -> String {
    let changed = hours
        .iter()
        .filter_map(|h| Some((h.hour, h.change.as_ref()?)));
    let told = changed.map(|(hour, change)| format!("{CHANGED} {}\n", change.words(hour)));
    told.collect()
}

/// One row an hour; the heading names the owner where it makes a difference.
fn table(hours: &[Hour], of_owner: &str) -> String {
    let marked = hours.iter().any(|h| h.change.is_some());
    let heads = hours.first().map(|h| h.heads(marked));
    let mut rows: Vec<Vec<String>> = heads.into_iter().collect();
    rows.extend(hours.iter().map(|h| h.cells(marked)));
    let heading = "energy in dollars per MWh by lamination; the other levels in dollars";
    // Hour and profile tell a row in each block.
    format!("{heading}{of_owner}\n{}", table::written(&rows, 2))
}

/// The picture of an hour.
fn drawn(input: &Input, hour: &Hour, question: &Question) -> String {
    let asked = hour.query().words(&input.dossier);
    let at = format!(", {asked}, profile {}", hour.levels.profile);
    let title = picture::title(&input.name.to_string(), &at);
    let steps = &hour.levels.energy;
    let (condition, pairs) = question.offer.clone().unwrap_or_default();
    let name = CONDITION.write(condition.into());
    let highest = |l| highest_in(&input.dossier, hour.query(), condition, l);
    let highest: Vec<Option<i32>> = match question.offer {
        Some(_) => steps.iter().map(highest).collect(),
        None => Vec::new(),
    };
    picture::svg(&Picture {
        title: &title,
        steps,
        offer: question.offer.as_ref().map(|_| picture::Offer {
            pairs: &pairs,
            condition: &name,
            highest: &highest,
            fails: hour.fails(),
        }),
    })
}

/// The picture of a day.
fn drawn_day(input: &Input, question: &Question, day: &Day) -> String {
    let last = question.from + (question.hours - 1);
    let hours = picture::day::hours(question.from, last);
    let at = format!(", {hours}{}", behind(question.owner, &input.dossier));
    let title = picture::title(&input.name.to_string(), &at);
    let levels = day.hours.iter().map(|h| (h.hour, Ok(&h.levels)));
    let refused = day
        .refused
        .iter()
        .map(|(hour, refusal)| (*hour, Err(*refusal)));
    let mut hours: Vec<_> = levels.chain(refused).collect();
    hours.sort_by_key(|(hour, _)| *hour);
    let by_a_cost = |h: &&Hour| h.change.as_ref().is_some_and(|change| change.by_a_cost);
    let changed = day.hours.iter().filter(by_a_cost);
    picture::day::svg(&picture::day::Day {
        title: &title,
        from: question.from,
        hours: hours.into_iter().map(|(_, found)| found).collect(),
        changed: changed.map(|h| h.hour).collect(),
    })
}

#[cfg(test)]
mod tests {
    use super::*;
    use crate::lines::Lines;

    const STATION: &str = concat!(env!("CARGO_MANIFEST_DIR"), "/../../examples/thermal.txt");

    /// A day in which one hour is refused.
    #[test]
    fn an_hour_that_is_refused_is_shown_among_the_others() {
        let text = std::fs::read(STATION).expect("an example");
        let input = Input {
            name: crate::input::name("day".as_ref()),
            dossier: crate::text::pack(&text).expect("a text").dossier,
            lines: Lines::default(),
        };
        let question = Question {
            from: 5,
            hours: 3,
            owner: 1,
            at: 5,
            offer: None,
        };
        let mut day = asked(&input, &question).expect("levels");
        day.hours.remove(1);
        let refusal = Refusal {
            number: 8,
            place: 7,
        };
        day.refused.push((6, refusal));
        let said = said(&input, &day);
        assert_eq!((said.status, said.status.code()), (Status::Partly, 1));
        assert!(
            said.words.contains("\nhour 6: refused 8 at 7: "),
            "{}",
            said.words
        );
        let json = said.json.to_string();
        let at = |part: &str| json.find(part).expect(part);
        assert!(
            at("\"hour\":5") < at("\"hour\":6,\"refused\"") && at("\"hour\":6") < at("\"hour\":7")
        );
        let rows = csv::rows(csv::DAY, &said.json);
        assert!(rows.contains(",refused,6,,,,,,,,,,8,7,"), "{rows}");
        let picture = drawn_day(&input, &question, &day);
        assert!(picture.contains(">hour 6: refused 8<"), "{picture}");
    }
}
