//! A refusal in words: what it means, which record or pair stands at its place, what the rule wants
//! and who can mend it.

use crate::json::{object, Json};
use crate::lacks::{current, lacks};
use crate::lines::{Lines, Origin};
use crate::marks::{listed, Field, Mark};
use crate::needs::{Technology, TECHNOLOGIES};
use crate::offer::{broken, Pair};
use crate::plain::text_behind;
use crate::record::{records, Record};
use crate::rules::{rule, Rule};
use crate::terms::book::Book;
use crate::text::quoted;
use bench::Refusal;

/// A refusal with all that there is to say of it.
#[derive(Debug)]
pub struct Explained {
    pub refusal: Refusal,
    pub rule: &'static Rule,
    /// The record at the place.
    pub record: Option<Standing>,
    /// What is wrong there, as far as it can be told.
    pub details: Vec<String>,
}

/// A record as it stands in a dossier.
#[derive(Debug)]
pub struct Standing {
    pub number: usize,
    pub start: usize,
    pub mark: &'static str,
    pub key: String,
    pub issue: i128,
    /// Its line or place in its file.
    pub origin: Origin,
    pub text: String,
    /// The hours in which it counts, where that is told.
    pub counts: Option<Span>,
}

/// The hours in which a record counts; without an end where no newer one follows.
#[derive(Clone, Copy, Debug, PartialEq, Eq)]
pub struct Span {
    pub from: u32,
    pub to: Option<u32>,
}

/// The refusal at an hour: that of a dossier, or of an hour without fuel.
pub fn of_hour(refusal: Refusal, dossier: &[u8], lines: &Lines, hour: u32) -> Explained {
    let mut explained = of_dossier(refusal, dossier, lines);
    if refusal.number == 20 {
        explained.details.extend(without_fuel(dossier, lines, hour));
    }
    explained
}

/// Which profile an hour has, and from which hour on that has fuel.
fn without_fuel(dossier: &[u8], lines: &Lines, hour: u32) -> Vec<String> {
    let book = Book::open(dossier, lines, hour);
    let (profile, request) = (book.profile, book.request.map(|r| standing(&r, lines)));
    let mut says = vec![format!(
        "hour {hour} has profile {profile}, {}",
        why(request.as_ref())
    )];
    says.extend(book.first_fuel().map(|fuel| {
        let (first, fuel) = (fuel.first_hour(), standing(&fuel, lines).short());
        format!("profile {profile} has fuel from hour {first} on: {fuel}")
    }));
    says
}

/// Why an hour has its profile, to stand behind it.
pub fn why(request: Option<&Standing>) -> String {
    match request {
        Some(request) => format!("asked for by {}", request.short()),
        None => "as no request covers the hour".to_string(),
    }
}

/// The refusal of a dossier; `lines` are those of its records, if it came as text.
pub fn of_dossier(refusal: Refusal, dossier: &[u8], lines: &Lines) -> Explained {
    let at_record = matches!(refusal.number, 1..=4 | 6);
    let text = match refusal.number {
        1..=3 if lines.lines.is_empty() => text_behind(dossier, refusal.place),
        _ => None,
    };
    let at_place = |r: &Record| at_record && text.is_none() && r.start == refusal.place;
    let record = records(dossier).find(at_place);
    Explained {
        refusal,
        rule: rule(refusal.number),
        details: match (record, &text) {
            (Some(record), _) => of_record(refusal.number, dossier, lines, &record),
            (None, Some((start, line))) => vec![format!(
                "from byte {start} on it is text, not bytes: {}; join texts, or bytes",
                quoted(line)
            )],
            (None, None) if at_record => vec![unread(dossier, refusal.place)],
            (None, None) => lacks(dossier, lines, refusal.number),
        },
        record: record.map(|r| standing(&r, lines)),
    }
}

/// The refusal of an offer or a price put to a dossier at an hour.
pub fn of_offer(
    refusal: Refusal,
    dossier: &[u8],
    lines: &Lines,
    (hour, offer): (u32, &[Pair]),
) -> Explained {
    let mut explained = of_hour(refusal, dossier, lines, hour);
    let station = || current(dossier, "RS", 0);
    let detail = match refusal.number {
        10 => Some(malformed(offer, refusal.place)),
        11 => station().map(|rs| {
            let (pair, capacity) = (offered(offer, refusal.place), rs.value("capacity"));
            format!("{pair}; the capacity is {capacity} MW")
        }),
        12 => station().map(|rs| format!("the station is {}", rs.value("technology"))),
        14 => Some(thresholds(dossier)),
        _ => None,
    };
    explained.details.extend(detail);
    explained
}

/// The pair at a place of an offer, in words.
fn offered(offer: &[Pair], place: usize) -> String {
    let at = place / Pair::BYTES;
    let pair = offer.get(at).map_or(String::new(), Pair::text);
    format!("pair {} is {pair}", at + 1)
}

/// Which rule an offer breaks that draws 10.
fn malformed(offer: &[Pair], place: usize) -> String {
    let broken = broken(offer, place / Pair::BYTES);
    match (broken.is_empty(), offer.len()) {
        (false, _) => format!("{}: {}", offered(offer, place), broken.join(", ")),
        (true, 0) => "the offer has no pair; it takes 1 to 20".to_string(),
        (true, count) => format!("the offer has {count} pairs; it takes 1 to 20"),
    }
}

/// The conditions and levels that have a threshold.
fn thresholds(dossier: &[u8]) -> String {
    let keys = (1..=3).flat_map(|condition| (1..=4).map(move |level| condition << 8 | level));
    let there: Vec<String> = keys
        .filter_map(|key| current(dossier, "TH", key))
        .map(|th| format!("{} {}", th.value("condition"), th.value("level")))
        .collect();
    match there.is_empty() {
        true => "the dossier has no TH".to_string(),
        false => format!("there is a TH for {}", there.join(", ")),
    }
}

/// What is wrong with the record at the place.
fn of_record(number: u8, dossier: &[u8], lines: &Lines, record: &Record) -> Vec<String> {
    match number {
        3 => record.faults(),
        4 => {
            let twin = records(dossier).find(|r| r.claim() == record.claim());
            let came = |r| {
                let twin = standing(&r, lines);
                let (place, text) = (twin.place(), &twin.text);
                let same = match twin.mark == record.mark.letters {
                    true => "mark, key and issue",
                    false => "key and issue",
                };
                format!("the same {same} came before: {place}: {text}")
            };
            twin.map(came).into_iter().collect()
        }
        6 => {
            let station = current(dossier, "RS", 0).map(|rs| rs.value("technology"));
            let technology = station.and_then(|name| Technology::of(&name));
            let mut says = technology.map_or_else(Vec::new, |t| unfit(t, record));
            let book = Book::open(dossier, lines, record.first_hour());
            let hours = book.cited(record).counts.and_then(|span| span.words());
            says.extend(hours.map(|hours| format!("it counts {hours}")));
            says
        }
        _ => Vec::new(),
    }
}

/// Why a record doesn't fit a technology: its mark, or the fields that go too far there.
fn unfit(technology: &Technology, record: &Record) -> Vec<String> {
    let (name, mark) = (technology.name, record.mark.letters);
    let Some(need) = technology.need(mark) else {
        let others = TECHNOLOGIES.iter().filter(|t| t.need(mark).is_some());
        let others: Vec<&str> = others.map(|t| t.name).collect();
        return vec![format!(
            "the station is {name}; {mark} is for {}",
            listed(&others)
        )];
    };
    let wrong = record.fields().filter(|(f, n)| !need.allows(f, *n));
    let says =
        |(f, n): (&Field, i128)| format!("{}: {} at a {name} station", f.text(n), need.range(f));
    wrong.map(says).collect()
}

/// What stands at a place where no whole record with a known mark does.
fn unread(dossier: &[u8], place: usize) -> String {
    let rest = dossier.get(place..).unwrap_or(&[]);
    let number = records(dossier).count() + 1;
    let Some(letters) = rest.first_chunk::<2>() else {
        return format!("record {number}: one byte is left over");
    };
    match Mark::of(letters) {
        Some(mark) => format!(
            "record {number}: {}, {}, has {} bytes; {} are there",
            mark.letters,
            mark.holds,
            mark.length(),
            rest.len()
        ),
        None => format!("record {number} begins with {}", shown(letters)),
    }
}

/// Two bytes as letters where they are, and as numbers.
fn shown([a, b]: &[u8; 2]) -> String {
    let letters: String = [*a, *b].iter().map(|b| char::from(*b)).collect();
    let letters = match letters.bytes().all(|b| b.is_ascii_graphic()) {
        true => format!("'{letters}', "),
        false => String::new(),
    };
    format!("{letters}bytes {a} and {b}")
}

pub fn standing(record: &Record, lines: &Lines) -> Standing {
    Standing {
        number: record.number,
        start: record.start,
        mark: record.mark.letters,
        key: record.key(),
        issue: record.get("issue"),
        origin: lines.origin(record),
        text: record.text(),
        counts: None,
    }
}

impl Span {
    /// The hours in words; nothing where it counts at every hour.
    fn words(&self) -> Option<String> {
        match (self.from, self.to) {
            (0, None) => None,
            (from, None) => Some(format!("from hour {from} on")),
            (0, Some(to)) => Some(format!("up to hour {to}")),
            (from, Some(to)) if from == to => Some(format!("at hour {from} alone")),
            (from, Some(to)) => Some(format!("from hour {from} to {to}")),
        }
    }
}

impl Standing {
    /// The record in a few words, with what it says: a price's is wanted where many are listed.
    pub fn short(&self) -> String {
        let origin = match self.origin.words() {
            words if words.is_empty() => format!("byte {}", self.start),
            words => words,
        };
        let counts = self.counts.and_then(|span| span.words());
        let counts = counts.map_or(String::new(), |hours| format!(", {hours}"));
        format!("{} ({origin}){counts}", self.text)
    }

    /// Which record it is, without its text.
    fn words(&self) -> String {
        let key = match self.key.is_empty() {
            true => String::new(),
            false => format!(" of {}", self.key),
        };
        let (place, mark, issue) = (self.place(), self.mark, self.issue);
        format!("{place}: {mark}{key}, issue {issue}")
    }

    /// Where it stands.
    fn place(&self) -> String {
        let origin = match self.origin.words() {
            words if words.is_empty() => words,
            words => format!(", {words}"),
        };
        format!("record {} at byte {}{origin}", self.number, self.start)
    }

    pub fn json(&self) -> Json {
        let record = object([
            ("number", Json::whole(self.number)),
            ("place", Json::whole(self.start)),
            ("mark", Json::text(self.mark)),
            ("key", Json::text(&self.key)),
            ("issue", Json::Number(self.issue.to_string())),
            ("line", self.origin.line.map_or(Json::Null, Json::whole)),
            ("text", Json::text(&self.text)),
        ]);
        let record = record.and(self.origin.json());
        let hour = |hour: u32| Json::whole(hour as usize);
        match self.counts {
            Some(Span { from, to }) => record
                .with("counts-from", hour(from))
                .with("counts-to", to.map_or(Json::Null, hour)),
            None => record,
        }
    }
}

impl Explained {
    /// The refusal in one line.
    pub fn line(&self) -> String {
        let Refusal { number, place } = self.refusal;
        format!("refused {number} at {place}: {}", self.rule.means)
    }

    /// The details in one line, to stand behind it.
    pub fn behind(&self) -> String {
        let details = self.details.iter();
        details.map(|detail| format!("; {detail}")).collect()
    }

    /// The refusal in full.
    pub fn words(&self) -> String {
        let mut words = self.line();
        if let Some(record) = &self.record {
            words += &format!("\n  {}\n    {}", record.words(), record.text);
        }
        for detail in &self.details {
            words += &format!("\n  {detail}");
        }
        words
            + &format!(
                "\n  wanted: {}\n  who can mend it: the {}\n",
                self.rule.wants, self.rule.who
            )
    }

    pub fn json(&self) -> Json {
        let record = self.record.as_ref();
        object([
            ("number", Json::whole(self.refusal.number.into())),
            ("place", Json::whole(self.refusal.place)),
            ("means", Json::text(self.rule.means)),
            ("wants", Json::text(self.rule.wants)),
            ("who", Json::text(self.rule.who)),
            ("record", record.map_or(Json::Null, Standing::json)),
            (
                "details",
                Json::List(self.details.iter().map(Json::text).collect()),
            ),
        ])
    }
}
