//! Answers as a table of commas, one row a level, a verdict or a wrong line. The rows are read off
//! the answer's JSON, so that both say the same.

use crate::json::Json;

/// Columns in groups that tables share.
pub type Columns = &'static [&'static [&'static str]];

const OF_LEVEL: &[&str] = &[
    "file",
    "answer",
    "hour",
    "profile",
    "level",
    "lamination",
    "from",
    "to",
    "dollars",
];
const OF_OFFER: &[&str] = &[
    "file",
    "answer",
    "hour",
    "condition",
    "level",
    "pair",
    "lamination",
    "highest",
];
const OF_INTERVAL: &[&str] = &[
    "file",
    "answer",
    "technology",
    "cost",
    "interval",
    "day",
    "from",
    "to",
    "price",
    "energy",
    "paid",
];
const OF_REFUSAL: &[&str] = &["refused", "place", "says"];
/// The last column: a table keeps the order of those that it had before.
const OF_OWNER: &[&str] = &["owner"];

/// The columns of `bench levels`.
pub const LEVELS: Columns = &[OF_LEVEL, OF_REFUSAL, OF_OWNER];

/// Those of `bench day`: each row of an hour has the hour's verdict.
pub const DAY: Columns = &[
    OF_LEVEL,
    &["verdict", "pair", "in-lamination"],
    OF_REFUSAL,
    OF_OWNER,
];

/// Those of `bench test`.
pub const TEST: Columns = &[OF_OFFER, OF_REFUSAL, OF_OWNER];

/// Those of `bench offers`: the line of the offers file stands first.
pub const OFFERS: Columns = &[&["line"], OF_OFFER, OF_REFUSAL, OF_OWNER];

/// Those of `bench week`: each row of an interval has the week's charging cost.
pub const WEEK: Columns = &[OF_INTERVAL, OF_REFUSAL];

/// A row: cells by the names of their columns.
type Row = Vec<(&'static str, String)>;

/// The heads of a table's columns.
pub fn head(columns: Columns) -> String {
    line(columns.concat().iter())
}

/// The rows of an answer, with these columns.
pub fn rows(columns: Columns, answer: &Json) -> String {
    let columns = columns.concat();
    let cell = |row: &Row, column: &str| {
        let found = row.iter().rev().find(|(name, _)| *name == column);
        found.map_or(String::new(), |(_, cell)| cell.clone())
    };
    let row = |row: Row| line(columns.iter().map(|column| cell(&row, column)));
    of_answer(answer).into_iter().map(row).collect()
}

/// Cells in a line. A cell with a comma, a quote or a line's end stands between quotes.
fn line(cells: impl Iterator<Item = impl AsRef<str>>) -> String {
    let quoted = |cell: &str| match cell.contains([',', '"', '\n', '\r']) {
        true => format!("\"{}\"", cell.replace('"', "\"\"")),
        false => cell.to_string(),
    };
    let cells: Vec<String> = cells.map(|cell| quoted(cell.as_ref())).collect();
    cells.join(",") + "\n"
}

/// The rows of an answer: those of what it holds, each with the answer's own members before them.
fn of_answer(answer: &Json) -> Vec<Row> {
    let own = scalars(answer);
    let named = |what: &str, mut row: Row| {
        row.insert(0, ("answer", what.to_string()));
        row
    };
    let held: Vec<Row> = if let Some(Json::List(hours)) = answer.member("hours") {
        hours.iter().flat_map(of_answer).collect()
    } else if answer.member("energy").is_some() {
        of_levels(answer).map(|row| named("levels", row)).collect()
    } else if let Some(week) = answer.member("week") {
        of_week(week).map(|row| named("week", row)).collect()
    } else if let Some(refused) = answer.member("refused") {
        vec![named("refused", of_refusal(refused))]
    } else if let Some(Json::List(lines)) = answer.member("wrong-lines") {
        let lines = lines.iter().map(of_wrong_line);
        lines.map(|row| named("refused", row)).collect()
    } else if let Some(Json::List(files)) = answer.member("wrong-files") {
        files.iter().flat_map(of_answer).collect()
    } else if let Some(says) = answer.member("unreadable") {
        vec![named("unreadable", vec![("says", cell(says))])]
    } else {
        vec![named(
            &answer.member("verdict").map_or_else(String::new, cell),
            of_verdict(answer),
        )]
    };
    let joined = |row: Row| own.iter().cloned().chain(row).collect();
    held.into_iter().map(joined).collect()
}

/// The members of an object that are neither lists nor objects.
fn scalars(object: &Json) -> Row {
    let Json::Object(members) = object else {
        return Row::new();
    };
    let scalar =
        |(_, value): &&(&'static str, Json)| !matches!(value, Json::List(_) | Json::Object(_));
    let cells = members.iter().filter(scalar);
    cells.map(|(name, value)| (*name, cell(value))).collect()
}

fn cell(value: &Json) -> String {
    match value {
        Json::Null => String::new(),
        Json::Text(text) => text.clone(),
        value => value.to_string(),
    }
}

/// A row for each lamination and each other level that is held.
fn of_levels(answer: &Json) -> impl Iterator<Item = Row> + '_ {
    let offer = answer.member("offer").map_or_else(Row::new, scalars);
    let offer: Row = offer.into_iter().map(of_hour).collect();
    let empty = Json::List(Vec::new());
    let energy = match answer.member("energy").unwrap_or(&empty) {
        Json::List(laminations) => laminations.iter().map(of_lamination).collect(),
        _ => Vec::new(),
    };
    let others = ["start", "no-load", "reserve"]
        .into_iter()
        .filter_map(|name| {
            let level = answer.member(name).filter(|level| **level != Json::Null)?;
            Some(vec![("level", name.to_string()), ("dollars", cell(level))])
        });
    let rows: Vec<Row> = energy.into_iter().chain(others).collect();
    rows.into_iter()
        .map(move |row| row.into_iter().chain(offer.clone()).collect())
}

/// An hour's verdict beside its levels, whose laminations have a column of their own.
fn of_hour((name, value): (&'static str, String)) -> (&'static str, String) {
    match name {
        "lamination" => ("in-lamination", value),
        name => (name, value),
    }
}

fn of_lamination(lamination: &Json) -> Row {
    let level = lamination.member("level").map_or_else(String::new, cell);
    let mut row = scalars(lamination);
    row.extend([("level", "energy".to_string()), ("dollars", level)]);
    row
}

/// A row for each interval that the answer has, and one for a week without any.
fn of_week(week: &Json) -> impl Iterator<Item = Row> + '_ {
    let intervals = match week.member("intervals") {
        Some(Json::List(intervals)) if !intervals.is_empty() => {
            intervals.iter().map(scalars).collect()
        }
        _ => vec![Row::new()],
    };
    let own = scalars(week);
    intervals
        .into_iter()
        .map(move |row| own.iter().cloned().chain(row).collect())
}

/// The highest prices that pass, parted by spaces; `any` where every price does.
fn of_verdict(answer: &Json) -> Row {
    let Some(Json::List(prices)) = answer.member("highest") else {
        return Row::new();
    };
    let price = |price: &Json| match price {
        Json::Null => "any".to_string(),
        price => cell(price),
    };
    let prices: Vec<String> = prices.iter().map(price).collect();
    vec![("highest", prices.join(" "))]
}

fn of_refusal(refused: &Json) -> Row {
    let member = |name| refused.member(name).map_or_else(String::new, cell);
    vec![
        ("refused", member("number")),
        ("place", member("place")),
        ("says", member("means") + &details(refused)),
    ]
}

/// What is wrong in a refusal, as far as it can be told, to stand behind what it means.
pub fn details(refused: &Json) -> String {
    match refused.member("details") {
        Some(Json::List(details)) => details.iter().map(|d| format!("; {}", cell(d))).collect(),
        _ => String::new(),
    }
}

fn of_wrong_line(wrong: &Json) -> Row {
    let member = |name| wrong.member(name).map_or_else(String::new, cell);
    vec![(
        "says",
        format!("line {}: {}", member("line"), member("says")),
    )]
}
