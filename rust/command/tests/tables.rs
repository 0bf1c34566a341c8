//! Tables of commas: the levels and verdicts of the library, row by row; and days of many files.

mod calls;
mod json;

use bench::Levels;
use calls::{call, Kept};
use command::answer::Status;
use model::cases::{run, same, Check};
use model::make;
use model::table::OWNERS;

/// The cells of a line without quotes.
fn cells(line: &str) -> Vec<&str> {
    line.split(',').collect()
}

/// Cents as a report writes them.
fn dollars(cents: u64) -> String {
    format!("{}.{:02}", cents / 100, cents % 100)
}

fn megawatts(tenths: u16) -> String {
    format!("{}.{}", tenths / 10, tenths % 10)
}

/// The rows of an hour's levels, from `answer` to `dollars`.
fn expected(hour: u32, levels: &Levels) -> Vec<String> {
    let profile = levels.profile;
    let energy = levels.energy.iter().zip(1..).map(|(l, number)| {
        let (from, to, level) = (megawatts(l.from), megawatts(l.to), dollars(l.level));
        format!("levels,{hour},{profile},energy,{number},{from},{to},{level}")
    });
    let others = [
        ("start", levels.start),
        ("no-load", levels.no_load),
        ("reserve", levels.reserve),
    ];
    let held = others.into_iter().filter_map(|(name, cents)| {
        let level = dollars(cents?);
        Some(format!("levels,{hour},{profile},{name},,,,{level}"))
    });
    energy.chain(held).collect()
}

/// Each level of each hour has its row, of one hour and of a day.
#[test]
fn rows_are_the_levels_of_the_library() {
    run("tables", 300, make::dossier, |random, dossier| {
        let from = make::hour(random, dossier).min(u32::MAX - 2);
        let owner = random.pick(&OWNERS);
        let named = format!("--owner={owner}");
        let file = Kept::new(dossier);
        let hours = from..=from + 2;
        let levels: Result<Vec<Levels>, _> = hours
            .clone()
            .map(|h| bench::levels(dossier, h, owner))
            .collect();
        let Ok(levels) = levels else {
            return Ok(());
        };
        let day: Vec<String> = hours
            .zip(&levels)
            .flat_map(|(h, l)| expected(h, l))
            .collect();
        let start = from.to_string();
        let hour = ["levels", "--hour", &start, &named, file.name()];
        shows(&hour, (13, owner), &expected(from, &levels[0]))?;
        let hours = ["day", "--hours", "3", "--from", &start, &named, file.name()];
        shows(&hours, (16, owner), &day)
    });
}

/// Whether a call's table has so many columns and these rows, with nothing behind the levels but the
/// owner.
fn shows(words: &[&str], (columns, owner): (usize, u8), expected: &[String]) -> Check {
    let ended = call(&[words, &["--csv"]].concat());
    let mut lines = ended.out.lines();
    let head = lines.next().map(|head| cells(head).len());
    same("columns", head, Some(columns))?;
    let rows: Vec<Vec<&str>> = lines.map(cells).collect();
    same("cells", rows.iter().all(|row| row.len() == columns), true)?;
    let shown: Vec<String> = rows.iter().map(|row| row[1..9].join(",")).collect();
    same("rows", &shown[..], expected)?;
    let named = |row: &Vec<&str>| row[columns - 1] == owner.to_string();
    same("the owner is last", rows.iter().all(named), true)?;
    let empty = |row: &Vec<&str>| row[9..columns - 1].iter().all(|cell| cell.is_empty());
    same("the rest is empty", rows.iter().all(empty), true)
}

/// A name with a comma or a quote doesn't part a row.
#[test]
fn names_and_refusals_stand_between_quotes() {
    let folder = std::env::temp_dir().join(format!("bench-tables-{}", std::process::id()));
    std::fs::create_dir_all(&folder).expect("a temporary folder");
    let path = folder.join("a, \"b\".txt");
    std::fs::write(&path, make::written::r1()).expect("a file");
    let name = path.to_str().expect("a path that is text");
    let ended = call(&["levels", name, "--hour", "0", "--csv"]);
    let quoted = format!("\"{}\"", name.replace('"', "\"\""));
    let row = format!("{quoted},levels,0,1,energy,1,0.0,100.0,42.30,,,,1");
    assert_eq!(ended.out.lines().nth(1), Some(row.as_str()));
    let ended = call(&[
        "test",
        name,
        "--hour=0",
        "--condition=broad",
        "--offer=1@1",
        "--csv",
    ]);
    assert_eq!(ended.status, Status::Refused);
    let says = "a condition that isn't 1 to 3, or no threshold for it and the level; the dossier has no TH";
    let row = format!("{quoted},refused,0,broad,energy,,,,14,0,\"{says}\",1");
    assert_eq!(ended.out.lines().nth(1), Some(row.as_str()));
    assert!(ended.err.contains(": refused 14 at 0: "), "{}", ended.err);
    std::fs::remove_dir_all(&folder).expect("removed");
}

#[test]
fn two_forms_at_once_are_wrong_use() {
    let file = Kept::new(&make::written::r1());
    let ended = call(&["levels", file.name(), "--hour", "0", "--csv", "--json"]);
    assert_eq!(ended.status, Status::Wrong);
    assert!(ended.out.is_empty());
    // Commands without a table don't take it.
    assert_eq!(call(&["check", file.name(), "--csv"]).status, Status::Wrong);
}

#[test]
fn a_day_of_many_files() {
    let good = Kept::new(&make::written::r1());
    let bad = Kept::new(b"RS issue=1\n");
    let words = [
        "day",
        good.name(),
        bad.name(),
        good.name(),
        "--from",
        "0",
        "--hours",
        "2",
    ];
    let ended = call(&words);
    assert_eq!(ended.status, Status::Refused);
    assert_eq!(
        ended.out.matches("\nhour  profile  to 100.0 MW").count(),
        2,
        "{}",
        ended.out
    );
    assert!(ended
        .out
        .starts_with(&format!("{}:\nenergy in dollars", good.name())));
    assert!(
        ended
            .out
            .contains(&format!("\n{}: line 1: RS: ", bad.name())),
        "{}",
        ended.out
    );
    assert!(
        ended.out.ends_with("\n3 files: 2 with levels, 1 refused\n"),
        "{}",
        ended.out
    );
    let ended = call(&[&words[..], &["--json"]].concat());
    assert_eq!(ended.out.lines().count(), 3);
    json::check(&ended.out).unwrap();
}

/// Of many files with an offer those are counted that pass and that fail.
#[test]
fn a_day_of_many_files_with_an_offer() {
    let station = |name: &str| format!("{}/../../examples/{name}", env!("CARGO_MANIFEST_DIR"));
    let [thermal, nuclear] = ["thermal.txt", "nuclear.txt"].map(station);
    let offer = ["--from=0", "--condition=narrow", "--offer=40.0@60.00"];
    let ended = call(&[&["day", &thermal, &nuclear][..], &offer].concat());
    assert_eq!(ended.status, Status::Fails);
    let count = ended.out.lines().last();
    assert_eq!(count, Some("2 files: 1 pass, 1 fail"));
}

/// A picture is of one station, and a call that is refused writes none.
#[test]
fn a_picture_is_of_one_station() {
    let (first, second) = (
        Kept::new(&make::written::r1()),
        Kept::new(b"FU issue=2 profile=1 fuel=5.00 emission=1.00"),
    );
    let kept = Kept::new(b"kept");
    let call_with = |option: &str, more: &[&str]| {
        let words = [
            "day",
            first.name(),
            second.name(),
            "--from",
            "0",
            option,
            kept.name(),
        ];
        call(&[&words[..], more].concat()).status
    };
    for option in ["--svg", "--svg-day"] {
        std::fs::write(kept.name(), "kept").expect("a file");
        assert_eq!(call_with(option, &[]), Status::Wrong);
        assert_eq!(std::fs::read(kept.name()).expect("kept"), b"kept");
        assert_eq!(call_with(option, &["--together"]), Status::Done);
        let picture = std::fs::read_to_string(kept.name()).expect("a picture");
        assert!(
            picture.starts_with("<svg") && picture.contains(">50.30<"),
            "{picture}"
        );
    }
}
