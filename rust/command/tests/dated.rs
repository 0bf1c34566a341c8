//! Costs with a first hour: their text, the hours in which they count, hours without fuel in words,
//! and the hours at which a level changes.

mod calls;
mod json;

use calls::{call, Ended, Kept};
use command::answer::Status;
use command::text::{pack, unpack};
use model::cases::{run, same};
use model::make;
use model::make::dated::without_fuel;
use model::make::written::{r1, record};
use model::random::Random;
use model::table::OWNERS;
use std::collections::BTreeSet;

/// The lines that record 3 of the papers' examples would have.
const LINES: [(&str, &[u8; 2], u32, &[i128]); 3] = [
    (
        "FV issue=3 first=7320 profile=1 fuel=5.10 emission=1.00",
        b"FV",
        3,
        &[7_320, 1, 5_100_000, 1_000_000],
    ),
    (
        "AV issue=4294967295 first=4294967295 profile=2 cost=prorated-start level=reserve amount=0.000001",
        b"AV",
        u32::MAX,
        &[4_294_967_295, 2, 5, 4, 1],
    ),
    (
        "MV issue=0 first=0 profile=4 item=8 cost=0.01 output=0.1 interval=1 start-hours=1000.0",
        b"MV",
        0,
        &[0, 4, 8, 1, 1, 1, 10_000],
    ),
];

#[test]
fn lines_of_dated_records() {
    for (line, mark, issue, fields) in LINES {
        let bytes = record(mark, issue, fields);
        assert_eq!(pack(line.as_bytes()).unwrap().dossier, bytes, "{line}");
        assert_eq!(unpack(&bytes), format!("{line}\n"));
    }
}

#[test]
fn wrong_lines_are_told() {
    for (line, says) in [
        (
            "FV issue=3 profile=1 fuel=5.10 emission=1.00",
            "FV: first is missing: 0 to 4294967295",
        ),
        (
            "FU issue=3 first=7320 profile=1 fuel=5.10 emission=1.00",
            "FU: 'first' is no field: issue, profile, fuel or emission",
        ),
        (
            "FV issue=3 first=4294967296 profile=1 fuel=5.10 emission=1.00",
            "FV: first=4294967296: 0 to 4294967295",
        ),
        (
            "FV issue=3 first=7320.5 profile=1 fuel=5.10 emission=1.00",
            "FV: first=7320.5 is no whole number: 0 to 4294967295",
        ),
        (
            "FW issue=3",
            "'FW' is no mark: RS, HP, FU, FV, AD, AV, AO, MM, MV, RQ, HR, CH, TH, FP or LC",
        ),
    ] {
        let wrong = pack(line.as_bytes()).expect_err(line);
        assert_eq!(wrong[0].says, says);
    }
}

/// R1 and these lines as a text.
fn with(lines: &[&str]) -> Kept {
    let text = unpack(&r1()) + &lines.join("\n");
    Kept::new(text.as_bytes())
}

/// R1 whose gas begins at an hour, and these lines.
fn late(first: u32, lines: &[&str]) -> Kept {
    let fuel = record(b"FV", 2, &[first.into(), 1, 4_000_000, 1_000_000]);
    let station = [without_fuel(&r1()), fuel].concat();
    Kept::new((unpack(&station) + &lines.join("\n")).as_bytes())
}

const REQUEST: &str = "RQ issue=1 request=3 first=10 last=19 profile=2";
const OIL: &str = "FV issue=1 first=15 profile=2 fuel=11.50 emission=1.80";

/// The last words of every call that names an hour, and no other.
#[test]
fn an_hour_without_fuel_in_words() {
    let file = late(24, &[]);
    let name = file.name();
    let says = "refused 20 at 0: an hour whose profile has no fuel in force\n  \
                hour 23 has profile 1, as no request covers the hour\n  \
                profile 1 has fuel from hour 24 on: \
                FV issue=2 first=24 profile=1 fuel=4.00 emission=1.00 (line 7)\n  \
                wanted: an FU for the profile of the hour, or an FV whose first hour has come\n  \
                who can mend it: the station\n";
    let offer = ["test", name, "--condition=narrow", "--offer=100.0@42.30"];
    let price = ["test", name, "--condition=narrow", "--level=reserve"];
    for words in [
        &["levels", name][..],
        &["explain", name],
        &["explain", name, "--level=energy"],
        &offer,
        &[&price[..], &["--price=0.25"]].concat(),
    ] {
        let ended = call(&[words, &["--hour=23"]].concat());
        assert_eq!(ended.status, Status::Refused, "{words:?}");
        assert_eq!(ended.err, format!("{name}: {says}"), "{words:?}");
        assert_eq!(ended.out, "");
    }
    let day = call(&["day", name, "--from=23", "--hours=1"]);
    assert_eq!(day.err, format!("{name}: {says}"));
    for words in [&["check", name][..], &["week", name], &["pack", name]] {
        assert_eq!(call(words).status, Status::Done, "{words:?}");
    }
    assert_eq!(call(&["levels", name, "--hour=24"]).status, Status::Done);
}

/// Of a profile that a request asks for, the request is told.
#[test]
fn the_request_for_a_profile_without_fuel_is_told() {
    let file = with(&[REQUEST, OIL]);
    let ended = call(&["levels", file.name(), "--hour=12"]);
    for part in [
        "\n  hour 12 has profile 2, asked for by RQ issue=1 request=3 first=10 last=19 profile=2 (line 8)\n",
        "\n  profile 2 has fuel from hour 15 on: FV issue=1 first=15 profile=2 fuel=11.50 emission=1.80 (line 9)\n",
    ] {
        assert!(ended.err.contains(part), "{}", ended.err);
    }
    let json = call(&["levels", file.name(), "--hour=12", "--json"]).out;
    json::check(&json).unwrap();
    assert!(
        json.contains("\"refused\":{\"number\":20,\"place\":0,"),
        "{json}"
    );
    assert!(json.ends_with("},\"hour\":12,\"owner\":1}\n"), "{json}");
    let csv = call(&["levels", file.name(), "--hour=12", "--csv"]).out;
    assert!(csv.contains(",refused,12,,,,,,,20,0,"), "{csv}");
}

/// A day with hours that have no fuel shows the others, marks changes and tells why.
#[test]
fn a_day_marks_its_changes() {
    let gas = "FV issue=2 first=21 profile=1 fuel=5.10 emission=1.00";
    // from 20 on too, at the same price: no level changes
    let same = "AV issue=2 first=20 profile=1 cost=consumables level=energy amount=1.50";
    let file = with(&[REQUEST, OIL, gas, same]);
    let day = call(&["day", file.name(), "--from=9", "--hours=14"]);
    assert_eq!((day.status, &day.err[..]), (Status::Partly, ""));
    let marked: Vec<&str> = day.out.lines().filter(|l| l.starts_with('*')).collect();
    let all = "energy, start, no-load, reserve";
    let oil = format!("* hour 15, {all}: {OIL} (line 9)");
    let back =
        format!("* hour 20, {all}: profile 1, as no request covers the hour; {same} (line 11)");
    let dearer = format!("* hour 21, energy, start, no-load: {gas} (line 10)");
    assert_eq!(marked, [oil, back, dearer]);
    let rows = |mark: &str| {
        let hour = |line: &str| line.split_whitespace().next().map(str::to_string);
        let hours = day.out.lines().filter_map(hour);
        hours.filter(|hour| hour.ends_with(mark)).count()
    };
    assert_eq!(rows("*"), 3 + 3);
    let refused = "\nhour 12: refused 20 at 0: an hour whose profile has no fuel in force; hour 12 has profile 2, ";
    assert!(day.out.contains(refused), "{}", day.out);
}

/// The first hour of a day is held against the one before it, and hour 0 has none.
#[test]
fn the_first_hour_of_a_day() {
    let gas = "FV issue=2 first=24 profile=1 fuel=5.10 emission=1.00";
    let file = with(&[gas]);
    let marked = |from: &str| {
        let day = call(&["day", file.name(), from, "--hours=1"]);
        day.out.contains("\n* hour ")
    };
    assert!(marked("--from=24"));
    assert!(!marked("--from=25") && !marked("--from=23") && !marked("--from=0"));
    assert!(!call(&["day", late(0, &[]).name(), "--from=0"])
        .out
        .contains('*'));
}

/// In JSON a change has its levels and reasons, and each hour says whether it is one.
#[test]
fn changes_in_json() {
    let gas = "FV issue=2 first=24 profile=1 fuel=5.10 emission=1.00";
    let file = with(&[gas]);
    let day = call(&["day", file.name(), "--from=23", "--hours=3", "--json"]).out;
    json::check(&day).unwrap();
    let change = format!(
        "\"reserve\":0.25,\"change\":{{\"levels\":[\"energy\",\"start\",\"no-load\"],\"why\":[\"{gas} (line 8)\"]}},\"owner\":1}}"
    );
    assert!(day.contains(&change), "{day}");
    assert_eq!(day.matches("\"change\":null").count(), 2);
}

/// The hours in which each cost counts, and what lies ahead.
#[test]
fn explained_costs_have_their_hours() {
    let lines = [
        "FV issue=2 first=24 profile=1 fuel=5.10 emission=1.00",
        "FV issue=3 first=25 profile=1 fuel=5.20 emission=1.00",
        "FV issue=4 first=48 profile=1 fuel=5.30 emission=1.00",
        // hidden for good
        "AV issue=1 first=30 profile=1 cost=scheduled level=energy amount=9.00",
        "AD issue=2 profile=1 cost=scheduled level=energy amount=0.10",
        "AV issue=1 first=30 profile=2 cost=scheduled level=energy amount=9.00",
    ];
    let file = with(&lines);
    let explained =
        |hour: &str, level: &str| -> Ended { call(&["explain", file.name(), hour, level]) };
    for (hour, part) in [
        (
            "--hour=0",
            "FU issue=1 profile=1 fuel=4.00 emission=1.00 (line 4), up to hour 23\n",
        ),
        ("--hour=24", "(line 8), at hour 24 alone\n"),
        ("--hour=25", "(line 9), from hour 25 to 47\n"),
        ("--hour=48", "(line 10), from hour 48 on\n"),
        ("--hour=48", "amount=0.10 (line 12)\n"),
    ] {
        let out = explained(hour, "--level=energy").out;
        assert!(out.contains(part), "{part} in {out}");
    }
    let ahead = "\nahead\n  from hour 25 on: FV issue=3 first=25 profile=1 fuel=5.20 emission=1.00 (line 9)\n  \
                 from hour 48 on: FV issue=4 first=48 profile=1 fuel=5.30 emission=1.00 (line 10)\n";
    assert!(explained("--hour=24", "--level=energy")
        .out
        .ends_with(ahead));
    for (hour, level) in [
        ("--hour=24", "--level=reserve"),
        ("--hour=48", "--level=energy"),
    ] {
        assert!(
            !explained(hour, level).out.contains("ahead"),
            "{hour} {level}"
        );
    }
    let json = call(&["explain", file.name(), "--hour=24", "--json"]).out;
    json::check(&json).unwrap();
    assert!(
        json.contains("\"counts-from\":24,\"counts-to\":24}"),
        "{json}"
    );
    assert!(
        json.contains("\"counts-from\":0,\"counts-to\":null}"),
        "{json}"
    );
    assert!(json.contains("\"ahead\":[{\"number\":9,"), "{json}");
}

/// One key and issue under both marks, and an unfit record that isn't current, say where they stand.
#[test]
fn refusals_of_dated_records() {
    let file = with(&["FV issue=1 first=24 profile=1 fuel=5.10 emission=1.00"]);
    let err = call(&["check", file.name()]).err;
    let twin = "\n  the same key and issue came before: record 4 at byte 57, line 4: FU issue=1 profile=1 ";
    assert!(err.contains("refused 4 at ") && err.contains(twin), "{err}");
    let file = with(&[
        "AV issue=1 first=24 profile=1 cost=prorated-start level=energy amount=5.10",
        "AV issue=2 first=48 profile=1 cost=prorated-start level=energy amount=0.00",
    ]);
    let err = call(&["check", file.name()]).err;
    for part in [
        "refused 6 at ",
        "line 8: AV of profile=1 cost=prorated-start level=energy, issue 1\n",
        "\n  cost=prorated-start: scheduled, unscheduled, consumables or third-party at a thermal station\n",
        "\n  it counts from hour 24 to 47\n",
    ] {
        assert!(err.contains(part), "{part} in {err}");
    }
}

/// The hours that a day marks are those at which the model's levels change.
#[test]
fn marked_hours_are_those_of_the_model() {
    let make = |random: &mut Random| make::sound::sound(random).bytes();
    run("marked hours", 300, make, |random, dossier| {
        let from = make::hour(random, dossier).min(u32::MAX - 12);
        let given = Kept::new(dossier);
        let owner = random.pick(&OWNERS);
        let [first, named] = [format!("--from={from}"), format!("--owner={owner}")];
        let day = call(&["day", given.name(), &first, "--hours=12", &named]);
        let marked = day.out.lines().filter_map(|line| {
            let hour = line.strip_prefix("* hour ")?.split(',').next()?;
            hour.parse().ok()
        });
        let marked: BTreeSet<u32> = marked.collect();
        let levels = |hour: u32| {
            model::levels(dossier, hour, owner).ok().map(|mut levels| {
                levels.profile = 0;
                levels
            })
        };
        let changed = (from..from + 12).filter(|hour| {
            let now = levels(*hour);
            *hour > 0 && now.is_some() && now != levels(hour - 1)
        });
        same("marked", marked, changed.collect())
    });
}
