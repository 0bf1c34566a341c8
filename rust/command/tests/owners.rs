//! Two owners at one plant: the text of what one adds, the option that names an owner, and what is
//! told of both.

mod calls;
mod json;

use calls::{call, Ended, Kept};
use command::answer::Status;
use command::text::{pack, unpack};
use model::make::written::{r1, record};

const COMMON: &str = "AD issue=1 profile=1 cost=scheduled level=energy amount=0.05";
const FIRST: &str = "AO issue=1 owner=1 profile=1 cost=consumables level=reserve amount=0.10";
const SECOND: &str = "AO issue=1 owner=2 profile=1 cost=consumables level=energy amount=0.75";
const PAID: &str = "AO issue=2 owner=2 profile=1 cost=third-party level=energy amount=0.30";
const OLDER: &str = "AO issue=0 owner=2 profile=1 cost=consumables level=energy amount=9.00";
const LIMIT: &str = "TH issue=1 condition=narrow level=energy percent=50 margin=none floor=0.00";

/// R1 and these lines as a text.
fn with(lines: &[&str]) -> Kept {
    let text = unpack(&r1()) + &lines.join("\n");
    Kept::new(text.as_bytes())
}

fn shared() -> Kept {
    with(&[COMMON, FIRST, SECOND, PAID, OLDER, LIMIT])
}

fn asked(file: &Kept, words: &[&str], more: &[&str]) -> Ended {
    let (command, rest) = words.split_first().expect("a command");
    call(&[&[*command, file.name()], rest, more].concat())
}

#[test]
fn lines_of_an_owner() {
    for (line, owner, issue, fields) in [
        (SECOND, 2, 1, [1, 3, 1, 750_000]),
        (FIRST, 1, 1, [1, 3, 4, 100_000]),
        (PAID, 2, 2, [1, 4, 1, 300_000]),
    ] {
        let bytes = record(b"AO", issue, &[&[owner][..], &fields].concat());
        assert_eq!(pack(line.as_bytes()).unwrap().dossier, bytes, "{line}");
        assert_eq!(unpack(&bytes), format!("{line}\n"));
    }
}

#[test]
fn wrong_lines_are_told() {
    for (line, says) in [
        (
            "AO issue=1 profile=1 cost=consumables level=energy amount=0.75",
            "AO: owner is missing: 1 to 2",
        ),
        (
            "AO issue=1 owner=3 profile=1 cost=consumables level=energy amount=0.75",
            "AO: owner=3: 1 to 2",
        ),
        (
            "AO issue=1 owner=0 profile=1 cost=consumables level=energy amount=0.75",
            "AO: owner=0: 1 to 2",
        ),
        (
            "AD issue=1 owner=2 profile=1 cost=consumables level=energy amount=0.75",
            "AD: 'owner' is no field",
        ),
        (
            "AO issue=1 first=24 owner=2 profile=1 cost=consumables level=energy amount=0.75",
            "AO: 'first' is no field",
        ),
    ] {
        let wrong = pack(line.as_bytes()).expect_err(line);
        assert!(wrong[0].says.starts_with(says), "{}", wrong[0].says);
    }
}

/// The levels of each owner; without the option those of the first. A station without AO is the same
/// to both.
#[test]
fn levels_by_owner() {
    let (file, plain) = (shared(), with(&[]));
    let report = |file: &Kept, more: &[&str]| asked(file, &["levels", "--hour=0"], more).out;
    let lines = |text: &str| [" 42.35\n", " 43.10\n"].map(|level| text.contains(level));
    let first = report(&file, &["--owner=1"]);
    assert_eq!(lines(&first), [true, false]);
    assert!(first.ends_with("\nreserve 0.35\nretired 0\n"), "{first}");
    assert_eq!(report(&file, &[]), first);
    let second = report(&file, &["--owner", "2"]);
    assert_eq!(lines(&second), [false, true]);
    assert!(second.ends_with("\nreserve 0.25\nretired 1\n"), "{second}");
    assert_eq!(report(&plain, &["--owner=2"]), report(&plain, &[]));
}

/// Another owner is wrong use: a clear word, no answer, and no file that was to be written.
#[test]
fn other_owners_are_wrong_use() {
    let file = shared();
    let kept = Kept::new(b"kept");
    let picture = format!("--svg={}", kept.name());
    let calls: [&[&str]; 5] = [
        &["levels", "--hour=0"],
        &["explain", "--hour=0"],
        &["test", "--hour=0", "--condition=narrow", "--offer=1@1"],
        &["day", "--from=0"],
        &["day", "--from=0", &picture],
    ];
    for words in calls {
        for owner in ["0", "3", "two", "", "-1", "01"] {
            let ended = asked(&file, words, &[&format!("--owner={owner}")]);
            assert_eq!(ended.status, Status::Wrong, "{words:?} {owner}");
            assert_eq!(ended.out, "");
            let says = format!(": --owner: '{owner}' is no owner: 1 or 2\n");
            assert!(ended.err.contains(&says), "{}", ended.err);
        }
        let twice = asked(&file, words, &["--owner=1", "--owner=2"]);
        assert!(twice.err.contains("--owner stands twice"), "{}", twice.err);
    }
    assert_eq!(std::fs::read(kept.name()).expect("kept"), b"kept");
}

/// What has no hour takes no owner.
#[test]
fn no_owner_without_an_hour() {
    let file = shared();
    for words in [&["check"][..], &["week"], &["pack"], &["unpack"]] {
        let ended = asked(&file, words, &["--owner=2"]);
        assert_eq!(ended.status, Status::Wrong, "{words:?}");
        let says = "no option is called '--owner'";
        assert!(ended.err.contains(says), "{}", ended.err);
    }
}

/// The common amounts come first, and the owner's are named so; those of the other aren't there.
#[test]
fn explained_apart() {
    let file = shared();
    let explained = |owner: &str| {
        let words = ["explain", "--hour=0", "--level=energy"];
        asked(&file, &words, &[&format!("--owner={owner}")])
    };
    let second = explained("2");
    assert_eq!(second.status, Status::Done);
    let head = "hour 0, owner 2: profile 1, as no request covers the hour\n";
    assert!(second.out.starts_with(head), "{}", second.out);
    let gap = " ".repeat(20);
    let terms = format!(
        "  0.050000  scheduled\n{gap}{COMMON} (line 8)\n        \
         1.500000  consumables\n{gap}AD issue=1 profile=1 cost=consumables level=energy amount=1.50 (line 5)\n        \
         0.750000  consumables of owner 2\n{gap}{SECOND} (line 10)\n        \
         0.000000  third-party of owner 2 = withdrawn: 0.30 was claimed\n{gap}{PAID} (line 11)\n"
    );
    assert!(second.out.contains(&terms), "{}", second.out);
    let first = explained("1").out;
    assert!(first.starts_with("hour 0, owner 1: "), "{first}");
    assert!(
        !first.contains("AO ") && !first.contains("of owner"),
        "{first}"
    );
}

/// In JSON the owner stands last, so that the members before it keep their order; a record of an owner
/// has its key.
#[test]
fn owners_in_json_and_tables() {
    let file = shared();
    let calls: [&[&str]; 3] = [
        &["levels", "--hour=0"],
        &["explain", "--hour=0"],
        &["test", "--hour=0", "--condition=narrow", "--offer=1@1"],
    ];
    for words in calls {
        for (named, owner) in [(&[][..], 1), (&["--owner=1"], 1), (&["--owner=2"], 2)] {
            let json = asked(&file, words, &[named, &["--json"]].concat()).out;
            json::check(&json).unwrap();
            let last = format!(",\"owner\":{owner}}}\n");
            assert!(json.ends_with(&last), "{json}");
        }
    }
    let explained = asked(&file, &["explain", "--hour=0"], &["--owner=2", "--json"]).out;
    let key = "\"key\":\"owner=2 profile=1 cost=consumables level=energy\"";
    assert!(explained.contains(key), "{explained}");
    let day = ["day", "--from=3", "--hours=2", "--owner=2"];
    let json = asked(&file, &day, &["--json"]).out;
    assert_eq!(json.matches("\"change\":null,\"owner\":2}").count(), 2);
    let rows = asked(&file, &day, &["--csv"]).out;
    assert!(
        rows.lines().skip(1).all(|row| row.ends_with(",2")),
        "{rows}"
    );
    assert!(rows
        .lines()
        .next()
        .is_some_and(|head| head.ends_with(",says,owner")));
}

/// Words name the owner where the station has an AO, or where the second was asked for.
#[test]
fn told_where_it_makes_a_difference() {
    let (file, plain) = (shared(), with(&[LIMIT]));
    let offer = [
        "test",
        "--hour=7",
        "--condition=narrow",
        "--offer=100.0@64.00",
    ];
    let line = |file: &Kept, more: &[&str]| {
        let ended = asked(file, &offer, more);
        ended.out.lines().next().map(str::to_string)
    };
    let fails = "in lamination 1";
    let failing = |at: &str| {
        Some(format!(
            "fails under narrow at {at}: pair 1, 0.0 to 100.0 MW at 64.00, {fails}"
        ))
    };
    assert_eq!(line(&plain, &[]), failing("hour 7"));
    assert_eq!(line(&plain, &["--owner=2"]), failing("hour 7, owner 2"));
    assert_eq!(line(&file, &[]), failing("hour 7, owner 1"));
    let passes = "passes under narrow at hour 7, owner 2: the energy offer".to_string();
    assert_eq!(line(&file, &["--owner=2"]), Some(passes));
    let day = |file: &Kept, more: &[&str]| asked(file, &["day", "--from=0", "--hours=1"], more).out;
    let head = |text: String| text.lines().next().map(str::to_string).unwrap_or_default();
    assert!(head(day(&plain, &[])).ends_with("the other levels in dollars"));
    assert!(head(day(&file, &["--owner=2"])).ends_with("dollars, owner 2"));
}

#[test]
fn pictures_name_the_owner() {
    let (file, kept) = (shared(), Kept::new(b""));
    for option in ["--svg", "--svg-day"] {
        let words = ["day", "--from=0", "--owner=2", option, kept.name()];
        assert_eq!(asked(&file, &words, &[]).status, Status::Done);
        let picture = std::fs::read_to_string(kept.name()).expect("a picture");
        assert!(picture.contains(", owner 2"), "{picture}");
        assert!(picture.contains("43.10"), "{picture}");
    }
}

/// How many records AO each owner has, older issues among them.
#[test]
fn check_counts_what_owners_add() {
    let (file, plain) = (shared(), with(&[]));
    let checked = asked(&file, &["check"], &[]).out;
    let says = "; AO of owner 1: 1, of owner 2: 3\n";
    assert!(checked.ends_with(says), "{checked}");
    assert!(!asked(&plain, &["check"], &[]).out.contains("AO"));
    let owners = |first: usize, second: usize| {
        format!("\"owners\":[{{\"owner\":1,\"adders\":{first}}},{{\"owner\":2,\"adders\":{second}}}]}}}}\n")
    };
    for (file, counts) in [(&file, owners(1, 3)), (&plain, owners(0, 0))] {
        let json = asked(file, &["check"], &["--json"]).out;
        json::check(&json).unwrap();
        assert!(json.ends_with(&counts), "{json}");
    }
}

/// A refusal names the owner's record: twins, and what doesn't fit, whoever asks.
#[test]
fn refusals_name_the_record() {
    let twice = with(&[SECOND, SECOND]);
    let ended = asked(&twice, &["check"], &[]);
    assert_eq!(ended.status, Status::Refused);
    let says = ": AO of owner=2 profile=1 cost=consumables level=energy, issue 1\n";
    assert!(ended.err.contains(": refused 4 at "), "{}", ended.err);
    assert!(ended.err.contains(says), "{}", ended.err);
    let prorated = "AO issue=1 owner=2 profile=1 cost=prorated-start level=energy amount=0.75";
    let unfit = with(&[prorated]);
    for words in [&["check"][..], &["levels", "--hour=0", "--owner=1"]] {
        let ended = asked(&unfit, words, &[]);
        assert_eq!(ended.status, Status::Refused);
        let wanted = "\n  cost=prorated-start: scheduled, unscheduled, consumables or third-party at a thermal station\n";
        assert!(ended.err.contains(wanted), "{}", ended.err);
    }
    // a byte that is no owner, in a dossier that came as bytes
    let mut bytes = [r1(), record(b"AO", 1, &[2, 1, 3, 1, 5])].concat();
    let owner = r1().len() + 6;
    bytes[owner] = 3;
    let ended = asked(&Kept::new(&bytes), &["check"], &[]);
    assert!(ended.err.contains("\n  owner=3: 1 to 2\n"), "{}", ended.err);
}

/// A line of an offers file may name an owner, and each gets its own verdict.
#[test]
fn offers_of_both() {
    let file = shared();
    let line = |owner: &str| {
        let name = file.name();
        format!("station={name} hour=0{owner} condition=narrow offer=100.0@64.00\n")
    };
    let lines = [
        line(""),
        line(" owner=1"),
        line(" owner=2"),
        line(" owner=9"),
    ]
    .concat();
    let offers = Kept::new(lines.as_bytes());
    let ended = call(&["offers", offers.name()]);
    assert_eq!(ended.status, Status::Refused);
    let said: Vec<&str> = ended.out.lines().collect();
    assert!(said[0].contains(": fails under narrow at hour 0, owner 1: "));
    assert!(said[1].contains(": fails under narrow at hour 0, owner 1: "));
    assert!(said[2].contains(": passes under narrow at hour 0, owner 2: "));
    assert_eq!(said[3], "line 4: owner: '9' is no owner: 1 or 2");
    assert_eq!(said[4], "4 offers: 2 fail, 1 pass, 1 refused");
    let rows = call(&["offers", offers.name(), "--csv"]).out;
    let owners: Vec<&str> = rows
        .lines()
        .skip(1)
        .filter_map(|row| row.rsplit(',').next())
        .collect();
    assert_eq!(owners, ["1", "1", "2", ""]);
}
