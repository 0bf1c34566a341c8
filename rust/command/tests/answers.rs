//! What the command says, held against the library and the model: words, JSON, statuses, and no
//! panic on any input.

mod calls;
mod example;
mod json;

use calls::{call, Ended, Kept};
use command::answer::{Status, Streams};
use command::offer::{bytes, highest_for, highest_in, Pair};
use command::query::Query;
use command::text::unpack;
use example::example;
use model::cases::{run, same, Check};
use model::make;
use model::make::offers::Target;
use model::random::Random;
use model::table::OWNERS;
use std::ffi::OsString;
use std::time::Instant;

/// The same dossier as bytes and as text, asked through files.
#[test]
fn bytes_and_text_give_the_same() {
    run("bytes and text", 300, make::dossier, |random, dossier| {
        let hour = make::hour(random, dossier).to_string();
        let owner = random.pick(&OWNERS);
        let named = format!("--owner={owner}");
        let given = Kept::new(dossier);
        let checked = call(&["check", given.name()]);
        same(
            "accepted",
            checked.status == Status::Done,
            bench::accept(dossier).is_ok(),
        )?;
        let levels = call(&["levels", given.name(), &named, "--hour", &hour]);
        let mut buffer = [0; 4_096];
        let at = hour.parse().expect("an hour");
        let length = model::report(dossier, at, owner, &mut buffer);
        let report = &buffer[..length.unwrap_or(0)];
        same("report", levels.out.as_bytes(), report)?;
        // A refusal tells lines of a text and bytes of a dossier.
        if !levels.out.is_empty() {
            let text = Kept::new(unpack(dossier).as_bytes());
            let line = |ended: &Ended| ended.out.replace(text.name(), given.name());
            let again = call(&["levels", text.name(), &named, "--hour", &hour, "--json"]);
            let bytes = call(&["levels", given.name(), &named, "--hour", &hour, "--json"]);
            same("JSON", line(&again), bytes.out)?;
            json::check(&again.out)?;
        }
        Ok(())
    });
}

/// Just below and above the highest price that the command names, the model passes and fails.
#[test]
fn the_highest_prices_are_the_limits() {
    run("highest prices", 1_000, make::dossier, |random, dossier| {
        let hour = make::hour(random, dossier);
        let owner = random.pick(&OWNERS);
        let query = Query { hour, owner };
        let Ok(levels) = bench::levels(dossier, hour, owner) else {
            return Ok(());
        };
        let condition = make::offers::condition(random);
        let lamination = levels.energy[random.below(levels.energy.len() as u64) as usize];
        let offer = |price| {
            let pair = |quantity: u16, price: i32| Pair {
                quantity: quantity.into(),
                price: price.into(),
            };
            let pairs = [pair(lamination.from, -200_000), pair(lamination.to, price)];
            bytes(&pairs[usize::from(lamination.from == 0)..])
        };
        let test = |price| model::energy_test(dossier, hour, owner, condition, &offer(price));
        if test(0).is_ok() {
            let highest = highest_in(dossier, query, condition, &lamination);
            turns(highest, 200_000, |price| {
                test(price) == Ok(model::Verdict::Passes)
            })?;
        }
        let level = make::offers::level(random, &Target::of(dossier, hour, owner));
        let test = |price| model::price_test(dossier, hour, owner, level, condition, price);
        if test(0).is_ok() {
            let highest = highest_for(dossier, query, level, condition);
            turns(highest, i32::MAX, |price| {
                test(price) == Ok(model::Verdict::Passes)
            })?;
        }
        Ok(())
    });
}

fn turns(highest: Option<i32>, last: i32, passes: impl Fn(i32) -> bool) -> Check {
    match highest {
        Some(price) => {
            same("it passes", passes(price), true)?;
            same("the next fails", passes(price + 1), false)
        }
        None => same("the last passes", passes(last), true),
    }
}

/// Words of calls, good and bad; the first are commands.
const WORDS: [&str; 56] = [
    "pack",
    "unpack",
    "check",
    "levels",
    "test",
    "day",
    "explain",
    "offers",
    "week",
    "new",
    "help",
    "--help",
    "--json",
    "--together",
    "--csv",
    "--all",
    "--hour",
    "--owner",
    "--owner=2",
    "--from",
    "--hours",
    "--at",
    "--condition",
    "--offer",
    "--level",
    "--price",
    "--",
    "--what",
    "0",
    "7",
    "24",
    "4294967295",
    "4294967296",
    "-1",
    "narrow",
    "global",
    "wide",
    "start",
    "energy",
    "3300.00",
    "50.0@42.30,100.0@63.46",
    "1@1@1",
    ",",
    "",
    "é",
    "\u{1b}[2J",
    "--hour=3",
    "--json=1",
    "no-such-file",
    "/",
    "--svg",
    "--svg-day",
    "--out",
    "thermal",
    "fields",
    "records",
];

/// Such words in any mixture.
fn words(random: &mut Random, file: &str) -> Vec<String> {
    let mut call = vec![random.pick(&WORDS[..10]).to_string(), file.to_string()];
    for _ in 0..random.below(9) {
        call.push(random.pick(&WORDS).to_string());
    }
    // What is written goes to a folder, which can't be written.
    let names_output = |w: &String| ["--svg", "--svg-day", "--out"].contains(&w.as_str());
    let outputs: Vec<usize> = (0..call.len())
        .filter(|i| names_output(&call[*i]))
        .collect();
    for at in outputs.into_iter().rev() {
        call.insert(at + 1, "/".to_string());
    }
    call
}

#[test]
fn no_call_panics() {
    run("calls", 3_000, make::dossier, |random, dossier| {
        let text = random.one_in(2);
        let file = Kept::new(&if text {
            unpack(dossier).into_bytes()
        } else {
            dossier.to_vec()
        });
        let words = words(random, file.name());
        let words: Vec<&str> = words.iter().map(String::as_str).collect();
        let ended = call(&words);
        let silent = ended.err.is_empty();
        match ended.status {
            Status::Wrong => same("wrong use is said", silent && ended.out.is_empty(), false),
            _ => Ok(()),
        }
        .map_err(|what| format!("{what}: {words:?}"))
    });
}

#[test]
fn many_files_have_a_line_each_and_a_count() {
    let good = Kept::new(&make::written::r1());
    let bad = Kept::new(b"RS issue=1\n");
    let ended = call(&["check", good.name(), bad.name(), "no-such-file"]);
    let lines: Vec<&str> = ended.out.lines().collect();
    assert_eq!(ended.status, Status::Wrong);
    assert!(
        lines[0].contains(": accepted: thermal, 100.0 MW"),
        "{lines:?}"
    );
    assert!(
        lines[1].contains(": line 1: RS: technology is missing: "),
        "{lines:?}"
    );
    assert!(
        lines[2].starts_with("no-such-file: can't be read: "),
        "{lines:?}"
    );
    assert_eq!(lines[3], "3 files: 1 accepted, 1 refused, 1 unreadable");
    assert_eq!(lines.len(), 4);
    let ended = call(&["levels", good.name(), bad.name(), "--hour", "0", "--json"]);
    json::check(&ended.out).unwrap();
    assert_eq!(ended.out.lines().count(), 2);
    assert_eq!(ended.status, Status::Refused);
}

/// A person at a terminal sees how far the work is, at most ten times a second; the answers stay free
/// of it.
#[test]
fn progress_is_shown_to_those_who_watch() {
    let file = Kept::new(&make::written::r1());
    let words = [&["check"], &[file.name(); 500][..]].concat();
    let words: Vec<OsString> = words.iter().map(OsString::from).collect();
    for out_watched in [false, true] {
        let (mut out, mut err) = (Vec::new(), Vec::new());
        let mut streams = Streams {
            out: &mut out,
            err: &mut err,
            out_watched,
            err_watched: true,
        };
        let begun = Instant::now();
        assert_eq!(command::run(&words, &mut streams), Status::Done);
        let most = 1 + begun.elapsed().as_millis() / 100;
        let shown = String::from_utf8(err).expect("text");
        assert!(shown.starts_with("\r\x1b[K1 of 500 files"), "{shown:?}");
        assert!(shown.ends_with("\r\x1b[K"), "{shown:?}");
        let times = shown.matches(" of 500 files").count();
        assert!(times as u128 <= most, "{times} times");
        assert!(!String::from_utf8(out).expect("text").contains('\x1b'));
    }
}

/// Near misses, and what is said of them.
const NEAR: [(&str, &str); 9] = [
    ("chek", "no command is called 'chek' (did you mean check?)"),
    (
        "help lvels",
        "no command is called 'lvels' (did you mean levels?)",
    ),
    (
        "help feilds",
        "no command is called 'feilds' (did you mean fields?)",
    ),
    (
        "--versoin",
        "no command is called '--versoin' (did you mean --version?)",
    ),
    (
        "version",
        "no command is called 'version' (did you mean --version?)",
    ),
    ("halp", "no command is called 'halp' (did you mean help?)"),
    (
        "levels --huor 1",
        "no option is called '--huor' (did you mean --hour?)",
    ),
    (
        "levels -json",
        "no option is called '-json' (did you mean --json?)",
    ),
    (
        "test --hour=0 --condition=narow",
        "'narow' is not narrow, broad or global (did you mean narrow?)",
    ),
];

#[test]
fn near_misses_are_hinted_at() {
    for (words, told) in NEAR {
        let ended = call(&words.split(' ').collect::<Vec<&str>>());
        assert_eq!(ended.status, Status::Wrong, "{words}");
        assert!(ended.err.contains(told), "{told} in {}", ended.err);
    }
}

/// Long words are shown in part.
#[test]
fn long_words_are_told_in_short() {
    let long = "x".repeat(100_000);
    let option = format!("--{long}");
    for (words, told) in [
        (&[&long[..]][..], "no command is called 'xxxx"),
        (&["check", &option], "no option is called '--xxx"),
        (&["levels", "--hour", &long], "'xxxx"),
        (&["test", "--hour=0", "--condition", &long], "'xxxx"),
        (
            &["test", "--hour=0", "--condition=narrow", "--offer", &long],
            "'xxxx",
        ),
        (&["check", &long], "xxxx"),
    ] {
        let ended = call(words);
        assert_eq!(ended.status, Status::Wrong, "{:.60?}", words);
        assert!(ended.err.contains(told), "{told} in {:.200}", ended.err);
        assert!(ended.err.len() < 800, "{} bytes", ended.err.len());
    }
}

/// The levels of 20 laminations stand in a table that fits 120 columns.
#[test]
fn a_day_fits_a_screen() {
    let mut text = example("thermal.txt").replace("HP", "# HP");
    for point in 1..=21 {
        let (output, heat) = (f64::from(point - 1) * 5.0, 1_000 * point * point);
        text += &format!("HP issue=1 point={point} output={output:.1} heat={heat}\n");
    }
    let file = Kept::new(text.as_bytes());
    let ended = call(&["day", file.name(), "--from", "4294967200", "--hours", "2"]);
    assert_eq!(ended.status, Status::Done, "{}", ended.err);
    let heads = ended.out.matches(".0 MW").count();
    assert_eq!(heads, 20, "{}", ended.out);
    let widest = ended.out.lines().map(str::len).max();
    assert!(widest.is_some_and(|n| n <= 120), "{}", ended.out);
}
