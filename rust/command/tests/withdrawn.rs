//! Third-party payments withdrawn: the report's last line in words and JSON, payments in explanations,
//! and hours at which one begins.

mod calls;
mod json;

use calls::{call, Kept};
use command::answer::Status;
use command::input::Input;
use command::lines::Lines;
use command::query::Query;
use command::terms::Explanation;
use command::text::unpack;
use model::cases::{run, same};
use model::make;
use model::make::written::r1;
use model::random::Random;
use model::table::OWNERS;

const PAYMENT: &str = "AD issue=1 profile=1 cost=third-party level=reserve amount=0.40";
const AHEAD: &str = "AV issue=2 first=24 profile=1 cost=third-party level=energy amount=2.00";

/// R1 and these lines as a text.
fn with(lines: &[&str]) -> Kept {
    let text = unpack(&r1()) + &lines.join("\n");
    Kept::new(text.as_bytes())
}

/// The report, the line of many files and the JSON tell how many there are, 0 too; no table does.
#[test]
fn levels_tell_how_many() {
    let (none, two) = (with(&[]), with(&[PAYMENT, AHEAD]));
    for (file, hour, count) in [(&none, 0, 0), (&two, 23, 1), (&two, 24, 2)] {
        let hour = format!("--hour={hour}");
        let told = |more: &[&str]| call(&[&["levels", file.name(), &hour], more].concat()).out;
        let last = format!("\nreserve 0.25\nretired {count}\n");
        assert!(told(&[]).ends_with(&last), "{}", told(&[]));
        let line = format!("; reserve 0.25; retired {count}\n");
        assert!(told(&[file.name()]).contains(&line));
        let member = format!(",\"reserve\":0.25,\"retired\":{count},\"owner\":1}}\n");
        json::check(&told(&["--json"])).unwrap();
        assert!(
            told(&["--json"]).ends_with(&member),
            "{}",
            told(&["--json"])
        );
        assert!(!told(&["--csv"]).contains("retired"));
    }
}

/// A day has no such line, in words, JSON and tables.
#[test]
fn a_day_has_none() {
    let file = with(&[PAYMENT, AHEAD]);
    for more in [&[][..], &["--json"], &["--csv"]] {
        let day = call(&[&["day", file.name(), "--from=20"], more].concat());
        assert_eq!(day.status, Status::Done);
        assert!(!day.out.contains("retired"), "{}", day.out);
    }
}

#[test]
fn a_refusal_has_none() {
    let file = with(&[PAYMENT, PAYMENT]);
    for more in [&[][..], &["--json"]] {
        let ended = call(&[&["levels", file.name(), "--hour=0"], more].concat());
        assert_eq!(ended.status, Status::Refused);
        assert!(!format!("{}{}", ended.out, ended.err).contains("retired"));
    }
}

/// It stands there with 0, and with what was claimed; the sum is that of the others.
#[test]
fn explained_with_0() {
    let file = with(&[PAYMENT, AHEAD]);
    let explained = |more: &[&str]| call(&[&["explain", file.name(), "--hour=0"], more].concat());
    let reserve = explained(&["--level=reserve"]);
    assert_eq!(reserve.status, Status::Done);
    let own = "AD issue=1 profile=1 cost=consumables level=reserve amount=0.25 (line 6)";
    let terms = format!(
        "  0.250000  consumables\n{gap}{own}\n        \
         0.000000  third-party = withdrawn: 0.40 was claimed\n{gap}{PAYMENT} (line 8)\n        \
         0.250000  sum\n",
        gap = " ".repeat(20)
    );
    assert!(reserve.out.contains(&terms), "{}", reserve.out);
    let energy = explained(&["--level=energy"]).out;
    let ahead = format!("\nahead\n  from hour 24 on: {AHEAD} (line 9), withdrawn\n");
    assert!(energy.ends_with(&ahead), "{energy}");
    let json = explained(&["--json"]).out;
    json::check(&json).unwrap();
    let term = "{\"term\":\"third-party\",\"amount\":0.000000,\"working\":\"withdrawn: 0.40 was claimed\",";
    assert!(json.contains(term), "{json}");
}

/// A payment that begins changes no level, and is no reason where another cost does.
#[test]
fn no_change_of_a_day() {
    let fuel = "FV issue=2 first=24 profile=1 fuel=5.10 emission=1.00";
    let day = |lines: &[&str]| {
        let file = with(lines);
        call(&["day", file.name(), "--from=23", "--hours=3"]).out
    };
    assert!(!day(&[AHEAD]).contains('*'));
    let marked = day(&[AHEAD, fuel]);
    let why = format!("* hour 24, energy, start, no-load: {fuel} (line 9)\n");
    assert!(marked.ends_with(&why), "{marked}");
}

/// Of made dossiers, as many terms are withdrawn as the report counts, once for each level.
#[test]
fn explained_as_the_report_counts() {
    run(
        "withdrawn terms",
        2_000,
        make::dossier,
        |random: &mut Random, dossier| {
            let hour = make::hour(random, dossier);
            let owner = random.pick(&OWNERS);
            let Ok(report) = model::report::text(dossier, hour, owner) else {
                return Ok(());
            };
            let input = Input {
                name: command::input::name("made".as_ref()),
                dossier: dossier.to_vec(),
                lines: Lines::default(),
            };
            let query = Query { hour, owner };
            let explanation = Explanation::of(&input, query).map_err(|r| r.to_string())?;
            let levels = explanation.levels.iter();
            let first = levels.filter(|l| l.place.lamination.is_none_or(|(n, ..)| n == 1));
            let terms = first.flat_map(|l| &l.sides).flat_map(|s| &s.terms);
            let count = terms
                .filter(|t| t.working.starts_with("withdrawn: "))
                .count();
            let last = format!("\nretired {count}\n");
            same(&last, report.ends_with(last.as_bytes()), true)
        },
    );
}
