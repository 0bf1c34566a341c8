//! Levels term by term: they add up to the library's for every dossier, and a term that doesn't fit
//! is told.

mod calls;
mod json;

use calls::{call, Kept};
use command::answer::Status;
use command::input::Input;
use command::lines::Lines;
use command::query::Query;
use command::terms::Explanation;
use model::accept::accepted;
use model::cases::{run, same, Check};
use model::levels::{reckon, Levels, Micro};
use model::make;
use model::random::Random;
use model::table::OWNERS;
use std::sync::atomic::{AtomicU64, Ordering};

fn input(dossier: &[u8]) -> Input {
    Input {
        name: command::input::name("made".as_ref()),
        dossier: dossier.to_vec(),
        lines: Lines::default(),
    }
}

fn explained(random: &mut Random, dossier: &[u8]) -> Option<Explanation> {
    let hour = make::hour(random, dossier);
    let owner = random.pick(&OWNERS);
    Explanation::of(&input(dossier), Query { hour, owner }).ok()
}

/// The sums in micro-dollars are those of the model, which is written from the papers alone.
fn sums_are_those_of_the_model(explanation: &Explanation, dossier: &[u8]) -> Check {
    let station = accepted(dossier).map_err(|refusal| format!("{refusal:?}"))?;
    let Query { hour, owner } = explanation.query;
    let levels = reckon(&station, hour, owner);
    let levels: Levels<Micro> = levels.map_err(|refusal| format!("{refusal:?}"))?;
    let model: Vec<i128> = levels.all().map(|micro| micro.0 as i128).collect();
    let sums: Vec<i128> = explanation.levels.iter().map(|level| level.sum()).collect();
    same("sums", sums, model)
}

/// The terms come to the library's levels, each record that they name lies in the dossier, and the
/// JSON holds.
fn adds_up(random: &mut Random, dossier: &[u8]) -> Check {
    let Some(explanation) = explained(random, dossier) else {
        return Ok(());
    };
    same("differences", explanation.differences(), Vec::new())?;
    sums_are_those_of_the_model(&explanation, dossier)?;
    let said = explanation.said();
    same("status", said.status, Status::Done)?;
    for term in explanation
        .levels
        .iter()
        .flat_map(|l| &l.sides)
        .flat_map(|s| &s.terms)
    {
        for record in &term.records {
            let packed = command::text::pack(record.text.as_bytes()).expect("a line");
            let lies = &dossier[record.start..][..packed.dossier.len()];
            same("record", lies, &packed.dossier[..])?;
        }
    }
    json::check(&said.json.to_string())
}

#[test]
fn terms_add_up_to_the_levels_of_the_library() {
    run("explained levels", 4_000, make::dossier, adds_up);
}

/// Divisions that leave half a micro-dollar, batteries that didn't charge, and forecasts at their ends.
#[test]
fn terms_add_up_at_the_edges() {
    let edges = make::edges();
    assert!(edges.len() > 30, "{} edges", edges.len());
    let mut explained = 0;
    for dossier in edges {
        for owner in OWNERS {
            let query = Query { hour: 0, owner };
            let Ok(explanation) = Explanation::of(&input(&dossier), query) else {
                continue;
            };
            assert_eq!(explanation.differences(), Vec::<String>::new());
            sums_are_those_of_the_model(&explanation, &dossier).unwrap();
            explained += 1;
        }
    }
    assert!(explained > 20, "{explained} explained");
}

/// A term that is a cent off, at any place, is told and is an error. In a battery's lesser side it
/// changes nothing, unless it then is the greater.
#[test]
fn a_broken_term_is_told() {
    let broken = AtomicU64::new(0);
    run("broken terms", 1_000, make::dossier, |random, dossier| {
        let Some(mut explanation) = explained(random, dossier) else {
            return Ok(());
        };
        let at = random.below(explanation.levels.len() as u64) as usize;
        let level = &mut explanation.levels[at];
        let taken = level.taken().map(|side| side.name);
        let side = level.sides.iter_mut().find(|side| Some(side.name) == taken);
        let Some(term) = side.and_then(|side| side.terms.first_mut()) else {
            return Ok(());
        };
        term.amount += 10_000;
        broken.fetch_add(1, Ordering::Relaxed);
        let said = explanation.said();
        same("status", said.status, Status::Wrong)?;
        same(
            "told",
            said.words.starts_with("the terms don't add up"),
            true,
        )?;
        json::check(&said.json.to_string())?;
        same(
            "in JSON",
            said.json.to_string().contains("\"differences\":[]"),
            false,
        )
    });
    let broken = broken.into_inner();
    assert!(broken > 200, "{broken} terms were broken");
}

/// A level that is missing, one too many and another profile are told too.
#[test]
fn other_levels_and_profiles_are_told() {
    let query = Query { hour: 0, owner: 1 };
    let whole = || Explanation::of(&input(&make::written::r1()), query).expect("R1");
    assert_eq!(whole().differences().len(), 0);
    let mut fewer = whole();
    fewer.levels.pop();
    assert_eq!(fewer.differences().len(), 1);
    let mut more = whole();
    more.library.pop();
    assert_eq!(more.differences().len(), 1);
    let mut other = whole();
    other.profile = 2;
    assert_eq!(other.differences(), ["profile 2 here, 1 in the library"]);
    let mut elsewhere = whole();
    elsewhere.levels[0].place.lamination = Some((1, 0, 999));
    assert_eq!(elsewhere.said().status, Status::Wrong);
}

#[test]
fn one_level_alone() {
    let file = Kept::new(&make::written::r1());
    let ended = call(&["explain", file.name(), "--hour", "0", "--level", "start"]);
    assert_eq!(ended.status, Status::Done);
    assert!(ended.out.contains("\nstart\n") && !ended.out.contains("\nenergy 1"));
    assert!(ended
        .out
        .ends_with(" 3300.00  to the cent, half up; the library's level is 3300.00\n"));
}

/// Amounts of any size stand below each other.
#[test]
fn amounts_stand_below_each_other() {
    let text =
        "MM issue=9 profile=1 item=1 cost=1000000000.00 output=0.1 interval=1 start-hours=1000.0";
    let [station, item] = [&make::written::r1()[..], text.as_bytes()].map(Kept::new);
    let words = ["explain", station.name(), item.name(), "--together"];
    let ended = call(&[&words[..], &["--hour=0", "--level=start"]].concat());
    let is_amount = |line: &&str| line.contains("  sum") || line.contains(" = ");
    let ends = ended.out.lines().filter(is_amount).map(|line| {
        let point = line.find('.').expect("an amount");
        point + ".000000".len()
    });
    let ends: Vec<usize> = ends.collect();
    assert_eq!(ends.len(), 4, "{}", ended.out);
    assert!(ends.iter().all(|end| *end == ends[0]), "{}", ended.out);
}

/// A level that the technology doesn't hold is refused by the library's number.
#[test]
fn a_level_that_is_not_held_is_refused() {
    let nuclear = concat!(env!("CARGO_MANIFEST_DIR"), "/../../examples/nuclear.txt");
    for (level, status) in [("energy", Status::Done), ("start", Status::Refused)] {
        let ended = call(&["explain", nuclear, "--hour", "0", "--level", level]);
        assert_eq!(ended.status, status, "{level}");
        assert_eq!(
            ended.err.contains(": refused 12 at 0: "),
            status == Status::Refused
        );
    }
}

/// A refusal in JSON has the hour behind it, as those of other commands have.
#[test]
fn a_refusal_has_its_hour() {
    let none = Kept::new(b"LC issue=1 cost=1.00\n");
    let nuclear = concat!(env!("CARGO_MANIFEST_DIR"), "/../../examples/nuclear.txt");
    for (file, more) in [(none.name(), &[][..]), (nuclear, &["--level=start"])] {
        let words = ["explain", file, "--hour=7", "--json"];
        let ended = call(&[&words, more].concat());
        assert_eq!(ended.status, Status::Refused);
        assert!(
            ended.out.ends_with("},\"hour\":7,\"owner\":1}\n"),
            "{}",
            ended.out
        );
    }
}
