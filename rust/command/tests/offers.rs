//! Offers files: an answer a line, in order, which is the library's; a count; JSON and a table.

mod calls;
mod json;

use bench::{Refusal, Verdict};
use calls::{call, Ended, Kept};
use command::answer::Status;
use command::offer::{bytes, read};
use command::text::is_text;
use model::make;
use model::random::Random;

const CONDITIONS: [&str; 3] = ["narrow", "broad", "global"];

/// A line, and what the library says to it: passes, fails, refused with a number, or unreadable.
fn line(random: &mut Random, stations: &[(Kept, Vec<u8>)]) -> (String, String) {
    let (file, dossier) = &stations[random.below(stations.len() as u64) as usize];
    let hour = make::hour(random, dossier);
    let named = random.pick(&[None, Some(1), Some(2)]);
    let owner = named.unwrap_or(1);
    let condition = 1 + random.below(3) as u8;
    let price = random.between(0, 20_000) as i32;
    let dollars = format!("{}.{:02}", price / 100, price % 100);
    let name = CONDITIONS[usize::from(condition) - 1];
    let (offered, verdict) = match random.one_in(2) {
        true => {
            let offer = format!("{}@{dollars}", random.between(1, 90));
            let pairs = bytes(&read(&offer).expect("an offer"));
            let verdict = bench::energy_test(dossier, hour, owner, condition, &pairs);
            (format!("offer={offer}"), verdict)
        }
        false => {
            let verdict = bench::price_test(dossier, hour, owner, 4, condition, price);
            (format!("level=reserve price={dollars}"), verdict)
        }
    };
    let owner = named.map_or(String::new(), |owner| format!(" owner={owner}"));
    let line = format!(
        "{offered} station={} hour={hour}{owner} condition={name}",
        file.name()
    );
    (line, told(verdict))
}

fn told(verdict: Result<Verdict, Refusal>) -> String {
    match verdict {
        Ok(Verdict::Passes) => "passes under ".to_string(),
        Ok(Verdict::Fails(_)) => "fails under ".to_string(),
        Err(r) => format!("refused {} at {}: ", r.number, r.place),
    }
}

/// A dossier that nobody takes for text.
fn station(random: &mut Random) -> (Kept, Vec<u8>) {
    let dossier = loop {
        let dossier = make::dossier(random);
        if !is_text(&dossier) {
            break dossier;
        }
    };
    (Kept::new(&dossier), dossier)
}

/// The answers are those of the library, in the order of the file, and they are counted.
#[test]
fn each_line_has_the_answer_of_the_library() {
    let mut random = Random::new(model::cases::seed());
    let stations: Vec<(Kept, Vec<u8>)> = (0..40).map(|_| station(&mut random)).collect();
    let lines: Vec<(String, String)> = (0..400).map(|_| line(&mut random, &stations)).collect();
    let text: Vec<&str> = lines.iter().map(|(line, _)| line.as_str()).collect();
    let file = Kept::new(text.join("\n").as_bytes());
    let ended = call(&["offers", file.name()]);
    let shown: Vec<&str> = ended.out.lines().collect();
    assert_eq!(shown.len(), lines.len() + 1);
    for (number, ((asked, told), shown)) in (1..).zip(lines.iter().zip(&shown)) {
        assert!(shown.starts_with(&format!("line {number}: ")), "{shown}");
        assert!(shown.contains(told), "{asked}: {shown}, expected {told}");
    }
    let count = |what: &str| {
        lines
            .iter()
            .filter(|(_, told)| told.starts_with(what))
            .count()
    };
    let [pass, fail, refused] = ["passes", "fails", "refused"].map(count);
    assert!(
        pass > 0 && fail > 0 && refused > 0,
        "{pass}, {fail}, {refused}"
    );
    let counts = shown[lines.len()];
    assert!(counts.starts_with("400 offers: "), "{counts}");
    for (count, what) in [(pass, "pass"), (fail, "fail"), (refused, "refused")] {
        assert!(counts.contains(&format!("{count} {what}")), "{counts}");
    }
    assert_eq!(ended.status, Status::Refused);
}

fn offers(text: &str, more: &[&str]) -> Ended {
    let file = Kept::new(text.as_bytes());
    call(&[&["offers", file.name()], more].concat())
}

const EXAMPLES: &str = concat!(env!("CARGO_MANIFEST_DIR"), "/../../examples/");

/// The worst of the lines is the status; a line that is wrong doesn't stop the others.
#[test]
fn statuses() {
    let passes = format!("station={EXAMPLES}thermal.txt hour=0 condition=narrow offer=1@1");
    let fails = format!("station={EXAMPLES}nuclear.txt hour=0 condition=narrow offer=1@30");
    let wrong = "station=x hour=0 condition=wide offer=1@1";
    let unreadable = "station=no-such-file hour=0 condition=narrow offer=1@1";
    for (lines, status, counts) in [
        (vec![passes.as_str()], Status::Done, "1 offer: 1 pass"),
        (
            vec![&fails, &passes],
            Status::Fails,
            "2 offers: 1 fail, 1 pass",
        ),
        (
            vec![wrong, &fails],
            Status::Refused,
            "2 offers: 1 refused, 1 fail",
        ),
        (
            vec![unreadable, wrong, &passes],
            Status::Wrong,
            "3 offers: 1 unreadable, 1 refused, 1 pass",
        ),
    ] {
        let ended = offers(&lines.join("\n"), &[]);
        assert_eq!(ended.status, status, "{}", ended.out);
        assert_eq!(ended.out.lines().last(), Some(counts));
        assert_eq!(ended.err, "");
    }
}

/// A file without an offer is no success.
#[test]
fn a_file_without_an_offer_is_wrong() {
    for text in ["", "# none\n\n", "\u{feff}\n", "\0"] {
        let ended = offers(text, &[]);
        assert_eq!(ended.status, Status::Wrong, "{text:?}");
        assert!(ended.out.is_empty() && !ended.err.is_empty(), "{text:?}");
    }
}

/// An offers file in another encoding is told as that.
#[test]
fn another_encoding_is_told() {
    let line = format!("station={EXAMPLES}thermal.txt hour=0 condition=narrow offer=1@1\n");
    let wide: Vec<u8> = line.encode_utf16().flat_map(u16::to_le_bytes).collect();
    let file = Kept::new(&wide);
    let ended = call(&["offers", file.name()]);
    assert_eq!(ended.status, Status::Wrong);
    assert!(ended.err.contains("the text is UTF-16"), "{}", ended.err);
}

#[test]
fn objects_and_tables_have_a_row_a_line() {
    let lines = format!(
        "station={EXAMPLES}thermal.txt hour=0 condition=narrow offer=1@1\nwhat\n\
         station={EXAMPLES}thermal.txt hour=0 condition=global offer=1@1\n"
    );
    let ended = offers(&lines, &["--json"]);
    assert_eq!(ended.out.lines().count(), 3);
    json::check(&ended.out).unwrap();
    let ended = offers(&lines, &["--csv"]);
    let rows: Vec<&str> = ended.out.lines().collect();
    assert_eq!(rows.len(), 4);
    assert!(rows[0].starts_with("line,file,answer,hour,condition,"));
    assert!(
        rows[1].contains(",passes,0,narrow,energy,,,60.45 66.45,,,,1"),
        "{}",
        rows[1]
    );
    assert!(rows[2].starts_with("2,,refused,"), "{}", rows[2]);
    let asked = ",refused,0,global,energy,,,,14,0,\"a condition";
    assert!(rows[3].contains(asked), "{}", rows[3]);
}

/// A station from several files in a line.
#[test]
fn a_station_from_several_files() {
    let price = Kept::new(b"FU issue=3 profile=1 fuel=5.00 emission=1.00");
    let of = |files: &str| {
        let line = format!("{files} hour=0 condition=narrow offer=75.0@71.85");
        offers(&line, &[]).status
    };
    let (station, today) = (
        format!("station={EXAMPLES}thermal.txt"),
        format!("station={}", price.name()),
    );
    assert_eq!(of(&station), Status::Fails);
    assert_eq!(of(&format!("{station} {today}")), Status::Done);
    assert_eq!(of(&format!("{today} {station}")), Status::Done);
}

/// The files of such a station are told one by one, and one that can't be read is counted as that.
#[test]
fn several_files_are_told_one_by_one() {
    let line = format!("station={EXAMPLES}thermal.txt station=no-such-file hour=0");
    let line = format!("{line} condition=narrow offer=75.0@71.85");
    let ended = offers(&line, &[]);
    assert_eq!(ended.status, Status::Wrong);
    assert_eq!(ended.out.lines().last(), Some("1 offer: 1 unreadable"));
    let price = Kept::new(b"FU issue=3 profile=1 fuel=5.00 emission=1.00");
    for other in ["no-such-file", price.name()] {
        let ended = offers(&line.replace("no-such-file", other), &["--json"]);
        let files = format!("\"files\":[\"{EXAMPLES}thermal.txt\",\"{other}\"],");
        assert!(ended.out.contains(&files), "{}", ended.out);
        json::check(&ended.out).unwrap();
    }
}
