//! Several files as one station: records are joined whole, the order of the files says nothing, and
//! a refusal names the file.

mod calls;
mod json;

use calls::{call, Ended, Kept};
use command::answer::Status;
use command::record::records;
use command::text::unpack;
use model::cases::{run, same, Check};
use model::make;
use model::random::Random;

/// Some records as a file: bytes, or text with or without a mark of byte order and a last line end.
fn file(random: &mut Random, bytes: &[u8]) -> Kept {
    if random.one_in(2) {
        return Kept::new(bytes);
    }
    let text = unpack(bytes);
    let text = text.replace('\n', random.pick(&["\n", "\r\n", " # why\n"]));
    let text = match random.one_in(2) {
        true => text.trim_end(),
        false => &text,
    };
    let first = random.pick(&["", "\u{feff}"]);
    Kept::new(format!("{first}{text}").as_bytes())
}

/// A dossier's records dealt out to files, none of them empty, and the dossier that these form in
/// their order.
fn dealt(random: &mut Random, dossier: &[u8]) -> (Vec<Kept>, Vec<u8>) {
    let mut parts = vec![Vec::new(); 1 + random.below(4) as usize];
    for record in records(dossier) {
        let at = random.below(parts.len() as u64) as usize;
        parts[at].extend(record.bytes);
    }
    parts.retain(|part| !part.is_empty());
    let files = parts.iter().map(|part| file(random, part)).collect();
    (files, parts.concat())
}

fn together(command: &str, files: &[Kept], more: &[&str]) -> Ended {
    let mut words = vec![command, "--together"];
    words.extend(files.iter().map(Kept::name));
    words.extend(more);
    call(&words)
}

fn sound(random: &mut Random) -> Vec<u8> {
    loop {
        let dossier = make::dossier(random);
        let unread = bench::accept(&dossier).is_err_and(|r| matches!(r.number, 1..=3 | 13));
        if !unread && !dossier.is_empty() {
            return dossier;
        }
    }
}

/// Joined files are the dossier that their records form.
#[test]
fn records_are_joined_whole() {
    run("files together", 400, sound, |random, dossier| {
        let (files, joined) = dealt(random, dossier);
        let hour = make::hour(random, dossier);
        let ended = together("levels", &files, &["--hour", &hour.to_string()]);
        let mut buffer = [0; 4_096];
        match bench::report(&joined, hour, 1, &mut buffer) {
            Ok(length) => same("report", ended.out.as_bytes(), &buffer[..length]),
            Err(refusal) => {
                let head = format!(": refused {} at {}: ", refusal.number, refusal.place);
                same("refused", ended.err.contains(&head), true)?;
                same("status", ended.status, Status::Refused)
            }
        }?;
        let packed = together("pack", &files, &["--out", "/"]);
        same("a folder is no file", packed.status, Status::Wrong)
    });
}

/// The order of the files says nothing: of one mark and key the highest issue counts.
#[test]
fn the_order_of_files_says_nothing() {
    run("files in any order", 400, sound, |random, dossier| {
        let (mut files, joined) = dealt(random, dossier);
        if bench::accept(&joined).is_err() {
            return Ok(());
        }
        let hour = make::hour(random, dossier).to_string();
        let before = together("levels", &files, &["--hour", &hour]);
        random.shuffle(&mut files);
        let after = together("levels", &files, &["--hour", &hour]);
        let has_fuel = model::levels(&joined, hour.parse().expect("an hour"), 1).is_ok();
        same("levels there", after.status == Status::Done, has_fuel)?;
        same("status", after.status, before.status)?;
        same("levels", after.out, before.out)
    });
}

/// A record that is cut short at the end of a file doesn't reach into the next.
#[test]
fn a_cut_record_is_refused_in_its_file() {
    let whole = make::written::r1();
    let (first, second) = whole.split_at(40);
    let [first, second] = [first, second].map(Kept::new);
    let glued = Kept::new(&whole);
    assert_eq!(call(&["check", glued.name()]).status, Status::Done);
    let ended = call(&["check", first.name(), second.name(), "--together"]);
    assert_eq!(ended.status, Status::Refused);
    let cut = format!("  {}: refused 2 at 31: ", first.name());
    assert!(ended.err.contains(&cut), "{}", ended.err);
    let rest = format!("  {}: refused 1 at 0: ", second.name());
    assert!(ended.err.contains(&rest), "{}", ended.err);
}

/// A file without a record, perhaps of a price that didn't come, is no part of a station.
#[test]
fn a_file_without_a_record_is_told() {
    let station = Kept::new(&make::written::r1());
    for nothing in ["", "\n", "# no price today\n", "\u{feff}"] {
        let none = Kept::new(nothing.as_bytes());
        for order in [[&station, &none], [&none, &station]] {
            let words = ["levels", order[0].name(), order[1].name(), "--together"];
            let ended = call(&[&words[..], &["--hour=0"]].concat());
            assert_eq!(ended.status, Status::Refused, "{nothing:?}");
            assert_eq!(ended.out, "");
            let told = format!("\n  {}: refused 5 at 0: ", none.name());
            assert!(ended.err.contains(&told), "{}", ended.err);
            assert!(ended.err.contains("no record at all"), "{}", ended.err);
        }
    }
}

/// A refused record is told with its file, and its line or its place there.
fn names(files: &[Kept], file: &Kept, stands: &str) -> Check {
    let ended = together("check", files, &["--json"]);
    let told = format!(", {stands} of {}: FU of profile=1, issue 1", file.name());
    same("told", ended.err.contains(&told), true).map_err(|what| what + &ended.err)?;
    let member = format!("\"file\":\"{}\"", file.name());
    same("member", ended.out.contains(&member), true)?;
    json::check(&ended.out)
}

#[test]
fn a_refusal_names_the_file() {
    let line = "FU issue=1 profile=1 fuel=5.00 emission=1.00";
    let text = format!(
        "# a price\n\nAD issue=9 profile=1 cost=scheduled level=energy amount=1.00\n{line}"
    );
    let packed = command::text::pack(text.as_bytes())
        .expect("a text")
        .dossier;
    let station = Kept::new(&make::written::r1());
    let files = [station, Kept::new(text.as_bytes())];
    names(&files, &files[1], "line 4").unwrap();
    let files = [Kept::new(&make::written::r1()), Kept::new(&packed)];
    names(&files, &files[1], "byte 17").unwrap();
}

/// Every command that takes a station takes it from several files.
#[test]
fn every_command_takes_them() {
    let price = Kept::new(
        b"FU issue=3 profile=1 fuel=5.00 emission=1.00\n\
          TH issue=1 condition=narrow level=reserve percent=100 margin=none floor=0.00",
    );
    let station = Kept::new(&make::written::r1());
    let files = [price, station];
    for (command, more, shown) in [
        ("check", &[][..], "accepted: thermal, 100.0 MW, 9 records"),
        ("levels", &["--hour", "0"], "energy 1 0.0 100.0 50.30\n"),
        ("day", &["--from", "0", "--hours", "1"], " 50.30 "),
        ("explain", &["--hour", "0"], "fuel=5.00"),
        ("pack", &[], "FU"),
        (
            "test",
            &[
                "--hour=0",
                "--condition=narrow",
                "--level=reserve",
                "--price=0.50",
            ],
            "passes under narrow at hour 0",
        ),
    ] {
        let ended = together(command, &files, more);
        assert!(
            ended.out.contains(shown),
            "{command}: {} {}",
            ended.out,
            ended.err
        );
        assert_eq!(ended.status, Status::Done, "{command}");
    }
}

#[test]
fn files_that_cannot_be_taken_are_all_told() {
    let station = Kept::new(&make::written::r1());
    let wrong = Kept::new(b"FU issue=1\n");
    let words = [
        "levels",
        station.name(),
        wrong.name(),
        "no-such-file",
        "--together",
        "--hour=0",
    ];
    for more in [&[][..], &["--json"], &["--csv"]] {
        let ended = call(&[&words, more].concat());
        assert_eq!(ended.status, Status::Wrong);
        assert!(
            ended.err.contains(": 2 files can't be taken\n"),
            "{}",
            ended.err
        );
        assert!(
            ended.err.contains("\n  no-such-file: can't be read: "),
            "{}",
            ended.err
        );
        assert!(ended.err.contains(": line 1: FU: "), "{}", ended.err);
        assert_eq!(ended.out.contains("no-such-file"), !more.is_empty());
    }
}

/// The names of many files don't fill the screen; in JSON they are all there.
#[test]
fn many_names_are_told_in_short() {
    let station = Kept::new(&make::written::r1());
    let files = [station.name(); 50];
    let words = [&["check", "--together", "--json"], &files[..]].concat();
    let ended = call(&words);
    assert_eq!(ended.status, Status::Refused);
    let first = ended.err.lines().next().expect("a line");
    assert!(first.contains('…') && first.len() < 400, "{first}");
    // In `file`, in `files`, with the record and with its twin.
    let told = ended.out.matches(station.name()).count();
    assert_eq!(told, 50 + 50 + 2, "{}", ended.out);
    json::check(&ended.out).unwrap();
}
