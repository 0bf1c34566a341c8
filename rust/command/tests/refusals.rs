//! Refusals in words and JSON: the record, line, field or pair that is refused, and by which rule.

mod calls;
mod example;
mod json;

use calls::{call, Ended, Kept};
use command::answer::{refused, Status};
use command::explain::of_dossier;
use command::lines::Lines;
use command::rules::RULES;
use command::text::pack;
use example::example;
use model::cases::{run, same};
use model::make;

/// Refused with the library's number and place, in words that name the record which stands there.
#[test]
fn refusals_name_their_record() {
    run("refusals in words", 5_000, make::dossier, |_, dossier| {
        let Err(refusal) = bench::accept(dossier) else {
            return Ok(());
        };
        let explained = of_dossier(refusal, dossier, &Lines::default());
        let head = format!("refused {} at {}: ", refusal.number, refusal.place);
        let words = explained.words();
        same("head", words.starts_with(&head), true)?;
        same("who", words.contains("who can mend it: the "), true)?;
        let told = explained.record.is_some() || !explained.details.is_empty();
        same("there is more to say", told, refusal.number != 13)?;
        if let (Some(record), 4 | 6) = (&explained.record, refusal.number) {
            let packed = pack(record.text.as_bytes()).map_err(|wrong| format!("{wrong:?}"))?;
            let stands = &dossier[refusal.place..][..packed.dossier.len()];
            same("the record at the place", &packed.dossier[..], stands)?;
        }
        json::check(&explained.json().to_string())
    });
}

/// Text behind bytes, and bytes behind text, are told as that: `cat gas.bin price.txt`.
#[test]
fn text_and_bytes_in_one_input_are_told() {
    let r1 = make::written::r1();
    for text in [
        "FU issue=3 profile=1 fuel=5.00 emission=1.00\n",
        "# newer\nFU issue=3 profile=1 fuel=5.00 emission=1.00\n",
        "\n\nFU issue=3 profile=1 fuel=5.00 emission=1.00",
        "LC issue=3 cost=21.40\n",
        "\u{feff}FU issue=3 profile=1 fuel=5.00 emission=1.00\n",
        "# newer\x0c\nFU issue=3 profile=1 fuel=5.00 emission=1.00\n",
        "FU issue=3 profile=1 fuel=5.00 emission=1.00\nFU\0\0\0\x01\x01\0\0\0\0\0\0\0\0",
    ] {
        let file = Kept::new(&[&r1[..], text.as_bytes()].concat());
        let ended = call(&["check", file.name()]);
        let told = format!("from byte {} on it is text", r1.len());
        assert_eq!(ended.status, Status::Refused);
        assert!(ended.err.contains(&told), "{}", ended.err);
        assert!(!ended.err.contains("\n  record"), "{}", ended.err);
    }
    let price = "# newer\nFU issue=3 profile=1 fuel=5.00 emission=1.00\n";
    let file = Kept::new(&[price.as_bytes(), &r1].concat());
    let ended = call(&["check", file.name()]);
    let told = ": line 3: byte 1 begins a record RS in bytes, behind text: join texts, or bytes\n";
    assert!(ended.err.ends_with(told), "{}", ended.err);
}

/// A blank of another encoding isn't taken for the first byte of a record in bytes.
#[test]
fn a_blank_of_windows_1252_is_told() {
    let file = Kept::new(b"FU\xa0issue=3 profile=1 fuel=5.00 emission=1.00\n");
    let ended = call(&["check", file.name()]);
    let told = ": line 1: byte 3 is 160, which is no UTF-8: ";
    assert!(ended.err.contains(told), "{}", ended.err);
}

/// Of a text with many wrong lines the first are told, in JSON too.
#[test]
fn wrong_lines_are_told_up_to_a_limit() {
    let file = Kept::new("x\n".repeat(300_000).as_bytes());
    let ended = call(&["check", file.name(), "--json"]);
    assert_eq!(ended.status, Status::Refused);
    assert_eq!(ended.out.matches("\"line\":").count(), 100);
    json::check(&ended.out).unwrap();
    assert!(
        ended.err.contains(": at least 100 wrong lines\n"),
        "{}",
        ended.err
    );
    assert!(ended.err.ends_with("\n  and more\n"), "{}", ended.err);
    let file = Kept::new("x\n".repeat(99).as_bytes());
    assert!(call(&["check", file.name()])
        .err
        .contains(": 99 wrong lines\n"));
}

/// Changes of an example, and what is told of the text then.
const LINES: [[&str; 4]; 11] = [
    [
        "thermal.txt",
        "heat=690000",
        "heat=710000",
        "more steeply before point 2 (line 6) than behind it",
    ],
    [
        "thermal.txt",
        "output=75.0",
        "output=50.0",
        "output doesn't rise from point 1 (line 5) to point 2 (line 6)",
    ],
    [
        "thermal.txt",
        "heat=690000",
        "heat=490000",
        "heat falls from point 1 (line 5) to point 2 (line 6)",
    ],
    [
        "thermal.txt",
        "HP issue=1 point=2",
        "# ",
        "missing points: 2; the last is point 3 (line 7)",
    ],
    [
        "thermal.txt",
        "HP",
        "# HP",
        "points: 0; a curve takes 2 or more",
    ],
    [
        "thermal.txt",
        "output=100.0 heat",
        "output=90.0 heat",
        "ends at 90.0 MW (line 7); the capacity is 100.0 MW (line 2)",
    ],
    [
        "thermal.txt",
        "FU issue=1 profile=2",
        "# ",
        "request 1 (line 12) names profile 2, which has no FU",
    ],
    [
        "storage.txt",
        "HR issue=1 hour=7",
        "# ",
        "hours without an HR: 7; the window has 24 (line 2)",
    ],
    [
        "storage.txt",
        "charge=300.0",
        "charge=8000.0",
        "lasts 100 full hours at capacity; the window has 24 (line 2)",
    ],
    [
        "hydro.txt",
        "FP issue=1 place=7 ",
        "# ",
        "places without an FP: 7; the window has 50 (line 3)",
    ],
    [
        "hydro.txt",
        "window=50",
        "window=49",
        "the window has 49 (line 3); it takes 50 or more",
    ],
];

/// A refused text names the lines that clash, or that say what is missing.
#[test]
fn refusals_of_a_text_name_lines() {
    let twin = example("thermal.txt") + "FU issue=1 profile=1 fuel=5.00 emission=1.00\n";
    let before = "came before: record 5 at byte 70, line 10: FU issue=1 profile=1 fuel=4.00";
    let changed = LINES.map(|[name, from, to, told]| (example(name).replace(from, to), told));
    for (text, told) in changed.into_iter().chain([(twin, before)]) {
        refuses(&text, told);
    }
}

/// Whether a text is refused, and what is told of it.
fn refuses(text: &str, told: &str) {
    let file = Kept::new(text.as_bytes());
    let ended = call(&["check", file.name()]);
    assert_eq!(ended.status, Status::Refused);
    assert!(ended.err.contains(told), "{told} in {}", ended.err);
}

/// Changes of an example that don't fit its technology, and what is told of the field.
const UNFIT: [[&str; 4]; 7] = [
    ["thermal", "charge=0.0", "charge=5.0", "charge=5.0: 0.0"],
    [
        "thermal",
        "factor=1.000",
        "factor=0.000",
        "factor=0.000: 0.500 to 2.000",
    ],
    [
        "nuclear",
        "incremental-fuel=24000",
        "incremental-fuel=0",
        "incremental-fuel=0: 1 to 1000000 mg of uranium per MWh",
    ],
    [
        "storage",
        "no-load-heat=0",
        "no-load-heat=7",
        "no-load-heat=7: 0",
    ],
    [
        "hydro",
        "efficiency=0.000",
        "efficiency=0.900",
        "efficiency=0.900: 0.000",
    ],
    [
        "nuclear",
        "emission=0.00",
        "emission=1.00",
        "emission=1.00: 0.00",
    ],
    [
        "thermal",
        "cost=consumables",
        "cost=prorated-start",
        "cost=prorated-start: scheduled, unscheduled, consumables or third-party",
    ],
];

/// A record that doesn't fit is told by its field and the technology's rule.
#[test]
fn an_unfit_record_is_told_by_its_field() {
    for [name, from, to, told] in UNFIT {
        let text = example(&format!("{name}.txt")).replacen(from, to, 1);
        refuses(&text, ": refused 6 at ");
        refuses(&text, &format!("\n  {told} at a {name} station\n"));
    }
    for (name, record, told) in [
        ("hydro", "LC issue=1 cost=21.40", "LC is for storage"),
        (
            "nuclear",
            "HP issue=1 point=1 output=1.0 heat=1",
            "HP is for thermal",
        ),
    ] {
        let text = example(&format!("{name}.txt")) + record;
        refuses(&text, &format!("\n  the station is {name}; {told}\n"));
    }
    run("unfit records", 5_000, make::dossier, |_, dossier| {
        let refusal = bench::accept(dossier).err().filter(|r| r.number == 6);
        let explained = refusal.map(|r| of_dossier(r, dossier, &Lines::default()));
        let told = explained.is_none_or(|e| !e.details.is_empty());
        same("a reason", told, true)
    });
}

/// An offer put to the thermal example.
fn offered(offer: &str) -> Ended {
    let file = Kept::new(example("thermal.txt").as_bytes());
    let offer = format!("--offer={offer}");
    let question = ["--hour=0", "--condition=narrow", "--json"];
    call(&[&["test", file.name(), &offer][..], &question].concat())
}

const BY_NUMBER: [(&str, u8, usize); 14] = [
    ("2000.1@10.00", 11, 0),
    ("7000@10.00", 11, 0),
    ("50@1,7000@2,8000@3,9000@4", 11, 6),
    ("7000@1,7000@2", 10, 6),
    ("8000@1,7000@2", 10, 6),
    ("70000@1,7000@2", 10, 6),
    ("-5@10.00", 10, 0),
    ("50@10.00,-5@11.00", 10, 6),
    ("50@2000.01", 10, 0),
    ("50@99999999.00", 10, 0),
    ("50@-99999999999999999999.00", 10, 0),
    ("50@99999999.00,40@-99999999.00", 10, 0),
    ("50@10.00,60@99999999.00", 10, 6),
    ("", 10, 0),
];

/// An offer is refused by number whatever its size: as the rule says, not as its bytes would hold it.
#[test]
fn offers_are_refused_by_number_whatever_their_size() {
    let (long, many) = ("9".repeat(60) + "@1", "1@1,".repeat(9_000) + "1@1");
    let large = [(&long[..], 11, 0), (&many[..], 10, 54_006)];
    for (offer, number, place) in BY_NUMBER.into_iter().chain(large) {
        let ended = offered(offer);
        let refused = format!("\"refused\":{{\"number\":{number},\"place\":{place},");
        assert_eq!(ended.status, Status::Refused, "{}", ended.err);
        assert!(ended.out.contains(&refused), "{offer}: {}", ended.out);
    }
}

/// What is no number is told as that, and isn't put to the library.
#[test]
fn an_offer_of_no_numbers_is_wrong_use() {
    for (offer, told) in [
        (
            "4,50@1.00",
            "'4' is no pair: quantity@price, as in 50.0@42.30",
        ),
        (".5@1.00", "'.5' is no number: 0.1 to 2000.0 MW"),
        (
            "1@$4.00",
            "'$4.00' is no number: -2000.00 to 2000.00 dollars per MWh",
        ),
        (
            "1@1e2,+1@1",
            "'1e2' is no number: -2000.00 to 2000.00 dollars per MWh; '+1' is no number",
        ),
        (
            "1.05@1",
            "'1.05' has more than 1 place after the point: 0.1 to 2000.0 MW",
        ),
        (
            "1@1.005",
            "'1.005' has more than 2 places after the point: -2000.00 to",
        ),
    ] {
        let ended = offered(offer);
        assert_eq!(ended.status, Status::Wrong, "{offer}");
        assert!(ended.err.contains(told), "{offer}: {}", ended.err);
    }
}

/// Which of its rules an offer broke that draws 10, and how the capacity stands to one that draws 11.
#[test]
fn a_malformed_offer_is_told_by_its_rule() {
    for (offer, told) in [
        (
            "50@10,50@11",
            "pair 2 is 50.0 MW at 11.00: its quantity doesn't rise above the 50.0 MW before it",
        ),
        (
            "0@10",
            "pair 1 is 0.0 MW at 10.00: its quantity isn't above 0",
        ),
        (
            "50@10,60@9",
            "pair 2 is 60.0 MW at 9.00: its price falls below the 10.00 before it",
        ),
        (
            "50@2000.01",
            "pair 1 is 50.0 MW at 2000.01: its price isn't from -2000.00 to 2000.00",
        ),
        (
            "50@10,40@9",
            "before it, its price falls below the 10.00 before it",
        ),
        (
            &["1@1"; 21].join(","),
            "the offer has 21 pairs; it takes 1 to 20",
        ),
        ("", "the offer has no pair; it takes 1 to 20"),
        (
            "101@10",
            "pair 1 is 101.0 MW at 10.00; the capacity is 100.0 MW",
        ),
    ] {
        let ended = offered(offer);
        assert_eq!(ended.status, Status::Refused, "{offer}");
        assert!(ended.err.contains(told), "{told} in {}", ended.err);
    }
}

/// A number that no rule has is an error of the program: it isn't explained as another rule's.
#[test]
fn an_unknown_number_is_an_error_of_the_program() {
    for number in [0, 18, 255] {
        let refusal = bench::Refusal { number, place: 7 };
        let explained = of_dossier(refusal, &make::written::r1(), &Lines::default());
        let said = refused(&explained);
        assert_eq!(said.status, Status::Wrong);
        let head = format!("refused {number} at 7: an error of the program: ");
        assert!(said.words.starts_with(&head), "{}", said.words);
        assert!(said.line.starts_with(&head), "{}", said.line);
        let json = said.json.to_string();
        assert!(json.contains("an error of the program"), "{json}");
        for rule in &RULES {
            assert!(!said.words.contains(rule.means) && !json.contains(rule.wants));
        }
    }
    for rule in &RULES {
        let refusal = bench::Refusal {
            number: rule.number,
            place: 0,
        };
        let said = refused(&of_dossier(refusal, b"", &Lines::default()));
        assert_eq!(said.status, Status::Refused);
    }
}
