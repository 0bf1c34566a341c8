//! Dossiers as text: every readable dossier comes back, and a wrong line is refused by its number,
//! its field and the range.

use command::marks::{Field, Mark, MARKS};
use command::record::records;
use command::text::{is_meant_as_text, is_text, pack, unpack};
use model::cases::{run, same, Check};
use model::make;
use model::random::Random;
use model::table::TABLE;

/// Any dossier that draws none of 13 and 1 to 3, whatever else it draws.
fn readable(random: &mut Random) -> Vec<u8> {
    let room = if random.one_in(100) { 60_000 } else { 600 };
    let room = random.between(0, room) as usize;
    let mut dossier = Vec::new();
    loop {
        let kind = &TABLE[random.below(TABLE.len() as u64) as usize];
        let record = make::any_record(random, kind);
        if dossier.len() + record.len() > room {
            return dossier;
        }
        dossier.extend(record);
    }
}

/// Whether the library can read a dossier.
fn reads(dossier: &[u8]) -> bool {
    let refusal = bench::accept(dossier).err();
    !refusal.is_some_and(|r| matches!(r.number, 1..=3 | 13))
}

fn packed(text: &str) -> Result<Vec<u8>, String> {
    let packed = pack(text.as_bytes()).map_err(|wrong| format!("{wrong:?}"))?;
    Ok(packed.dossier)
}

fn comes_back(_: &mut Random, dossier: &[u8]) -> Check {
    same("readable", reads(dossier), true)?;
    let text = unpack(dossier);
    let packed = pack(text.as_bytes()).map_err(|wrong| format!("{wrong:?}"))?;
    same("bytes", &packed.dossier[..], dossier)?;
    let lines: Vec<usize> = (1..=records(dossier).count()).collect();
    same("lines", packed.lines, lines)?;
    let other = records(dossier).any(|r| r.mark.letters != "LC");
    same("the text is text", is_text(text.as_bytes()), true)?;
    same("the dossier is none", other && is_text(dossier), false)
}

#[test]
fn every_readable_dossier_comes_back() {
    run("readable dossiers", 20_000, readable, comes_back);
}

/// The table of marks tells just what the library reads.
#[test]
fn dossiers_of_every_sort() {
    run(
        "dossiers as text",
        20_000,
        make::dossier,
        |random, dossier| {
            let whole: usize = records(dossier).map(|r| r.bytes.len()).sum();
            let in_range = records(dossier).all(|r| r.faults().is_empty());
            let reads_here = whole == dossier.len() && in_range && whole <= 60_000;
            same("readable", reads_here, reads(dossier))?;
            if reads_here {
                comes_back(random, dossier)?;
            }
            Ok(())
        },
    );
}

/// Every field of every mark at the ends of its range and one beyond, beside the library.
#[test]
fn ranges_are_those_of_the_library() {
    for mark in &MARKS {
        for (field, at) in mark.places() {
            for number in edges(field) {
                let mut record = lowest(mark);
                record[at..at + field.width].copy_from_slice(&field.bytes(number));
                let read = records(&record).next().expect("a whole record");
                let faults = read.faults();
                assert_eq!(
                    faults.is_empty(),
                    reads(&record),
                    "{} {faults:?}",
                    read.text()
                );
            }
        }
    }
}

/// The numbers at the ends of a field that its bytes can hold, and those next to them.
fn edges(field: &Field) -> Vec<i128> {
    let ends = [field.lowest, field.highest, 0, 168, 499, 500];
    let near = ends.iter().flat_map(|end| [end - 1, *end, end + 1]);
    near.filter(|n| field.number(&field.bytes(*n)) == *n)
        .collect()
}

/// A record with every field at its lowest but the last hour of a request, which is at its highest.
fn lowest(mark: &Mark) -> Vec<u8> {
    let number = |f: &Field| {
        if f.name == "last" {
            f.highest
        } else {
            f.lowest
        }
    };
    let fields = mark.fields.iter().flat_map(|f| f.bytes(number(f)));
    mark.letters.bytes().chain(fields).collect()
}

/// The same text in another layout: fields in any order, spaces, comments, blank lines and other line
/// ends.
fn untidy(random: &mut Random, text: &str) -> String {
    let end = random.pick(&["\n", "\r\n", " # why\n", "\t\n\n", "\n# a comment\n"]);
    let mut other = random
        .pick(&["", "\u{feff}", "# first\n", "\n"])
        .to_string();
    for line in text.lines() {
        let mut words: Vec<&str> = line.split(' ').collect();
        random.shuffle(&mut words[1..]);
        other += random.pick(&["", " ", "\t"]);
        other += &words.join(random.pick(&[" ", "  ", "\t"]));
        other += end;
    }
    other
}

#[test]
fn layout_says_nothing() {
    run("texts", 5_000, readable, |random, dossier| {
        let text = unpack(dossier);
        let other = untidy(random, &text);
        let again = packed(&other).map_err(|wrong| format!("{wrong} in {other:?}"))?;
        same("bytes", &again[..], dossier)?;
        same("text", unpack(&again), text)
    });
}

/// A line with one field changed for the worse, and what the refusal has to name.
fn spoilt(random: &mut Random, line: &str) -> (String, String) {
    let mut words: Vec<String> = line.split(' ').map(str::to_string).collect();
    let mark = Mark::of(words[0].as_bytes()).expect("a mark");
    let at = 1 + random.below(mark.fields.len() as u64) as usize;
    let field = &mark.fields[at - 1];
    let (name, range) = (field.name, field.range());
    let value = |value: &str| format!("{name}={value}");
    let named = match random.below(7) {
        0 => {
            words.remove(at);
            format!("{name} is missing: {range}")
        }
        1 => {
            words.push(words[at].clone());
            format!("{name} stands twice")
        }
        2 => {
            words[at] = value("much");
            let says = if field.is_word() { "" } else { " is no number" };
            format!("{}{says}: {range}", value("much"))
        }
        3 => {
            words[at] = format!("{name}s=1");
            format!("'{name}s' is no field")
        }
        4 => {
            words[at] = value("0.0000001");
            range
        }
        5 => {
            words[at] = name.to_string();
            format!("'{name}' is no field: name=value")
        }
        _ => {
            words[at] = value(&field.unit.write(field.highest + 1));
            format!("{}: {range}", words[at])
        }
    };
    (words.join(" "), named)
}

#[test]
fn a_wrong_line_is_named() {
    run("wrong lines", 10_000, readable, |random, dossier| {
        let text = unpack(dossier);
        let mut lines: Vec<String> = text.lines().map(str::to_string).collect();
        if lines.is_empty() {
            return Ok(());
        }
        let at = random.below(lines.len() as u64) as usize;
        let (line, named) = spoilt(random, &lines[at]);
        lines[at] = line;
        let wrong = pack(lines.join("\n").as_bytes()).expect_err("a wrong line");
        same("wrong lines", wrong.len(), 1)?;
        same("its number", wrong[0].line, at + 1)?;
        same(&named, wrong[0].says.contains(&named), true)
            .map_err(|what| format!("{what}: {:?}", wrong[0]))
    });
}

/// Bytes that nobody ordered are either a text that packs to a readable dossier, or refused.
#[test]
fn noise_as_text() {
    run("noise as text", 10_000, readable, |random, dossier| {
        let mut text = unpack(dossier).into_bytes();
        for _ in 0..random.below(4) {
            let at = random.below(text.len() as u64 + 1) as usize;
            match text.get_mut(at) {
                Some(byte) if random.one_in(2) => *byte = random.next() as u8,
                _ => text.insert(at, random.pick(b" =.-#\n0919LCR\xFF\x00")),
            }
        }
        match pack(&text) {
            Ok(packed) => same("readable", reads(&packed.dossier), true),
            Err(wrong) => same("something is wrong", wrong.is_empty(), false),
        }
    });
}

#[test]
fn a_dossier_that_grows_too_long_is_refused_at_its_line() {
    let line = "LC issue=1 cost=0.00\n";
    assert_eq!(packed(&line.repeat(6_000)).map(|d| d.len()), Ok(60_000));
    let wrong = pack(line.repeat(6_001).as_bytes()).expect_err("too long");
    assert_eq!(wrong.len(), 1);
    assert_eq!(wrong[0].line, 6_001);
}

/// The one mark without a byte that no text has: such a dossier looks like text, and is refused
/// either way, having no station.
#[test]
fn last_costs_alone_may_look_like_text() {
    let dossier = b"LC issue=3";
    assert!(reads(dossier) && is_text(dossier));
    assert_eq!(unpack(dossier), "LC issue=543781747 cost=1969.569075\n");
    assert_eq!(bench::accept(dossier).map_err(|r| r.number), Err(5));
}

/// A text with bytes that no text has is told as one, by line and byte; it is no dossier in bytes.
#[test]
fn what_is_no_text_is_named_with_line_and_byte() {
    let text = "# a station\nFU issue=1 profile=1 fuel=4.00 emission=1.00\n";
    for (byte, named) in [
        (
            &b"\xe9"[..],
            "byte 4 is 233, which is no UTF-8; in Windows-1252 it is 'é'",
        ),
        (
            b"\x80",
            "byte 4 is 128, which is no UTF-8; in Windows-1252 it is '€'",
        ),
        (
            b"\xc3",
            "byte 4 is 195, which is no UTF-8; in Windows-1252 it is 'Ã'",
        ),
        (b"\0", "byte 4 is NUL"),
        (b"\x1a", "byte 4 is ^Z"),
        (b"\x0c", "byte 4 is a form feed"),
        (b"\x1b", "byte 4 is an escape"),
        (b"\x07", "byte 4 is the control character 7"),
        (b"\xc2\x85", "byte 4 is U+0085, which ends no line here"),
        (b"\xe2\x80\xa8", "byte 4 is U+2028, which ends no line here"),
    ] {
        for (line, at) in [(1, 3), (2, 15)] {
            let mut input = text.as_bytes().to_vec();
            input.splice(at..at, byte.iter().copied());
            assert!(is_meant_as_text(&input), "{byte:?} in line {line}");
            let wrong = pack(&input).expect_err("no text");
            assert_eq!(wrong.len(), 1, "{wrong:?}");
            assert_eq!(wrong[0].line, line, "{wrong:?}");
            assert!(wrong[0].says.contains(named), "{wrong:?}");
        }
    }
}

#[test]
fn other_encodings_are_named() {
    let text = unpack(&make::written::r1());
    for text in [format!("\u{feff}{text}"), text] {
        let (short, long) = (|| text.encode_utf16(), || text.chars().map(u32::from));
        let inputs: [(Vec<u8>, &str); 4] = [
            (short().flat_map(u16::to_le_bytes).collect(), "UTF-16"),
            (short().flat_map(u16::to_be_bytes).collect(), "UTF-16"),
            (long().flat_map(u32::to_le_bytes).collect(), "UTF-32"),
            (long().flat_map(u32::to_be_bytes).collect(), "UTF-32"),
        ];
        for (input, encoding) in inputs {
            assert!(is_meant_as_text(&input));
            let wrong = pack(&input).expect_err("no UTF-8");
            assert_eq!((wrong.len(), wrong[0].line), (1, 1), "{wrong:?}");
            assert!(wrong[0].says.contains(encoding), "{wrong:?}");
        }
    }
}

/// A mark of byte order within a text, as two texts in one file have it.
#[test]
fn a_second_mark_of_byte_order_is_told() {
    let line = "LC issue=1 cost=1.00\n";
    for (text, at) in [
        (format!("\u{feff}{line}\u{feff}{line}"), 2),
        (format!("\u{feff}\u{feff}{line}"), 1),
    ] {
        let wrong = pack(text.as_bytes()).expect_err("two marks");
        assert_eq!((wrong.len(), wrong[0].line), (1, at), "{wrong:?}");
        let told = "byte 1 is a mark of byte order";
        assert!(wrong[0].says.starts_with(told), "{wrong:?}");
    }
}

/// Bytes behind text are told once, where they begin, whatever line ends lie in them.
#[test]
fn bytes_behind_text_are_told_where_they_begin() {
    let text = "# newer\nFU issue=3 profile=1 fuel=5.00 emission=1.00";
    for (end, line, byte) in [("\n", 3, 1), ("\r", 3, 1), ("", 2, 45), ("\n\n \t", 4, 3)] {
        let text = format!("{text}{end}").replace('\n', if end == "\r" { "\r" } else { "\n" });
        for dossier in [make::written::r1(), make::written::r1()[31..].to_vec()] {
            let input = [text.as_bytes(), &dossier].concat();
            assert!(is_meant_as_text(&input));
            let wrong = pack(&input).expect_err("text and bytes");
            assert_eq!((wrong.len(), wrong[0].line), (1, line), "{wrong:?}");
            let told = format!("byte {byte} begins a record ");
            assert!(wrong[0].says.starts_with(&told), "{wrong:?}");
        }
    }
}

#[test]
fn every_line_end_is_one() {
    let text = "# one\nFU issue=1 profile=1 fuel=4.00 emission=1.00\n\nLC issue=1 cost=1.00\nRS\n";
    let wrong = pack(text.as_bytes()).expect_err("an RS without fields");
    assert_eq!(wrong[0].line, 5);
    for end in ["\r", "\r\n"] {
        let other = text.replace('\n', end);
        assert!(is_text(other.as_bytes()));
        assert_eq!(pack(other.as_bytes()), Err(wrong.clone()), "{end:?}");
        let good = |text: &str| packed(&text.replace("RS", "# RS"));
        assert_eq!(good(&other), good(text), "{end:?}");
    }
}

/// No dossier that begins with a record, in range or not, is taken for a text; but for LC alone.
#[test]
fn damaged_dossiers_are_no_text() {
    run("dossiers", 20_000, make::dossier, |_, dossier| {
        let other = records(dossier).any(|r| r.mark.letters != "LC");
        same("taken for text", other && is_meant_as_text(dossier), false)
    });
}

/// A text with any byte that no text has, anywhere, is taken for text and refused in that line.
#[test]
fn damaged_texts_are_text() {
    run("damaged texts", 10_000, readable, |random, dossier| {
        let mut text = unpack(dossier).into_bytes();
        if text.is_empty() {
            return Ok(());
        }
        let at = random.below(text.len() as u64 - 1) as usize;
        let line = 1 + text[..at].iter().filter(|b| **b == b'\n').count();
        text.insert(at, random.pick(b"\0\x1a\x0c\x1b\xe9\xff\x80"));
        same("taken for text", is_meant_as_text(&text), true)?;
        let wrong = pack(&text).expect_err("a byte that no text has");
        same("its line", (wrong.len(), wrong[0].line), (1, line))
    });
}

/// What is no number is told as that, not by a range that it seems to lie in.
#[test]
fn what_is_no_number_is_told() {
    let line = |value: &str| format!("FU issue=1 profile=1 fuel={value} emission=1.00");
    let says = |line: &str| pack(line.as_bytes()).expect_err("wrong")[0].says.clone();
    for value in [
        ".5", "4.", "+4.00", "4,50", "$4.00", "1e2", "0x4", "4.0.0", "-", "four",
    ] {
        let told = format!("FU: fuel={value} is no number: 0.00 to 400.00 dollars");
        assert_eq!(says(&line(value)), told);
    }
    assert_eq!(
        says(&line("400.01")),
        "FU: fuel=400.01: 0.00 to 400.00 dollars"
    );
    let places =
        "FU: fuel=4.0000001 has more than 6 places after the point: 0.00 to 400.00 dollars";
    assert_eq!(says(&line("4.0000001")), places);
    let whole = "HP issue=1 point=1 output=1.0 heat=1.5";
    assert!(says(whole).contains("heat=1.5 is no whole number: 0 to 20000000 MJ per hour"));
    let withdrawn = "RQ issue=1 request=1 first=0 last=1 profile=0";
    assert_eq!(says(withdrawn), "RQ: profile=0: 1 to 4, or withdrawn");
}

#[test]
fn every_wrong_field_of_a_line_is_told() {
    let line = "RS issue=x technology=nuclear capacity=0.0 capacity=1.0 what no=1 window=169";
    let wrong = pack(line.as_bytes()).expect_err("wrong");
    assert_eq!(wrong.len(), 1);
    for told in [
        "issue=x is no number: 0 to 4294967295",
        "capacity=0.0: 0.1 to 2000.0 MW",
        "capacity stands twice",
        "'what' is no field: name=value",
        "'no' is no field: ",
        "factor is missing: ",
        "efficiency is missing: ",
        "window=169: 0 to 168 hours unless technology=hydro",
    ] {
        assert!(wrong[0].says.contains(told), "{told} in {}", wrong[0].says);
    }
}

#[test]
fn near_misses_are_hinted_at() {
    for (line, told) in [
        ("fu issue=1", "'fu' is no mark (did you mean FU?)"),
        ("FU isue=1", "'isue' is no field (did you mean issue?)"),
        (
            "FU emision=1",
            "'emision' is no field (did you mean emission?)",
        ),
        (
            "RS tech=thermal",
            "'tech' is no field (did you mean technology?)",
        ),
        (
            "RS technology=Thermal",
            "technology=Thermal (did you mean thermal?): ",
        ),
        (
            "AD cost=schedled",
            "cost=schedled (did you mean scheduled?): ",
        ),
        (
            "TH margin=nnoe",
            "margin=nnoe is no number (did you mean none?): ",
        ),
        ("FU much=1", "'much' is no field: issue"),
    ] {
        let wrong = pack(line.as_bytes()).expect_err("wrong");
        assert!(wrong[0].says.contains(told), "{told} in {}", wrong[0].says);
    }
}
