//! A battery's charging week, held against the library and the model: words, JSON, tables, statuses,
//! and the picture.

mod calls;
mod example;
mod json;

use calls::{call, Ended, Kept};
use command::answer::Status;
use command::text::is_text;
use example::example;
use model::accept::accepted;
use model::cases::{run, same, Check};
use model::costs::charging_cost;
use model::levels::Micro;
use model::make::sized::full_week;
use model::make::sound::sound_of;
use model::make::written::r1;
use model::make::{self, idle};
use model::random::Random;
use model::table::Technology;
use model::Week;

const HEAD: &str =
    "file,answer,technology,cost,interval,day,from,to,price,energy,paid,refused,place,says";

fn battery(random: &mut Random) -> Vec<u8> {
    sound_of(random, Technology::Storage).bytes()
}

/// A number of hundredths, or of another part of ten, as people write it: at least two places.
fn decimal(number: i128, places: usize) -> String {
    let sign = if number < 0 { "-" } else { "" };
    let digits = format!("{:0>1$}", number.unsigned_abs(), places + 1);
    let (whole, part) = digits.split_at(digits.len() - places);
    let kept = part.trim_end_matches('0').len().max(2);
    format!("{sign}{whole}.{}", &part[..kept])
}

/// The row of an interval, from its number to what was paid.
fn row(place: usize, price: i32, energy: u32) -> String {
    let minutes = place % 288 * 5;
    let time = |minutes: usize| format!("{:02}:{:02}", minutes / 60, minutes % 60);
    let (number, day) = (place + 1, place / 288 + 1);
    let (from, to) = (time(minutes), time(minutes + 5));
    let (price, energy) = (i128::from(price), i128::from(energy));
    let (cents, paid) = (decimal(price, 2), decimal(price * energy, 5));
    format!("{number},{day},{from},{to},{cents},{energy},{paid}")
}

/// The rows of a week: of the intervals that aren't 0 in both, or of all.
fn expected(week: &Week, all: bool) -> Vec<String> {
    let pairs = week.prices.iter().zip(&week.energies).enumerate();
    let told = pairs.filter(|(_, pair)| all || *pair != (&0, &0));
    told.map(|(place, (price, energy))| row(place, *price, *energy))
        .collect()
}

/// The rows of a table, from the interval to what was paid.
fn rows(ended: &Ended) -> Vec<String> {
    let cells = |line: &str| {
        line.split(',')
            .skip(4)
            .take(7)
            .collect::<Vec<_>>()
            .join(",")
    };
    ended.out.lines().skip(1).map(cells).collect()
}

/// A row of a table as an object.
fn object(row: &str) -> String {
    let names = ["interval", "day", "from", "to", "price", "energy", "paid"];
    let member = |(name, cell): (&str, &str)| match cell.contains(':') {
        true => format!("\"{name}\":\"{cell}\""),
        false => format!("\"{name}\":{cell}"),
    };
    let members: Vec<String> = names.into_iter().zip(row.split(',')).map(member).collect();
    format!("{{{}}}", members.join(","))
}

/// A line of words as a row; what was paid is as long as the longest in its column.
fn in_commas(line: &str) -> String {
    let mut row = line.split_whitespace().collect::<Vec<_>>().join(",");
    let two_places = row.rfind('.').map_or(0, |point| point + 3);
    while row.len() > two_places && row.ends_with('0') {
        row.pop();
    }
    row
}

/// Whether table, words and JSON have these rows, and the table one without an interval for none.
fn has_rows(file: &Kept, told: &[String]) -> Check {
    let table = call(&["week", file.name(), "--csv"]);
    same("head", table.out.lines().next(), Some(HEAD))?;
    let none = vec![",,,,,0,0.00".to_string()];
    let expected = if told.is_empty() { none } else { told.to_vec() };
    same("rows", rows(&table), expected)?;
    let words = call(&["week", file.name()]).out;
    let lines: Vec<String> = words.lines().map(in_commas).collect();
    same("words", lines.ends_with(told), true)?;
    let json = call(&["week", file.name(), "--json"]).out;
    json::check(&json)?;
    let objects: Vec<String> = told.iter().map(|row| object(row)).collect();
    let list = format!("\"intervals\":[{}]}}}}\n", objects.join(","));
    same("JSON", json.ends_with(&list), true)
}

/// The command has the model's intervals and the model's charging cost, or tells the refusal.
fn shows_the_week(_: &mut Random, dossier: &[u8]) -> Check {
    let file = Kept::new(dossier);
    let words = call(&["week", file.name()]);
    let (Ok(week), Ok(station)) = (model::week(dossier), accepted(dossier)) else {
        same("status", words.status, Status::Refused)?;
        // Noise may be a text, whose lines are told.
        let told = words.err.contains(": refused ") || is_text(dossier);
        return same("in words", told, true);
    };
    same("status", words.status, Status::Done)?;
    let cost = charging_cost::<Micro>(&station).0 as i128;
    let cost = format!("\ncharging cost {} dollars per MWh", decimal(cost, 6));
    let storage = station.technology == Technology::Storage;
    same("cost", words.out.contains(&cost), storage)?;
    has_rows(&file, &expected(&week, false))
}

#[test]
fn weeks_are_those_of_the_model() {
    run("weeks in words", 400, make::dossier, shows_the_week);
    run("weeks of batteries in words", 400, battery, shows_the_week);
    let random = &mut Random::new(0);
    let weeks = [idle::idle_weeks(), idle::charged_weeks()].concat();
    for week in weeks {
        shows_the_week(random, &[idle::battery(), week].concat()).unwrap();
    }
    shows_the_week(random, &full_week()).unwrap();
}

/// With --all every interval has its row, idle ones too; a station that isn't storage has none.
#[test]
fn all_intervals() {
    let dossier = [idle::battery(), idle::charged_weeks().remove(0)].concat();
    let file = Kept::new(&dossier);
    let table = call(&["week", file.name(), "--all", "--csv"]);
    let week = model::week(&dossier).unwrap();
    assert_eq!(rows(&table), expected(&week, true));
    assert_eq!(
        call(&["week", file.name(), "--all"]).out.lines().count(),
        2_016 + 14
    );
    let thermal = Kept::new(&r1());
    let plain = call(&["week", thermal.name()]);
    assert_eq!(plain.out, "no charging week: the station is thermal\n");
    assert_eq!(call(&["week", thermal.name(), "--all"]).out, plain.out);
}

/// The sums of the days are those of their intervals.
#[test]
fn days_add_up() {
    run("days", 100, battery, |_, dossier| {
        let file = Kept::new(dossier);
        let object = call(&["week", file.name(), "--json"]).out;
        let week = model::week(dossier).map_err(|refusal| format!("{refusal:?}"))?;
        for (day, energies) in (1..).zip(week.energies.chunks(288)) {
            let charged = energies.iter().filter(|kwh| **kwh > 0).count();
            let energy: u32 = energies.iter().sum();
            let told =
                format!("{{\"day\":{day},\"charged\":{charged},\"energy\":{energy},\"paid\":");
            same(&told, object.contains(&told), true)?;
        }
        Ok(())
    });
}

/// Of many files each has a line, whatever its technology, and a count ends the list.
#[test]
fn many_files() {
    let [storage, hydro] =
        ["storage.txt", "hydro.txt"].map(|name| Kept::new(example(name).as_bytes()));
    let idle = Kept::new(&idle::battery());
    let bad = Kept::new(b"RS issue=1\n");
    let names = [storage.name(), hydro.name(), idle.name(), bad.name()];
    let ended = call(&[&["week"], &names[..]].concat());
    let lines: Vec<&str> = ended.out.lines().collect();
    assert_eq!(ended.status, Status::Refused);
    for (line, told) in lines.iter().zip([
        ": 3 of 2016 intervals charged: 6500 kWh, paid 51.25 dollars; charging cost 7.884615 dollars per MWh",
        ": no charging week: the station is hydro",
        ": 0 of 2016 intervals charged; charging cost 0.00 dollars per MWh",
        ": line 1: RS: ",
    ]) {
        assert!(line.contains(told), "{told} in {line}");
    }
    assert_eq!(
        lines[4],
        "4 files: 1 charged, 1 not storage, 1 idle, 1 refused"
    );
}

/// What draws a refusal is told with number and place, in a table and in JSON too.
#[test]
fn refusals() {
    let text = example("storage.txt") + "CH issue=1 interval=13 price=1.00 energy=1\n";
    let file = Kept::new(text.as_bytes());
    let ended = call(&["week", file.name(), "--csv"]);
    assert_eq!(ended.status, Status::Refused);
    assert!(ended.err.contains(": refused 4 at 438: "), "{}", ended.err);
    assert!(
        ended.out.contains(",refused,,,,,,,,,,4,438,\""),
        "{}",
        ended.out
    );
    let ended = call(&["week", file.name(), "--json"]);
    assert!(
        ended
            .out
            .contains("\"refused\":{\"number\":4,\"place\":438,"),
        "{}",
        ended.out
    );
}

#[test]
fn wrong_use() {
    let file = Kept::new(&idle::battery());
    for words in [
        &["--csv", "--json"][..],
        &["--hour", "0"],
        &["--all=1"],
        &["--svg"],
        &["--svg", "-"],
    ] {
        let ended = call(&[&["week", file.name()], words].concat());
        assert_eq!(ended.status, Status::Wrong, "{words:?}");
        assert!(
            ended.out.is_empty() && ended.err.starts_with("bench week: "),
            "{}",
            ended.err
        );
    }
}

/// A newer record in another file counts, and the order of the files says nothing.
#[test]
fn several_files_are_one_station() {
    let station = Kept::new(example("storage.txt").as_bytes());
    let newer = Kept::new(b"CH issue=2 interval=49 price=7.50 energy=4000\n");
    let said =
        |files: [&Kept; 2]| call(&["week", files[0].name(), files[1].name(), "--together"]).out;
    let told = said([&station, &newer]);
    assert!(
        told.contains("      49    1  04:00  04:05   7.50    4000  30.00\n"),
        "{told}"
    );
    assert!(told.starts_with("3 of 2016 intervals charged: 7500 kWh, paid 96.25 dollars\n"));
    assert_eq!(told, said([&newer, &station]));
}

/// A picture is of one station, whatever its technology; a refused call writes none.
#[test]
fn the_picture() {
    let kept = Kept::new(b"kept");
    let drawn = |files: &[&str], more: &[&str]| {
        std::fs::write(kept.name(), "kept").expect("a file");
        let ended = call(&[&["week"], files, &["--svg", kept.name()], more].concat());
        let picture = std::fs::read_to_string(kept.name()).expect("a file");
        (ended.status, picture)
    };
    let station = Kept::new(example("storage.txt").as_bytes());
    let (status, picture) = drawn(&[station.name()], &[]);
    assert_eq!(status, Status::Done);
    for part in [
        ", charging week</title>",
        "<desc>3 of 2016 intervals charged: 6500 kWh, paid 51.25 dollars; charging cost 7.884615 dollars per MWh. Day 1: ",
        " Day 1: 3 of 288 intervals charged, 6500 kWh at -5.00 to 20.00 dollars per MWh.</desc>",
        ">price where it charged, -5.00 to 20.00<",
        ">cost 7.88<",
    ] {
        assert!(picture.contains(part), "{part} in {picture}");
    }
    let idle = Kept::new(&[idle::battery(), idle::last_cost(1, 21_400_000)].concat());
    let (_, picture) = drawn(&[idle.name()], &[]);
    assert!(
        picture.contains(">no energy was charged: the last charging cost<")
            && picture.contains(">cost 21.40<")
    );
    let thermal = Kept::new(&r1());
    let (status, picture) = drawn(&[thermal.name()], &["--json"]);
    assert!(
        status == Status::Done && picture.contains(">no charging week: the station is thermal<")
    );
    assert!(!picture.contains("cost"), "{picture}");
    let refused = Kept::new(&r1()[1..]);
    assert_eq!(
        drawn(&[refused.name()], &[]),
        (Status::Refused, "kept".to_string())
    );
    let two = [station.name(), thermal.name()];
    assert_eq!(drawn(&two, &[]), (Status::Wrong, "kept".to_string()));
}
