//! The templates and the table of what each technology needs, held against the library: what is
//! said to be wanted is, and a field goes as far as it is said to.

mod calls;

use calls::{call, Kept};
use command::answer::Status;
use command::marks::{Field, Mark, MARKS};
use command::needs::{Need, Technology, TECHNOLOGIES};
use command::new::template;
use command::record::records;
use command::text::pack;

/// The records of a technology's template, those that it may have among them.
fn whole(technology: &Technology) -> Vec<u8> {
    let lines: Vec<String> = technology.needs.iter().flat_map(Need::lines).collect();
    let packed = pack(lines.join("\n").as_bytes());
    packed.expect("a template that packs").dossier
}

/// A dossier without the records of a mark; where one has to be there, without those of the mark that
/// shares its keys too, as one of these would do.
fn without(dossier: &[u8], need: &Need) -> Vec<u8> {
    let left_out = |mark: &Mark| match need.must {
        true => mark.of == need.mark,
        false => mark.letters == need.mark,
    };
    let others = records(dossier).filter(|r| !left_out(r.mark));
    others.flat_map(|r| r.bytes.to_vec()).collect()
}

fn refusal(dossier: &[u8]) -> Option<u8> {
    bench::accept(dossier).err().map(|refusal| refusal.number)
}

#[test]
fn every_template_is_accepted_as_it_stands() {
    for technology in &TECHNOLOGIES {
        let name = technology.name;
        let shown = call(&["new", name]);
        assert_eq!(shown.status, Status::Done);
        assert_eq!(shown.out, template(technology));
        let file = Kept::new(shown.out.as_bytes());
        assert_eq!(call(&["pack", file.name()]).status, Status::Done);
        let checked = call(&["check", file.name()]);
        let accepted = format!("accepted: {name}, ");
        assert!(
            checked.out.starts_with(&accepted),
            "{name}: {}",
            checked.err
        );
        let optional = |line: &str| {
            line.strip_prefix("# ")
                .and_then(|l| l.get(..9))
                .is_some_and(|l| l[2..] == *" issue=")
        };
        let lines = shown.out.lines();
        let used: Vec<&str> = lines
            .map(|l| if optional(l) { &l[2..] } else { l })
            .collect();
        let used = pack(used.join("\n").as_bytes()).expect("a text");
        let mut all = records(&used.dossier).map(|r| r.text()).collect::<Vec<_>>();
        let mut expected = records(&whole(technology))
            .map(|r| r.text())
            .collect::<Vec<_>>();
        all.sort();
        expected.sort();
        assert_eq!(all, expected, "{name}");
    }
}

#[test]
fn what_must_be_there_is_wanted_and_the_rest_is_not() {
    for technology in &TECHNOLOGIES {
        let whole = whole(technology);
        assert_eq!(refusal(&whole), None, "{}", technology.name);
        for need in technology.needs {
            let refused = refusal(&without(&whole, need)).is_some();
            assert_eq!(refused, need.must, "{} {}", technology.name, need.mark);
        }
        for mark in &MARKS {
            if technology
                .needs
                .iter()
                .all(|need| need.mark != mark.letters)
            {
                let lowest = mark.fields.iter().flat_map(|f| f.bytes(f.lowest));
                let record: Vec<u8> = mark.letters.bytes().chain(lowest).collect();
                let with = [whole.clone(), record].concat();
                assert_eq!(
                    refusal(&with),
                    Some(6),
                    "{} {}",
                    technology.name,
                    mark.letters
                );
            }
        }
    }
}

/// The dossier with a newer record of the need's first sample, in which one field has this number.
fn with(whole: &[u8], mark: &Mark, field: &Field, number: i128) -> Vec<u8> {
    let sample = records(whole).find(|r| r.mark.letters == mark.letters);
    let mut record = sample.expect("a sample").bytes.to_vec();
    for (name, number) in [("issue", 9), (field.name, number)] {
        let (field, at) = mark.field(name).expect("a field");
        record[at..at + field.width].copy_from_slice(&field.bytes(number));
    }
    [whole, &record].concat()
}

/// Numbers of a field that 3 allows: its ends, and what a technology may draw the line at.
fn numbers(field: &Field) -> Vec<i128> {
    let all = [
        field.lowest,
        field.highest,
        0,
        1,
        2,
        3,
        4,
        5,
        49,
        50,
        168,
        169,
        500,
    ];
    all.into_iter().filter(|n| field.allows(*n)).collect()
}

/// A number that doesn't fit is refused, and one that does is not refused as unfit.
#[test]
fn fields_go_as_far_as_the_table_says() {
    let (mut fit, mut unfit) = (0, 0);
    for technology in &TECHNOLOGIES {
        let whole = whole(technology);
        for need in technology.needs {
            let mark = need.mark().expect("a mark");
            for field in &mark.fields[1..] {
                for number in numbers(field) {
                    let drawn = refusal(&with(&whole, mark, field, number));
                    let says = format!(
                        "{} {}: {}",
                        technology.name,
                        mark.letters,
                        field.text(number)
                    );
                    match need.allows(field, number) {
                        true => assert_ne!(drawn, Some(6), "{says}"),
                        false => assert!(drawn.is_some(), "{says}"),
                    }
                    *if need.allows(field, number) {
                        &mut fit
                    } else {
                        &mut unfit
                    } += 1;
                }
            }
        }
    }
    assert!(fit > 500 && unfit > 100, "{fit} fit, {unfit} don't");
}

#[test]
fn a_technology_that_there_is_not() {
    for words in [&["new"][..], &["new", "coal"], &["new", "thermal", "hydro"]] {
        let ended = call(words);
        assert_eq!(ended.status, Status::Wrong, "{words:?}");
        assert!(
            ended.err.contains("thermal, nuclear, storage or hydro"),
            "{}",
            ended.err
        );
    }
}
