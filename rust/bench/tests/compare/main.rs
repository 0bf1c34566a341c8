//! Bench against the model, group by group.

mod accept;
mod conduct;
mod levels;
mod report;
mod week;

/// The model's refusal from Bench's.
fn refusal(refusal: bench::Refusal) -> model::Refusal {
    let bench::Refusal { number, place } = refusal;
    model::Refusal { number, place }
}

/// The header and the calls from Python name the sizes of the crate.
#[test]
fn sizes_in_other_languages() {
    let read = |path: &str| {
        let path = format!("{}/../../{path}", env!("CARGO_MANIFEST_DIR"));
        std::fs::read_to_string(&path).expect(&path)
    };
    let (header, python) = (read("include/bench.h"), read("docs/calls.py"));
    for (name, size) in [
        ("WORDS", bench::WORDS),
        ("REPORT_BYTES", bench::REPORT_BYTES),
        ("INTERVALS", bench::INTERVALS),
    ] {
        let defined = format!("\n#define BENCH_{name} {size}\n");
        assert!(header.contains(&defined), "{defined}");
        let assigned = format!("\n{name} = {size}  #");
        assert!(python.contains(&assigned), "{assigned}");
    }
}

/// Every call of the header that names an hour names an owner behind it.
#[test]
fn an_owner_behind_every_hour() {
    let path = concat!(env!("CARGO_MANIFEST_DIR"), "/../../include/bench.h");
    let header = std::fs::read_to_string(path).expect(path);
    let calls: Vec<&str> = header
        .lines()
        .filter(|line| line.contains("uint32_t hour"))
        .collect();
    assert_eq!(calls.len(), 4);
    for call in calls {
        assert!(call.contains("uint32_t hour, uint8_t owner, "), "{call}");
    }
}
