//! Makes one call a number of times, so that its instructions can be counted (tools/instructions).
//!
//! usage: once SIDE CALL INPUT TIMES
//!
//! SIDE is `model` or `bench`, CALL the name of a function, INPUT one of `r1` (case R1 with all
//! thresholds), `week` (a full charging week), `forecast` (4,000 places in any order), a technology
//! (`thermal`, 8,000 bytes), `full-` and a technology (60,000 bytes), `dated-` and a technology (60,000
//! bytes with first hours), `owned-` and a technology (60,000 bytes with amounts of both owners), and
//! `fuels` (3,000 with first hours, of one key). The status is 1 if the sides' answers differ, and 2 if
//! an argument is wrong.

mod calls;

use calls::{status, Input, NAMES};
use model::make::dated::many_fuels;
use model::make::forecast::{full, Order};
use model::make::sized::{full_week, sized, sized_dated, sized_owned, thresholds};
use model::make::written::r1;
use model::table::{Technology, TECHNOLOGIES};
use std::process::ExitCode;

fn dossier(name: &str) -> Result<Vec<u8>, String> {
    let all = |condition| thresholds(Technology::Thermal, condition).concat();
    match name {
        "r1" => return Ok([r1(), [1, 2, 3].map(all).concat()].concat()),
        "week" => return Ok(full_week()),
        "forecast" => return Ok(full(Order::Any, Order::Any)),
        "fuels" => return Ok(many_fuels(3_000, Order::Any, Order::Any)),
        _ => {}
    }
    let (sort, technology) = name.split_once('-').unwrap_or(("", name));
    let called = |t: &Technology| format!("{t:?}").to_lowercase() == technology;
    let found = TECHNOLOGIES.into_iter().find(called);
    match (sort, found) {
        ("", Some(technology)) => Ok(sized(technology, 8_000)),
        ("full", Some(technology)) => Ok(sized(technology, 60_000)),
        ("dated", Some(technology)) => Ok(sized_dated(technology, 60_000)),
        ("owned", Some(technology)) => Ok(sized_owned(technology, 60_000)),
        _ => Err(format!(
            "{name} is no input: the head of once.rs lists them"
        )),
    }
}

/// Whether the answers are the same.
fn run(words: &[&str]) -> Result<bool, String> {
    let [side, name, input, times] = *words else {
        return Err("usage: once SIDE CALL INPUT TIMES".to_string());
    };
    let input = Input::of(dossier(input)?);
    let call = input.call(name);
    let call = call.ok_or(format!("{name} is no call: {}", NAMES.join(", ")))?;
    let same = call.same();
    let side = match side {
        "model" => call.model,
        "bench" => call.library,
        _ => return Err(format!("{side} is no side: model, bench")),
    };
    let times: u32 = times
        .parse()
        .map_err(|_| format!("{times} is no number of times"))?;
    for _ in 0..times {
        side.once();
    }
    Ok(same)
}

fn main() -> ExitCode {
    status(run, "The answers differ.")
}
