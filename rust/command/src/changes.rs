//! Where the levels of an hour are other than those of the hour before it, and why.

use crate::explain::{standing, why};
use crate::input::Input;
use crate::json::{object, Json};
use crate::levels::others;
use crate::terms::book::Book;
use bench::Levels;

/// Levels that are other than in the hour before.
#[derive(Clone, Debug, PartialEq, Eq)]
pub struct Change {
    /// Their names.
    pub levels: Vec<&'static str>,
    /// The profile, where it is another, and the costs that count from this hour on.
    pub why: Vec<String>,
    /// Whether a cost begins at this hour.
    pub by_a_cost: bool,
}

impl Change {
    /// What is other at an hour than in the hour before it, which has no levels where it is refused.
    /// Before hour 0 there is none.
    pub fn at(input: &Input, hour: u32, before: Option<&Levels>, now: &Levels) -> Option<Change> {
        let levels = different(before, now);
        if hour == 0 || levels.is_empty() {
            return None;
        }
        let book = Book::open(&input.dossier, &input.lines, hour);
        let mut reasons = Vec::new();
        let earlier = || Book::open(&input.dossier, &input.lines, hour - 1).profile;
        if before.map_or_else(earlier, |before| before.profile) != now.profile {
            let request = book.request.map(|r| standing(&r, &input.lines));
            reasons.push(format!(
                "profile {}, {}",
                now.profile,
                why(request.as_ref())
            ));
        }
        let begun = book.begun();
        let costs = begun.iter().map(|r| standing(r, &input.lines).short());
        reasons.extend(costs);
        Some(Change {
            levels,
            why: reasons,
            by_a_cost: !begun.is_empty(),
        })
    }

    /// The change in a line.
    pub fn words(&self, hour: u32) -> String {
        let (levels, why) = (self.levels.join(", "), self.why.join("; "));
        format!("hour {hour}, {levels}: {why}")
    }

    pub fn json(&self) -> Json {
        let texts =
            |texts: &mut dyn Iterator<Item = &str>| Json::List(texts.map(Json::text).collect());
        object([
            ("levels", texts(&mut self.levels.iter().copied())),
            ("why", texts(&mut self.why.iter().map(String::as_str))),
        ])
    }
}

/// The names of the levels that differ; all that are held where there was none before.
fn different(before: Option<&Levels>, now: &Levels) -> Vec<&'static str> {
    let energy = before.is_none_or(|before| before.energy != now.energy);
    let mut names = Vec::from_iter(energy.then_some("energy"));
    for (index, (name, level)) in others(now).into_iter().enumerate() {
        let earlier = before.and_then(|before| others(before)[index].1);
        if level != earlier {
            names.push(name);
        }
    }
    names
}
