//! What a dossier lacks that draws 5, 7, 8, 9 or 17, in words. The library has refused it; this looks
//! at the same current records, through the library's lookup, to say what to mend.

use crate::lines::Lines;
use crate::record::{records, Record};
use crate::unit::MEGAWATTS;

/// What to look at in a dossier that drew this number.
pub fn lacks(dossier: &[u8], lines: &Lines, number: u8) -> Vec<String> {
    let Some(station) = current(dossier, "RS", 0) else {
        return match number {
            5 => vec![no_station(records(dossier).count())],
            _ => Vec::new(),
        };
    };
    let look = Look {
        dossier,
        lines,
        station,
    };
    match number {
        7 => look.curve(),
        8 => look.fuel(),
        9 => look.window(),
        17 => look.forecast(),
        _ => Vec::new(),
    }
}

/// What is there in place of a station.
fn no_station(count: usize) -> String {
    match count {
        0 => "there is no record at all".to_string(),
        1 => "there is one record, and it is no RS".to_string(),
        n => format!("there are {n} records, and none is an RS"),
    }
}

/// The current record of a mark and key, as it stands in the dossier.
pub fn current<'a>(dossier: &'a [u8], letters: &str, key: u32) -> Option<Record<'a>> {
    let mark = letters.as_bytes().try_into().ok()?;
    let part = bench::current(dossier, mark, key);
    let mut records = records(dossier).filter(|_| !part.bytes.is_empty());
    records.find(|record| record.start == part.start)
}

/// Whether a mark and key have no current record.
fn is_absent(dossier: &[u8], letters: &str, key: u32) -> bool {
    let mark = letters.as_bytes().try_into();
    mark.is_ok_and(|mark| bench::current(dossier, mark, key).bytes.is_empty())
}

/// A dossier, where its records were read, and its station.
struct Look<'a> {
    dossier: &'a [u8],
    lines: &'a Lines,
    station: Record<'a>,
}

impl Look<'_> {
    /// Where a record was read, to go behind its name.
    fn at(&self, record: &Record) -> String {
        match self.lines.origin(record).words() {
            words if words.is_empty() => words,
            words => format!(" ({words})"),
        }
    }

    /// A point of the curve by its number.
    fn point(&self, point: &Record) -> String {
        format!("point {}{}", point.get("point"), self.at(point))
    }

    /// What the station's window is.
    fn its_window(&self) -> String {
        let window = self.station.get("window");
        format!("the window has {window}{}", self.at(&self.station))
    }

    /// The keys of a mark up to `last` that have no current record, if there are any, between what is
    /// said of them.
    fn missing(&self, letters: &str, last: i128, says: &str, behind: &str) -> Option<String> {
        let keys = 1..=u32::try_from(last).unwrap_or(0);
        let absent = keys.filter(|key| is_absent(self.dossier, letters, *key));
        let absent: Vec<u32> = absent.collect();
        (!absent.is_empty()).then(|| format!("{says} {}; {behind}", ranges(&absent)))
    }

    fn curve(&self) -> Vec<String> {
        let points = (1..=21).filter_map(|key| current(self.dossier, "HP", key));
        let points: Vec<Record> = points.collect();
        let mut says = Vec::new();
        if points.len() < 2 {
            let there = points.first().map_or(String::new(), |p| self.at(p));
            let count = points.len();
            says.push(format!("points: {count}{there}; a curve takes 2 or more"));
        }
        if let Some(last) = points.last() {
            let behind = format!("the last is {}", self.point(last));
            says.extend(self.missing("HP", last.get("point"), "missing points:", &behind));
        }
        says.extend(points.windows(2).flat_map(|two| self.step(two)));
        says.extend(points.windows(3).filter_map(|three| self.bend(three)));
        says.extend(points.last().and_then(|last| self.end(last)));
        says
    }

    /// What is wrong from one point to the next.
    fn step(&self, points: &[Record]) -> Vec<String> {
        let [from, to] = [0, 1].map(|i| self.point(&points[i]));
        let rise = |name| points[1].get(name) - points[0].get(name);
        let mut says = Vec::new();
        if rise("output") <= 0 {
            says.push(format!("output doesn't rise from {from} to {to}"));
        }
        if rise("heat") < 0 {
            says.push(format!("heat falls from {from} to {to}"));
        }
        says
    }

    /// Whether the slope falls at the middle one of three points.
    fn bend(&self, points: &[Record]) -> Option<String> {
        let rise = |i: usize, name| points[i + 1].get(name) - points[i].get(name);
        let falls = rise(0, "heat") * rise(1, "output") > rise(1, "heat") * rise(0, "output");
        let point = self.point(&points[1]);
        falls.then(|| format!("heat rises more steeply before {point} than behind it"))
    }

    /// Whether the last point isn't the capacity.
    fn end(&self, last: &Record) -> Option<String> {
        let [output, capacity] = [last.get("output"), self.station.get("capacity")];
        let [end, whole] = [output, capacity].map(|n| MEGAWATTS.write(n));
        let (at, station) = (self.at(last), self.at(&self.station));
        let says =
            || format!("the curve ends at {end} MW{at}; the capacity is {whole} MW{station}");
        (output != capacity).then(says)
    }

    fn fuel(&self) -> Vec<String> {
        let lacks = |profile: i128| {
            let key = u32::try_from(profile).unwrap_or(0);
            is_absent(self.dossier, "FU", key)
        };
        let first = lacks(1).then(|| "profile 1 has no FU or FV".to_string());
        let mut says: Vec<String> = first.into_iter().collect();
        for request in (1..=16).filter_map(|key| current(self.dossier, "RQ", key)) {
            let (number, profile) = (request.get("request"), request.get("profile"));
            if profile != 0 && lacks(profile) {
                let at = self.at(&request);
                says.push(format!(
                    "request {number}{at} names profile {profile}, which has no FU or FV"
                ));
            }
        }
        says
    }

    fn window(&self) -> Vec<String> {
        let station = &self.station;
        let [charge, capacity, window] = ["charge", "capacity", "window"].map(|n| station.get(n));
        let (hours, its_window) = (charge / capacity.max(1), self.its_window());
        let mut says = Vec::new();
        if hours == 0 || hours > window {
            says.push(format!(
                "the charge lasts {hours} full hours at capacity; {its_window}"
            ));
        }
        says.extend(self.missing("HR", window, "hours without an HR:", &its_window));
        says
    }

    fn forecast(&self) -> Vec<String> {
        let (window, its_window) = (self.station.get("window"), self.its_window());
        let short = (window < 50).then(|| format!("{its_window}; it takes 50 or more"));
        let mut says: Vec<String> = short.into_iter().collect();
        says.extend(self.missing("FP", window, "places without an FP:", &its_window));
        says
    }
}

/// A rising list of numbers in words: `3, 5 to 9`.
fn ranges(numbers: &[u32]) -> String {
    let mut runs: Vec<(u32, u32)> = Vec::new();
    for &number in numbers {
        match runs.last_mut() {
            Some((_, last)) if number == *last + 1 => *last = number,
            _ => runs.push((number, number)),
        }
    }
    let words = runs
        .iter()
        .take(10)
        .map(|&(first, last)| match last - first {
            0 => first.to_string(),
            _ => format!("{first} to {last}"),
        });
    let mut words: Vec<String> = words.collect();
    if runs.len() > words.len() {
        words.push("and more".to_string());
    }
    words.join(", ")
}

#[cfg(test)]
mod tests {
    use super::*;

    #[test]
    fn numbers_in_words() {
        assert_eq!(ranges(&[3, 5, 6, 7, 9]), "3, 5 to 7, 9");
        assert_eq!(ranges(&[]), "");
        let odd: Vec<u32> = (0..40).map(|n| 2 * n).collect();
        assert!(ranges(&odd).ends_with("18, and more"));
    }
}
