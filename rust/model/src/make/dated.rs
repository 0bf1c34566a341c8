//! Costs with a first hour: histories of a key in every shape, what draws 4 and 6 by them, and
//! dossiers at the edges.

use super::damage::not;
use super::forecast::Order;
use super::idle::battery;
use super::written::{hydro, nuclear_at, plain_thermal, r1, record};
use super::{any_record, kind, reconcile, set_issue, value, with_first_hour, Draft};
use crate::random::Random;
use crate::table::{ad, dated_kind_of, fu, kind_of, mm, Field, Role, Technology};
use std::collections::BTreeSet;

/// The hours from which the costs of a dossier count, and how many of its keys have such costs.
pub struct Turns {
    hours: Vec<u32>,
    /// One key in so many; none at all in a dossier without first hours.
    one_in: Option<u64>,
}

/// Few hours for one dossier, so that costs often begin together. Half of all dossiers have none.
pub fn turns(random: &mut Random) -> Turns {
    let mut hours = vec![0];
    for _ in 0..4 {
        let near = random.between(0, 60) as u32;
        let far = random.spread(0, u32::MAX.into()) as u32;
        hours.push(random.pick(&[1, near, near, near, far, u32::MAX]));
    }
    Turns {
        hours,
        one_in: random.pick(&[None, None, None, Some(1), Some(2), Some(6)]),
    }
}

/// An issue of a history: its number and its first hour, `None` under the undated mark.
type Issue = (u32, Option<u32>);

impl Turns {
    /// Issues of a sound record's key with first hours, in place of the record; `None` where its key
    /// is given none. What counts at some hour fits as the record does, with other money; what
    /// counts at none may not.
    pub fn history(&self, random: &mut Random, record: &[u8]) -> Option<Vec<Vec<u8>>> {
        dated_kind_of(&kind(record).mark)?;
        let given = self.one_in.is_some_and(|count| random.one_in(count));
        given.then(|| {
            let issues = self.issues(random);
            let told = issues.iter().map(|issue| {
                let (number, first) = *issue;
                let mut said = if counts(issue, &issues) {
                    repriced(random, record)
                } else {
                    any_of_key(random, record)
                };
                set_issue(&mut said, number);
                with_first_hour(&said, first).expect("a mark that can be dated")
            });
            told.collect()
        })
    }

    /// One to six issues by rising number; their first hours rise, fall or come in any order.
    fn issues(&self, random: &mut Random) -> Vec<Issue> {
        let count = random.pick(&[1, 2, 2, 3, 4, 6]);
        let most = random.pick(&[8, 20, u32::MAX]);
        let mut numbers = BTreeSet::from([random.pick(&[0, 1, most])]);
        while numbers.len() < count {
            numbers.insert(random.between(0, most.into()) as u32);
        }
        let mut hours: Vec<u32> = numbers.iter().map(|_| random.pick(&self.hours)).collect();
        match random.below(3) {
            0 => hours.sort_unstable(),
            1 => hours.sort_unstable_by(|a, b| b.cmp(a)),
            _ => {}
        }
        let undated = random.pick(&[2, 4, 1_000]);
        let first = |hour| (!random.one_in(undated)).then_some(hour);
        numbers
            .into_iter()
            .zip(hours.into_iter().map(first))
            .collect()
    }
}

/// Whether an issue counts at some hour, word for word: no higher one has a first hour at or before
/// its own.
fn counts((number, first): &Issue, all: &[Issue]) -> bool {
    let hides = |(n, f): &Issue| n > number && f.unwrap_or(0) <= first.unwrap_or(0);
    !all.iter().any(hides)
}

/// The record with its money moved; an amount of 0, which a technology may want, stays.
fn repriced(random: &mut Random, record: &[u8]) -> Vec<u8> {
    let mut other = record.to_vec();
    for field in kind(record).fields.iter().filter(|f| f.role == Role::Money) {
        let most = (2 * field.read(record)).min(field.highest);
        field.write(&mut other, random.between(0, most));
    }
    other
}

/// A record of the same key that says anything in range.
fn any_of_key(random: &mut Random, record: &[u8]) -> Vec<u8> {
    let mut other = any_record(random, kind(record));
    for field in kind(record).fields.iter().filter(|f| f.role == Role::Key) {
        field.write(&mut other, field.read(record));
    }
    reconcile(&mut other);
    other
}

/// A fit record and an unfit one of its key, which the technology wants a field of to be 0.
fn fit_and_unfit(random: &mut Random, draft: &Draft) -> Option<[Vec<u8>; 2]> {
    not(draft, Technology::Thermal)?;
    let (mark, zeros): (_, Vec<Field>) = match random.below(2) {
        0 => (b"FU", draft.technology.unpriced().to_vec()),
        _ => (b"MM", vec![mm::S]),
    };
    let mut fit = any_record(random, kind_of(mark)?);
    zeros.iter().for_each(|field| field.write(&mut fit, 0));
    let mut unfit = fit.clone();
    let field = random.pick(&zeros);
    field.write(&mut unfit, random.spread(1, field.highest));
    Some([fit, unfit])
}

/// Puts two issues in place of all of their key, the first of them the older.
fn put_two(random: &mut Random, draft: &mut Draft, two: [(Vec<u8>, u32); 2]) -> Option<()> {
    let older = random.between(0, 1_000) as u32;
    for (n, (mut said, first)) in two.into_iter().enumerate() {
        set_issue(&mut said, older + n as u32);
        let first = (first > 0 || random.one_in(2)).then_some(first);
        let said = with_first_hour(&said, first)?;
        if n == 0 {
            draft.put(random, said);
        } else {
            draft.insert(random, said);
        }
    }
    Some(())
}

/// An unfit record that counts until a newer one, which fits, takes its place.
pub fn unfit_for_some_hours(random: &mut Random, draft: &mut Draft) -> Option<()> {
    let [fit, unfit] = fit_and_unfit(random, draft)?;
    let until = value(random, fu::FUEL).max(1) as u32;
    let from = random.pick(&[0, until / 2, until - 1]);
    put_two(random, draft, [(unfit, from), (fit, until)])
}

/// An unfit record that counts from some hour on, the last one perhaps.
pub fn unfit_from_some_hour(random: &mut Random, draft: &mut Draft) -> Option<()> {
    let from = random.pick(&[0, 1, 24, u32::MAX]);
    if random.one_in(2) {
        let [fit, unfit] = fit_and_unfit(random, draft)?;
        return put_two(random, draft, [(fit, 0), (unfit, from)]);
    }
    // a level that isn't held, or the prorated cost
    let mut unfit = any_record(random, kind_of(b"AD")?);
    let (cost, level) = (ad::COST.read(&unfit), ad::LEVEL.read(&unfit));
    let held = draft.technology.holds(level as u8);
    let prorated = cost == ad::PRORATED && draft.technology != Technology::Nuclear;
    (!held || prorated).then_some(())?;
    unfit = with_first_hour(&unfit, Some(from))?;
    draft.put(random, unfit);
    Some(())
}

/// Fuel of profile 1 from an hour on.
pub fn fuel_from(issue: u32, first: u32, fuel: i128) -> Vec<u8> {
    record(b"FV", issue, &[first.into(), 1, fuel, 0])
}

/// The station without the fuel of profile 1, whose FU is the only one.
pub fn without_fuel(station: &[u8]) -> Vec<u8> {
    let records = crate::dossier::records(station).expect("a station");
    let others = records.iter().filter(|r| r.kind.of != *b"FU");
    others.flat_map(|r| r.bytes).copied().collect()
}

/// R1 with this many newer records FV of its profile, issues and first hours, from 0 on, in these
/// orders by arrival.
pub fn many_fuels(count: u32, issues: Order, hours: Order) -> Vec<u8> {
    // R1 has issue 1
    let mut numbers: Vec<u32> = (2..count + 2).collect();
    let mut firsts: Vec<u32> = (0..count).collect();
    issues.arrange(&mut numbers);
    hours.arrange(&mut firsts);
    if matches!((issues, hours), (Order::Any, Order::Any)) {
        // not the same order twice
        firsts.rotate_left(count as usize / 3);
    }
    let fuels = numbers.into_iter().zip(firsts);
    let fuels = fuels.flat_map(|(n, first)| fuel_from(n, first, 4_000_000 + i128::from(n)));
    [r1(), thresholds(), fuels.collect()].concat()
}

fn thresholds() -> Vec<u8> {
    [1, 4]
        .map(|level| record(b"TH", 1, &[1, level, 50, 2_500, 0]))
        .concat()
}

/// Two issues of each dated kind in both orders of arrival, with first hours about each other; no
/// fuel before an hour, at each technology; unfit records that count, that count no more and that
/// never do; twins of both marks; dated records cut short and out of bounds; and 3,000 of one key.
pub fn edges() -> Vec<Vec<u8>> {
    let mut edges = two_issues();
    edges.extend(late_fuel());
    edges.extend(unfit());
    edges.extend(twins());
    for dated in [b"FV", b"AV", b"MV"] {
        let whole = any_record(&mut Random::new(8), kind_of(dated).expect("a known mark"));
        edges.extend((2..whole.len()).map(|length| [&r1(), &whole[..length]].concat()));
        let key = whole.len() - kind_of(&kind(&whole).of).expect("a mark").length;
        for byte in [0, 5, 9, 255] {
            let mut beyond = whole.clone();
            beyond[6 + key] = byte;
            edges.push([r1(), beyond].concat());
        }
    }
    let orders = [Order::Rising, Order::Falling, Order::Any];
    for (issues, hours) in orders.iter().flat_map(|a| orders.map(|b| (*a, b))) {
        edges.push(many_fuels(3_000, issues, hours));
    }
    edges
}

/// R1 with a newer fuel, amount and item: from hours about 24, under both marks, in both orders.
fn two_issues() -> Vec<Vec<u8>> {
    let older = [
        record(b"FU", 5, &[1, 5_000_000, 1_000_000]),
        record(b"AD", 5, &[1, 3, 1, 2_500_000]),
        record(b"MM", 5, &[1, 1, 300_000_000, 1_000, 25_000, 100]),
    ];
    let newer = [
        record(b"FU", 6, &[1, 6_000_000, 2_000_000]),
        record(b"AD", 6, &[1, 3, 1, 3_500_000]),
        record(b"MM", 6, &[1, 1, 400_000_000, 1_000, 25_000, 50]),
    ];
    let firsts = [None, Some(0), Some(23), Some(24), Some(25), Some(u32::MAX)];
    let mut dossiers = Vec::new();
    for (older, newer) in older.iter().zip(&newer) {
        for (first, then) in firsts.iter().flat_map(|a| firsts.map(|b| (*a, b))) {
            let two = [(older, first), (newer, then)];
            let two = two.map(|(said, at)| with_first_hour(said, at).expect("dated"));
            dossiers.push([&r1()[..], &two[0], &two[1]].concat());
            dossiers.push([&two[1][..], &r1(), &two[0]].concat());
        }
    }
    dossiers
}

/// A station of each technology whose fuel lies ahead, from hours about 0 and 24 and at the last.
fn late_fuel() -> Vec<Vec<u8>> {
    let stations = [r1(), nuclear_at(5_000_000), battery(), hydro(&[1_000; 50])];
    let mut dossiers = Vec::new();
    for station in stations {
        let bare = without_fuel(&station);
        for first in [0, 1, 23, 24, 25, u32::MAX - 1, u32::MAX] {
            let priced = 750_000 * i128::from(station[..31] != hydro(&[1_000; 50])[..31]);
            dossiers.push([&bare[..], &fuel_from(1, first, priced)].concat());
            let request = record(b"RQ", 1, &[3, 20, 30, 2]);
            let second = record(b"FV", 1, &[first.into(), 2, priced, 0]);
            dossiers.push([&station[..], &request, &second].concat());
        }
        dossiers.push(bare);
    }
    dossiers
}

/// An emission price at a nuclear station, and hours per start, in an older issue and in a newer one
/// from hours about each other.
fn unfit() -> Vec<Vec<u8>> {
    let firsts = [None, Some(0), Some(24), Some(25)];
    let fuels = [0, 7].map(|emission| record(b"FU", 1, &[1, 4_000_000, emission]));
    let items = [0, 7].map(|hours| record(b"MM", 1, &[1, 1, 5, 5, 5, hours]));
    let station = without_fuel(&nuclear_at(5_000_000));
    let mut dossiers = Vec::new();
    for (first, then) in firsts.iter().flat_map(|a| firsts.map(|b| (*a, b))) {
        for (pair, unfit_first) in [&fuels, &items].iter().flat_map(|p| [(*p, 0), (*p, 1)]) {
            let mut two = pair.clone();
            two.rotate_left(unfit_first);
            set_issue(&mut two[1], 2);
            let [older, newer] = &two;
            let older = with_first_hour(older, first).expect("dated");
            let newer = with_first_hour(newer, then).expect("dated");
            let fuel = record(b"FU", 1, &[1, 0, 0]);
            let fuel = if older[0] == b'F' { vec![] } else { fuel };
            dossiers.push([&station[..], &fuel, &older, &newer].concat());
            dossiers.push([&newer[..], &older, &station, &fuel].concat());
        }
    }
    dossiers
}

/// A key and issue twice under each pair of marks, whatever the first hours.
fn twins() -> Vec<Vec<u8>> {
    let mut dossiers = Vec::new();
    let costs = [
        record(b"FU", 7, &[1, 5_000_000, 0]),
        record(b"AD", 7, &[1, 3, 1, 2_500_000]),
        record(b"MM", 7, &[1, 1, 300_000_000, 1_000, 25_000, 100]),
    ];
    let firsts = [None, Some(0), Some(1), Some(u32::MAX)];
    for cost in costs {
        for (one, other) in firsts.iter().flat_map(|a| firsts.map(|b| (*a, b))) {
            let two = [one, other].map(|at| with_first_hour(&cost, at).expect("dated"));
            dossiers.push([&plain_thermal()[..], &two[0], &two[1]].concat());
            dossiers.push([&two[0][..], &plain_thermal(), &two[1]].concat());
        }
    }
    dossiers
}
