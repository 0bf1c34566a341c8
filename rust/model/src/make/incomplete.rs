//! Damage that draws 7 to 9 and 17: a curve that isn't sound, a fuel, a window hour or a place of
//! the forecast that isn't there.

use super::damage::{change_rs, only, put};
use super::{from_least, Draft};
use crate::random::Random;
use crate::table::{hp, rq, rs, Technology};

/// The current points of a thermal dossier, where they lie, at least this many.
fn curve(draft: &Draft, least: usize) -> Option<Vec<usize>> {
    only(draft, Technology::Thermal)?;
    Some(draft.current(b"HP")).filter(|points| points.len() >= least)
}

fn remove_points(draft: &mut Draft, kept: impl Fn(u8) -> bool) {
    for point in 1..=21 {
        if !kept(point) {
            draft.remove(b"HP", &[point]);
        }
    }
}

pub fn no_point(_: &mut Random, draft: &mut Draft) -> Option<()> {
    curve(draft, 1)?;
    remove_points(draft, |_| false);
    Some(())
}

/// The one point that is left is number 1 at the capacity: nothing else is wrong with it.
pub fn one_point(random: &mut Random, draft: &mut Draft) -> Option<()> {
    let last = *curve(draft, 1)?.last()?;
    let mut point = draft.records[last].clone();
    hp::POINT.write(&mut point, 1);
    remove_points(draft, |_| false);
    draft.put(random, point);
    Some(())
}

/// A gap in the numbers, or points from 2 on.
pub fn point_missing(random: &mut Random, draft: &mut Draft) -> Option<()> {
    let count = curve(draft, 3)?.len() as i128;
    let missing = random.between(1, count - 1) as u8;
    remove_points(draft, |point| point != missing);
    Some(())
}

/// Two neighbouring points of the curve, where they lie.
fn neighbours(random: &mut Random, draft: &Draft, least: usize) -> Option<(usize, usize)> {
    let points = curve(draft, least)?;
    let at = random.below(points.len() as u64 - 1) as usize;
    Some((points[at], points[at + 1]))
}

pub fn output_not_rising(random: &mut Random, draft: &mut Draft) -> Option<()> {
    let (lower, upper) = neighbours(random, draft, 2)?;
    let output = hp::OUTPUT.read(&draft.records[upper]);
    let not_below = from_least(random, output, hp::OUTPUT)?;
    hp::OUTPUT.write(&mut draft.records[lower], not_below);
    Some(())
}

pub fn heat_falling(random: &mut Random, draft: &mut Draft) -> Option<()> {
    let (lower, upper) = neighbours(random, draft, 2)?;
    let heat = hp::HEAT.read(&draft.records[upper]);
    let more = from_least(random, heat + 1, hp::HEAT)?;
    hp::HEAT.write(&mut draft.records[lower], more);
    Some(())
}

/// Lifts an inner point just above the line between its neighbours.
pub fn slope_falling(random: &mut Random, draft: &mut Draft) -> Option<()> {
    let points = curve(draft, 3)?;
    let at = random.between(1, points.len() as i128 - 2) as usize;
    let point = |i: usize| {
        let record = &draft.records[points[i]];
        (hp::OUTPUT.read(record), hp::HEAT.read(record))
    };
    let ((w0, h0), (w1, _), (w2, h2)) = (point(at - 1), point(at), point(at + 1));
    if h2 == h0 || w2 <= w0 {
        return None;
    }
    let line = h0 + (h2 - h0) * (w1 - w0) / (w2 - w0);
    hp::HEAT.write(&mut draft.records[points[at]], line + 1);
    Some(())
}

pub fn curve_not_to_capacity(random: &mut Random, draft: &mut Draft) -> Option<()> {
    curve(draft, 2)?;
    let rs = *draft.current(b"RS").first()?;
    let capacity = rs::CAPACITY.read(&draft.records[rs]);
    let other = capacity + random.pick(&[-1, 1]);
    rs::CAPACITY.allows(other).then_some(())?;
    change_rs(draft, rs::CAPACITY, other)
}

pub fn no_first_fuel(_: &mut Random, draft: &mut Draft) -> Option<()> {
    draft.remove(b"FU", &[1]);
    Some(())
}

/// Takes the fuel of a profile that a current request names, hidden by a higher one or not.
pub fn no_named_fuel(random: &mut Random, draft: &mut Draft) -> Option<()> {
    let request = random.between(1, 16);
    let profile = random.between(2, 4);
    let fields = [(rq::REQUEST, request), (rq::PROFILE, profile)];
    put(random, draft, b"RQ", &fields);
    draft.remove(b"FU", &[profile as u8]);
    Some(())
}

pub fn charge_too_small(random: &mut Random, draft: &mut Draft) -> Option<()> {
    only(draft, Technology::Storage)?;
    let rs = *draft.current(b"RS").first()?;
    let most = rs::CAPACITY.read(&draft.records[rs]) - 1;
    if most == 0 {
        return None;
    }
    let any = random.between(1, most);
    let charge = random.pick(&[any, most]);
    change_rs(draft, rs::CHARGE, charge)
}

pub fn charge_too_large(random: &mut Random, draft: &mut Draft) -> Option<()> {
    only(draft, Technology::Storage)?;
    let rs = *draft.current(b"RS").first()?;
    let capacity = rs::CAPACITY.read(&draft.records[rs]);
    let least = capacity * (rs::WINDOW.read(&draft.records[rs]) + 1);
    let charge = from_least(random, least, rs::CHARGE)?;
    change_rs(draft, rs::CHARGE, charge)
}

pub fn hour_missing(random: &mut Random, draft: &mut Draft) -> Option<()> {
    only(draft, Technology::Storage)?;
    let rs = *draft.current(b"RS").first()?;
    let window = rs::WINDOW.read(&draft.records[rs]);
    let any = random.between(1, window.max(1));
    let missing = random.pick(&[1, any, window]);
    draft.remove(b"HR", &[missing as u8]);
    Some(())
}

/// The window of a hydroelectric dossier.
fn forecast(draft: &Draft) -> Option<i128> {
    only(draft, Technology::Hydro)?;
    let rs = *draft.current(b"RS").first()?;
    Some(rs::WINDOW.read(&draft.records[rs]))
}

/// A window with no place from the top, whether its places are there or not.
pub fn window_too_short(random: &mut Random, draft: &mut Draft) -> Option<()> {
    forecast(draft)?;
    let any = random.between(1, 49);
    let window = random.pick(&[1, any, 49]);
    change_rs(draft, rs::WINDOW, window)
}

pub fn place_missing(random: &mut Random, draft: &mut Draft) -> Option<()> {
    let window = forecast(draft)?;
    let any = random.between(1, window.max(1));
    let missing = random.pick(&[1, any, window]);
    draft.remove(b"FP", &(missing as u16).to_be_bytes());
    Some(())
}

/// A window that ends one place after the last that is there.
pub fn window_too_long(_: &mut Random, draft: &mut Draft) -> Option<()> {
    let longer = forecast(draft)? + 1;
    rs::LONG_WINDOW.allows(longer).then_some(())?;
    draft.remove(b"FP", &(longer as u16).to_be_bytes());
    change_rs(draft, rs::WINDOW, longer)
}
