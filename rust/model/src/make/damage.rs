//! Ways to break a sound dossier, each with the number that it draws.

use super::dated::*;
use super::incomplete::*;
use super::sound::{sound, sound_of};
use super::unfit::*;
use super::{any_record, from_least, is_whole, kind, noise, reconcile, with_first_hour, Draft};
use crate::dossier::LONGEST;
use crate::random::Random;
use crate::table::{ao, as_in, kind_of, rq, rs, Field, Mark, Role, Technology};

/// One way: its name, the number it draws, and what it does to a sound dossier. `None` says that
/// this dossier can't be broken in this way.
pub struct Damage {
    pub name: &'static str,
    pub number: u8,
    pub apply: fn(&mut Random, &mut Draft) -> Option<()>,
}

macro_rules! damages {
    ($($number:literal: $($name:ident),+;)+) => {
        &[$($(Damage { name: stringify!($name), number: $number, apply: $name }),+),+]
    };
}

pub static DAMAGES: &[Damage] = damages! {
    1: unknown_mark, unknown_mark_at_the_end;
    2: cut_short, one_byte_left;
    3: below_range, above_range, first_after_last, long_window_elsewhere, owner_unknown;
    4: twin, twin_of_the_other_mark;
    5: no_rs;
    6: used_field_zero, unused_field_set, point_not_thermal, hour_not_storage,
       interval_not_storage, last_cost_not_storage, place_not_hydro, fuel_at_hydro,
       emission_not_thermal, addition_not_held, prorated_not_nuclear,
       own_addition_not_held, own_prorated_not_nuclear, start_hours_not_thermal,
       threshold_not_held, unfit_for_some_hours, unfit_from_some_hour;
    7: no_point, one_point, point_missing, output_not_rising, heat_falling, slope_falling,
       curve_not_to_capacity;
    8: no_first_fuel, no_named_fuel;
    9: charge_too_small, charge_too_large, hour_missing;
    13: too_long;
    17: window_too_short, place_missing, window_too_long;
};

/// A dossier with one damage, which it names.
pub fn damaged(random: &mut Random) -> (&'static Damage, Vec<u8>) {
    let damage = &DAMAGES[random.below(DAMAGES.len() as u64) as usize];
    // A dossier of more than 60,000 bytes is slow to make and to read.
    if damage.number == 13 && !random.one_in(20) {
        return damaged(random);
    }
    (damage, damaged_by(random, damage))
}

pub fn damaged_by(random: &mut Random, damage: &Damage) -> Vec<u8> {
    loop {
        let mut draft = sound(random);
        // It may be the place that it chose, and not the dossier, that can't be broken.
        for _ in 0..20 {
            if (damage.apply)(random, &mut draft).is_some() {
                return draft.bytes();
            }
        }
    }
}

/// A dossier with two damages, so that their order counts.
pub fn damaged_twice(random: &mut Random) -> Vec<u8> {
    let mut draft = sound(random);
    let mut left = 2;
    while left > 0 {
        let damage = &DAMAGES[random.below(DAMAGES.len() as u64) as usize];
        if damage.number != 13 && (damage.apply)(random, &mut draft).is_some() {
            left -= 1;
        }
    }
    draft.bytes()
}

/// Where a whole record lies, any of them.
fn any_place(random: &mut Random, draft: &Draft) -> Option<usize> {
    let places = 0..draft.records.len();
    let whole: Vec<usize> = places.filter(|i| is_whole(&draft.records[*i])).collect();
    (!whole.is_empty()).then(|| random.pick(&whole))
}

pub(super) fn only(draft: &Draft, technology: Technology) -> Option<()> {
    (draft.technology == technology).then_some(())
}

pub(super) fn not(draft: &Draft, technology: Technology) -> Option<()> {
    (draft.technology != technology).then_some(())
}

/// A record of a mark with these fields, current wherever it lies.
pub(super) fn put(random: &mut Random, draft: &mut Draft, mark: &Mark, fields: &[(Field, i128)]) {
    let mut record = any_record(random, kind_of(mark).expect("a known mark"));
    for (field, value) in fields {
        field.write(&mut record, *value);
    }
    reconcile(&mut record);
    draft.put(random, record);
}

/// Changes a field of the current RS.
pub(super) fn change_rs(draft: &mut Draft, field: Field, value: i128) -> Option<()> {
    let at = *draft.current(b"RS").first()?;
    field.write(&mut draft.records[at], value);
    Some(())
}

fn strange_mark(random: &mut Random) -> Mark {
    loop {
        let mut mark = random.pick(&[*b"RS", *b"rs", *b"SR", *b"HQ", *b"FU", [0, 0]]);
        mark[random.below(2) as usize] = random.next() as u8;
        if kind_of(&mark).is_none() {
            return mark;
        }
    }
}

fn unknown_mark(random: &mut Random, draft: &mut Draft) -> Option<()> {
    let at = any_place(random, draft)?;
    draft.records[at][..2].copy_from_slice(&strange_mark(random));
    Some(())
}

fn unknown_mark_at_the_end(random: &mut Random, draft: &mut Draft) -> Option<()> {
    let mut rest = strange_mark(random).to_vec();
    rest.extend(noise(random).iter().take(3));
    draft.records.push(rest);
    Some(())
}

fn cut_short(random: &mut Random, draft: &mut Draft) -> Option<()> {
    let last = draft.records.last_mut().filter(|r| is_whole(r))?;
    let cut = random.between(1, last.len() as i128 - 1) as usize;
    let kept = random.pick(&[2, cut, last.len() - 1]);
    last.truncate(kept);
    Some(())
}

fn one_byte_left(random: &mut Random, draft: &mut Draft) -> Option<()> {
    let byte = random.pick(&[0, b'R', b'H', b'M']);
    draft.records.push(vec![byte]);
    Some(())
}

/// A field of any record that doesn't take every value of its bytes.
fn bounded_field(random: &mut Random, draft: &Draft) -> Option<(usize, Field)> {
    let at = any_place(random, draft)?;
    let record = &draft.records[at];
    let field = *as_in(record, &random.pick(kind(record).fields));
    (field.highest < ceiling(field)).then_some((at, field))
}

/// The largest number that the field's bytes hold.
fn ceiling(field: Field) -> i128 {
    let bits = 8 * field.width - usize::from(field.signed);
    (1 << bits) - 1
}

fn below_range(random: &mut Random, draft: &mut Draft) -> Option<()> {
    let (at, field) = bounded_field(random, draft)?;
    let floor = match (field.signed, field.or_zero) {
        (true, _) => -1 - ceiling(field),
        // 0 itself is allowed
        (_, true) => 1,
        _ => 0,
    };
    let below = field.lowest - 1;
    if below < floor {
        return None;
    }
    let value = random.pick(&[below, floor]);
    field.write(&mut draft.records[at], value);
    Some(())
}

fn above_range(random: &mut Random, draft: &mut Draft) -> Option<()> {
    let (at, field) = bounded_field(random, draft)?;
    let any = random.between(field.highest + 1, ceiling(field));
    let value = random.pick(&[field.highest + 1, any, ceiling(field)]);
    field.write(&mut draft.records[at], value);
    Some(())
}

fn first_after_last(random: &mut Random, draft: &mut Draft) -> Option<()> {
    let at = any_place(random, draft).filter(|i| draft.records[*i].starts_with(b"RQ"))?;
    let last = rq::LAST.read(&draft.records[at]);
    let first = from_least(random, last + 1, rq::FIRST)?;
    rq::FIRST.write(&mut draft.records[at], first);
    Some(())
}

/// An RS, current or not, with a window that only hydro has.
fn long_window_elsewhere(random: &mut Random, draft: &mut Draft) -> Option<()> {
    let at = any_place(random, draft).filter(|i| draft.records[*i].starts_with(b"RS"))?;
    let record = &mut draft.records[at];
    rs::TECHNOLOGY.write(record, random.between(1, 3));
    let window = random.between(rs::WINDOW.highest + 1, rs::LONG_WINDOW.highest);
    rs::WINDOW.write(record, window);
    Some(())
}

/// An AO of an owner that no plant has.
fn owner_unknown(random: &mut Random, draft: &mut Draft) -> Option<()> {
    let mut record = any_record(random, kind_of(b"AO")?);
    ao::OWNER.write(&mut record, random.pick(&[0, 3, 4, 255]));
    insert_whole(random, draft, record)
}

/// The mark, key and issue of a record, current or not, once more; the rest as it was or not.
fn twin(random: &mut Random, draft: &mut Draft) -> Option<()> {
    let at = any_place(random, draft)?;
    let twin = draft.records[at].clone();
    put_twin(random, draft, twin)
}

/// The same under the other mark of its key: FU and FV, AD and AV, MM and MV.
fn twin_of_the_other_mark(random: &mut Random, draft: &mut Draft) -> Option<()> {
    let at = any_place(random, draft)?;
    let record = &draft.records[at];
    let any = random.next() as u32;
    let first = random.pick(&[0, 1, 24, any, u32::MAX]);
    let first = (!kind(record).is_dated()).then_some(first);
    let twin = with_first_hour(record, first)?;
    put_twin(random, draft, twin)
}

fn put_twin(random: &mut Random, draft: &mut Draft, mut twin: Vec<u8>) -> Option<()> {
    if random.one_in(2) {
        let fresh = any_record(random, kind(&twin));
        for field in kind(&twin).fields.iter().filter(|f| f.role != Role::Key) {
            field.write(&mut twin, field.read(&fresh));
        }
        reconcile(&mut twin);
    }
    insert_whole(random, draft, twin)
}

/// Adds a record anywhere. A lone byte or a cut record stays last, or the record would complete it.
fn insert_whole(random: &mut Random, draft: &mut Draft, record: Vec<u8>) -> Option<()> {
    let end = draft.records.len() - usize::from(!is_whole(draft.records.last()?));
    let place = random.below(end as u64 + 1) as usize;
    draft.records.insert(place, record);
    Some(())
}

fn no_rs(random: &mut Random, draft: &mut Draft) -> Option<()> {
    draft.remove(b"RS", &[]);
    if random.one_in(20) {
        draft.records.clear();
    }
    Some(())
}

/// 60,001 bytes or a little more: what stands in them doesn't matter.
fn too_long(random: &mut Random, draft: &mut Draft) -> Option<()> {
    let length = LONGEST + random.pick(&[1, 1, 2, 40]);
    let missing = length.checked_sub(draft.length())?;
    let mut rest = sound_of(random, draft.technology).bytes();
    rest.resize(missing, b'F');
    draft.records.push(rest);
    Some(())
}
