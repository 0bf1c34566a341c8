//! Damage that draws 6: a current record that doesn't fit the technology.

use super::damage::{change_rs, not, only, put};
use super::{from_least, value, Draft};
use crate::random::Random;
use crate::table::{ad, ao, ch, fp, fu, hr, kind_of, mm, rs, th, Technology};

pub fn used_field_zero(random: &mut Random, draft: &mut Draft) -> Option<()> {
    let field = random.pick(draft.technology.uses());
    // the heats may be 0
    let wanted = field != rs::START_HEAT && field != rs::NO_LOAD_HEAT;
    wanted.then(|| change_rs(draft, field, 0))?
}

pub fn unused_field_set(random: &mut Random, draft: &mut Draft) -> Option<()> {
    let field = random.pick(kind_of(b"RS")?.fields);
    let shared = field == rs::TECHNOLOGY || field == rs::CAPACITY;
    if shared || draft.technology.uses().contains(&field) {
        return None;
    }
    let value = from_least(random, field.lowest.max(1), field)?;
    change_rs(draft, field, value)
}

pub fn point_not_thermal(random: &mut Random, draft: &mut Draft) -> Option<()> {
    not(draft, Technology::Thermal)?;
    put(random, draft, b"HP", &[]);
    Some(())
}

pub fn hour_not_storage(random: &mut Random, draft: &mut Draft) -> Option<()> {
    not(draft, Technology::Storage)?;
    let hour = value(random, hr::HOUR);
    put(random, draft, b"HR", &[(hr::HOUR, hour)]);
    Some(())
}

pub fn interval_not_storage(random: &mut Random, draft: &mut Draft) -> Option<()> {
    not(draft, Technology::Storage)?;
    let interval = value(random, ch::INTERVAL);
    put(random, draft, b"CH", &[(ch::INTERVAL, interval)]);
    Some(())
}

pub fn last_cost_not_storage(random: &mut Random, draft: &mut Draft) -> Option<()> {
    not(draft, Technology::Storage)?;
    put(random, draft, b"LC", &[]);
    Some(())
}

pub fn place_not_hydro(random: &mut Random, draft: &mut Draft) -> Option<()> {
    not(draft, Technology::Hydro)?;
    let place = value(random, fp::PLACE);
    put(random, draft, b"FP", &[(fp::PLACE, place)]);
    Some(())
}

pub fn fuel_at_hydro(random: &mut Random, draft: &mut Draft) -> Option<()> {
    only(draft, Technology::Hydro)?;
    let fuel = random.spread(1, fu::FUEL.highest);
    put(random, draft, b"FU", &[(fu::FUEL, fuel), (fu::EMISSION, 0)]);
    Some(())
}

pub fn emission_not_thermal(random: &mut Random, draft: &mut Draft) -> Option<()> {
    not(draft, Technology::Thermal)?;
    let emission = random.spread(1, fu::EMISSION.highest);
    put(random, draft, b"FU", &[(fu::EMISSION, emission)]);
    Some(())
}

/// A level from 1 to 4 that the technology lacks.
fn level_not_held(random: &mut Random, draft: &Draft) -> Option<i128> {
    let level = random.between(1, 4);
    (!draft.technology.holds(level as u8)).then_some(level)
}

pub fn addition_not_held(random: &mut Random, draft: &mut Draft) -> Option<()> {
    let level = level_not_held(random, draft)?;
    put(random, draft, b"AD", &[(ad::LEVEL, level)]);
    Some(())
}

pub fn prorated_not_nuclear(random: &mut Random, draft: &mut Draft) -> Option<()> {
    not(draft, Technology::Nuclear)?;
    let level = random.pick(draft.technology.levels());
    let fields = [(ad::COST, ad::PRORATED), (ad::LEVEL, level.into())];
    put(random, draft, b"AD", &fields);
    Some(())
}

pub fn own_addition_not_held(random: &mut Random, draft: &mut Draft) -> Option<()> {
    let level = level_not_held(random, draft)?;
    put(random, draft, b"AO", &[(ao::LEVEL, level)]);
    Some(())
}

pub fn own_prorated_not_nuclear(random: &mut Random, draft: &mut Draft) -> Option<()> {
    not(draft, Technology::Nuclear)?;
    let level = random.pick(draft.technology.levels());
    let fields = [(ao::COST, ad::PRORATED), (ao::LEVEL, level.into())];
    put(random, draft, b"AO", &fields);
    Some(())
}

pub fn start_hours_not_thermal(random: &mut Random, draft: &mut Draft) -> Option<()> {
    not(draft, Technology::Thermal)?;
    let hours = random.spread(1, mm::S.highest);
    put(random, draft, b"MM", &[(mm::S, hours)]);
    Some(())
}

pub fn threshold_not_held(random: &mut Random, draft: &mut Draft) -> Option<()> {
    let level = level_not_held(random, draft)?;
    put(random, draft, b"TH", &[(th::LEVEL, level)]);
    Some(())
}
