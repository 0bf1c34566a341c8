//! Acceptance: 5 to 9 and 17, each tried over the whole dossier before the next.

use crate::dossier::Record;
use crate::station::{Current, Station};
use crate::table::{ad, ao, fp, hp, hr, mm, rq, rs, th, Field, Mark, Technology, OWNERS};
use crate::{refuse, Refusal};

/// Accepted, or refused with number and place.
pub type Answer = Result<(), Refusal>;

pub fn accept(dossier: &[u8]) -> Answer {
    accepted(dossier).map(|_| ())
}

/// The station of an accepted dossier.
pub fn accepted(dossier: &[u8]) -> Result<Station<'_>, Refusal> {
    let station = Station::of(Current::of(dossier)?)?;
    all_fit(&station)?;
    let sound = [
        (7, curve_is_sound(&station)),
        (8, fuel_is_there(&station)),
        (9, window_is_full(&station)),
        (17, forecast_is_full(&station)),
    ];
    match sound.into_iter().find(|(_, holds)| !holds) {
        Some((number, _)) => refuse(number, dossier.len()),
        None => Ok(station),
    }
}

/// The station that a query of an hour asks about. The owner whom it names is tried before all else: 3
/// at 0 for one that no plant has.
pub fn asked(dossier: &[u8], owner: u8) -> Result<Station<'_>, Refusal> {
    if OWNERS.contains(&owner) {
        accepted(dossier)
    } else {
        refuse(3, 0)
    }
}

/// 6, at the unfit record that lies first in the dossier, of those that count at some hour.
fn all_fit(station: &Station) -> Answer {
    let unfit = |record: &Record| !fits(station, record);
    let start = if station.current.dated {
        let counting = station.current.at_some_hour().into_iter();
        counting.filter(unfit).map(|record| record.start).min()
    } else {
        let current = station.current.all().filter(|record| unfit(record));
        current.map(|record| record.start).min()
    };
    match start {
        Some(start) => refuse(6, start),
        None => Ok(()),
    }
}

fn fits(station: &Station, record: &Record) -> bool {
    let technology = station.technology;
    let thermal = technology == Technology::Thermal;
    let held = |level: Field| technology.holds(record.get(level) as u8);
    // Nuclear holds level 1 alone, so a held level is the 1 that cost 5 wants.
    let adds = |cost: Field, level: Field| {
        let prorated = record.get(cost) == ad::PRORATED;
        held(level) && (!prorated || technology == Technology::Nuclear)
    };
    match &record.kind.of {
        b"RS" => rs_fits(technology, record),
        b"HP" => thermal,
        b"HR" | b"CH" | b"LC" => technology == Technology::Storage,
        b"FP" => technology == Technology::Hydro,
        b"FU" => technology.unpriced().iter().all(|f| record.get(*f) == 0),
        b"AD" => adds(ad::COST, ad::LEVEL),
        b"AO" => adds(ao::COST, ao::LEVEL),
        b"TH" => held(th::LEVEL),
        b"MM" => thermal || record.get(mm::S) == 0,
        _ => true,
    }
}

/// Used fields are above 0, except the heats; the others are 0.
fn rs_fits(technology: Technology, record: &Record) -> bool {
    let fields = record.kind.fields.iter();
    let mut special = fields.filter(|f| ![rs::TECHNOLOGY, rs::CAPACITY].contains(f));
    special.all(|field| {
        let heat = [rs::START_HEAT, rs::NO_LOAD_HEAT].contains(field);
        let zero = record.get(*field) == 0;
        if technology.uses().contains(field) {
            heat || !zero
        } else {
            zero
        }
    })
}

/// 7: the points of a thermal station form a rising curve that bends upwards only.
fn curve_is_sound(station: &Station) -> bool {
    if station.technology != Technology::Thermal {
        return true;
    }
    let points: Vec<_> = station.current.of_mark(b"HP").collect();
    let numbered = (1..).zip(&points).all(|(n, p)| p.get(hp::POINT) == n);
    let rises: Vec<(i128, i128)> = points.windows(2).map(|p| rise(p[0], p[1])).collect();
    let rising = rises.iter().all(|(output, heat)| *output > 0 && *heat >= 0);
    // heat / output of the one lamination against that of the next, multiplied across
    let bending = rises.windows(2).all(|r| r[0].1 * r[1].0 <= r[1].1 * r[0].0);
    let last = points.last().map(|p| p.amount(hp::OUTPUT));
    let complete = points.len() >= 2 && last == Some(station.amount(rs::CAPACITY));
    numbered && rising && bending && complete
}

/// From one point to the next: the rise of output and of heat.
pub fn rise(lower: &Record, upper: &Record) -> (i128, i128) {
    (
        upper.get(hp::OUTPUT) - lower.get(hp::OUTPUT),
        upper.get(hp::HEAT) - lower.get(hp::HEAT),
    )
}

/// 8: profile 1 and every profile that a current request names have fuel, from whichever hour.
fn fuel_is_there(station: &Station) -> bool {
    let requests = station.current.of_mark(b"RQ");
    let named = requests
        .map(|r| r.get(rq::PROFILE))
        .filter(|profile| *profile != rq::WITHDRAWN);
    let mut wanted = named.chain([1]);
    wanted.all(|profile| station.current.get(b"FU", &[profile as u8]).is_some())
}

/// 9: a storage station has 1 to `window` hours of charge and a price for each hour of the window.
fn window_is_full(station: &Station) -> bool {
    if station.technology != Technology::Storage {
        return true;
    }
    let window = station.amount(rs::WINDOW);
    let charged = (1..=window).contains(&hours_of_charge(station));
    charged && priced(station, b"HR", hr::HOUR).count() as u128 == window
}

/// 17: a hydroelectric station has a window with a place from the top, and a price for each place.
fn forecast_is_full(station: &Station) -> bool {
    if station.technology != Technology::Hydro {
        return true;
    }
    let places = priced(station, b"FP", fp::PLACE).count() as u128;
    place_from_the_top(station) > 0 && places == station.amount(rs::WINDOW)
}

/// Of the window's prices, the highest first, which one counts; 0 for none.
pub fn place_from_the_top(station: &Station) -> u128 {
    station.amount(rs::WINDOW) / fp::ONE_IN
}

/// The current records of a mark whose key lies in the window, by rising key.
pub fn priced<'s, 'a>(
    station: &'s Station<'a>,
    mark: &Mark,
    key: Field,
) -> impl Iterator<Item = &'s Record<'a>> {
    let window = station.amount(rs::WINDOW);
    let records = station.current.of_mark(mark);
    records.take_while(move |record| record.amount(key) <= window)
}

/// X: the whole hours that the charge lasts at capacity.
pub fn hours_of_charge(station: &Station) -> u128 {
    station.amount(rs::CHARGE) / station.amount(rs::CAPACITY)
}
