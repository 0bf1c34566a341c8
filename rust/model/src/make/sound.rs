//! Dossiers that are accepted, of all technologies and many shapes.

use super::written::record;
use super::{any_record, dated, reconcile, set_issue, value, with_first_hour, Draft};
use crate::accept::accepted;
use crate::dossier::LONGEST;
use crate::levels::{levels, profile_at, reckon, Levels, Micro};
use crate::random::Random;
use crate::table::{ad, ao, as_in, fu, kind_of, mm, rq, th};
use crate::table::{Field, Mark, Role, Technology, ENERGY, OWNERS, TECHNOLOGIES};
use crate::OWNER;
use std::collections::{BTreeMap, BTreeSet};

pub fn sound(random: &mut Random) -> Draft {
    let technology = random.pick(&TECHNOLOGIES);
    sound_of(random, technology)
}

pub fn sound_of(random: &mut Random, technology: Technology) -> Draft {
    // Extremes give levels that no energy offer reaches, so most dossiers have modest amounts.
    let modest = !random.one_in(4);
    let mut maker = Maker {
        random,
        technology,
        modest,
        records: Vec::new(),
    };
    match technology {
        Technology::Thermal => maker.thermal(),
        Technology::Nuclear => maker.nuclear(),
        Technology::Storage => maker.storage(),
        Technology::Hydro => maker.hydro(),
    }
    maker.requests_and_fuel();
    maker.additions();
    maker.own_additions();
    maker.maintenance();
    maker.thresholds();
    maker.histories();
    maker.arranged()
}

/// A sound dossier of exactly this length: old issues of one request and one fuel, some of them from
/// an hour on, fill it up.
pub fn filled(random: &mut Random, length: usize) -> Draft {
    let mut draft = loop {
        let draft = sound(random);
        if draft.length() + 1_000 < length {
            break draft;
        }
    };
    draft.remove(b"RQ", &[16]);
    draft.remove(b"FU", &[4]);
    let dated = random.pick(&[0, 0, 20, (length - draft.length() - 600) / 19]);
    for n in 0..dated {
        let mut fuel = fourth_fuel(random, draft.technology);
        // newer than the others
        set_issue(&mut fuel, LONGEST as u32 + n as u32);
        let first = random.spread(0, u32::MAX.into()) as u32;
        let fuel = with_first_hour(&fuel, Some(first)).expect("fuel can be dated");
        draft.records.push(fuel);
    }
    // as many records of 15 bytes as there is room for, some of them one byte longer
    let room = length - draft.length();
    let (count, longer) = (room / 15, room % 15);
    for issue in 0..count {
        let mut record = fourth_fuel(random, draft.technology);
        if issue < longer {
            record = any_record(random, kind_of(b"RQ").expect("a known mark"));
            rq::REQUEST.write(&mut record, 16);
            rq::PROFILE.write(&mut record, 1);
        }
        set_issue(&mut record, issue as u32);
        draft.records.push(record);
    }
    random.shuffle(&mut draft.records);
    draft
}

/// A fuel of profile 4 that fits.
fn fourth_fuel(random: &mut Random, technology: Technology) -> Vec<u8> {
    let mut fuel = any_record(random, kind_of(b"FU").expect("a known mark"));
    fu::PROFILE.write(&mut fuel, 4);
    for price in technology.unpriced() {
        price.write(&mut fuel, 0);
    }
    fuel
}

/// A sound dossier that has levels at an hour.
pub fn with_levels_at(random: &mut Random, technology: Technology, hour: u32) -> Draft {
    loop {
        let draft = sound_of(random, technology);
        if levels(&draft.bytes(), hour, OWNER).is_ok() {
            return draft;
        }
    }
}

/// A sound dossier in which an AD amount, or an AO amount of owner 1, brings the sum of one level at
/// hour 0 to the half cent or one micro-dollar below it: one division that goes another way then
/// shows.
pub fn at_half_cent(random: &mut Random) -> Vec<u8> {
    let technology = random.pick(&TECHNOLOGIES);
    let mut draft = with_levels_at(random, technology, 0);
    let level = random.pick(draft.technology.levels());
    let profile = profile_at(&accepted(&draft.bytes()).expect("sound"), 0);
    let cost = random.between(1, ad::THIRD_PARTY - 1);
    let (mark, field, owner) = match random.one_in(2) {
        true => (b"AD", ad::AMOUNT, None),
        false => (b"AO", ao::AMOUNT, Some(OWNER)),
    };
    let key = owner.into_iter().chain([profile, cost as u8, level]);
    let key: Vec<u8> = key.collect();
    draft.remove(mark, &key);
    let amount = random.spread(0, 300_000_000);
    let fields = key.into_iter().map(i128::from).chain([amount]);
    let fields: Vec<i128> = fields.collect();
    draft.records.push(record(mark, 1, &fields));
    let bytes = draft.bytes();
    let sums = reckon(&accepted(&bytes).expect("sound"), 0, OWNER);
    let sums: Levels<Micro> = sums.expect("levels at hour 0");
    let sum = match sums.single().find(|(number, _)| *number == level) {
        Some((_, sum)) => *sum,
        None => sums.energy[random.below(sums.energy.len() as u64) as usize].level,
    };
    let wanted = random.pick(&[4_999, 5_000]);
    let more = (wanted - sum.0 as i128).rem_euclid(10_000);
    let addition = draft.records.last_mut().expect("just added");
    field.write(addition, amount + more);
    random.shuffle(&mut draft.records);
    draft.bytes()
}

/// The records that will be current, and then all of them.
pub(super) struct Maker<'r> {
    pub random: &'r mut Random,
    technology: Technology,
    pub modest: bool,
    records: Vec<Vec<u8>>,
}

impl Maker<'_> {
    /// Adds a record with these fields; the others take any value in range, modest if money.
    pub fn add(&mut self, mark: &Mark, fields: &[(Field, i128)]) {
        let kind = kind_of(mark).expect("a known mark");
        let mut record = any_record(self.random, kind);
        for field in kind.fields.iter().filter(|f| f.role == Role::Money) {
            let amount = self.amount(*field);
            field.write(&mut record, amount);
        }
        for (field, value) in fields {
            field.write(&mut record, *value);
        }
        reconcile(&mut record);
        self.records.push(record);
    }

    fn amount(&mut self, field: Field) -> i128 {
        if !self.modest {
            value(self.random, field)
        } else if field.signed {
            // few prices, so that many are equal
            100 * self.random.between(-20, 60)
        } else {
            self.random.spread(0, 30_000_000)
        }
    }

    /// Requests in every state, and fuel for each profile that one of them names.
    fn requests_and_fuel(&mut self) {
        let mut wanted = BTreeSet::from([1]);
        let requests = self.random.pick(&[0, 1, 3, 3, 6, 16]);
        for request in 1..=16 {
            if self.random.below(16) >= requests {
                continue;
            }
            let profile = value(self.random, rq::PROFILE);
            let mut fields = vec![(rq::REQUEST, request), (rq::PROFILE, profile)];
            if !self.random.one_in(4) {
                // short spans that overlap
                let first = self.random.between(0, 40);
                let last = first + self.random.spread(0, 40);
                fields.extend([(rq::FIRST, first), (rq::LAST, last)]);
            }
            self.add(b"RQ", &fields);
            wanted.insert(profile);
        }
        for profile in 1..=4 {
            if !wanted.contains(&profile) && self.random.one_in(2) {
                continue;
            }
            let mut fields = vec![(fu::PROFILE, profile)];
            fields.extend(self.technology.unpriced().iter().map(|f| (*f, 0)));
            self.add(b"FU", &fields);
        }
    }

    fn additions(&mut self) {
        let fields = [ad::PROFILE, ad::COST, ad::LEVEL];
        for key in self.some_additions() {
            let key: Vec<_> = fields.into_iter().zip(key).collect();
            self.add(b"AD", &key);
        }
    }

    /// Amounts of each owner, of other keys or of the common ones'.
    fn own_additions(&mut self) {
        let fields = [ao::OWNER, ao::PROFILE, ao::COST, ao::LEVEL];
        for owner in OWNERS {
            for key in self.some_additions() {
                let key = [i128::from(owner)].into_iter().chain(key);
                let key: Vec<_> = fields.into_iter().zip(key).collect();
                self.add(b"AO", &key);
            }
        }
    }

    /// Profiles, costs and levels that an amount may be added for: all, some or hardly any.
    fn some_additions(&mut self) -> Vec<[i128; 3]> {
        let rarity = self.random.pick(&[1, 6, 12, 12, 12, 40, 40, 1_000]);
        let nuclear = self.technology == Technology::Nuclear;
        let mut keys = Vec::new();
        for level in self.technology.levels() {
            for profile in 1..=4 {
                for cost in 1..=if nuclear { 5 } else { 4 } {
                    if self.random.one_in(rarity) {
                        keys.push([profile, cost, i128::from(*level)]);
                    }
                }
            }
        }
        keys
    }

    /// 0 to 8 items in each profile.
    fn maintenance(&mut self) {
        let rarity = self.random.pick(&[1, 6, 12, 12, 12, 40, 40, 1_000]);
        for profile in 1..=4 {
            for item in 1..=8 {
                if !self.random.one_in(rarity) {
                    continue;
                }
                let mut fields = vec![(mm::PROFILE, profile), (mm::ITEM, item)];
                if self.modest {
                    let output = self.random.between(100, mm::W.highest);
                    let interval = self.random.between(1_000, mm::T.highest);
                    fields.extend([(mm::W, output), (mm::T, interval)]);
                }
                if self.technology != Technology::Thermal {
                    fields.push((mm::S, 0));
                }
                self.add(b"MM", &fields);
            }
        }
    }

    fn thresholds(&mut self) {
        for level in self.technology.levels() {
            for condition in 1..=3 {
                if self.random.one_in(8) {
                    continue;
                }
                let (level, energy) = (i128::from(*level), *level == ENERGY);
                let mut fields = vec![(th::CONDITION, condition), (th::LEVEL, level)];
                if self.modest {
                    let percent = self.random.between(0, 300);
                    let cents = self.random.spread(0, 5_000);
                    let floor = self.random.spread(0, 60_000);
                    let margin = self.random.pick(&[0, 2_500, cents, th::NONE, th::NONE - 1]);
                    fields.push((th::PERCENT, self.random.pick(&[0, 50, percent, 10_000])));
                    fields.push((th::MARGIN, margin));
                    let any = if energy { floor } else { floor * 100 };
                    let floor = self.random.pick(&[0, 0, 2_500, floor, any]);
                    fields.push((th::FLOOR, floor));
                }
                self.add(b"TH", &fields);
            }
        }
    }

    /// Gives each record its issue and, in some dossiers, older ones behind it, or in place of it
    /// several with first hours.
    fn histories(&mut self) {
        let rarity = self.random.pick(&[1_000, 1_000, 8, 8, 4, 1]);
        let turns = dated::turns(self.random);
        let mut length: usize = self.records.iter().map(Vec::len).sum();
        let mut older = Vec::new();
        for i in 0..self.records.len() {
            let most = self.random.pick(&[3, 20, u32::MAX]);
            let newest = self.random.between(0, most.into());
            let newest = self.random.pick(&[newest, most.into()]) as u32;
            set_issue(&mut self.records[i], newest);
            let history = turns.history(self.random, &self.records[i]);
            let longer: usize = history.iter().flatten().map(Vec::len).sum();
            if let Some(history) = history.filter(|_| length + longer <= LONGEST - 500) {
                // whole, or a record that says anything would lose the one that hides it
                length += longer;
                older.extend(history);
                self.records[i].clear();
                continue;
            }
            for (_, record) in self.older(i, newest, rarity) {
                length += record.len();
                // some bytes short of the most, as damage adds records
                if length <= LONGEST - 500 {
                    older.push(record);
                }
            }
        }
        self.records.retain(|record| !record.is_empty());
        self.records.extend(older);
    }

    /// Older issues of a record by issue, with gaps between them: the same key, and the rest in
    /// range but fit or unfit, or the same but for one field.
    fn older(&mut self, i: usize, newest: u32, rarity: u64) -> BTreeMap<u32, Vec<u8>> {
        let mut older = BTreeMap::new();
        while newest > 0 && self.random.one_in(rarity) && older.len() < 4 {
            let before = self.random.between(0, (newest - 1).into()) as u32;
            let issue = self.random.pick(&[0, before, newest - 1]);
            let mut record = self.records[i].clone();
            let kind = super::kind(&record);
            let others = kind.fields.iter().filter(|f| f.role != Role::Key);
            let rest: Vec<Field> = others.copied().collect();
            let one = [self.random.pick(&rest)];
            let changed = if self.random.one_in(2) {
                &one[..]
            } else {
                &rest
            };
            for field in changed {
                let value = value(self.random, *as_in(&record, field));
                field.write(&mut record, value);
            }
            set_issue(&mut record, issue);
            reconcile(&mut record);
            older.insert(issue, record);
            if rarity == 1 && self.random.one_in(2) {
                break;
            }
        }
        older
    }

    /// The order of arrival: newest first, newest last, or any.
    fn arranged(self) -> Draft {
        let mut records = self.records;
        match self.random.below(4) {
            0 => {}
            1 => records.reverse(),
            _ => self.random.shuffle(&mut records),
        }
        Draft {
            technology: self.technology,
            records,
        }
    }
}
