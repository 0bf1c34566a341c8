//! The heart of a sound dossier: an RS with its curve, its fuel, its prices and charging, or its
//! forecast.

use super::sound::Maker;
use super::value;
use crate::table::{ch, fp, hp, hr, kind_of, rs, Field, Technology};
use std::collections::BTreeSet;

impl Maker<'_> {
    /// A value of a field that must not be 0.
    fn above_zero(&mut self, field: Field) -> i128 {
        loop {
            let value = value(self.random, field);
            if value > 0 {
                return value;
            }
        }
    }

    /// The RS: these fields, and 0 in the others that only some technologies use.
    fn station(&mut self, technology: Technology, capacity: i128, used: &[(Field, i128)]) {
        let all = kind_of(b"RS").expect("a known mark").fields.iter();
        let mut fields: Vec<(Field, i128)> = all.map(|field| (*field, 0)).collect();
        fields.push((rs::TECHNOLOGY, technology.byte()));
        fields.push((rs::CAPACITY, capacity));
        fields.extend_from_slice(used);
        self.add(b"RS", &fields);
    }

    pub fn thermal(&mut self) {
        let capacity = value(self.random, rs::CAPACITY);
        let used = [
            (rs::FACTOR, self.above_zero(rs::FACTOR)),
            (rs::START_HEAT, value(self.random, rs::START_HEAT)),
            (rs::NO_LOAD_HEAT, value(self.random, rs::NO_LOAD_HEAT)),
        ];
        self.station(Technology::Thermal, capacity, &used);
        let outputs = self.outputs(capacity);
        let heats = self.heats(&outputs);
        for (point, (output, heat)) in (1..).zip(outputs.into_iter().zip(heats)) {
            let fields = [(hp::POINT, point), (hp::OUTPUT, output), (hp::HEAT, heat)];
            self.add(b"HP", &fields);
        }
    }

    /// 2 to 21 outputs that rise to the capacity; the first may be 0.
    fn outputs(&mut self, capacity: i128) -> Vec<i128> {
        let most = 21.min(capacity + 1);
        let some = self.random.between(2, most);
        let count = self.random.pick(&[2, some, some, most]) as usize;
        let lowest = if self.random.one_in(4) {
            capacity + 1 - count as i128
        } else {
            0
        };
        let mut outputs = BTreeSet::from([capacity]);
        while outputs.len() < count {
            outputs.insert(self.random.between(lowest, capacity));
        }
        outputs.into_iter().collect()
    }

    /// Heats over these outputs whose slope never falls.
    fn heats(&mut self, outputs: &[i128]) -> Vec<i128> {
        let mut steepest = if self.modest { 3_000 } else { hp::HEAT.highest };
        let idle = self.random.spread(0, hp::HEAT.highest);
        while steepest > 0 {
            if let Some(heats) = self.convex(outputs, idle, steepest) {
                return heats;
            }
            steepest /= 8;
        }
        vec![idle; outputs.len()]
    }

    fn convex(&mut self, outputs: &[i128], idle: i128, steepest: i128) -> Option<Vec<i128>> {
        let mut heats = vec![idle];
        let mut slope = (0, 1);
        for ends in outputs.windows(2) {
            let output = ends[1] - ends[0];
            let (heat, over) = slope;
            // at least the slope so far, rounded up to a whole heat
            let mut rise = (heat * output + over - 1) / over;
            if !self.random.one_in(3) {
                rise += self.random.spread(0, steepest * output / 4);
            }
            let left = hp::HEAT.highest - heats.last()?;
            if outputs.len() == 2 && !self.modest && self.random.one_in(2) {
                rise = left;
            }
            if rise > left {
                return None;
            }
            slope = (rise, output);
            heats.push(heats.last()? + rise);
        }
        Some(heats)
    }

    pub fn nuclear(&mut self) {
        let capacity = value(self.random, rs::CAPACITY);
        let used = if self.modest {
            self.random.between(1, 100_000)
        } else {
            self.above_zero(rs::INCREMENTAL_FUEL)
        };
        let factor = self.above_zero(rs::FACTOR);
        let used = [(rs::FACTOR, factor), (rs::INCREMENTAL_FUEL, used)];
        self.station(Technology::Nuclear, capacity, &used);
    }

    pub fn storage(&mut self) {
        let small = self.random.between(1, 8);
        let any = self.random.between(1, 168);
        let window = match self.random.below(12) {
            0 => 168,
            1 => any,
            _ => small,
        };
        let inside = self.random.between(1, window);
        let x = self.random.pick(&[1, inside, inside, window]);
        // capacity × X + rest must stay within the charge's range
        let most = 20_000.min(rs::CHARGE.highest / (x + 1));
        let capacity = value(self.random, rs::CAPACITY).min(most);
        let rest = self.random.between(0, capacity - 1);
        let rest = self.random.pick(&[0, rest, capacity - 1]);
        let efficiency = self.above_zero(rs::EFFICIENCY);
        let used = [
            (rs::CHARGE, capacity * x + rest),
            (rs::EFFICIENCY, efficiency),
            (rs::WINDOW, window),
        ];
        self.station(Technology::Storage, capacity, &used);
        for hour in 1..=window {
            self.add(b"HR", &[(hr::HOUR, hour)]);
        }
        for hour in window + 1..=168.min(window + 4) {
            if self.random.one_in(8) {
                self.add(b"HR", &[(hr::HOUR, hour)]);
            }
        }
        self.charging();
        if self.random.one_in(2) {
            self.add(b"LC", &[]);
        }
    }

    /// From no interval at all to a full week, the larger the rarer; some weeks with no energy.
    fn charging(&mut self) {
        let count = match self.random.below(1_500) {
            0 => 2_016,
            1..=30 => self.random.between(50, 300),
            31..=300 => 0,
            _ => self.random.between(1, 6),
        };
        let idle = self.random.one_in(5);
        let mut intervals = BTreeSet::new();
        while intervals.len() < count as usize {
            let interval = self.random.between(1, 2_016);
            if !intervals.insert(interval) {
                continue;
            }
            let energy = value(self.random, ch::ENERGY);
            let energy = if idle { 0 } else { energy };
            self.add(b"CH", &[(ch::INTERVAL, interval), (ch::ENERGY, energy)]);
        }
    }

    pub fn hydro(&mut self) {
        let capacity = value(self.random, rs::CAPACITY);
        let window = self.forecast();
        self.station(Technology::Hydro, capacity, &[(rs::WINDOW, window)]);
        // few prices, so that many are equal; many; and hardly one or none above 0
        let prices = [
            (100, -20, 60),
            (1, -2_000, 15_000),
            (1, -200_000, 200_000),
            (10, -40, 0),
            (1, -500, -1),
        ];
        let (step, low, high) = self.random.pick(&prices);
        let beyond = (window + 1..=4_000).filter(|p| *p <= window + 4 || *p == 4_000);
        let beyond: Vec<i128> = beyond.filter(|_| self.random.one_in(8)).collect();
        for place in (1..=window).chain(beyond) {
            let price = step * self.random.between(low, high);
            self.add(b"FP", &[(fp::PLACE, place), (fp::PRICE, price)]);
        }
    }

    /// The places of a window: most of the time few, with the steps of the place from the top.
    fn forecast(&mut self) -> i128 {
        match self.random.below(400) {
            0 => self.random.pick(&[2_928, 3_999, 4_000]),
            1..=8 => self.random.between(169, 1_000),
            9..=99 => self.random.between(50, 200),
            _ => self.random.pick(&[50, 50, 51, 99, 100]),
        }
    }
}
