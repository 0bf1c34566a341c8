//! Which records a station of each technology must have and may have, and how far its fields go:
//! what 5 to 9 and 17 ask, as a table. Names, units and ranges are those of the table of marks.

use crate::marks::{listed, Field, Mark};
use crate::unit::Unit;

/// A technology and its records, in the order of the marks.
#[derive(Debug)]
pub struct Technology {
    pub name: &'static str,
    pub needs: &'static [Need],
}

/// The records of one mark at a technology.
#[derive(Debug)]
pub struct Need {
    pub mark: &'static str,
    /// Whether there has to be one.
    pub must: bool,
    /// How many there are, and what holds of them together.
    pub how_many: &'static str,
    /// The fields that go less far than the mark's own range.
    pub limits: Limits,
    /// Records as they may stand in a text. `{}` stands for each of 1 to 50.
    pub samples: Samples,
}

/// How far a field goes at a technology.
#[derive(Clone, Copy, Debug)]
pub enum Limit {
    /// These numbers alone.
    Only(&'static [i128]),
    /// From one number to another.
    From(i128, i128),
    /// The same, in a unit of its own.
    FromIn(i128, i128, &'static str),
    /// As far as elsewhere, in a unit of its own.
    In(&'static str),
}

use Limit::{From, FromIn, In, Only};

const ZERO: Limit = Only(&[0]);
const ENERGY_AND_RESERVE: Limit = Only(&[1, 4]);
const ALL_BUT_PRORATED: Limit = Only(&[1, 2, 3, 4]);

type Limits = &'static [(&'static str, Limit)];
type Samples = &'static [&'static str];

/// A record that has to be there.
const fn must(
    mark: &'static str,
    how_many: &'static str,
    limits: Limits,
    samples: Samples,
) -> Need {
    Need {
        must: true,
        ..may(mark, how_many, limits, samples)
    }
}

/// A record that may be there.
const fn may(mark: &'static str, how_many: &'static str, limits: Limits, samples: Samples) -> Need {
    Need {
        mark,
        must: false,
        how_many,
        limits,
        samples,
    }
}

/// The same records with a first hour, under the mark that shares their keys.
const fn dated(mark: &'static str, need: Need, how_many: &'static str, samples: Samples) -> Need {
    may(mark, how_many, need.limits, samples)
}

/// The same amounts of one owner, under a mark with keys of its own.
const fn owned(need: Need) -> Need {
    may("AO", OWN_ADDERS, need.limits, &[OWN_ADDER])
}

const REQUESTS: Need = may(
    "RQ",
    "up to 16; of those that cover an hour the highest request counts, and without one profile 1",
    &[],
    &["RQ issue=1 request=1 first=6 last=21 profile=1"],
);

const FUEL: &str =
    "one for profile 1 and one for each profile that a request names; an FV does as well";
const ADDERS: &str =
    "one for each profile, cost and level that has such an amount; third-party ones are withdrawn \
    and join no level";
const OWN_ADDERS: &str =
    "one for each owner, profile, cost and level that has such an amount beside the common ones; it \
    counts where this owner is asked for";
const ITEMS: &str = "up to 8 for each profile";
const DATED_FUEL: &str =
    "one for each change of a profile's fuel that is known ahead; hours before the first fuel of \
    a profile have no level";
const DATED_ADDERS: &str = "one for each change of such an amount that is known ahead";
const DATED_ITEMS: &str = "one for each change of an item that is known ahead";
const THRESHOLDS: &str = "one for each condition and level under which offers are tested";
const STATION: &str = "one";

const THERMAL_STATION: &str =
    "RS issue=1 technology=thermal capacity=100.0 factor=1.000 start-heat=500000 \
    no-load-heat=100000 incremental-fuel=0 charge=0.0 efficiency=0.000 window=0";
const POINTS: &str =
    "2 to 21, numbered from 1 without a gap; output rises, heat and its slope don't fall, and \
    the last output is the capacity";
const THERMAL_ITEM: &str =
    "MM issue=1 profile=1 item=1 cost=2000000.00 output=100.0 interval=25000 start-hours=10.0";
const THRESHOLD: &str =
    "TH issue=1 condition=narrow level=energy percent=50 margin=25.00 floor=0.00";
const START_THRESHOLD: &str =
    "TH issue=1 condition=narrow level=start percent=50 margin=none floor=0.00";
const NUCLEAR_STATION: &str =
    "RS issue=1 technology=nuclear capacity=880.0 factor=1.020 start-heat=0 no-load-heat=0 \
    incremental-fuel=24000 charge=0.0 efficiency=0.000 window=0";
const NUCLEAR_ITEM: &str =
    "MM issue=1 profile=1 item=1 cost=41500000.00 output=880.0 interval=17520 start-hours=0.0";
const BATTERY: &str =
    "one; charge / capacity, without its fraction, is at least 1 and at most the window";
const STORAGE_STATION: &str =
    "RS issue=1 technology=storage capacity=80.0 factor=0.000 start-heat=0 no-load-heat=0 \
    incremental-fuel=0 charge=300.0 efficiency=0.800 window=4";
const STORAGE_ITEM: &str =
    "MM issue=1 profile=1 item=1 cost=250000.00 output=80.0 interval=8760 start-hours=0.0";
const INTERVALS: &str =
    "one for each interval of the week in which it charged; without energy in any, LC counts";
const HYDRO_STATION: &str =
    "RS issue=1 technology=hydro capacity=45.0 factor=0.000 start-heat=0 no-load-heat=0 \
    incremental-fuel=0 charge=0.0 efficiency=0.000 window=50";
const HYDRO_ITEM: &str =
    "MM issue=1 profile=1 item=1 cost=900000.00 output=45.0 interval=43800 start-hours=0.0";

const DATED_ADDER: &str =
    "AV issue=2 first=7320 profile=1 cost=consumables level=energy amount=1.65";
const OWN_ADDER: &str = "AO issue=1 owner=2 profile=1 cost=consumables level=energy amount=0.75";
const DATED_THERMAL_ITEM: &str = "MV issue=2 first=7320 profile=1 item=1 cost=2150000.00 \
    output=100.0 interval=25000 start-hours=10.0";
const DATED_NUCLEAR_ITEM: &str = "MV issue=2 first=7320 profile=1 item=1 cost=43000000.00 \
    output=880.0 interval=17520 start-hours=0.0";
const DATED_STORAGE_ITEM: &str = "MV issue=2 first=7320 profile=1 item=1 cost=265000.00 \
    output=80.0 interval=8760 start-hours=0.0";
const DATED_HYDRO_ITEM: &str = "MV issue=2 first=7320 profile=1 item=1 cost=950000.00 \
    output=45.0 interval=43800 start-hours=0.0";

const THERMAL_FUEL: Need = must(
    "FU",
    FUEL,
    &[("fuel", In("dollars per GJ"))],
    &["FU issue=1 profile=1 fuel=4.00 emission=1.00"],
);
const THERMAL_ADDERS: Need = may(
    "AD",
    ADDERS,
    &[("cost", ALL_BUT_PRORATED)],
    &[
        "AD issue=1 profile=1 cost=consumables level=energy amount=1.50",
        "AD issue=1 profile=1 cost=consumables level=reserve amount=0.25",
    ],
);
const THERMAL_ITEMS: Need = may("MM", ITEMS, &[], &[THERMAL_ITEM]);
const NUCLEAR_FUEL: Need = must(
    "FU",
    FUEL,
    &[
        ("fuel", In("dollars per kg of uranium")),
        ("emission", ZERO),
    ],
    &["FU issue=1 profile=1 fuel=310.00 emission=0.00"],
);
const NUCLEAR_ADDERS: Need = may(
    "AD",
    ADDERS,
    &[("level", Only(&[1]))],
    &[
        "AD issue=1 profile=1 cost=scheduled level=energy amount=3.20",
        "AD issue=1 profile=1 cost=prorated-start level=energy amount=0.85",
    ],
);
const NUCLEAR_ITEMS: Need = may("MM", ITEMS, &[("start-hours", ZERO)], &[NUCLEAR_ITEM]);
const STORAGE_FUEL: Need = must(
    "FU",
    FUEL,
    &[
        ("fuel", In("dollars per MWh, beside the price of energy")),
        ("emission", ZERO),
    ],
    &["FU issue=1 profile=1 fuel=0.75 emission=0.00"],
);
const STORAGE_ADDERS: Need = may(
    "AD",
    ADDERS,
    &[("cost", ALL_BUT_PRORATED), ("level", ENERGY_AND_RESERVE)],
    &["AD issue=1 profile=1 cost=consumables level=reserve amount=0.10"],
);
const STORAGE_ITEMS: Need = may("MM", ITEMS, &[("start-hours", ZERO)], &[STORAGE_ITEM]);
const HYDRO_FUEL: Need = must(
    "FU",
    FUEL,
    &[("fuel", ZERO), ("emission", ZERO)],
    &["FU issue=1 profile=1 fuel=0.00 emission=0.00"],
);
const HYDRO_ADDERS: Need = may(
    "AD",
    ADDERS,
    &[("cost", ALL_BUT_PRORATED), ("level", ENERGY_AND_RESERVE)],
    &["AD issue=1 profile=1 cost=unscheduled level=energy amount=2.35"],
);
const HYDRO_ITEMS: Need = may("MM", ITEMS, &[("start-hours", ZERO)], &[HYDRO_ITEM]);

/// At a station that holds energy and reserve.
const TWO_THRESHOLDS: Need = may(
    "TH",
    THRESHOLDS,
    &[("level", ENERGY_AND_RESERVE)],
    &[THRESHOLD],
);

pub static TECHNOLOGIES: [Technology; 4] = [
    Technology {
        name: "thermal",
        needs: &[
            must(
                "RS",
                STATION,
                &[
                    ("technology", Only(&[1])),
                    ("factor", From(500, 2_000)),
                    ("incremental-fuel", ZERO),
                    ("charge", ZERO),
                    ("efficiency", ZERO),
                    ("window", ZERO),
                ],
                &[THERMAL_STATION],
            ),
            must(
                "HP",
                POINTS,
                &[],
                &[
                    "HP issue=1 point=1 output=50.0 heat=500000",
                    "HP issue=1 point=2 output=100.0 heat=900000",
                ],
            ),
            THERMAL_FUEL,
            dated(
                "FV",
                THERMAL_FUEL,
                DATED_FUEL,
                &["FV issue=2 first=7320 profile=1 fuel=5.10 emission=1.00"],
            ),
            THERMAL_ADDERS,
            dated("AV", THERMAL_ADDERS, DATED_ADDERS, &[DATED_ADDER]),
            owned(THERMAL_ADDERS),
            THERMAL_ITEMS,
            dated("MV", THERMAL_ITEMS, DATED_ITEMS, &[DATED_THERMAL_ITEM]),
            REQUESTS,
            may("TH", THRESHOLDS, &[], &[THRESHOLD, START_THRESHOLD]),
        ],
    },
    Technology {
        name: "nuclear",
        needs: &[
            must(
                "RS",
                STATION,
                &[
                    ("technology", Only(&[2])),
                    ("factor", From(500, 2_000)),
                    ("start-heat", ZERO),
                    ("no-load-heat", ZERO),
                    ("incremental-fuel", From(1, 1_000_000)),
                    ("charge", ZERO),
                    ("efficiency", ZERO),
                    ("window", ZERO),
                ],
                &[NUCLEAR_STATION],
            ),
            NUCLEAR_FUEL,
            dated(
                "FV",
                NUCLEAR_FUEL,
                DATED_FUEL,
                &["FV issue=2 first=7320 profile=1 fuel=322.00 emission=0.00"],
            ),
            NUCLEAR_ADDERS,
            dated("AV", NUCLEAR_ADDERS, DATED_ADDERS, &[DATED_ADDER]),
            owned(NUCLEAR_ADDERS),
            NUCLEAR_ITEMS,
            dated("MV", NUCLEAR_ITEMS, DATED_ITEMS, &[DATED_NUCLEAR_ITEM]),
            REQUESTS,
            may("TH", THRESHOLDS, &[("level", Only(&[1]))], &[THRESHOLD]),
        ],
    },
    Technology {
        name: "storage",
        needs: &[
            must(
                "RS",
                BATTERY,
                &[
                    ("technology", Only(&[3])),
                    ("factor", ZERO),
                    ("start-heat", ZERO),
                    ("no-load-heat", ZERO),
                    ("incremental-fuel", ZERO),
                    ("charge", From(1, 1_000_000)),
                    ("efficiency", From(500, 1_000)),
                    ("window", From(1, 168)),
                ],
                &[STORAGE_STATION],
            ),
            STORAGE_FUEL,
            dated(
                "FV",
                STORAGE_FUEL,
                DATED_FUEL,
                &["FV issue=2 first=7320 profile=1 fuel=0.82 emission=0.00"],
            ),
            STORAGE_ADDERS,
            dated("AV", STORAGE_ADDERS, DATED_ADDERS, &[DATED_ADDER]),
            owned(STORAGE_ADDERS),
            STORAGE_ITEMS,
            dated("MV", STORAGE_ITEMS, DATED_ITEMS, &[DATED_STORAGE_ITEM]),
            REQUESTS,
            must(
                "HR",
                "one for each hour from 1 to the window",
                &[],
                &[
                    "HR issue=1 hour=1 price=106.40",
                    "HR issue=1 hour=2 price=205.50",
                    "HR issue=1 hour=3 price=302.50",
                    "HR issue=1 hour=4 price=98.15",
                ],
            ),
            may(
                "CH",
                INTERVALS,
                &[],
                &["CH issue=1 interval=13 price=20.00 energy=1000"],
            ),
            TWO_THRESHOLDS,
            may("LC", "one", &[], &["LC issue=1 cost=21.40"]),
        ],
    },
    Technology {
        name: "hydro",
        needs: &[
            must(
                "RS",
                STATION,
                &[
                    ("technology", Only(&[4])),
                    ("factor", ZERO),
                    ("start-heat", ZERO),
                    ("no-load-heat", ZERO),
                    ("incremental-fuel", ZERO),
                    ("charge", ZERO),
                    ("efficiency", ZERO),
                    ("window", FromIn(50, 4_000, "places of the forecast")),
                ],
                &[HYDRO_STATION],
            ),
            HYDRO_FUEL,
            dated(
                "FV",
                HYDRO_FUEL,
                DATED_FUEL,
                &["FV issue=2 first=7320 profile=1 fuel=0.00 emission=0.00"],
            ),
            HYDRO_ADDERS,
            dated("AV", HYDRO_ADDERS, DATED_ADDERS, &[DATED_ADDER]),
            owned(HYDRO_ADDERS),
            HYDRO_ITEMS,
            dated("MV", HYDRO_ITEMS, DATED_ITEMS, &[DATED_HYDRO_ITEM]),
            REQUESTS,
            TWO_THRESHOLDS,
            must(
                "FP",
                "one for each place from 1 to the window",
                &[],
                &["FP issue=1 place={} price=48.50"],
            ),
        ],
    },
];

impl Technology {
    pub fn of(name: &str) -> Option<&'static Technology> {
        TECHNOLOGIES.iter().find(|t| t.name == name)
    }

    /// The records of a mark, if the technology may have any.
    pub fn need(&self, mark: &str) -> Option<&'static Need> {
        self.needs.iter().find(|need| need.mark == mark)
    }
}

impl Need {
    pub fn mark(&self) -> Option<&'static Mark> {
        Mark::of(self.mark.as_bytes())
    }

    pub fn limit(&self, field: &str) -> Option<Limit> {
        let limit = self.limits.iter().find(|(name, _)| *name == field);
        limit.map(|(_, limit)| *limit)
    }

    /// Whether a number of a field fits here.
    pub fn allows(&self, field: &Field, number: i128) -> bool {
        match self.limit(field.name) {
            Some(Only(numbers)) => numbers.contains(&number),
            Some(From(lowest, highest) | FromIn(lowest, highest, _)) => {
                (lowest..=highest).contains(&number)
            }
            Some(In(_)) | None => field.allows(number),
        }
    }

    /// The range of a field in words, as far as it goes here.
    pub fn range(&self, field: &Field) -> String {
        let range = |lowest, highest, or_zero, name| {
            let unit = Unit { name, ..field.unit };
            let field = Field {
                lowest,
                highest,
                or_zero,
                unit,
                ..*field
            };
            field.range()
        };
        // What stands between brackets behind a unit is said of other technologies.
        let name = field.unit.name.split(" (").next().unwrap_or("");
        match self.limit(field.name) {
            None => field.range(),
            Some(In(unit)) => range(field.lowest, field.highest, field.or_zero, unit),
            Some(From(lowest, highest)) => range(lowest, highest, false, name),
            Some(FromIn(lowest, highest, unit)) => range(lowest, highest, false, unit),
            Some(Only(numbers)) => {
                let words: Vec<String> = numbers.iter().map(|n| field.unit.write(*n)).collect();
                listed(&words.iter().map(String::as_str).collect::<Vec<_>>())
            }
        }
    }

    /// The sample records, one a line.
    pub fn lines(&self) -> Vec<String> {
        let line = |sample: &&str| match sample.contains("{}") {
            true => (1..=50)
                .map(|n: u8| sample.replace("{}", &n.to_string()))
                .collect(),
            false => vec![sample.to_string()],
        };
        self.samples.iter().flat_map(line).collect()
    }
}
