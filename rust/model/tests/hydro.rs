//! Hydroelectric stations: document 000's own case, the place from the top, what draws 3, 6 and 17,
//! and in which order.

mod common;

use common::{energy_level, with};
use model::accept::accepted;
use model::costs::forecast_price;
use model::dossier::{records, LONGEST};
use model::make::forecast::{edges, full, orders, FULL_LEVEL};
use model::make::sound::sound_of;
use model::make::written::{hydro, plain_thermal, record};
use model::raise::is_raise;
use model::random::Random;
use model::table::{rs, Technology};
use model::{
    accept, current, energy_test, price_test, program, refuse, report, Failing, Verdict, OWNER,
};
use std::collections::BTreeSet;

/// Prices 1 to `count` cents in any order.
fn any_order(count: i128) -> Vec<i128> {
    let mut prices: Vec<i128> = (1..=count).collect();
    Random::new(count as u64).shuffle(&mut prices);
    prices
}

/// A hydroelectric station of 50 places at 10.00.
fn plain() -> Vec<u8> {
    hydro(&[1_000; 50])
}

/// Document 000, "Determining the Approach 1 Selected Value": 122 days from 5 April to 4 August,
/// 2,928 hours, the value that is greater than 98% of the prices, the 58th highest.
#[test]
fn the_58th_highest_of_2_928() {
    let days = [26, 31, 30, 31, 4];
    let hours = 24 * days.iter().sum::<i128>();
    assert_eq!(hours, 2_928);
    let greater_than_98_percent = |place: i128| (hours - place) * 100 > 98 * hours;
    assert!(greater_than_98_percent(58) && !greater_than_98_percent(59));
    assert_eq!(energy_level(&hydro(&any_order(hours))), 2_928 - 57);
    let mut rising: Vec<i128> = (1..=hours).collect();
    assert_eq!(energy_level(&hydro(&rising)), 2_928 - 57);
    rising.reverse();
    assert_eq!(energy_level(&hydro(&rising)), 2_928 - 57);
}

#[test]
fn the_place_from_the_top_drops_its_fraction() {
    let places = [
        (50, 1),
        (99, 1),
        (100, 2),
        (149, 2),
        (150, 3),
        (3_999, 79),
        (4_000, 80),
    ];
    for (window, place) in places {
        let level = energy_level(&hydro(&any_order(window)));
        assert_eq!(level, window as u64 + 1 - place);
    }
}

#[test]
fn equal_prices_count_each() {
    let mut prices = [5_000; 150];
    let places: [usize; 3] = [0, 77, 149];
    for (place, level) in places.into_iter().zip([5_000, 5_000, 9_000]) {
        prices[place] = 9_000;
        assert_eq!(energy_level(&hydro(&prices)), level);
    }
}

#[test]
fn a_negative_price_counts_as_0() {
    let addition = [record(b"AD", 1, &[1, 3, 1, 2_500_000])];
    for highest in [-200_000, -1, 0] {
        let mut prices = [highest; 100];
        // the second highest counts
        prices[63] = 7_000;
        let dossier = hydro(&prices);
        assert_eq!(energy_level(&dossier), 0);
        assert_eq!(energy_level(&with(dossier, &addition)), 250);
    }
}

#[test]
fn additions_maintenance_and_reserve() {
    let costs = [
        record(b"AD", 1, &[1, 3, 1, 1_500_000]),
        record(b"AD", 1, &[1, 3, 4, 250_000]),
        record(b"MM", 1, &[1, 1, 200_000_000, 1_000, 25_000, 0]),
    ];
    // 10.00 + 1.50 + 0.80
    let lines = b"profile 1\nenergy 1 0.0 100.0 12.30\nreserve 0.25\nretired 0\n";
    assert_eq!(
        program(&with(vec![0; 4], &[plain(), costs.concat()])),
        lines
    );
    let bare = b"profile 1\nenergy 1 0.0 100.0 10.00\nreserve 0.00\nretired 0\n";
    assert_eq!(program(&with(vec![0; 4], &[plain()])), bare);
}

/// A place past the window and an older issue of a place say nothing, wherever they lie.
#[test]
fn what_does_not_count() {
    let more = [
        record(b"FP", 1, &[51, 9_000]),
        record(b"FP", 0, &[7, 9_000]),
    ];
    assert_eq!(energy_level(&with(plain(), &more)), 1_000);
    assert_eq!(energy_level(&with(more.concat(), &[plain()])), 1_000);
    let newer = record(b"FP", 2, &[7, 9_000]);
    assert_eq!(energy_level(&with(plain(), &[newer])), 9_000);
}

#[test]
fn full_forecasts_in_every_order() {
    for (arrival, prices) in orders() {
        assert_eq!(energy_level(&full(arrival, prices)), FULL_LEVEL);
    }
    let (accepted, refused): (Vec<_>, Vec<_>) =
        edges().into_iter().partition(|d| accept(d).is_ok());
    assert!(accepted.iter().any(|d| d.len() > LONGEST - 12));
    assert!(!refused.is_empty() && refused.iter().all(|d| accept(d) == refuse(17, d.len())));
}

/// The maker makes windows of every sort, places with several issues, and levels of 0.
#[test]
fn made_forecasts() {
    let mut random = Random::new(98);
    let mut windows = BTreeSet::new();
    let (mut several, mut nothing) = (0, 0);
    for _ in 0..8_000 {
        let dossier = sound_of(&mut random, Technology::Hydro).bytes();
        assert!(dossier.len() <= LONGEST);
        let station = accepted(&dossier).unwrap();
        windows.insert(station.amount(rs::WINDOW));
        let all = records(&dossier).unwrap();
        let places = all.iter().filter(|r| r.kind.mark == *b"FP").count();
        several += usize::from(places > station.current.of_mark(b"FP").count());
        nothing += usize::from(forecast_price(&station) < 0);
    }
    let wanted = [50, 51, 99, 100, 149, 150, 2_928, 3_999, 4_000];
    assert!(wanted.iter().all(|window| windows.contains(window)));
    assert!(several > 1_000 && nothing > 1_000);
}

#[test]
fn a_window_under_50_or_a_missing_place() {
    let answer = |window: i128, places: &[i128]| {
        let mut dossier = record(b"RS", 1, &[4, 1_000, 0, 0, 0, 0, 0, 0, window]);
        dossier.extend(record(b"FU", 1, &[1, 0, 0]));
        dossier.extend(places.iter().flat_map(|p| record(b"FP", 1, &[*p, 1_000])));
        (accept(&dossier), refuse(17, dossier.len()))
    };
    let all: Vec<i128> = (1..=4_000).collect();
    for window in [1, 49] {
        let (answer, seventeen) = answer(window, &all[..60]);
        assert_eq!(answer, seventeen);
    }
    for window in [50, 51, 168, 169, 4_000] {
        assert_eq!(answer(window, &all[..window as usize]).0, Ok(()));
        for missing in [1, 25, window] {
            let mut places = all.clone();
            places.remove(missing as usize - 1);
            let (answer, seventeen) = answer(window, &places);
            assert_eq!(answer, seventeen);
        }
    }
    let (answer, _) = answer(0, &all[..60]);
    assert_eq!(answer, refuse(6, 0));
}

/// A window that draws 17, with each earlier fault in turn, and with faults of the offer, the level
/// and the buffer, which come later.
#[test]
fn seventeen_comes_after_8_and_before_12() {
    let short = hydro(&[1_000; 49]);
    let drawn = |dossier: &[u8]| accept(dossier).unwrap_err().number;
    let no_fuel = [&short[..31], &short[46..]].concat();
    assert_eq!(drawn(&no_fuel), 8);
    let request = record(b"RQ", 1, &[1, 0, 0, 2]);
    assert_eq!(drawn(&with(short.clone(), &[request])), 8);
    let fuel = record(b"FU", 2, &[1, 1, 0]);
    assert_eq!(drawn(&with(short.clone(), &[fuel])), 6);
    let twin = record(b"FP", 1, &[49, 0]);
    assert_eq!(drawn(&with(short.clone(), &[twin])), 4);
    let seventeen = short.len();
    assert_eq!(price_test(&short, 0, OWNER, 9, 9, 0), refuse(17, seventeen));
    assert_eq!(energy_test(&short, 0, OWNER, 9, &[]), refuse(17, seventeen));
    assert_eq!(report(&short, 0, OWNER, &mut []), refuse(17, seventeen));
    let line = format!("refused 17 at {}\n", short.len());
    assert_eq!(program(&with(vec![0; 4], &[short])), line.as_bytes());
}

#[test]
fn ranges() {
    let rs = |technology, window| record(b"RS", 1, &[technology, 1_000, 0, 0, 0, 0, 0, 0, window]);
    for technology in 1..=3 {
        assert_eq!(accept(&rs(technology, 168)), refuse(6, 0));
        assert_eq!(accept(&rs(technology, 169)), refuse(3, 0));
        assert_eq!(accept(&rs(technology, 4_000)), refuse(3, 0));
    }
    assert_eq!(accept(&rs(4, 4_000)), refuse(8, 31));
    assert_eq!(accept(&rs(4, 4_001)), refuse(3, 0));
    assert_eq!(accept(&rs(5, 100)), refuse(3, 0));
    for (place, price) in [(0, 0), (4_001, 0), (1, -200_001), (1, 200_001)] {
        let dossier = with(plain(), &[record(b"FP", 2, &[place, price])]);
        assert_eq!(accept(&dossier), refuse(3, plain().len()));
    }
    // An RS that isn't current goes by its own technology too.
    let old = |technology| record(b"RS", 0, &[technology, 1, 0, 0, 0, 0, 0, 0, 4_000]);
    assert_eq!(accept(&with(plain_thermal(), &[old(4)])), Ok(()));
    let place = plain().len();
    assert_eq!(accept(&with(plain(), &[old(3)])), refuse(3, place));
}

#[test]
fn what_does_not_fit() {
    let unfit = [
        record(b"RS", 2, &[4, 1_000, 500, 0, 0, 0, 0, 0, 50]),
        record(b"RS", 2, &[4, 1_000, 0, 1, 0, 0, 0, 0, 50]),
        record(b"RS", 2, &[4, 1_000, 0, 0, 1, 0, 0, 0, 50]),
        record(b"RS", 2, &[4, 1_000, 0, 0, 0, 1, 0, 0, 50]),
        record(b"RS", 2, &[4, 1_000, 0, 0, 0, 0, 1, 0, 50]),
        record(b"RS", 2, &[4, 1_000, 0, 0, 0, 0, 0, 500, 50]),
        record(b"HP", 1, &[1, 0, 0]),
        record(b"HR", 1, &[1, 0]),
        record(b"CH", 1, &[1, 0, 0]),
        record(b"FU", 2, &[1, 1, 0]),
        record(b"FU", 2, &[1, 0, 1]),
        record(b"FU", 1, &[4, 1, 0]),
        record(b"AD", 1, &[1, 1, 2, 0]),
        record(b"AD", 1, &[1, 1, 3, 0]),
        record(b"AD", 1, &[1, 5, 1, 0]),
        record(b"MM", 1, &[1, 1, 0, 1, 1, 1]),
        record(b"TH", 1, &[1, 2, 0, 0, 0]),
        record(b"TH", 1, &[1, 3, 0, 0, 0]),
    ];
    for record in unfit {
        let dossier = with(plain(), &[record]);
        assert_eq!(accept(&dossier), refuse(6, plain().len()));
    }
    let place = record(b"FP", 1, &[1, 0]);
    let thermal = with(plain_thermal(), &[place]);
    assert_eq!(accept(&thermal), refuse(6, plain_thermal().len()));
    // an older issue may be unfit
    let old = record(b"FU", 0, &[1, 400_000_000, 1]);
    assert_eq!(accept(&with(plain(), &[old])), Ok(()));
}

#[test]
fn the_lookup_works_on_a_dossier_that_draws_17() {
    let newer = record(b"FP", 7, &[258, -5]);
    let dossier = with(
        hydro(&[1_000; 49]),
        &[newer.clone(), record(b"FP", 6, &[258, 0])],
    );
    assert_eq!(accept(&dossier), refuse(17, dossier.len()));
    assert_eq!(current(&dossier, b"FP", &[1, 2]), newer);
    for absent in [&[1, 3][..], &[2], &[0, 0], &[0, 1, 2], &[0x0F, 0xA1]] {
        assert!(current(&dossier, b"FP", absent).is_empty());
    }
}

#[test]
fn levels_1_and_4_are_held() {
    let thresholds = [1, 4].map(|level| record(b"TH", 1, &[1, level, 0, 0, 0]));
    let dossier = with(plain(), &thresholds);
    for level in [0, 1, 2, 3, 5] {
        assert_eq!(price_test(&dossier, 0, OWNER, level, 1, 0), refuse(12, 0));
    }
    assert_eq!(price_test(&dossier, 0, OWNER, 4, 1, 0), Ok(Verdict::Passes));
    assert_eq!(price_test(&dossier, 0, OWNER, 4, 2, 0), refuse(14, 0));
    let offer = |quantity: u16, price: i32| {
        let offer = model::make::offers::bytes(&[(quantity, price)]);
        energy_test(&dossier, 0, OWNER, 1, &offer)
    };
    let fails = Verdict::Fails(Failing {
        pair: 1,
        lamination: 1,
    });
    assert_eq!(offer(1_000, 1_000), Ok(Verdict::Passes));
    assert_eq!(offer(1, 1_001), Ok(fails));
    assert_eq!(offer(1_001, 0), refuse(11, 0));
}

/// Forecast prices are money, past the window and in older issues too; the fuel prices stay.
#[test]
fn a_raise_moves_forecast_prices_alone() {
    let dossier = |past: i128, old: i128, fuel: i128| {
        let more = [
            record(b"FP", 1, &[4_000, past]),
            record(b"FP", 0, &[1, old]),
            record(b"FU", 0, &[1, fuel, 0]),
        ];
        with(plain(), &more)
    };
    let before = dossier(-200_000, -1, 5);
    assert!(is_raise(&before, &dossier(200_000, -1, 5)));
    assert!(is_raise(&before, &dossier(-200_000, 0, 5)));
    assert!(!is_raise(&before, &dossier(-200_000, -2, 5)));
    assert!(!is_raise(&before, &dossier(200_001, -1, 5)));
    assert!(!is_raise(&before, &dossier(-200_000, -1, 6)));
    let dearer = with(hydro(&[1_001; 50]), &[before[plain().len()..].to_vec()]);
    assert!(is_raise(&before, &dearer));
}
