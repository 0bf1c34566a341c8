//! Forecasts of hydroelectric stations: full ones in every order, and those at the edges.

use super::written::{hydro, record};
use crate::random::Random;

/// How a list goes.
#[derive(Clone, Copy, Debug)]
pub enum Order {
    Rising,
    Falling,
    Any,
}

/// Each order with each, of arrival and of prices or of issues and of first hours.
pub fn orders() -> impl Iterator<Item = (Order, Order)> {
    let orders = [Order::Rising, Order::Falling, Order::Any];
    let pairs = orders.map(|arrival| orders.map(|prices| (arrival, prices)));
    pairs.into_iter().flatten()
}

impl Order {
    /// Puts a list that rises into this order.
    pub(super) fn arrange<T>(self, list: &mut [T]) {
        match self {
            Order::Rising => {}
            Order::Falling => list.reverse(),
            Order::Any => Random::new(list.len() as u64).shuffle(list),
        }
    }
}

/// A station with all 4,000 places, some costs, and a threshold for each of its levels. `arrival`
/// is the order in which the places lie in the dossier, `prices` that of their prices by place.
pub fn full(arrival: Order, prices: Order) -> Vec<u8> {
    // 0.25 dollar apart, up to 500.00
    let mut by_place: Vec<i128> = (1..=4_000).map(|n| 25 * n - 50_000).collect();
    prices.arrange(&mut by_place);
    let places = (1..).zip(by_place);
    let mut places: Vec<_> = places.map(|(n, p)| record(b"FP", 1, &[n, p])).collect();
    arrival.arrange(&mut places);
    let costs = [
        record(b"RS", 1, &[4, 1_000, 0, 0, 0, 0, 0, 0, 4_000]),
        record(b"FU", 1, &[1, 0, 0]),
        record(b"AD", 1, &[1, 3, 1, 1_500_000]),
        record(b"AD", 1, &[1, 3, 4, 250_000]),
        record(b"MM", 1, &[1, 1, 200_000_000, 1_000, 25_000, 0]),
        record(b"TH", 1, &[1, 1, 50, 2_500, 0]),
        record(b"TH", 1, &[1, 4, 50, 2_500, 0]),
    ];
    [costs.concat(), places.concat()].concat()
}

/// What a full forecast's energy level is, in cents: the 80th highest price, 1.50 and 0.80.
pub const FULL_LEVEL: u64 = 48_025 + 150 + 80;

/// Full forecasts, one with older issues as far as 60,000 bytes reach, windows about the steps of
/// the place from the top, prices about 0, and each of these once more without its last record.
pub fn edges() -> Vec<Vec<u8>> {
    let mut edges: Vec<Vec<u8>> = orders().map(|(a, p)| full(a, p)).collect();
    let older = (1..=988).flat_map(|place| record(b"FP", 0, &[place, 200_000]));
    edges.push(edges[0].iter().copied().chain(older).collect());
    for window in [1, 49, 50, 51, 99, 100, 149, 150, 168, 169, 2_928, 3_999] {
        let rising: Vec<i128> = (1..=window).collect();
        edges.push(hydro(&rising));
    }
    edges.extend([-1, 0, 1].map(|price| hydro(&[price; 100])));
    let shorter: Vec<_> = edges.iter().map(|d| d[..d.len() - 12].to_vec()).collect();
    edges.extend(shorter);
    edges
}
