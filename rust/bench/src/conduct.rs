//! The conduct test.

use crate::{raw, Refusal, Word};

/// What the conduct test says of an offer.
#[derive(Clone, Copy, Debug, PartialEq, Eq)]
pub enum Verdict {
    /// No price in it is both at least the floor and above the limit.
    Passes,
    /// Some price is, of which this is the first.
    Fails(Failing),
}

/// Where an offer fails first.
#[derive(Clone, Copy, Debug, PartialEq, Eq)]
pub struct Failing {
    /// The pair, from 1; 0 for a single price.
    pub pair: usize,
    /// Of the laminations in which the pair fails the lowest, from 1; 0 for a single price.
    pub lamination: usize,
}

fn verdict(word: u64) -> Result<Verdict, Refusal> {
    match Word::of(word) {
        Word::Value(0) => Ok(Verdict::Passes),
        Word::Value(value) => panic!("the library passed with value {value}"),
        Word::Fails(failing) => Ok(Verdict::Fails(failing)),
        Word::Refused(refusal) => Err(refusal),
    }
}

/// Puts an owner's energy offer to the test at an hour and under a condition (1 to 3).
///
/// An offer is 1 to 20 pairs of six bytes, each a quantity in 0.1 MW (two bytes) and a price in cents
/// per MWh (four bytes, two's complement), the high byte first. Quantities rise and prices don't
/// fall. A pair reaches from the quantity before it, or 0, to its own, and is tested in every
/// lamination that it overlaps.
///
/// Beside what [`levels`](crate::levels()) refuses, it refuses a condition without a threshold for
/// energy (14), a malformed offer (10) and a quantity above the capacity (11).
///
/// ```
/// # mod r1 { include!(concat!(env!("CARGO_MANIFEST_DIR"), "/doc/r1.rs")); }
/// # let dossier = r1::dossier();
/// use bench::{energy_test, Failing, Refusal, Verdict};
///
/// /// An offer of these quantities and prices.
/// fn offer(pairs: &[(u16, i32)]) -> Vec<u8> {
///     let pair = |(quantity, price): &(u16, i32)| {
///         [&quantity.to_be_bytes()[..], &price.to_be_bytes()].concat()
///     };
///     pairs.iter().flat_map(pair).collect()
/// }
///
/// // the level is 42.30; 50 % above it is 63.45, which is less than 25.00 above it
/// let (owner, narrow) = (1, 1);
/// let fair = offer(&[(500, 4_230), (1_000, 6_345)]);
/// assert_eq!(energy_test(&dossier, 0, owner, narrow, &fair), Ok(Verdict::Passes));
///
/// let dear = offer(&[(500, 4_230), (1_000, 6_346)]);
/// let second = Verdict::Fails(Failing { pair: 2, lamination: 1 });
/// assert_eq!(energy_test(&dossier, 0, owner, narrow, &dear), Ok(second));
///
/// // 100.1 MW from a station of 100.0
/// let large = offer(&[(500, 4_230), (1_001, 6_345)]);
/// let refusal = Refusal { number: 11, place: 6 };
/// assert_eq!(energy_test(&dossier, 0, owner, narrow, &large), Err(refusal));
/// ```
pub fn energy_test(
    dossier: &[u8],
    hour: u32,
    owner: u8,
    condition: u8,
    offer: &[u8],
) -> Result<Verdict, Refusal> {
    let (start, length) = (dossier.as_ptr(), dossier.len());
    let (pairs, bytes) = (offer.as_ptr(), offer.len());
    // SAFETY: the library reads these two parts alone.
    verdict(unsafe { raw::bench_energy_test(start, length, hour, owner, condition, pairs, bytes) })
}

/// Puts an owner's single price to the test at an hour, for a level other than energy (2 to 4) and
/// under a condition (1 to 3). The price is in cents and may have any value; one below 0 never fails.
///
/// Beside what [`levels`](crate::levels()) refuses, it refuses energy and a level that the technology
/// doesn't hold (12), and a condition without a threshold for the level (14).
///
/// ```
/// # mod r1 { include!(concat!(env!("CARGO_MANIFEST_DIR"), "/doc/r1.rs")); }
/// # let dossier = r1::dossier();
/// use bench::{price_test, Failing, Refusal, Verdict};
///
/// // the reserve level is 0.25, and 100 % above it is 0.50
/// let (owner, reserve, narrow) = (1, 4, 1);
/// assert_eq!(price_test(&dossier, 0, owner, reserve, narrow, 50), Ok(Verdict::Passes));
/// let fails = Verdict::Fails(Failing { pair: 0, lamination: 0 });
/// assert_eq!(price_test(&dossier, 0, owner, reserve, narrow, 51), Ok(fails));
///
/// // there is no threshold for reserve under the broad condition
/// let broad = 2;
/// let refusal = Refusal { number: 14, place: 0 };
/// assert_eq!(price_test(&dossier, 0, owner, reserve, broad, 50), Err(refusal));
/// ```
pub fn price_test(
    dossier: &[u8],
    hour: u32,
    owner: u8,
    level: u8,
    condition: u8,
    price: i32,
) -> Result<Verdict, Refusal> {
    let (start, length) = (dossier.as_ptr(), dossier.len());
    // SAFETY: the library reads these bytes alone.
    verdict(unsafe { raw::bench_price_test(start, length, hour, owner, level, condition, price) })
}
