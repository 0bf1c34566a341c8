//! Offers as people write them, and what the library says of prices.

use crate::marks::listed;
use crate::near::hint;
use crate::query::Query;
use crate::text::quoted;
use crate::unit::{Unit, Unreadable, CONDITION, DOLLARS, LEVEL, MEGAWATTS};
use bench::{energy_test, price_test, Lamination, Verdict};

/// One pair of an energy offer, 0.1 MW and cents per MWh, of any size: what it draws is for the
/// library to say.
#[derive(Clone, Copy, Debug, PartialEq, Eq)]
pub struct Pair {
    pub quantity: i128,
    pub price: i128,
}

impl Pair {
    /// How many bytes a pair takes in an offer.
    pub const BYTES: usize = 6;

    /// The pair in words.
    pub fn text(&self) -> String {
        let (quantity, price) = (MEGAWATTS.write(self.quantity), DOLLARS.write(self.price));
        format!("{quantity} MW at {price}")
    }
}

/// The ranges of 11 and 10, to be told where no number stands.
const QUANTITIES: &str = "0.1 to 2000.0 MW";
pub const PRICES: &str = "-2000.00 to 2000.00 dollars per MWh";

/// The pairs of an offer, `50.0@42.30,100.0@63.46`. Whether they form an offer is for the library to
/// say; here they only have to be numbers.
pub fn read(text: &str) -> Result<Vec<Pair>, String> {
    if text.trim().is_empty() {
        return Ok(Vec::new());
    }
    let (mut pairs, mut wrong) = (Vec::new(), Vec::new());
    for word in text.split(',').map(str::trim) {
        match pair(word) {
            Ok(pair) => pairs.push(pair),
            Err(says) if wrong.len() < MOST_WRONG => wrong.push(says),
            Err(_) => {}
        }
    }
    match wrong.is_empty() {
        true => Ok(pairs),
        false => Err(wrong.join("; ")),
    }
}

/// How many wrong pairs of an offer are told.
const MOST_WRONG: usize = 5;

fn pair(text: &str) -> Result<Pair, String> {
    let shown = || quoted(text);
    let says = || format!("{} is no pair: quantity@price, as in 50.0@42.30", shown());
    let (quantity, price) = text.split_once('@').ok_or_else(says)?;
    Ok(Pair {
        quantity: amount(quantity, MEGAWATTS, QUANTITIES)?,
        price: amount(price, DOLLARS, PRICES)?,
    })
}

/// A single price in dollars, as cents. It may be any that four bytes hold.
pub fn read_price(text: &str) -> Result<i32, String> {
    let range = "-21474836.48 to 21474836.47 dollars";
    let price = amount(text, DOLLARS, range)?;
    i32::try_from(price).map_err(|_| format!("{} is not from {range}", quoted(text)))
}

fn amount(text: &str, unit: Unit, range: &str) -> Result<i128, String> {
    let says = |why: Unreadable| format!("{}{}: {range}", quoted(text), why.says());
    unit.read(text).map_err(says)
}

/// The number of a condition's name.
pub fn read_condition(text: &str) -> Result<u8, String> {
    named(text, CONDITION)
}

/// The number of a level's name.
pub fn read_level(text: &str) -> Result<u8, String> {
    named(text, LEVEL)
}

/// The number of one of a unit's words.
fn named(text: &str, unit: Unit) -> Result<u8, String> {
    let words = unit.all_words();
    let number = unit.read(text).ok().filter(|_| words.contains(&text));
    let says = || {
        format!(
            "{} is not {}{}",
            quoted(text),
            listed(&words),
            hint(text, &words)
        )
    };
    number.and_then(|n| u8::try_from(n).ok()).ok_or_else(says)
}

/// The highest capacity that a station may have.
const CAPACITY: i128 = 20_000;

/// The offer's bytes. A quantity above every capacity stands in them by its rank among those of the
/// offer, and any other number that its bytes can't hold as the nearest that they can: each draws what
/// it would draw as it is, at the same place.
pub fn bytes(pairs: &[Pair]) -> Vec<u8> {
    let above = pairs.iter().map(|p| p.quantity).filter(|q| *q > CAPACITY);
    let mut above: Vec<i128> = above.collect();
    above.sort_unstable();
    above.dedup();
    let pair = |p: &Pair| {
        let quantity = match above.binary_search(&p.quantity) {
            Ok(rank) => CAPACITY + 1 + rank as i128,
            Err(_) => p.quantity,
        };
        let quantity = quantity.clamp(0, u16::MAX.into()) as u16;
        let price = p.price.clamp(i32::MIN.into(), i32::MAX.into()) as i32;
        [&quantity.to_be_bytes()[..], &price.to_be_bytes()].concat()
    };
    pairs.iter().flat_map(pair).collect()
}

/// Which rules of 10 a pair of an offer breaks, in words.
pub fn broken(pairs: &[Pair], at: usize) -> Vec<String> {
    let Some(pair) = pairs.get(at) else {
        return Vec::new();
    };
    let before = at.checked_sub(1).and_then(|at| pairs.get(at));
    let (quantity, price) = before.map_or((0, None), |b| (b.quantity, Some(b.price)));
    let mut broken = Vec::new();
    if pair.quantity <= quantity {
        broken.push(match before {
            Some(_) => format!(
                "its quantity doesn't rise above the {} MW before it",
                MEGAWATTS.write(quantity)
            ),
            None => "its quantity isn't above 0".to_string(),
        });
    }
    if !(-HIGHEST..=HIGHEST).contains(&pair.price) {
        broken.push(format!("its price isn't from {PRICES}"));
    }
    if let Some(price) = price.filter(|p| pair.price < *p) {
        broken.push(format!(
            "its price falls below the {} before it",
            DOLLARS.write(price)
        ));
    }
    broken
}

/// The highest price of a pair.
const HIGHEST: i128 = 200_000;

/// The highest price that passes in a lamination, `None` if every price of a pair does. The library
/// is asked, with an offer that reaches up to the lamination at the lowest price there is, which
/// never fails, and through it at the price in question.
pub fn highest_in(dossier: &[u8], query: Query, condition: u8, step: &Lamination) -> Option<i32> {
    let below = Pair {
        quantity: step.from.into(),
        price: -HIGHEST,
    };
    let passes = |price: i32| {
        let through = Pair {
            quantity: step.to.into(),
            price: price.into(),
        };
        let pairs = [below, through];
        let offer = bytes(if step.from == 0 { &pairs[1..] } else { &pairs });
        let Query { hour, owner } = query;
        energy_test(dossier, hour, owner, condition, &offer) == Ok(Verdict::Passes)
    };
    highest(-HIGHEST, HIGHEST, passes)
}

/// The highest single price that passes for a level, `None` if every price does.
pub fn highest_for(dossier: &[u8], query: Query, level: u8, condition: u8) -> Option<i32> {
    let Query { hour, owner } = query;
    let verdict = |price| price_test(dossier, hour, owner, level, condition, price);
    let passes = |price| verdict(price) == Ok(Verdict::Passes);
    highest(i32::MIN.into(), i32::MAX.into(), passes)
}

/// The highest number that passes, where the lowest does and none passes above one that fails; `None`
/// if all pass. It is found by halving.
fn highest(lowest: i128, highest: i128, passes: impl Fn(i32) -> bool) -> Option<i32> {
    let passes = |n: i128| i32::try_from(n).is_ok_and(&passes);
    if passes(highest) {
        return None;
    }
    let (mut low, mut high) = (lowest, highest);
    while high - low > 1 {
        let middle = low + (high - low) / 2;
        if passes(middle) {
            low = middle;
        } else {
            high = middle;
        }
    }
    i32::try_from(low).ok()
}

#[cfg(test)]
mod tests {
    use super::*;

    #[test]
    fn pairs_are_read() {
        let pairs = read("50.0@42.30, 100@-0.05").unwrap();
        let texts: Vec<String> = pairs.iter().map(Pair::text).collect();
        assert_eq!(texts, ["50.0 MW at 42.30", "100.0 MW at -0.05"]);
        assert_eq!(bytes(&pairs[1..]), [3, 232, 255, 255, 255, 251]);
        assert_eq!(read(" "), Ok(Vec::new()));
        for wrong in ["50", "50@", "@1.00", "50.05@1", "1@1.001", "1@3e9", ","] {
            assert!(read(wrong).is_err(), "{wrong}");
        }
    }

    /// Numbers that the bytes can't hold keep their order, and stay above every capacity.
    #[test]
    fn large_numbers_in_bytes() {
        let pairs = read("70000@1,2000@2,-1@3,70001@4,2000.1@1e9").unwrap_err();
        assert_eq!(pairs, format!("'1e9' is no number: {PRICES}"));
        let pairs = read("70000@1,2000@2,-1@3,70001@-99999999,2000.1@99999999").unwrap();
        let bytes = bytes(&pairs);
        let quantities: Vec<u16> = bytes
            .chunks(6)
            .map(|p| u16::from_be_bytes([p[0], p[1]]))
            .collect();
        assert_eq!(quantities, [20_002, 20_000, 0, 20_003, 20_001]);
        assert_eq!(bytes[20..24], i32::MIN.to_be_bytes());
        assert_eq!(bytes[26..30], i32::MAX.to_be_bytes());
    }

    #[test]
    fn the_highest_that_passes() {
        for limit in [-3, -2, 0, 7, 9] {
            assert_eq!(highest(-3, 10, |n| n <= limit), Some(limit));
        }
        assert_eq!(highest(-3, 10, |_| true), None);
    }
}
