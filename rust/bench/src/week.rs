//! The charging week.

use crate::{raw, Refusal, Word};

/// How many intervals a charging week has: five minutes each, over seven days. [`week_into`] writes
/// as many prices and as many energies.
pub const INTERVALS: usize = 2_016;

/// A battery's charging week: interval n stands at place n - 1 of both lists, which have
/// [`INTERVALS`] places. Both are 0 where the dossier has no current record (CH) of the interval.
#[derive(Clone, Debug, PartialEq, Eq)]
pub struct Week {
    /// In cents per MWh.
    pub prices: Vec<i32>,
    /// In kWh.
    pub energies: Vec<u32>,
}

/// The charging week. A refusal is the one of [`accept`](crate::accept). At a station that isn't
/// storage every price and energy is 0.
///
/// ```
/// # mod r1 { include!(concat!(env!("CARGO_MANIFEST_DIR"), "/doc/r1.rs")); }
/// # use r1::record;
/// // a battery with one hour in its window, which charged in interval 13; the newer record counts
/// let battery = [(1, 3), (2, 800), (2, 0), (4, 0), (4, 0), (4, 0), (4, 800), (2, 800), (2, 1)];
/// let dossier = [
///     record(b"RS", 1, &battery),
///     record(b"FU", 1, &[(1, 1), (4, 750_000), (4, 0)]),
///     record(b"HR", 1, &[(1, 1), (4, 6_115)]),
///     record(b"CH", 2, &[(2, 13), (4, 2_000), (4, 1_000)]),
///     record(b"CH", 1, &[(2, 13), (4, 1_850), (4, 2_500)]),
/// ]
/// .concat();
///
/// let week = bench::week(&dossier)?;
/// assert_eq!((week.prices[12], week.energies[12]), (2_000, 1_000));
/// assert_eq!(week.energies.iter().sum::<u32>(), 1_000); // idle in all other intervals
/// # Ok::<(), bench::Refusal>(())
/// ```
pub fn week(dossier: &[u8]) -> Result<Week, Refusal> {
    let mut week = Week {
        prices: vec![0; INTERVALS],
        energies: vec![0; INTERVALS],
    };
    week_into(dossier, &mut week.prices, &mut week.energies)?;
    Ok(week)
}

/// Writes the charging week to the first places of two lent lists, prices in cents per MWh and
/// energies in kWh, and gives their number, [`INTERVALS`]; places past them stay. It allocates
/// nothing.
///
/// Beside what [`accept`](crate::accept) refuses, it refuses a list of fewer places (15). A refused
/// call leaves every place of both.
///
/// ```
/// # mod r1 { include!(concat!(env!("CARGO_MANIFEST_DIR"), "/doc/r1.rs")); }
/// # let dossier = r1::dossier();
/// use bench::{week_into, Refusal, INTERVALS};
///
/// // a thermal station charges nothing
/// let (mut prices, mut energies) = ([7; INTERVALS + 1], [7; INTERVALS]);
/// assert_eq!(week_into(&dossier, &mut prices, &mut energies), Ok(2_016));
/// assert_eq!((prices[2_015], prices[2_016], energies[2_015]), (0, 7, 0));
///
/// let mut short = [7; INTERVALS - 1];
/// let refusal = Refusal { number: 15, place: 0 };
/// assert_eq!(week_into(&dossier, &mut prices, &mut short), Err(refusal));
/// assert_eq!(short, [7; 2_015]);
/// ```
pub fn week_into(
    dossier: &[u8],
    prices: &mut [i32],
    energies: &mut [u32],
) -> Result<usize, Refusal> {
    let (start, length) = (dossier.as_ptr(), dossier.len());
    let (price, price_count) = (prices.as_mut_ptr(), prices.len());
    let (energy, energy_count) = (energies.as_mut_ptr(), energies.len());
    // SAFETY: the library reads the dossier's bytes and writes within the two lists.
    let word = unsafe { raw::bench_week(start, length, price, price_count, energy, energy_count) };
    Word::value(word).map(|written| written as usize)
}
