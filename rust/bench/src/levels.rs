//! The levels of an hour.

use crate::{raw, Refusal, Word};

/// How many words [`levels_into`] writes.
///
/// | Word | What it says |
/// |---|---|
/// | 0 | the profile |
/// | 1 | the number of laminations, 1 to 20 |
/// | 2 to 61 | from and to (0.1 MW) and level (cents) of each lamination, 0 past the last |
/// | 62 | the levels held, a bit each: 1 energy, 2 start, 4 no-load, 8 reserve |
/// | 63, 64, 65 | start, no-load and reserve (cents), 0 where not held |
pub const WORDS: usize = 66;

const STEPS: usize = 2;
const HELD: usize = 62;

/// The levels at an hour. A level that the technology doesn't hold is `None`.
#[derive(Clone, Debug, PartialEq, Eq)]
pub struct Levels {
    /// The profile that counts at the hour, 1 to 4.
    pub profile: u8,
    /// The energy level, 1 to 20 laminations from 0 MW to the capacity without a gap.
    pub energy: Vec<Lamination>,
    /// In cents per start; thermal stations alone.
    pub start: Option<u64>,
    /// In cents per hour; thermal stations alone.
    pub no_load: Option<u64>,
    /// In cents per MW; all but nuclear stations.
    pub reserve: Option<u64>,
}

/// One step of the energy level.
#[derive(Clone, Copy, Debug, PartialEq, Eq)]
pub struct Lamination {
    /// The lower end, in 0.1 MW.
    pub from: u16,
    /// The upper end, in 0.1 MW.
    pub to: u16,
    /// In cents per MWh.
    pub level: u64,
}

/// The levels at an hour and for an owner, 1 or 2: of each key the highest issue whose first hour has
/// come counts, and of what one owner adds (AO) that of this one. Payments to third parties (cost 4)
/// are withdrawn, and no level has them; [`report`](crate::report()) tells how many there are.
///
/// An owner that is neither is refused before all else (3 at 0). Another refusal is the one of
/// [`accept`](crate::accept), or 20 where the profile of the hour has no fuel in force.
///
/// ```
/// # mod r1 { include!(concat!(env!("CARGO_MANIFEST_DIR"), "/doc/r1.rs")); }
/// # let dossier = r1::dossier();
/// let owner = 1;
/// let levels = bench::levels(&dossier, 0, owner)?;
/// assert_eq!(levels.profile, 1);
/// let whole = bench::Lamination { from: 0, to: 1_000, level: 4_230 };
/// assert_eq!(levels.energy, [whole]);
/// assert_eq!(levels.start, Some(330_000));
/// assert_eq!(levels.no_load, Some(50_000));
/// assert_eq!(levels.reserve, Some(25));
/// # Ok::<(), bench::Refusal>(())
/// ```
///
/// A contract's price that is known early counts from its first hour on:
///
/// ```
/// # mod r1 { include!(concat!(env!("CARGO_MANIFEST_DIR"), "/doc/r1.rs")); }
/// # use r1::{dossier, record};
/// let ahead = record(b"FV", 2, &[(4, 24), (1, 1), (4, 5_000_000), (4, 1_000_000)]);
/// let longer = [dossier(), ahead].concat();
/// let energy = |hour| bench::levels(&longer, hour, 1).map(|levels| levels.energy[0].level);
/// assert_eq!((energy(23), energy(24)), (Ok(4_230), Ok(5_030)));
///
/// // a second profile whose fuel begins at hour 30 is asked for from hour 26 on
/// let request = record(b"RQ", 1, &[(1, 1), (4, 26), (4, 40), (1, 2)]);
/// let oil = record(b"FV", 1, &[(4, 30), (1, 2), (4, 11_500_000), (4, 1_800_000)]);
/// let longer = [longer, request, oil].concat();
/// let refusal = bench::Refusal { number: 20, place: 0 };
/// assert_eq!(bench::levels(&longer, 26, 1), Err(refusal));
/// assert!(bench::accept(&longer).is_ok() && bench::levels(&longer, 30, 1).is_ok());
/// ```
///
/// A plant that two owners offer: both have the common amounts, and each its own beside them:
///
/// ```
/// # mod r1 { include!(concat!(env!("CARGO_MANIFEST_DIR"), "/doc/r1.rs")); }
/// # use r1::{dossier, record};
/// // owner 2, profile 1, consumables (3), energy (1): 0.75
/// let own = record(b"AO", 1, &[(1, 2), (1, 1), (1, 3), (1, 1), (8, 750_000)]);
/// let shared = [dossier(), own].concat();
/// let energy = |owner| bench::levels(&shared, 0, owner).map(|levels| levels.energy[0].level);
/// assert_eq!((energy(1), energy(2)), (Ok(4_230), Ok(4_305)));
///
/// // there is no third
/// let refusal = bench::Refusal { number: 3, place: 0 };
/// assert_eq!(energy(3), Err(refusal));
/// ```
pub fn levels(dossier: &[u8], hour: u32, owner: u8) -> Result<Levels, Refusal> {
    let mut words = [0; WORDS];
    levels_into(dossier, hour, owner, &mut words)?;
    let count = words[1] as usize;
    let steps = words[STEPS..HELD].chunks(3).take(count);
    // Bit 0 is energy, which every technology holds.
    let held = |bit: usize| (words[HELD] >> bit & 1 == 1).then(|| words[HELD + bit]);
    Ok(Levels {
        profile: words[0] as u8,
        energy: steps.map(lamination).collect(),
        start: held(1),
        no_load: held(2),
        reserve: held(3),
    })
}

fn lamination(words: &[u64]) -> Lamination {
    Lamination {
        from: words[0] as u16,
        to: words[1] as u16,
        level: words[2],
    }
}

/// Writes the levels at an hour and for an owner to the first words of a lent list and gives their
/// number, [`WORDS`]; words past them stay. It allocates nothing.
///
/// Beside what [`levels`] refuses, it refuses a list of fewer words (15). A refused call leaves every
/// word.
///
/// ```
/// # mod r1 { include!(concat!(env!("CARGO_MANIFEST_DIR"), "/doc/r1.rs")); }
/// # let dossier = r1::dossier();
/// let mut words = [7; bench::WORDS + 1];
/// assert_eq!(bench::levels_into(&dossier, 0, 1, &mut words), Ok(66));
/// assert_eq!(words[..5], [1, 1, 0, 1_000, 4_230]);
/// assert_eq!(words[62..], [0b1111, 330_000, 50_000, 25, 7]);
///
/// let mut short = [7; bench::WORDS - 1];
/// let refusal = bench::Refusal { number: 15, place: 0 };
/// assert_eq!(bench::levels_into(&dossier, 0, 1, &mut short), Err(refusal));
/// assert_eq!(short, [7; 65]);
/// ```
pub fn levels_into(
    dossier: &[u8],
    hour: u32,
    owner: u8,
    words: &mut [u64],
) -> Result<usize, Refusal> {
    let (start, length) = (dossier.as_ptr(), dossier.len());
    let (list, count) = (words.as_mut_ptr(), words.len());
    // SAFETY: the library reads the dossier's bytes and writes within the list.
    let word = unsafe { raw::bench_levels(start, length, hour, owner, list, count) };
    Word::value(word).map(|written| written as usize)
}
