//! Acceptance and the lookup of current records.

use crate::{raw, Refusal, Word};

/// Whether the dossier is accepted: levels can be worked out from it at every hour that has fuel.
///
/// A refusal is 13, one of 1 to 9, or 17; every call but [`current`] refuses such a dossier alike.
/// Those with an hour next refuse one whose profile has no fuel in force (20), since all of it has a
/// first hour that lies ahead; before all else they refuse an owner that isn't 1 or 2 (3 at 0).
/// Acceptance names no owner: records of both are held against the rules.
///
/// ```
/// # mod r1 { include!(concat!(env!("CARGO_MANIFEST_DIR"), "/doc/r1.rs")); }
/// # let dossier = r1::dossier();
/// assert_eq!(bench::accept(&dossier), Ok(()));
///
/// // its last byte got lost: the last record, which begins at 148, is cut short
/// let cut = &dossier[..dossier.len() - 1];
/// let refusal = bench::Refusal { number: 2, place: 148 };
/// assert_eq!(bench::accept(cut), Err(refusal));
/// ```
pub fn accept(dossier: &[u8]) -> Result<(), Refusal> {
    // SAFETY: the library reads these bytes alone.
    let word = unsafe { raw::bench_accept(dossier.as_ptr(), dossier.len()) };
    match Word::value(word)? {
        0 => Ok(()),
        value => panic!("the library accepted with value {value}"),
    }
}

/// The part of a dossier that holds a current record; empty at 0 if there is none.
#[derive(Clone, Copy, Debug, PartialEq, Eq)]
pub struct Part<'a> {
    /// The byte of the dossier where the record begins, from 0.
    pub start: usize,
    /// The whole record: mark, issue, key and the other fields.
    pub bytes: &'a [u8],
}

/// The current record of a mark and key: of all that have them, the one with the highest issue.
///
/// FU and FV share their keys, and either asks for the highest issue of both, whatever its first
/// hour; so do AD and AV, MM and MV.
///
/// The key is its bytes as one number, the high byte first, up to four of them in AO, and 0 for the
/// marks without a key, RS and LC. A lookup is never refused: the part is empty where there is no such record, and where
/// the dossier draws 13 or 1 to 4, while one that draws 5 to 9 or 17 can be looked up in.
///
/// ```
/// # mod r1 { include!(concat!(env!("CARGO_MANIFEST_DIR"), "/doc/r1.rs")); }
/// # use r1::record;
/// # let dossier = r1::dossier();
/// // a newer fuel price for profile 1 arrives, and behind it an older one
/// let newer = record(b"FU", 3, &[(1, 1), (4, 5_000_000), (4, 1_000_000)]);
/// let older = record(b"FU", 2, &[(1, 1), (4, 4_500_000), (4, 1_000_000)]);
/// let longer = [&dossier[..], &newer, &older].concat();
///
/// let fuel = bench::current(&longer, *b"FU", 1);
/// assert_eq!(fuel.start, dossier.len());
/// assert_eq!(fuel.bytes, newer);
///
/// // the threshold of condition 1 and level 4; there is none for condition 2
/// assert_eq!(bench::current(&longer, *b"TH", 0x01_04).bytes.len(), 18);
/// assert!(bench::current(&longer, *b"TH", 0x02_04).bytes.is_empty());
///
/// // a price from hour 24 on is the current one from the day it is sent
/// let ahead = record(b"FV", 4, &[(4, 24), (1, 1), (4, 5_100_000), (4, 1_000_000)]);
/// let longer = [longer, ahead.clone()].concat();
/// assert_eq!(bench::current(&longer, *b"FU", 1).bytes, ahead);
/// assert_eq!(bench::current(&longer, *b"FV", 1).bytes, ahead);
///
/// // what owner 2 adds in profile 1, consumables (3), to energy (1), which is no key of AD
/// let own = record(b"AO", 1, &[(1, 2), (1, 1), (1, 3), (1, 1), (8, 750_000)]);
/// let longer = [longer, own.clone()].concat();
/// assert_eq!(bench::current(&longer, *b"AO", 0x02_01_03_01).bytes, own);
/// assert!(bench::current(&longer, *b"AO", 0x01_01_03_01).bytes.is_empty());
/// ```
pub fn current<'a>(dossier: &'a [u8], mark: [u8; 2], key: u32) -> Part<'a> {
    let letters = u16::from_be_bytes(mark);
    // SAFETY: the library reads these bytes alone.
    let word = unsafe { raw::bench_current(dossier.as_ptr(), dossier.len(), letters, key) };
    let value = Word::value(word).expect("a lookup is never refused");
    let start = (value >> 32) as usize;
    let length = value as u32 as usize;
    Part {
        start,
        bytes: &dossier[start..][..length],
    }
}
