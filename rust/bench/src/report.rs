//! The report.

use crate::{raw, Refusal, Word};

/// A buffer of this many bytes holds every report.
pub const REPORT_BYTES: usize = 2_312;

/// Writes the report at an hour and for an owner to the first bytes of a lent buffer and gives its
/// length; bytes past it stay. The report is ASCII, levels in dollars and ends of laminations in MW.
/// Its last line counts the third-party payments (cost 4) in force at the hour in its profile, common
/// ones and the owner's, which no level has.
///
/// Beside what [`levels`](crate::levels()) refuses, it refuses a buffer that the report doesn't fit
/// (15), which one of [`REPORT_BYTES`] never is. A refused call leaves every byte.
///
/// ```
/// # mod r1 { include!(concat!(env!("CARGO_MANIFEST_DIR"), "/doc/r1.rs")); }
/// # let dossier = r1::dossier();
/// let mut buffer = [0; bench::REPORT_BYTES];
/// let length = bench::report(&dossier, 0, 1, &mut buffer)?;
/// let text = std::str::from_utf8(&buffer[..length]).expect("ASCII");
/// assert_eq!(
///     text,
///     "profile 1\n\
///      energy 1 0.0 100.0 42.30\n\
///      start 3300.00\n\
///      no-load 500.00\n\
///      reserve 0.25\n\
///      retired 0\n"
/// );
/// # Ok::<(), bench::Refusal>(())
/// ```
///
/// A payment that an old dossier holds is accepted, and counted:
///
/// ```
/// # mod r1 { include!(concat!(env!("CARGO_MANIFEST_DIR"), "/doc/r1.rs")); }
/// # use r1::{dossier, record};
/// let paid = record(b"AD", 1, &[(1, 1), (1, 4), (1, 1), (8, 2_000_000)]);
/// let longer = [dossier(), paid].concat();
/// assert_eq!(bench::levels(&longer, 0, 1), bench::levels(&dossier(), 0, 1));
///
/// let mut buffer = [0; bench::REPORT_BYTES];
/// let length = bench::report(&longer, 0, 1, &mut buffer)?;
/// assert!(buffer[..length].ends_with(b"\nreserve 0.25\nretired 1\n"));
/// # Ok::<(), bench::Refusal>(())
/// ```
pub fn report(dossier: &[u8], hour: u32, owner: u8, buffer: &mut [u8]) -> Result<usize, Refusal> {
    let (start, length) = (dossier.as_ptr(), dossier.len());
    let (lent, room) = (buffer.as_mut_ptr(), buffer.len());
    // SAFETY: the library reads the dossier's bytes and writes within the buffer.
    let word = unsafe { raw::bench_report(start, length, hour, owner, lent, room) };
    Word::value(word).map(|written| written as usize)
}
