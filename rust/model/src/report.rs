//! "Report": the lines, the lent buffer, and what the program `levels` prints.

use crate::accept::asked;
use crate::levels::{levels_of, retired, Levels};
use crate::{refuse, Refusal};

/// The report's bytes, every line ended by byte 10.
pub fn text(dossier: &[u8], hour: u32, owner: u8) -> Result<Vec<u8>, Refusal> {
    let station = asked(dossier, owner)?;
    let lines = level_lines(&levels_of(&station, hour, owner)?);
    let retired = retired(&station, hour, owner)?;
    Ok(format!("{lines}retired {retired}\n").into_bytes())
}

/// The lines of the profile and its levels, which the last line of a report follows.
pub fn level_lines(levels: &Levels<u64>) -> String {
    let mut lines = format!("profile {}\n", levels.profile);
    for (number, step) in (1..).zip(&levels.energy) {
        let (from, to) = (megawatts(step.from), megawatts(step.to));
        let level = dollars(step.level);
        lines += &format!("energy {number} {from} {to} {level}\n");
    }
    for (number, level) in levels.single() {
        let name = ["start", "no-load", "reserve"][usize::from(number) - 2];
        lines += &format!("{name} {}\n", dollars(*level));
    }
    lines
}

fn megawatts(tenths: u16) -> String {
    format!("{}.{}", tenths / 10, tenths % 10)
}

fn dollars(cents: u64) -> String {
    format!("{}.{:02}", cents / 100, cents % 100)
}

/// Writes the report to the buffer's first bytes and gives its length. A refused call, 15 for a
/// short buffer among them, leaves every byte.
pub fn report(dossier: &[u8], hour: u32, owner: u8, buffer: &mut [u8]) -> Result<usize, Refusal> {
    let text = text(dossier, hour, owner)?;
    match buffer.get_mut(..text.len()) {
        Some(head) => head.copy_from_slice(&text),
        None => return refuse(15, 0),
    }
    Ok(text.len())
}

/// The line that stands for a refusal.
pub fn refusal_line(refusal: Refusal) -> Vec<u8> {
    format!("refused {} at {}\n", refusal.number, refusal.place).into_bytes()
}

/// The owner whom the program `levels` names.
pub const OWNER: u8 = 1;

/// What the program `levels` prints for any standard input: an hour, then the dossier.
pub fn program(input: &[u8]) -> Vec<u8> {
    let Some((hour, dossier)) = input.split_first_chunk() else {
        return refusal_line(Refusal {
            number: 16,
            place: 0,
        });
    };
    let hour = u32::from_be_bytes(*hour);
    text(dossier, hour, OWNER).unwrap_or_else(refusal_line)
}
