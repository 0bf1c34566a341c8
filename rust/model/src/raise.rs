//! "One dossier is a raise of another": the relation that demand 3 is about, and a maker of raises.

use crate::accept::accepted;
use crate::dossier::{records, Record};
use crate::levels::Levels;
use crate::random::Random;
use crate::table::{Field, Role, Technology};

/// How high a money amount may rise; 0 where the technology wants 0.
///
/// In an accepted dossier such an amount can be above 0 only in an FU or FV that counts at no hour.
fn limit(technology: Technology, record: &Record, field: Field) -> i128 {
    let is_it = |unpriced: &Field| unpriced.at + record.kind.shift() == field.at;
    if record.kind.of == *b"FU" && technology.unpriced().iter().any(is_it) {
        0
    } else {
        field.highest
    }
}

/// Every money amount of an accepted dossier, current or not: its record, field and limit.
fn amounts(dossier: &[u8]) -> Vec<(Record<'_>, Field, i128)> {
    let technology = accepted(dossier).expect("an accepted dossier").technology;
    let mut amounts = Vec::new();
    for record in records(dossier).expect("an accepted dossier") {
        let fields = record.kind.fields.iter();
        for field in fields.filter(|f| f.role == Role::Money) {
            amounts.push((record, *field, limit(technology, &record, *field)));
        }
    }
    amounts
}

/// Whether the second dossier is a raise of the first, an accepted one.
pub fn is_raise(dossier: &[u8], raised: &[u8]) -> bool {
    if dossier.len() != raised.len() {
        return false;
    }
    // With every amount put back, nothing may be left that differs.
    let mut put_back = raised.to_vec();
    for (record, field, limit) in amounts(dossier) {
        let part = record.start..record.start + record.bytes.len();
        let (old, new) = (field.read(record.bytes), field.read(&raised[part.clone()]));
        if new != old && !(old < new && new <= limit) {
            return false;
        }
        field.write(&mut put_back[part], old);
    }
    put_back == dossier
}

/// A raise of an accepted dossier: one, some or all of its amounts, by a little or to the limit.
pub fn raised(random: &mut Random, dossier: &[u8]) -> Vec<u8> {
    let mut raised = dossier.to_vec();
    let amounts = amounts(dossier);
    let rarity = random.pick(&[1, 2, 8, amounts.len() as u64]);
    for (record, field, limit) in amounts {
        let old = field.read(record.bytes);
        if old >= limit || !random.one_in(rarity) {
            continue;
        }
        let new = match random.below(4) {
            0 => limit,
            1 => old + 1,
            _ => random.spread(old + 1, limit),
        };
        field.write(&mut raised[record.start..], new);
    }
    raised
}

/// Whether both are of the same kinds, and no level of the raise is lower.
pub fn none_lower(before: &Levels<u64>, after: &Levels<u64>) -> bool {
    let mut pairs = before.all().zip(after.all());
    before.kinds() == after.kinds() && pairs.all(|(before, after)| before <= after)
}
