//! Every line of the cases with their expected answers.

use model::vectors::{read, Vector};
use model::{current, current_start, energy_test, price_test, program, week};

#[test]
fn every_vector() {
    let vectors = read();
    assert!(!vectors.is_empty());
    for vector in vectors {
        let holds = match &vector {
            Vector::Program { input, output } => program(input) == *output,
            Vector::Lookup {
                dossier,
                mark,
                key,
                part,
            } => {
                let found = current(dossier, mark, key);
                let start = current_start(dossier, mark, key);
                match part {
                    Some((at, bytes)) => start == *at && found == bytes,
                    None => found.is_empty(),
                }
            }
            Vector::Energy { .. } | Vector::Price { .. } => {
                let judged = vector.judged(energy_test, price_test);
                judged.is_some_and(|(found, expected)| found == *expected)
            }
            Vector::Week {
                dossier,
                week: expected,
            } => week(dossier) == *expected,
        };
        assert!(holds, "{vector:?}");
    }
}
