//! What several tests need.

use model::exact::{all_near, exact_levels};
use model::{levels, OWNER};

pub fn with(dossier: Vec<u8>, more: &[Vec<u8>]) -> Vec<u8> {
    [dossier, more.concat()].concat()
}

/// The energy level at hour 0 of a station with one lamination, near its exact level.
pub fn energy_level(dossier: &[u8]) -> u64 {
    let levels = levels(dossier, 0, OWNER).unwrap();
    assert!(all_near(&levels, &exact_levels(dossier, 0, OWNER).unwrap()));
    assert_eq!(levels.energy.len(), 1);
    levels.energy[0].level
}
