//! The edges: 60,000 bytes and 60,001, 21 points and 22, 20 pairs and 21, and the largest levels.

use model::exact::{all_near, exact_levels};
use model::make::sound::filled;
use model::make::written::{evenly_rising, r1, record};
use model::make::{offers, sound};
use model::random::Random;
use model::table::Technology;
use model::{accept, current, energy_test, levels, program, refuse, report, Verdict, OWNER};

#[test]
fn sixty_thousand_bytes() {
    let mut random = Random::new(60_000);
    for _ in 0..20 {
        let mut dossier = filled(&mut random, 60_000).bytes();
        assert_eq!(dossier.len(), 60_000);
        assert_eq!(accept(&dossier), Ok(()));
        dossier.push(b'R');
        assert_eq!(accept(&dossier), refuse(13, 0));
        assert_eq!(accept(&vec![0; 60_001]), refuse(13, 0));
    }
}

#[test]
fn twenty_one_points() {
    assert_eq!(
        levels(&evenly_rising(21, 1_000), 0, OWNER)
            .unwrap()
            .energy
            .len(),
        20
    );
    let dossier = evenly_rising(22, 1_000);
    assert_eq!(accept(&dossier), refuse(3, dossier.len() - 13));
}

#[test]
fn twenty_pairs() {
    let dossier = [r1(), record(b"TH", 1, &[1, 1, 50, 2_500, 0])].concat();
    let offer = |count: u16| -> Vec<u8> {
        let pairs: Vec<_> = (1..=count).map(|n| (n, 6_345)).collect();
        offers::bytes(&pairs)
    };
    let test = |offer: &[u8]| energy_test(&dossier, 0, OWNER, 1, offer);
    let malformed = |place| refuse(10, place);
    assert_eq!(test(&offer(20)), Ok(Verdict::Passes));
    assert_eq!(test(&offer(21)), malformed(126));
    assert_eq!(test(&offer(0)), malformed(0));
    assert_eq!(test(&offer(2)[..11]), malformed(11));
}

#[test]
fn an_empty_dossier_has_no_rs() {
    assert_eq!(accept(&[]), refuse(5, 0));
    assert_eq!(accept(b"R"), refuse(2, 0));
    assert_eq!(accept(b"XY"), refuse(1, 0));
}

#[test]
fn the_program_wants_an_hour() {
    for short in 0..4 {
        assert_eq!(program(&vec![0; short]), b"refused 16 at 0\n");
    }
    assert_eq!(program(&[0; 4]), b"refused 5 at 0\n");
    assert_eq!(program(&[0; 60_004]), b"refused 1 at 0\n");
    assert_eq!(program(&[0; 60_005]), b"refused 13 at 0\n");
}

#[test]
fn a_short_buffer_keeps_its_bytes() {
    let mut buffer = [7; 200];
    let length = report(&r1(), 0, OWNER, &mut buffer).unwrap();
    for short in 0..length {
        let mut buffer = vec![7; short];
        assert_eq!(report(&r1(), 0, OWNER, &mut buffer), refuse(15, 0));
        assert!(buffer.iter().all(|b| *b == 7));
    }
}

/// Every amount at its limit and every divisor at its least: nothing overflows.
#[test]
fn the_largest_levels() {
    let most = 20_000_000;
    let mut records = vec![
        record(b"RS", 1, &[1, 1, 2_000, most, most, 0, 0, 0, 0]),
        record(b"HP", 1, &[1, 0, 0]),
        record(b"HP", 1, &[2, 1, most]),
        record(b"FU", 1, &[1, 400_000_000, 400_000_000]),
    ];
    let ten_to_12 = 1_000_000_000_000;
    for (cost, level) in (1..=4).flat_map(|c| (1..=4).map(move |l| (c, l))) {
        records.push(record(b"AD", 1, &[1, cost, level, ten_to_12]));
        let owner = OWNER.into();
        records.push(record(b"AO", 1, &[owner, 1, cost, level, ten_to_12]));
    }
    let ten_to_11 = 100_000_000_000;
    records.extend((1..=8).map(|i| record(b"MM", 1, &[1, i, ten_to_11, 1, 1, 10_000])));
    let dossier = records.concat();
    let levels = levels(&dossier, 0, OWNER).unwrap();
    // 1.6×10^14 fuel + 8×10^13 emission + 8×10^16 MM + 6×10^12 AD and AO, in micro-dollars; cost 4 joins
    // none
    assert_eq!(levels.energy[0].level, 8_024_600_000_000);
    // 1.6×10^13 + 8×10^12 + 8×10^18 + 6×10^12
    assert_eq!(levels.start, Some(800_003_000_000_000));
    assert_eq!(levels.no_load, Some(3_000_000_000));
    assert_eq!(levels.reserve, Some(600_000_000));
    assert!(all_near(
        &levels,
        &exact_levels(&dossier, 0, OWNER).unwrap()
    ));
}

/// Sound dossiers of a full week come up, and are accepted.
#[test]
fn a_full_week_of_intervals() {
    let mut random = Random::new(3);
    let mut made = (0..).map(|_| sound::sound_of(&mut random, Technology::Storage).bytes());
    let week = made.find(|dossier| dossier.len() > 2_016 * 16).unwrap();
    assert_eq!(accept(&week), Ok(()));
    assert!(!current(&week, b"CH", &2_016_u16.to_be_bytes()).is_empty());
}
