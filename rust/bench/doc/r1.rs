/// A record: its mark, its issue, and each field as a number of so many bytes, the high byte first.
pub fn record(mark: &[u8; 2], issue: u32, fields: &[(usize, u64)]) -> Vec<u8> {
    let mut record = [&mark[..], &issue.to_be_bytes()].concat();
    for (width, number) in fields {
        record.extend(&number.to_be_bytes()[8 - width..]);
    }
    record
}

/// A thermal station of 100.0 MW, case R1 of README.md, with a threshold for energy and one for
/// reserve.
pub fn dossier() -> Vec<u8> {
    let none = u32::MAX.into(); // a margin of all ones is none
    [
        station(),
        // point 1: 50.0 MW takes 500,000 MJ per hour; point 2: 100.0 MW takes 900,000
        record(b"HP", 1, &[(1, 1), (2, 500), (4, 500_000)]),
        record(b"HP", 1, &[(1, 2), (2, 1_000), (4, 900_000)]),
        // profile 1: fuel at 4.00 and emission at 1.00 dollar per GJ
        record(b"FU", 1, &[(1, 1), (4, 4_000_000), (4, 1_000_000)]),
        // profile 1, consumables (3): 1.50 for energy (1), 0.25 for reserve (4)
        record(b"AD", 1, &[(1, 1), (1, 3), (1, 1), (8, 1_500_000)]),
        record(b"AD", 1, &[(1, 1), (1, 3), (1, 4), (8, 250_000)]),
        maintenance(),
        // narrow (1), energy (1): 50 % or 25.00 dollars above the level, whichever is less
        record(b"TH", 1, &[(1, 1), (1, 1), (2, 50), (4, 2_500), (4, 0)]),
        // narrow (1), reserve (4): 100 % above the level
        record(b"TH", 1, &[(1, 1), (1, 4), (2, 100), (4, none), (4, 0)]),
    ]
    .concat()
}

fn station() -> Vec<u8> {
    let fields = [
        (1, 1),       // technology: thermal
        (2, 1_000),   // capacity: 100.0 MW
        (2, 1_000),   // performance factor: 1.000
        (4, 500_000), // MJ per start
        (4, 100_000), // MJ per hour at no load
        (4, 0),       // incremental fuel: nuclear alone
        (4, 0),       // state of charge: storage alone
        (2, 0),       // charging efficiency: storage alone
        (2, 0),       // window: storage and hydroelectric alone
    ];
    record(b"RS", 1, &fields)
}

fn maintenance() -> Vec<u8> {
    let fields = [
        (1, 1),           // profile
        (1, 1),           // item
        (8, 200_000_000), // cost: 2,000,000.00 dollars
        (2, 1_000),       // output: 100.0 MW
        (4, 25_000),      // interval in hours
        (2, 100),         // 10.0 hours per start
    ];
    record(b"MM", 1, &fields)
}
