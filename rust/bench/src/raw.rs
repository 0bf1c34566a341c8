//! The library's functions as they stand: a part of memory is lent as address and length, and the
//! answer is one word, class × 2^56 + a × 2^32 + b.

extern "C" {
    pub fn bench_accept(dossier: *const u8, length: usize) -> u64;

    /// The mark's first letter is the high byte; the key bytes form one number, 0 for RS and LC.
    pub fn bench_current(dossier: *const u8, length: usize, mark: u16, key: u32) -> u64;

    pub fn bench_levels(
        dossier: *const u8,
        length: usize,
        hour: u32,
        owner: u8,
        words: *mut u64,
        count: usize,
    ) -> u64;

    pub fn bench_energy_test(
        dossier: *const u8,
        length: usize,
        hour: u32,
        owner: u8,
        condition: u8,
        offer: *const u8,
        offer_length: usize,
    ) -> u64;

    pub fn bench_price_test(
        dossier: *const u8,
        length: usize,
        hour: u32,
        owner: u8,
        level: u8,
        condition: u8,
        price: i32,
    ) -> u64;

    pub fn bench_report(
        dossier: *const u8,
        length: usize,
        hour: u32,
        owner: u8,
        buffer: *mut u8,
        buffer_length: usize,
    ) -> u64;

    pub fn bench_week(
        dossier: *const u8,
        length: usize,
        prices: *mut i32,
        price_count: usize,
        energies: *mut u32,
        energy_count: usize,
    ) -> u64;
}
