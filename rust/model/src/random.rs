//! A small seeded source of numbers (splitmix64), so that every run can be repeated.

pub struct Random(u64);

impl Random {
    pub fn new(seed: u64) -> Random {
        Random(seed)
    }

    /// The source of one case of a run: cases can be repeated alone and in any order.
    pub fn of_case(seed: u64, case: u64) -> Random {
        let mut run = Random(seed);
        Random(run.next() ^ case.wrapping_mul(0xD134_2543_DE82_EF95))
    }

    #[allow(clippy::should_implement_trait)]
    pub fn next(&mut self) -> u64 {
        self.0 = self.0.wrapping_add(0x9E37_79B9_7F4A_7C15);
        let mut mixed = self.0;
        mixed = (mixed ^ (mixed >> 30)).wrapping_mul(0xBF58_476D_1CE4_E5B9);
        mixed = (mixed ^ (mixed >> 27)).wrapping_mul(0x94D0_49BB_1331_11EB);
        mixed ^ (mixed >> 31)
    }

    /// 0 to `count` - 1.
    pub fn below(&mut self, count: u64) -> u64 {
        self.next() % count
    }

    /// `low` to `high`, ends included; they lie less than 2^64 apart.
    pub fn between(&mut self, low: i128, high: i128) -> i128 {
        low + i128::from(self.below((high - low + 1) as u64))
    }

    /// `low` to `high`, with small and large steps above `low` alike.
    pub fn spread(&mut self, low: i128, high: i128) -> i128 {
        let span = high - low;
        let bits = u64::from(i128::BITS - span.leading_zeros());
        let narrowed = span >> self.below(bits + 1);
        low + self.between(0, narrowed)
    }

    pub fn one_in(&mut self, count: u64) -> bool {
        self.below(count) == 0
    }

    pub fn pick<T: Copy>(&mut self, of: &[T]) -> T {
        of[self.below(of.len() as u64) as usize]
    }

    pub fn shuffle<T>(&mut self, list: &mut [T]) {
        for i in (1..list.len()).rev() {
            list.swap(i, self.below(i as u64 + 1) as usize);
        }
    }
}
