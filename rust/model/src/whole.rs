//! Whole numbers of any size from 0 up, and one over another: what exact levels need. Eight MM
//! terms alone have a common denominator of up to (20,000 × 1,000,000)^8, beyond 128 bits.

use std::cmp::Ordering;
use std::iter::zip;

/// 64-bit digits, lowest first, with no zero digit at the top.
#[derive(Clone, Debug, PartialEq, Eq)]
pub struct Whole(Vec<u64>);

impl Whole {
    fn trimmed(mut digits: Vec<u64>) -> Whole {
        while digits.last() == Some(&0) {
            digits.pop();
        }
        Whole(digits)
    }

    pub fn plus(&self, other: &Whole) -> Whole {
        let length = self.0.len().max(other.0.len());
        let mut digits = Vec::with_capacity(length + 1);
        let mut carry = 0;
        for i in 0..length {
            let digit = |w: &Whole| u128::from(w.0.get(i).copied().unwrap_or(0));
            carry += digit(self) + digit(other);
            digits.push(carry as u64);
            carry >>= 64;
        }
        digits.push(carry as u64);
        Whole::trimmed(digits)
    }

    pub fn times(&self, other: &Whole) -> Whole {
        let mut digits = vec![0; self.0.len() + other.0.len()];
        for (i, a) in self.0.iter().enumerate() {
            let mut carry = 0;
            for (b, digit) in zip(&other.0, &mut digits[i..]) {
                // at most (2^64 - 1)^2 + 2 (2^64 - 1) = 2^128 - 1
                carry += u128::from(*a) * u128::from(*b) + u128::from(*digit);
                *digit = carry as u64;
                carry >>= 64;
            }
            digits[i + other.0.len()] = carry as u64;
        }
        Whole::trimmed(digits)
    }
}

impl From<u128> for Whole {
    fn from(number: u128) -> Whole {
        Whole::trimmed(vec![number as u64, (number >> 64) as u64])
    }
}

impl Ord for Whole {
    fn cmp(&self, other: &Whole) -> Ordering {
        let longer = self.0.len().cmp(&other.0.len());
        longer.then_with(|| self.0.iter().rev().cmp(other.0.iter().rev()))
    }
}

impl PartialOrd for Whole {
    fn partial_cmp(&self, other: &Whole) -> Option<Ordering> {
        Some(self.cmp(other))
    }
}

/// One whole number over another that is above 0. It is never reduced: `2/2` and `1/1` are equal.
#[derive(Clone, Debug)]
pub struct Ratio {
    pub over: Whole,
    pub under: Whole,
}

impl Ratio {
    pub fn new(over: u128, under: u128) -> Ratio {
        assert!(under > 0);
        Ratio {
            over: over.into(),
            under: under.into(),
        }
    }

    pub fn plus(&self, other: &Ratio) -> Ratio {
        let mine = self.over.times(&other.under);
        let yours = other.over.times(&self.under);
        Ratio {
            over: mine.plus(&yours),
            under: self.under.times(&other.under),
        }
    }

    pub fn times(&self, other: &Ratio) -> Ratio {
        Ratio {
            over: self.over.times(&other.over),
            under: self.under.times(&other.under),
        }
    }
}

impl Ord for Ratio {
    fn cmp(&self, other: &Ratio) -> Ordering {
        let mine = self.over.times(&other.under);
        mine.cmp(&other.over.times(&self.under))
    }
}

impl PartialOrd for Ratio {
    fn partial_cmp(&self, other: &Ratio) -> Option<Ordering> {
        Some(self.cmp(other))
    }
}

impl PartialEq for Ratio {
    fn eq(&self, other: &Ratio) -> bool {
        self.cmp(other) == Ordering::Equal
    }
}

impl Eq for Ratio {}

#[cfg(test)]
mod tests {
    use super::*;
    use crate::random::Random;

    fn whole(number: u128) -> Whole {
        number.into()
    }

    #[test]
    fn small_numbers_agree_with_the_language() {
        let mut random = Random::new(1);
        for _ in 0..20_000 {
            let mut number = || {
                let bits = random.below(64);
                u128::from(random.next() >> bits)
            };
            let (a, b) = (number(), number());
            assert_eq!(whole(a).plus(&whole(b)), whole(a + b));
            assert_eq!(whole(a).times(&whole(b)), whole(a * b));
            assert_eq!(whole(a).cmp(&whole(b)), a.cmp(&b));
        }
    }

    /// (a + b)^2 = a^2 + 2ab + b^2, with every digit full so that carries run to the top.
    #[test]
    fn large_numbers_keep_their_carries() {
        let mut a = whole(u128::MAX);
        for _ in 0..4 {
            let b = whole(u128::from(u64::MAX));
            let sum = a.plus(&b);
            let twice = whole(2).times(&a).times(&b);
            let squares = a.times(&a).plus(&b.times(&b));
            assert_eq!(sum.times(&sum), squares.plus(&twice));
            assert!(sum > a && a > b);
            a = sum.times(&sum);
        }
    }

    #[test]
    fn ratios_compare_across() {
        assert_eq!(Ratio::new(2, 4), Ratio::new(1, 2));
        assert_eq!(Ratio::new(0, 7), Ratio::new(0, 1));
        assert!(Ratio::new(1, 3) < Ratio::new(334, 1_000));
        let third = Ratio::new(1, 3);
        assert_eq!(third.plus(&third).plus(&third), Ratio::new(1, 1));
        assert_eq!(third.times(&Ratio::new(3, 1)), Ratio::new(1, 1));
    }
}
