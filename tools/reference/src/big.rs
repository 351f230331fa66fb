//! Natural numbers of any size, with just what the rule of the daily rates
//! needs: a product with a small number, a power of a small number, the order.

use std::cmp::Ordering;

/// Digits in base 2^64, the lowest first and the highest not 0; zero has none.
#[derive(Clone, Debug, PartialEq, Eq)]
pub struct Natural {
    digits: Vec<u64>,
}

impl Natural {
    pub fn one() -> Self {
        Natural { digits: vec![1] }
    }

    pub fn times(&self, factor: u64) -> Self {
        let mut product = self.clone();
        product.multiply(factor);
        product
    }

    /// One, multiplied by the base as often as the exponent says.
    pub fn power(base: u64, exponent: u32) -> Self {
        let mut product = Natural::one();
        for _ in 0..exponent {
            product.multiply(base);
        }
        product
    }

    /// The schoolbook product, digit by digit.
    fn multiply(&mut self, factor: u64) {
        let mut carry = 0;
        for digit in &mut self.digits {
            // At most (2^64 - 1)^2 + (2^64 - 1), which is below 2^128.
            let product = u128::from(*digit) * u128::from(factor) + carry;
            *digit = product as u64; // the low 64 bits
            carry = product >> 64;
        }
        self.digits.push(carry as u64);
        while self.digits.last() == Some(&0) {
            self.digits.pop();
        }
    }
}

impl Ord for Natural {
    /// More digits are more; of equally many the highest that differ decide.
    fn cmp(&self, other: &Self) -> Ordering {
        let lengths = self.digits.len().cmp(&other.digits.len());
        lengths.then_with(|| self.digits.iter().rev().cmp(other.digits.iter().rev()))
    }
}

impl PartialOrd for Natural {
    fn partial_cmp(&self, other: &Self) -> Option<Ordering> {
        Some(self.cmp(other))
    }
}

#[cfg(test)]
mod tests {
    use super::*;

    fn natural(value: u128) -> Natural {
        let mut digits = vec![value as u64, (value >> 64) as u64];
        while digits.last() == Some(&0) {
            digits.pop();
        }
        Natural { digits }
    }

    #[test]
    fn products_agree_with_the_machine() {
        let factors = [0, 1, 2, 10, 1 << 32, (1 << 63) + 1, u64::MAX];
        for a in factors {
            for b in factors {
                let product = u128::from(a) * u128::from(b);
                assert_eq!(natural(a.into()).times(b), natural(product));
            }
        }
    }

    #[test]
    fn carries_run_through_all_digits() {
        // (2^64 - 1)^3 = 2^192 - 3 × 2^128 + 3 × 2^64 - 1
        let cube = Natural::power(u64::MAX, 3);
        assert_eq!(cube.digits, [u64::MAX, 2, u64::MAX - 2]);
    }

    #[test]
    fn powers() {
        assert_eq!(Natural::power(7, 0), natural(1));
        assert_eq!(Natural::power(0, 5), natural(0));
        assert_eq!(Natural::power(3, 80), natural(3_u128.pow(80)));
        assert_eq!(Natural::power(2, 200).digits, [0, 0, 0, 1 << 8]);
    }

    #[test]
    fn order() {
        let ascending = [0, 1, u64::MAX as u128, 1 << 64, (1 << 64) + 1, 2 << 64];
        for (i, &a) in ascending.iter().enumerate() {
            for (j, &b) in ascending.iter().enumerate() {
                assert_eq!(natural(a).cmp(&natural(b)), i.cmp(&j));
            }
        }
    }
}
