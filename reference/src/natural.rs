//! Whole numbers from zero on, of any size, for the exact run.

use std::cmp::Ordering;
use std::fmt;

/// A whole number: 64-bit limbs, the least first, the last one not zero.
#[derive(Clone, Debug, Default, PartialEq, Eq)]
pub struct Natural {
    limbs: Vec<u64>,
}

impl From<u64> for Natural {
    fn from(value: u64) -> Natural {
        let mut number = Natural { limbs: vec![value] };
        number.trim();
        number
    }
}

impl Natural {
    pub fn zero() -> Natural {
        Natural::default()
    }

    fn trim(&mut self) {
        while self.limbs.last() == Some(&0) {
            self.limbs.pop();
        }
    }

    /// Adds `other` × `factor` to this number.
    pub fn add_product(&mut self, other: &Natural, factor: u64) {
        let mut carry: u128 = 0;
        let mut place = 0;
        while place < other.limbs.len() || carry > 0 {
            if place == self.limbs.len() {
                self.limbs.push(0);
            }
            let limb = other.limbs.get(place).copied().unwrap_or(0);
            let total =
                u128::from(limb) * u128::from(factor) + u128::from(self.limbs[place]) + carry;
            self.limbs[place] = total as u64;
            carry = total >> 64;
            place += 1;
        }
        self.trim();
    }

    /// This number plus `other`.
    pub fn plus(&self, other: &Natural) -> Natural {
        let mut sum = self.clone();
        sum.add_product(other, 1);
        sum
    }

    /// This number times `factor`.
    pub fn times(&self, factor: u64) -> Natural {
        let mut product = Natural::zero();
        product.add_product(self, factor);
        product
    }

    /// `base` to the power `exponent`.
    pub fn power(base: u64, exponent: u32) -> Natural {
        (0..exponent).fold(Natural::from(1), |product, _| product.times(base))
    }

    /// The larger of this number and `other` less the smaller one.
    pub fn distance(&self, other: &Natural) -> Natural {
        let (large, small) = match self.cmp(other) {
            Ordering::Less => (other, self),
            _ => (self, other),
        };
        let mut result = large.clone();
        let mut borrow = false;
        for place in 0..result.limbs.len() {
            let limb = small.limbs.get(place).copied().unwrap_or(0);
            let (less, first) = result.limbs[place].overflowing_sub(limb);
            let (less, second) = less.overflowing_sub(u64::from(borrow));
            result.limbs[place] = less;
            borrow = first || second;
        }
        assert!(!borrow);
        result.trim();
        result
    }

    /// The first 65 to 128 bits as a float, and the power of two that they are
    /// to be multiplied by: a number itself may lie beyond all floats.
    fn leading(&self) -> (f64, i32) {
        match self.limbs.as_slice() {
            [] => (0.0, 0),
            [only] => (*only as f64, 0),
            [rest @ .., low, high] => {
                let bits = (u128::from(*high) << 64) | u128::from(*low);
                (bits as f64, 64 * rest.len() as i32)
            }
        }
    }

    /// This number divided by `other`, which is not zero, as a float near the
    /// exact quotient: for printing, not for comparing.
    pub fn ratio(&self, other: &Natural) -> f64 {
        assert!(!other.limbs.is_empty());
        let (numerator, above) = self.leading();
        let (denominator, below) = other.leading();
        numerator / denominator * 2f64.powi(above - below)
    }
}

impl Ord for Natural {
    fn cmp(&self, other: &Natural) -> Ordering {
        self.limbs
            .len()
            .cmp(&other.limbs.len())
            .then_with(|| self.limbs.iter().rev().cmp(other.limbs.iter().rev()))
    }
}

impl PartialOrd for Natural {
    fn partial_cmp(&self, other: &Natural) -> Option<Ordering> {
        Some(self.cmp(other))
    }
}

/// Decimal digits.
impl fmt::Display for Natural {
    fn fmt(&self, f: &mut fmt::Formatter<'_>) -> fmt::Result {
        const CHUNK: u128 = 10_000_000_000_000_000_000;
        let mut rest = self.clone();
        let mut chunks: Vec<u64> = Vec::new();
        while !rest.limbs.is_empty() {
            let mut remainder: u128 = 0;
            for limb in rest.limbs.iter_mut().rev() {
                let value = (remainder << 64) | u128::from(*limb);
                *limb = (value / CHUNK) as u64;
                remainder = value % CHUNK;
            }
            rest.trim();
            chunks.push(remainder as u64);
        }
        match chunks.split_last() {
            None => write!(f, "0"),
            Some((first, others)) => {
                write!(f, "{first}")?;
                others
                    .iter()
                    .rev()
                    .try_for_each(|chunk| write!(f, "{chunk:019}"))
            }
        }
    }
}

#[cfg(test)]
mod tests {
    use super::*;
    use crate::random::Random;

    #[test]
    fn agrees_with_128_bit_numbers() {
        let mut random = Random::new(1);
        for _ in 0..10_000 {
            let a = random.bits() >> random.below(64);
            let b = random.bits() >> random.below(64);
            let c = random.bits() >> (2 + random.below(62));
            let ab = Natural::from(a).times(b);
            assert_eq!(ab.to_string(), (u128::from(a) * u128::from(b)).to_string());
            let d = Natural::from(c).times(c);
            let gap = (u128::from(a) * u128::from(b)).abs_diff(u128::from(c) * u128::from(c));
            assert_eq!(ab.distance(&d).to_string(), gap.to_string());
            assert_eq!(
                ab.cmp(&d),
                (u128::from(a) * u128::from(b)).cmp(&(u128::from(c) * u128::from(c)))
            );
            let sum = Natural::from(a).plus(&Natural::from(b));
            assert_eq!(sum.to_string(), (u128::from(a) + u128::from(b)).to_string());
        }
    }

    #[test]
    fn ratios() {
        let whole = |value: u64| Natural::from(value);
        assert_eq!(Natural::zero().ratio(&whole(7)), 0.0);
        assert_eq!(whole(1).ratio(&whole(8)), 0.125);
        assert_eq!(whole(u64::MAX).ratio(&whole(u64::MAX)), 1.0);
        // Numbers beyond all floats: 2^1280 × 3/4 over 2^1280, and 3^100 over 3^99.
        let scale = Natural::power(1 << 20, 64);
        let quarters = Natural::power(1 << 20, 63).times(3 << 18);
        assert_eq!(quarters.ratio(&scale), 0.75);
        assert_eq!(scale.ratio(&quarters), 4.0 / 3.0);
        let third = Natural::power(3, 100).ratio(&Natural::power(3, 99));
        assert!((third - 3.0).abs() < 1e-14);
        assert_eq!(whole(1).ratio(&scale), 0.0);
    }

    #[test]
    fn large_powers() {
        // 3^100 and the scale of 64 steps of 64-step kernels, (2^20)^64 = 2^1280.
        assert_eq!(
            Natural::power(3, 100).to_string(),
            "515377520732011331036461129765621272702107522001"
        );
        let scale = Natural::power(1 << 20, 64);
        let mut limbs = vec![0; 20];
        limbs.push(1);
        assert_eq!(scale, Natural { limbs });
        let less = scale.distance(&Natural::from(1));
        assert_eq!(less.limbs, vec![u64::MAX; 20]);
        assert_eq!(less.plus(&Natural::from(1)), scale);
        assert!(less < scale);
    }
}
