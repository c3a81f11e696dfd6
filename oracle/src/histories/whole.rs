//! Whole numbers of any length, with the operations that the exact averages need.

use std::cmp::Ordering;

/// Its limbs, the least first, with no zero at the end.
#[derive(Clone, PartialEq, Eq)]
pub struct Whole(Vec<u64>);

impl Whole {
    pub fn of(n: u64) -> Self {
        Self(vec![n]).trimmed()
    }

    fn trimmed(mut self) -> Self {
        while self.0.last() == Some(&0) {
            self.0.pop();
        }
        self
    }

    fn limb(&self, i: usize) -> u64 {
        self.0.get(i).copied().unwrap_or(0)
    }

    pub fn plus(&self, other: &Self) -> Self {
        let mut carry = 0;
        let sum = |i| {
            let limb = u128::from(self.limb(i)) + u128::from(other.limb(i)) + carry;
            carry = limb >> 64;
            limb as u64
        };
        Self((0..=self.0.len().max(other.0.len())).map(sum).collect()).trimmed()
    }

    /// The difference, whichever is the greater.
    pub fn distance(&self, other: &Self) -> Self {
        let (high, low) = if self < other { (other, self) } else { (self, other) };
        let mut borrow = 0;
        let difference = |i| {
            let limb = i128::from(high.limb(i)) - i128::from(low.limb(i)) - borrow;
            borrow = i128::from(limb < 0);
            limb as u64
        };
        Self((0..high.0.len()).map(difference).collect()).trimmed()
    }

    pub fn times(&self, factor: u64) -> Self {
        let mut carry = 0;
        let product = |i| {
            let limb = u128::from(self.limb(i)) * u128::from(factor) + carry;
            carry = limb >> 64;
            limb as u64
        };
        Self((0..=self.0.len()).map(product).collect()).trimmed()
    }

    /// Times 2^bits.
    pub fn shifted(&self, bits: usize) -> Self {
        let mut limbs = vec![0; bits / 64];
        limbs.extend(&self.0);
        Self(limbs).times(1 << (bits % 64))
    }

    /// Over 2^bits, as a float, for a reader.
    pub fn over(&self, bits: usize) -> f64 {
        let part = |(i, limb): (usize, &u64)| *limb as f64 * 2f64.powi(64 * i as i32 - bits as i32);
        self.0.iter().enumerate().map(part).sum()
    }
}

impl PartialOrd for Whole {
    fn partial_cmp(&self, other: &Self) -> Option<Ordering> {
        Some(self.cmp(other))
    }
}

impl Ord for Whole {
    fn cmp(&self, other: &Self) -> Ordering {
        let limbs = |w: &Self| w.0.iter().rev().copied().collect::<Vec<u64>>();
        self.0.len().cmp(&other.0.len()).then_with(|| limbs(self).cmp(&limbs(other)))
    }
}
