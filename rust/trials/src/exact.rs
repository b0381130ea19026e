//! Natural numbers of any size, and fractions of them.

use std::cmp::Ordering;

/// A natural number: limbs of 64 bits, lowest first, the last not 0.
#[derive(Clone, Debug, PartialEq, Eq)]
pub struct Nat(Vec<u64>);

impl From<u64> for Nat {
    fn from(value: u64) -> Nat {
        Nat(vec![value]).trimmed()
    }
}

impl From<u128> for Nat {
    fn from(value: u128) -> Nat {
        Nat(vec![value as u64, (value >> 64) as u64]).trimmed()
    }
}

impl Nat {
    fn trimmed(mut self) -> Nat {
        while self.0.last() == Some(&0) {
            self.0.pop();
        }
        self
    }

    pub fn add(&self, other: &Nat) -> Nat {
        let mut sum = Vec::with_capacity(self.0.len().max(other.0.len()) + 1);
        let mut carry = 0;
        for i in 0..self.0.len().max(other.0.len()) {
            let a = self.0.get(i).copied().unwrap_or(0);
            let b = other.0.get(i).copied().unwrap_or(0);
            let limb = u128::from(a) + u128::from(b) + carry;
            sum.push(limb as u64);
            carry = limb >> 64;
        }
        sum.push(carry as u64);
        Nat(sum).trimmed()
    }

    pub fn mul(&self, other: &Nat) -> Nat {
        let mut product = vec![0; self.0.len() + other.0.len()];
        for (i, &a) in self.0.iter().enumerate() {
            let mut carry = 0;
            for (j, &b) in other.0.iter().enumerate() {
                let limb = u128::from(a) * u128::from(b) + u128::from(product[i + j]) + carry;
                product[i + j] = limb as u64;
                carry = limb >> 64;
            }
            product[i + other.0.len()] = carry as u64;
        }
        Nat(product).trimmed()
    }

    pub fn mul_small(&self, factor: u64) -> Nat {
        let mut product = Vec::with_capacity(self.0.len() + 1);
        let mut carry = 0;
        for &a in &self.0 {
            let limb = u128::from(a) * u128::from(factor) + carry;
            product.push(limb as u64);
            carry = limb >> 64;
        }
        product.push(carry as u64);
        Nat(product).trimmed()
    }
}

impl Ord for Nat {
    fn cmp(&self, other: &Nat) -> Ordering {
        let by_length = self.0.len().cmp(&other.0.len());
        by_length.then_with(|| self.0.iter().rev().cmp(other.0.iter().rev()))
    }
}

impl PartialOrd for Nat {
    fn partial_cmp(&self, other: &Nat) -> Option<Ordering> {
        Some(self.cmp(other))
    }
}

/// A fraction as it stands, not reduced; the denominator is not 0.
#[derive(Clone, Debug)]
pub struct Fraction {
    pub numerator: Nat,
    pub denominator: Nat,
}

impl Fraction {
    pub fn whole(value: u64) -> Fraction {
        Fraction {
            numerator: value.into(),
            denominator: 1u64.into(),
        }
    }

    pub fn add(&self, other: &Fraction) -> Fraction {
        let left = self.numerator.mul(&other.denominator);
        let right = other.numerator.mul(&self.denominator);
        Fraction {
            numerator: left.add(&right),
            denominator: self.denominator.mul(&other.denominator),
        }
    }

    pub fn times(&self, factor: u64) -> Fraction {
        Fraction {
            numerator: self.numerator.mul_small(factor),
            denominator: self.denominator.clone(),
        }
    }

    pub fn over(&self, divisor: u64) -> Fraction {
        Fraction {
            numerator: self.numerator.clone(),
            denominator: self.denominator.mul_small(divisor),
        }
    }

    /// Compares multiplied out.
    pub fn compare(&self, other: &Fraction) -> Ordering {
        let left = self.numerator.mul(&other.denominator);
        left.cmp(&other.numerator.mul(&self.denominator))
    }

    /// Nearer to `bound` than a number of tenths.
    pub fn nearer(&self, bound: u64, tenths: u64) -> bool {
        let exact = self.numerator.mul_small(10);
        let bound = self.denominator.mul_small(10 * bound);
        let room = self.denominator.mul_small(tenths);
        exact < bound.add(&room) && bound < exact.add(&room)
    }

    /// From `low` to `high`, both included.
    pub fn between(&self, low: u64, high: u64) -> bool {
        self.denominator.mul_small(low) <= self.numerator
            && self.numerator <= self.denominator.mul_small(high)
    }
}
