//! Natural numbers of any size, as far as the settings need them.

use std::cmp::Ordering;

/// Limbs of 64 bits from the lowest up, the last one not 0.
#[derive(Clone, Debug, PartialEq, Eq)]
pub struct Natural(Vec<u64>);

impl Natural {
    pub fn new(number: u64) -> Natural {
        Natural(vec![number]).trimmed()
    }

    pub fn power_of_two(exponent: usize) -> Natural {
        let mut limbs = vec![0; exponent / 64 + 1];
        limbs[exponent / 64] = 1 << (exponent % 64);
        Natural(limbs)
    }

    pub fn times(&self, other: &Natural) -> Natural {
        let mut limbs = vec![0; self.0.len() + other.0.len()];
        for (place, &limb) in self.0.iter().enumerate() {
            add_product(&mut limbs[place..], limb, &other.0);
        }
        Natural(limbs).trimmed()
    }

    pub fn to_the_power(&self, exponent: u32) -> Natural {
        (0..exponent).fold(Natural::new(1), |power, _| power.times(self))
    }

    pub fn compare(&self, other: &Natural) -> Ordering {
        self.0.len().cmp(&other.0.len()).then_with(|| self.0.iter().rev().cmp(other.0.iter().rev()))
    }

    fn trimmed(mut self) -> Natural {
        while self.0.last() == Some(&0) {
            self.0.pop();
        }
        self
    }
}

/// Adds `limb` times `other` to `limbs`, which has room for the carry.
fn add_product(limbs: &mut [u64], limb: u64, other: &[u64]) {
    let mut carry = 0;
    for (place, sum) in limbs[..other.len()].iter_mut().zip(other) {
        let product = u128::from(limb) * u128::from(*sum) + u128::from(*place) + carry;
        *place = product as u64;
        carry = product >> 64;
    }
    limbs[other.len()] = carry as u64;
}
