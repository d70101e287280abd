//! Natural numbers of any size, with the few operations that the table of sines needs.

use std::cmp::Ordering;

/// A natural number as digits to base 2^32, the lowest first, the highest not zero.
#[derive(Clone, Debug, PartialEq, Eq)]
pub struct Big(Vec<u32>);

impl Big {
    pub fn from(mut value: u128) -> Big {
        let mut digits = Vec::new();
        while value > 0 {
            digits.push(value as u32);
            value >>= 32;
        }
        Big(digits)
    }

    pub fn plus(&self, other: &Big) -> Big {
        let mut digits = Vec::new();
        let mut carry = 0u64;
        for at in 0..self.0.len().max(other.0.len()) {
            carry += self.digit(at) + other.digit(at);
            digits.push(carry as u32);
            carry >>= 32;
        }
        Big(digits).with_top(carry)
    }

    /// The difference; `other` must not be above `self`.
    pub fn minus(&self, other: &Big) -> Big {
        assert!(*self >= *other, "a natural number below zero");
        let mut digits = Vec::new();
        let mut borrow = 0u64;
        for at in 0..self.0.len() {
            let taken = other.digit(at) + borrow;
            borrow = u64::from(taken > self.digit(at));
            digits.push(((borrow << 32) + self.digit(at) - taken) as u32);
        }
        Big(digits).with_top(0)
    }

    pub fn times(&self, other: &Big) -> Big {
        let mut digits = vec![0u32; self.0.len() + other.0.len()];
        for (i, &one) in self.0.iter().enumerate() {
            let mut carry = 0u64;
            for j in 0..other.0.len() {
                carry += u64::from(digits[i + j]) + u64::from(one) * other.digit(j);
                digits[i + j] = carry as u32;
                carry >>= 32;
            }
            digits[i + other.0.len()] = carry as u32;
        }
        Big(digits).with_top(0)
    }

    fn digit(&self, at: usize) -> u64 {
        self.0.get(at).copied().unwrap_or(0).into()
    }

    /// The number with one more digit on top, and without zeros there.
    fn with_top(mut self, digit: u64) -> Big {
        self.0.push(digit as u32);
        while self.0.last() == Some(&0) {
            self.0.pop();
        }
        self
    }
}

impl PartialOrd for Big {
    fn partial_cmp(&self, other: &Big) -> Option<Ordering> {
        Some(self.cmp(other))
    }
}

impl Ord for Big {
    fn cmp(&self, other: &Big) -> Ordering {
        let by_length = self.0.len().cmp(&other.0.len());
        by_length.then_with(|| self.0.iter().rev().cmp(other.0.iter().rev()))
    }
}

#[test]
fn agrees_with_u128() {
    let samples = [
        0u128,
        1,
        2,
        0xffff_ffff,
        0x1_0000_0000,
        0xffff_ffff_ffff_ffff,
        12_345_678_901_234_567_890,
    ];
    for x in samples {
        for y in samples {
            assert_eq!(Big::from(x).plus(&Big::from(y)), Big::from(x + y));
            assert_eq!(Big::from(x).times(&Big::from(y)), Big::from(x * y));
            assert_eq!(Big::from(x).cmp(&Big::from(y)), x.cmp(&y));
            if x >= y {
                assert_eq!(Big::from(x).minus(&Big::from(y)), Big::from(x - y));
            }
        }
    }
}
