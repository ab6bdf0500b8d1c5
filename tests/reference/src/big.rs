//! A small signed integer of any size. The value rule of 01's "The sheet" works in unlimited
//! fractions: one gathered bound may mix eight different denominators.

use std::cmp::Ordering;
use std::ops::{Add, Mul, Neg, Sub};

/// Sign and magnitude. The magnitude is little-endian without a leading zero limb; zero has no
/// limb and is not negative, so equal numbers have equal fields.
#[derive(Clone, Debug, PartialEq, Eq)]
pub struct Big {
    negative: bool,
    magnitude: Vec<u32>,
}

impl Big {
    fn new(negative: bool, magnitude: Vec<u32>) -> Big {
        let magnitude = trimmed(magnitude);
        Big {
            negative: negative && !magnitude.is_empty(),
            magnitude,
        }
    }

    pub fn is_zero(&self) -> bool {
        self.magnitude.is_empty()
    }

    pub fn is_negative(&self) -> bool {
        self.negative
    }

    pub fn abs(&self) -> Big {
        Big::new(false, self.magnitude.clone())
    }

    /// Quotient towards zero, and the remainder with the sign of `self`. Panics on a divisor 0,
    /// as the built-in integers do.
    pub fn div_rem(&self, divisor: &Big) -> (Big, Big) {
        assert!(!divisor.is_zero(), "division by zero");
        let (quotient, remainder) = divide(&self.magnitude, &divisor.magnitude);
        (
            Big::new(self.negative != divisor.negative, quotient),
            Big::new(self.negative, remainder),
        )
    }

    /// The greatest common divisor, never negative; that of 0 and 0 is 0.
    pub fn gcd(&self, other: &Big) -> Big {
        let (mut a, mut b) = (self.abs(), other.abs());
        while !b.is_zero() {
            let (_, remainder) = a.div_rem(&b);
            (a, b) = (b, remainder);
        }
        a
    }

    /// The number as a built-in integer, if it fits.
    pub fn to_i64(&self) -> Option<i64> {
        if self.magnitude.len() > 2 {
            return None;
        }
        let size = self
            .magnitude
            .iter()
            .rev()
            .fold(0i128, |size, &limb| (size << 32) | i128::from(limb));
        i64::try_from(if self.negative { -size } else { size }).ok()
    }
}

impl From<i128> for Big {
    fn from(number: i128) -> Big {
        let size = number.unsigned_abs();
        let limbs = (0..4).map(|i| (size >> (32 * i)) as u32).collect();
        Big::new(number < 0, limbs)
    }
}

impl From<i64> for Big {
    fn from(number: i64) -> Big {
        Big::from(i128::from(number))
    }
}

impl Ord for Big {
    fn cmp(&self, other: &Big) -> Ordering {
        match (self.negative, other.negative) {
            (false, false) => compare(&self.magnitude, &other.magnitude),
            (true, true) => compare(&other.magnitude, &self.magnitude),
            (false, true) => Ordering::Greater,
            (true, false) => Ordering::Less,
        }
    }
}

impl PartialOrd for Big {
    fn partial_cmp(&self, other: &Big) -> Option<Ordering> {
        Some(self.cmp(other))
    }
}

impl Neg for &Big {
    type Output = Big;
    fn neg(self) -> Big {
        Big::new(!self.negative, self.magnitude.clone())
    }
}

impl Add for &Big {
    type Output = Big;
    fn add(self, other: &Big) -> Big {
        if self.negative == other.negative {
            return Big::new(self.negative, sum(&self.magnitude, &other.magnitude));
        }
        match compare(&self.magnitude, &other.magnitude) {
            Ordering::Less => Big::new(
                other.negative,
                difference(&other.magnitude, &self.magnitude),
            ),
            _ => Big::new(self.negative, difference(&self.magnitude, &other.magnitude)),
        }
    }
}

impl Sub for &Big {
    type Output = Big;
    fn sub(self, other: &Big) -> Big {
        self + &-other
    }
}

impl Mul for &Big {
    type Output = Big;
    fn mul(self, other: &Big) -> Big {
        Big::new(
            self.negative != other.negative,
            product(&self.magnitude, &other.magnitude),
        )
    }
}

fn trimmed(mut magnitude: Vec<u32>) -> Vec<u32> {
    while magnitude.last() == Some(&0) {
        magnitude.pop();
    }
    magnitude
}

/// Compares two magnitudes without leading zero limbs.
fn compare(a: &[u32], b: &[u32]) -> Ordering {
    a.len()
        .cmp(&b.len())
        .then_with(|| a.iter().rev().cmp(b.iter().rev()))
}

fn sum(a: &[u32], b: &[u32]) -> Vec<u32> {
    let length = a.len().max(b.len()) + 1;
    let mut total = a.to_vec();
    total.resize(length, 0);
    add_to(&mut total, b);
    total
}

/// Adds `b` to `a` in place and returns the carry out of its top limb.
fn add_to(a: &mut [u32], b: &[u32]) -> u32 {
    let mut carry = 0;
    let addends = b.iter().copied().chain(std::iter::repeat(0));
    for (limb, addend) in a.iter_mut().zip(addends) {
        let total = u64::from(*limb) + u64::from(addend) + carry;
        *limb = total as u32;
        carry = total >> 32;
    }
    carry as u32
}

/// `a - b` for `b` at most `a`.
fn difference(a: &[u32], b: &[u32]) -> Vec<u32> {
    let mut rest = a.to_vec();
    subtract_multiple(&mut rest, b, 1);
    rest
}

/// Subtracts `digit` times `b` from `a` in place and returns the borrow out of its top limb.
fn subtract_multiple(a: &mut [u32], b: &[u32], digit: u32) -> u32 {
    let mut borrow = 0;
    let factors = b.iter().copied().chain(std::iter::repeat(0));
    for (limb, factor) in a.iter_mut().zip(factors) {
        let amount = u64::from(digit) * u64::from(factor) + borrow;
        let (rest, under) = limb.overflowing_sub(amount as u32);
        *limb = rest;
        borrow = (amount >> 32) + u64::from(under);
    }
    borrow as u32
}

fn product(a: &[u32], b: &[u32]) -> Vec<u32> {
    let mut total = vec![0; a.len() + b.len()];
    for (i, &factor) in a.iter().enumerate() {
        let mut carry = 0;
        for (j, &other) in b.iter().enumerate() {
            let term = u64::from(factor) * u64::from(other) + u64::from(total[i + j]) + carry;
            total[i + j] = term as u32;
            carry = term >> 32;
        }
        total[i + b.len()] = carry as u32;
    }
    total
}

/// Long division, after Knuth's algorithm D: with the divisor's top bit set, a quotient digit
/// guessed from the top limbs is at most two too large, which adding back mends.
fn divide(dividend: &[u32], divisor: &[u32]) -> (Vec<u32>, Vec<u32>) {
    let shift = divisor[divisor.len() - 1].leading_zeros();
    let divisor = trimmed(shifted_left(divisor, shift));
    let mut rest = shifted_left(dividend, shift);
    let length = divisor.len();
    if rest.len() <= length {
        return (Vec::new(), dividend.to_vec());
    }
    let mut quotient = vec![0; rest.len() - length];
    for (position, place) in quotient.iter_mut().enumerate().rev() {
        let window = &mut rest[position..=position + length];
        let mut digit = guess(window, divisor[length - 1]);
        let mut borrow = subtract_multiple(window, &divisor, digit);
        while borrow > 0 {
            borrow -= add_to(window, &divisor);
            digit -= 1;
        }
        *place = digit;
    }
    (quotient, shifted_right(&rest, shift))
}

/// The window's two top limbs by the divisor's top limb, held to one limb.
fn guess(window: &[u32], top: u32) -> u32 {
    let (low, high) = match window {
        [.., low, high] => (low, high),
        _ => return 0,
    };
    let head = (u64::from(*high) << 32) | u64::from(*low);
    u32::try_from(head / u64::from(top)).unwrap_or(u32::MAX)
}

/// Shifts by fewer than 32 bits; the result has one limb more.
fn shifted_left(magnitude: &[u32], shift: u32) -> Vec<u32> {
    let mut carry = 0;
    let mut limbs = Vec::with_capacity(magnitude.len() + 1);
    for &limb in magnitude {
        let wide = (u64::from(limb) << shift) | carry;
        limbs.push(wide as u32);
        carry = wide >> 32;
    }
    limbs.push(carry as u32);
    limbs
}

/// Shifts by fewer than 32 bits; no set bit is lost.
fn shifted_right(magnitude: &[u32], shift: u32) -> Vec<u32> {
    let above = magnitude.iter().skip(1).copied().chain(std::iter::once(0));
    magnitude
        .iter()
        .zip(above)
        .map(|(&limb, next)| (((u64::from(next) << 32) | u64::from(limb)) >> shift) as u32)
        .collect()
}
