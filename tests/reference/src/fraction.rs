//! A fraction of unlimited integers, always reduced with a positive denominator. 01's "The
//! sheet" gathers bounds and takes values in such fractions.

use crate::big::Big;
use std::cmp::Ordering;
use std::ops::{Add, Mul, Sub};

#[derive(Clone, Debug, PartialEq, Eq)]
pub struct Fraction {
    numerator: Big,
    denominator: Big,
}

impl Fraction {
    /// The reduced fraction; the denominator must not be 0.
    pub fn new(numerator: Big, denominator: Big) -> Fraction {
        let divisor = match denominator.is_negative() {
            true => -&numerator.gcd(&denominator),
            false => numerator.gcd(&denominator),
        };
        Fraction {
            numerator: numerator.div_rem(&divisor).0,
            denominator: denominator.div_rem(&divisor).0,
        }
    }

    pub fn numerator(&self) -> &Big {
        &self.numerator
    }

    pub fn denominator(&self) -> &Big {
        &self.denominator
    }

    /// The quotient by a divisor that must not be 0.
    pub fn divided_by(&self, divisor: i64) -> Fraction {
        Fraction::new(
            self.numerator.clone(),
            &self.denominator * &Big::from(divisor),
        )
    }

    pub fn midpoint(&self, other: &Fraction) -> Fraction {
        (self + other).divided_by(2)
    }
}

impl From<i64> for Fraction {
    fn from(number: i64) -> Fraction {
        Fraction {
            numerator: Big::from(number),
            denominator: Big::from(1i64),
        }
    }
}

impl Add for &Fraction {
    type Output = Fraction;
    fn add(self, other: &Fraction) -> Fraction {
        let numerator =
            &(&self.numerator * &other.denominator) + &(&other.numerator * &self.denominator);
        Fraction::new(numerator, &self.denominator * &other.denominator)
    }
}

impl Sub for &Fraction {
    type Output = Fraction;
    fn sub(self, other: &Fraction) -> Fraction {
        self + &(other * &Fraction::from(-1))
    }
}

impl Mul for &Fraction {
    type Output = Fraction;
    fn mul(self, other: &Fraction) -> Fraction {
        Fraction::new(
            &self.numerator * &other.numerator,
            &self.denominator * &other.denominator,
        )
    }
}

impl Ord for Fraction {
    fn cmp(&self, other: &Fraction) -> Ordering {
        (&self.numerator * &other.denominator).cmp(&(&other.numerator * &self.denominator))
    }
}

impl PartialOrd for Fraction {
    fn partial_cmp(&self, other: &Fraction) -> Option<Ordering> {
        Some(self.cmp(other))
    }
}
