//! Sums of figures and a constant, in 64 bits.

use crate::question::{Condition, Relation, AMOUNT};
use crate::token::Comparison;

pub struct Sum {
    coefficients: Vec<i64>,
    constant: i64,
}

/// An amount of a condition beyond the range.
pub enum Beyond {
    Coefficient(usize),
    Bound,
}

impl Sum {
    pub fn zero(figures: usize) -> Sum {
        Sum {
            coefficients: vec![0; figures],
            constant: 0,
        }
    }

    /// Adds an amount of a figure, or to the constant; none beyond 64 bits.
    pub fn add(&mut self, figure: Option<usize>, amount: i64) -> Option<()> {
        let place = match figure {
            Some(figure) => &mut self.coefficients[figure],
            None => &mut self.constant,
        };
        *place = place.checked_add(amount)?;
        Some(())
    }

    fn has_figures(&self) -> bool {
        self.coefficients.iter().any(|&amount| amount != 0)
    }

    /// The condition `self comparison right`, figures to the left and constants to the right;
    /// there is no relation for `>`, so its sides are exchanged, and so are those of `7 = x`.
    pub fn condition(self, comparison: Comparison, right: Sum) -> Result<Condition, Beyond> {
        let only_right = !self.has_figures() && right.has_figures();
        let (left, right, relation) = match (comparison, only_right) {
            (Comparison::Below, _) => (self, right, Relation::Below),
            (Comparison::Above, _) => (right, self, Relation::Below),
            (Comparison::AtMost, false) => (self, right, Relation::AtMost),
            (Comparison::Equal, false) => (self, right, Relation::Equal),
            (Comparison::AtLeast, false) => (self, right, Relation::AtLeast),
            (Comparison::AtMost, true) => (right, self, Relation::AtLeast),
            (Comparison::Equal, true) => (right, self, Relation::Equal),
            (Comparison::AtLeast, true) => (right, self, Relation::AtMost),
        };
        let pairs = left.coefficients.iter().zip(&right.coefficients);
        let moved = pairs.enumerate().map(|(figure, (&left, &right))| {
            difference(left, right).ok_or(Beyond::Coefficient(figure))
        });
        Ok(Condition {
            relation,
            coefficients: moved.collect::<Result<_, _>>()?,
            bound: difference(right.constant, left.constant).ok_or(Beyond::Bound)?,
        })
    }
}

/// A difference within the range of amounts.
fn difference(left: i64, right: i64) -> Option<i32> {
    let amount = i32::try_from(left.checked_sub(right)?).ok()?;
    (-AMOUNT..=AMOUNT).contains(&amount).then_some(amount)
}
