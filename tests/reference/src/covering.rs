//! Which later lines an earlier one drops: 02's (viii), "Drop weaker lines".

use crate::normalize::Body;
use crate::readings::Inequality;
use std::cmp::Ordering;

/// What a line drops: every later one that it covers, by 02's (viii), or its equals alone, as it was
/// before.
#[derive(Clone, Copy, Debug, PartialEq, Eq)]
pub enum Dropping {
    Covered,
    Equal,
}

impl Dropping {
    pub fn drops(self, earlier: &Body, later: &Body) -> bool {
        match self {
            Dropping::Covered => earlier.covers(later),
            Dropping::Equal => earlier == later,
        }
    }
}

impl Body {
    /// The literals are among the later line's in each sign, and there is no condition, or one that
    /// covers the later line's. A line covers its equals.
    fn covers(&self, later: &Body) -> bool {
        let within = |some: u32, all: u32| some & !all == 0;
        within(self.literals.positive, later.literals.positive)
            && within(self.literals.negative, later.literals.negative)
            && match (&self.constraint, &later.constraint) {
                (None, _) => true,
                (Some(_), None) => false,
                (Some(constraint), Some(later)) => constraint.covers(later),
            }
    }
}

impl Inequality {
    /// The same coefficients, and a bound that is smaller, or equal under a relation at least as
    /// strict. Bounds are compared with their signs.
    fn covers(&self, later: &Inequality) -> bool {
        let as_strict = self.strict || !later.strict;
        self.coefficients == later.coefficients
            && match self.bound.cmp(&later.bound) {
                Ordering::Less => true,
                Ordering::Equal => as_strict,
                Ordering::Greater => false,
            }
    }
}
