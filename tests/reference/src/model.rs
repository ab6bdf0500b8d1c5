//! The model of a saturated proof: the turns are walked backwards, each giving its mark or
//! figure a value by the value rule. 01's "The sheet", the order that 02's (vii) has taken, and the
//! open marks of (iv).

use crate::big::Big;
use crate::elimination::{Elimination, Step, Variable};
use crate::fraction::Fraction;
use crate::problem::{Literals, Problem, MAX_AMOUNT, MAX_RATIONALS};
use crate::readings::Inequality;
use std::cmp::Ordering;

pub const MODEL_LENGTH: usize = 64;
/// An open mark's byte on a sheet; others are 0 or 1.
pub const OPEN: u8 = 2;

/// 01's choice, as far as the walk has come; variables not yet walked are no and 0.
struct Assignment {
    booleans: u32,
    rationals: [Fraction; MAX_RATIONALS],
}

/// A gathered bound on one side of a figure.
struct Limit {
    value: Fraction,
    strict: bool,
}

/// The sheet's 64 bytes, or none for "unwritten".
pub fn model(problem: &Problem, course: &Elimination) -> Option<[u8; MODEL_LENGTH]> {
    let assignment = walk(course)?;
    let values = &assignment.rationals[..problem.rationals];
    let denominator = common_denominator(values);
    let numerators = values
        .iter()
        .map(|value| written(&numerator_over(value, &denominator)))
        .collect::<Option<Vec<i32>>>()?;
    let open = problem.open();
    let mark = |i| match open >> i & 1 {
        1 => OPEN,
        _ => (assignment.booleans >> i & 1) as u8,
    };
    let marks = (0..problem.booleans).map(mark);

    let mut bytes = vec![problem.booleans];
    bytes.extend(marks);
    bytes.push(problem.rationals as u8);
    bytes.extend(written(&denominator)?.to_le_bytes());
    bytes.extend(numerators.iter().flat_map(|number| number.to_le_bytes()));
    bytes.resize(MODEL_LENGTH, 0);
    bytes.try_into().ok()
}

/// The number as the sheet writes it; none if it is beyond the limit.
fn written(number: &Big) -> Option<i32> {
    let number = number.to_i64().filter(|n| n.abs() <= MAX_AMOUNT)?;
    i32::try_from(number).ok()
}

/// The least common denominator; 1 for no fraction.
fn common_denominator(values: &[Fraction]) -> Big {
    values.iter().fold(Big::from(1i64), |common, value| {
        let shared = common.gcd(value.denominator());
        &common * &value.denominator().div_rem(&shared).0
    })
}

fn numerator_over(value: &Fraction, denominator: &Big) -> Big {
    value.numerator() * &denominator.div_rem(value.denominator()).0
}

/// Walks the turns backwards; none once a gathered bound or value is beyond the limit.
fn walk(course: &Elimination) -> Option<Assignment> {
    let mut assignment = Assignment {
        booleans: 0,
        rationals: std::array::from_fn(|_| Fraction::from(0)),
    };
    for (round, &variable) in course.taken.iter().enumerate().rev() {
        let own = |step: &&Step| step.body.round(&course.taken) == Some(round);
        let members: Vec<&Step> = course.steps.iter().filter(own).collect();
        match variable {
            Variable::Rational(i) => {
                assignment.rationals[i] = rational_value(i, &members, &assignment)?;
            }
            Variable::Boolean(i) if is_forced(i, &members, &assignment) => {
                assignment.booleans |= 1 << i;
            }
            Variable::Boolean(_) => {}
        }
    }
    Some(assignment)
}

/// A mark is yes exactly if some line of its turn has it positively and nothing else that holds.
fn is_forced(boolean: usize, members: &[&Step], assignment: &Assignment) -> bool {
    members.iter().any(|step| {
        let others = Literals {
            positive: step.body.literals.positive & !(1 << boolean),
            negative: step.body.literals.negative,
        };
        step.body.sign(Variable::Boolean(boolean)) == 1 && !assignment.satisfies_any(others)
    })
}

/// The figure's value by the bounds gathered from its turn's lines in which no literal holds.
fn rational_value(i: usize, members: &[&Step], assignment: &Assignment) -> Option<Fraction> {
    let mut lower = None;
    let mut upper = None;
    for step in members {
        let constraint = match step.body.constraint {
            Some(constraint) => constraint,
            None => continue,
        };
        if assignment.satisfies_any(step.body.literals) {
            continue;
        }
        let limit = assignment.limit(i, &constraint);
        check_size(&limit.value)?;
        if constraint.coefficients[i] < 0 {
            lower = Some(tighter(lower, limit, Ordering::Greater));
        } else {
            upper = Some(tighter(upper, limit, Ordering::Less));
        }
    }
    let value = choose(lower, upper);
    check_size(&value)?;
    Some(value)
}

/// None if the fraction's numerator or denominator is beyond the limit.
fn check_size(value: &Fraction) -> Option<()> {
    written(value.numerator())?;
    written(value.denominator())?;
    Some(())
}

/// The better of two limits on one side: strict if either at that value is.
fn tighter(held: Option<Limit>, new: Limit, better: Ordering) -> Limit {
    let held = match held {
        Some(held) => held,
        None => return new,
    };
    match new.value.cmp(&held.value) {
        Ordering::Equal => Limit {
            strict: held.strict || new.strict,
            value: held.value,
        },
        order if order == better => new,
        _ => held,
    }
}

/// The value rule, with L and U each there or not.
fn choose(lower: Option<Limit>, upper: Option<Limit>) -> Fraction {
    match (lower, upper) {
        (None, None) => Fraction::from(0),
        (Some(lower), _) if !lower.strict => lower.value,
        (_, Some(upper)) if !upper.strict => upper.value,
        (Some(lower), Some(upper)) => lower.value.midpoint(&upper.value),
        (Some(lower), None) => &lower.value + &Fraction::from(1),
        (None, Some(upper)) => &upper.value - &Fraction::from(1),
    }
}

impl Assignment {
    fn satisfies_any(&self, literals: Literals) -> bool {
        literals.positive & self.booleans != 0 || literals.negative & !self.booleans != 0
    }

    /// The bound a condition sets on figure i, the other figures having their values.
    fn limit(&self, i: usize, constraint: &Inequality) -> Limit {
        let mut rest = Fraction::from(constraint.bound);
        for (j, value) in self.rationals.iter().enumerate() {
            if j != i {
                rest = &rest - &(&Fraction::from(constraint.coefficients[j]) * value);
            }
        }
        Limit {
            value: rest.divided_by(constraint.coefficients[i]),
            strict: constraint.strict,
        }
    }
}
