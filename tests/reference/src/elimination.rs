//! The elimination: loading, then one round for every figure and every mark, each pairing the
//! lines with it positive and the lines with it negative, after the published rules of Davis and
//! Putnam and of Fourier and Motzkin. 01's "The book" and "The course", with the figures in the
//! order of 02's (vii), "Cheapest figure first", and without the lines that its (viii) drops, "Drop
//! weaker lines".

use crate::covering::Dropping;
use crate::normalize::{normalize, split, Body};
use crate::problem::{Literals, Problem, MAX_AMOUNT, MAX_RATIONALS};
use crate::readings::Inequality;
use std::collections::HashMap;

pub const STEP_LENGTH: usize = 64;
pub const ROUNDS: usize = 40;

/// The most lines of a book: N of 02's (iii), "A short book for the board's preview". Parents take
/// two bytes, so it is at most 65,536.
#[derive(Clone, Copy, Debug, PartialEq, Eq)]
pub struct Limit(pub usize);

impl Limit {
    pub const STANDARD: Limit = Limit(1_024);
    pub const PREVIEW: Limit = Limit(256);

    /// The bytes of a full-size book.
    pub fn proof_length(self) -> usize {
        self.0 * STEP_LENGTH
    }
}

/// What a round removes: a figure, or a mark or link.
#[derive(Clone, Copy, Debug, PartialEq, Eq)]
pub enum Variable {
    Rational(usize),
    Boolean(usize),
}

/// Where a line comes from: 01's how, which, first and second.
#[derive(Clone, Copy, Debug, PartialEq, Eq)]
pub enum Origin {
    Loaded {
        clause: u16,
        part: u16,
    },
    Resolved {
        variable: Variable,
        first: u16,
        second: u16,
    },
}

/// 01's line of the book.
#[derive(Clone, Copy, Debug)]
pub struct Step {
    pub origin: Origin,
    pub body: Body,
}

/// How a course ends; all but the first are left early.
#[derive(Clone, Copy, Debug, PartialEq, Eq)]
pub enum End {
    Saturated,
    Empty,
    Overflow,
    OutOfSteps,
}

/// A course that has ended: the lines it holds, the pairs it has tried, and what each turn it came
/// to has taken.
pub struct Elimination {
    pub steps: Vec<Step>,
    pub pairs: u64,
    pub taken: Vec<Variable>,
    pub end: End,
    limit: Limit,
    rules: Rules,
    /// The lines once more, by their coefficients, where a hash is asked for.
    rows: Option<HashMap<Row, Vec<Body>>>,
}

/// A line's coefficients; none without a condition.
type Row = Option<[i64; MAX_RATIONALS]>;

impl Body {
    /// A line without literal and condition.
    pub fn is_empty(&self) -> bool {
        self.literals == Literals::default() && self.constraint.is_none()
    }

    /// 01's wide: some amount is beyond the limit.
    pub fn overflows(&self) -> bool {
        self.constraint.map_or(false, |constraint| {
            let mut amounts = constraint.coefficients.iter().chain([&constraint.bound]);
            amounts.any(|amount| amount.abs() > MAX_AMOUNT)
        })
    }

    fn row(&self) -> Row {
        self.constraint.map(|constraint| constraint.coefficients)
    }

    /// 1 if the line contains the variable positively, -1 if negatively, 0 if not at all.
    pub fn sign(&self, variable: Variable) -> i64 {
        match variable {
            Variable::Rational(i) => self
                .constraint
                .map_or(0, |constraint| constraint.coefficients[i].signum()),
            Variable::Boolean(i) if self.literals.positive >> i & 1 == 1 => 1,
            Variable::Boolean(i) if self.literals.negative >> i & 1 == 1 => -1,
            Variable::Boolean(_) => 0,
        }
    }

    /// The turn the line belongs to: the earliest of those taken whose variable it contains. None
    /// if it contains none of them; an empty line never does.
    pub fn round(&self, taken: &[Variable]) -> Option<usize> {
        taken.iter().position(|&variable| self.sign(variable) != 0)
    }
}

/// The tidied result of a pair, `upper` with the variable positive and `lower` with it negative.
/// None if tidying drops it, or if by a mark both lines have a condition.
pub fn resolve(variable: Variable, upper: &Body, lower: &Body) -> Option<Body> {
    let mut literals = Literals {
        positive: upper.literals.positive | lower.literals.positive,
        negative: upper.literals.negative | lower.literals.negative,
    };
    let constraint = match variable {
        Variable::Rational(i) => Some(combine(i, &upper.constraint?, &lower.constraint?)),
        Variable::Boolean(i) => {
            literals.positive &= !(1 << i);
            literals.negative &= !(1 << i);
            match (upper.constraint, lower.constraint) {
                (Some(_), Some(_)) => return None,
                (one, other) => one.or(other),
            }
        }
    };
    let constraints = constraint.as_ref().map_or(&[][..], std::slice::from_ref);
    let normal = normalize(literals, constraints)?;
    Some(Body {
        literals: normal.literals,
        constraint: normal.constraints.first().copied(),
    })
}

/// c × upper + a × lower. Amounts of lines are at most 10^9 in size, so this fits 64 bits.
fn combine(variable: usize, upper: &Inequality, lower: &Inequality) -> Inequality {
    let a = upper.coefficients[variable];
    let c = lower.coefficients[variable].abs();
    Inequality {
        strict: upper.strict || lower.strict,
        coefficients: std::array::from_fn(|i| {
            c * upper.coefficients[i] + a * lower.coefficients[i]
        }),
        bound: c * upper.bound + a * lower.bound,
    }
}

impl Step {
    /// The line's 64 bytes.
    pub fn encode(&self) -> [u8; STEP_LENGTH] {
        let (how, which, first, second) = match self.origin {
            Origin::Loaded { clause, part } => (0, 0, clause, part),
            Origin::Resolved {
                variable,
                first,
                second,
            } => match variable {
                Variable::Rational(i) => (1, i as u8, first, second),
                Variable::Boolean(i) => (2, i as u8, first, second),
            },
        };
        let mut bytes = [0; STEP_LENGTH];
        bytes[0] = how;
        bytes[1] = which;
        bytes[2..4].copy_from_slice(&first.to_le_bytes());
        bytes[4..6].copy_from_slice(&second.to_le_bytes());
        bytes[8..12].copy_from_slice(&self.body.literals.positive.to_le_bytes());
        bytes[12..16].copy_from_slice(&self.body.literals.negative.to_le_bytes());
        if let Some(constraint) = self.body.constraint {
            bytes[6] = match constraint.strict {
                false => 1,
                true => 2,
            };
            let amounts = constraint.coefficients.iter().chain([&constraint.bound]);
            for (field, &amount) in bytes[16..52].chunks_exact_mut(4).zip(amounts) {
                field.copy_from_slice(&(amount as i32).to_le_bytes());
            }
        }
        bytes
    }
}

/// How an earlier line that drops one is looked for: by a plain search through all lines, or by a
/// hash of the coefficients, which only the benchmark asks for.
#[derive(Clone, Copy)]
pub enum Search {
    Plain,
    Hashed,
}

/// Which of the remaining figures a turn takes: the cheapest, by 02's (vii), or the one with the
/// lowest number, as it was before.
#[derive(Clone, Copy, Debug, PartialEq, Eq)]
pub enum Order {
    Cheapest,
    Rising,
}

/// The rules of a course that requests of 02 have changed.
#[derive(Clone, Copy, Debug, PartialEq, Eq)]
pub struct Rules {
    pub order: Order,
    pub dropping: Dropping,
}

impl Rules {
    pub const TODAY: Rules = Rules {
        order: Order::Cheapest,
        dropping: Dropping::Covered,
    };
}

/// Runs the course of a problem to its end.
pub fn eliminate(problem: &Problem, limit: Limit, rules: Rules, search: Search) -> Elimination {
    let mut elimination = Elimination {
        steps: Vec::new(),
        pairs: 0,
        taken: Vec::new(),
        end: End::Saturated,
        limit,
        rules,
        rows: match search {
            Search::Plain => None,
            Search::Hashed => Some(HashMap::new()),
        },
    };
    if let Err(end) = elimination.run(problem) {
        elimination.end = end;
    }
    elimination
}

impl Elimination {
    fn run(&mut self, problem: &Problem) -> Result<(), End> {
        for part in split(problem) {
            let origin = Origin::Loaded {
                clause: part.clause,
                part: part.part,
            };
            self.add(origin, part.body)?;
        }
        (0..ROUNDS).try_for_each(|_| self.round(problem.rationals))
    }

    /// Pairs the turn's lines; no result belongs to the turn, so these are known at its start.
    fn round(&mut self, rationals: usize) -> Result<(), End> {
        let variable = self.next(rationals);
        let uppers = self.members(variable, 1);
        let lowers = self.members(variable, -1);
        self.taken.push(variable);
        for &first in &uppers {
            for &second in &lowers {
                self.pair(variable, first, second)?;
            }
        }
        Ok(())
    }

    /// What the next turn takes. Figures that the question does not have are in no line; they come
    /// behind its own, so that the marks' turns stay 8 to 39.
    fn next(&self, rationals: usize) -> Variable {
        let own = (0..rationals).map(Variable::Rational);
        let mut remaining = own.filter(|figure| !self.taken.contains(figure));
        let figure = match self.rules.order {
            // Of several with the least cost this gives the first.
            Order::Cheapest => remaining.min_by_key(|&figure| self.cost(figure)),
            Order::Rising => remaining.next(),
        };
        match (figure, self.taken.len()) {
            (Some(figure), _) => figure,
            (None, turn) if turn < MAX_RATIONALS => Variable::Rational(turn),
            (None, turn) => Variable::Boolean(turn - MAX_RATIONALS),
        }
    }

    /// U × L - U - L, the pairs less the lines. It is signed: one upper alone costs -1, a figure in
    /// no line 0.
    fn cost(&self, figure: Variable) -> i64 {
        let count = |sign| self.members(figure, sign).len() as i64;
        let (uppers, lowers) = (count(1), count(-1));
        uppers * lowers - uppers - lowers
    }

    /// The numbers of the lines that contain nothing already taken, and this in this sign.
    fn members(&self, variable: Variable, sign: i64) -> Vec<usize> {
        let belongs =
            |body: &Body| body.round(&self.taken).is_none() && body.sign(variable) == sign;
        (0..self.steps.len())
            .filter(|&number| belongs(&self.steps[number].body))
            .collect()
    }

    fn pair(&mut self, variable: Variable, first: usize, second: usize) -> Result<(), End> {
        self.pairs += 1;
        let (upper, lower) = (&self.steps[first].body, &self.steps[second].body);
        let body = match resolve(variable, upper, lower) {
            Some(body) => body,
            None => return Ok(()),
        };
        let origin = Origin::Resolved {
            variable,
            first: first as u16,
            second: second as u16,
        };
        self.add(origin, body)
    }

    /// Adds a tidied line, unless it ends the course or an earlier one drops it.
    fn add(&mut self, origin: Origin, body: Body) -> Result<(), End> {
        if body.overflows() {
            return Err(End::Overflow);
        }
        if self.is_dropped(&body) {
            return Ok(());
        }
        if self.steps.len() == self.limit.0 {
            return Err(End::OutOfSteps);
        }
        self.steps.push(Step { origin, body });
        if let Some(rows) = &mut self.rows {
            rows.entry(body.row()).or_default().push(body);
        }
        match body.is_empty() {
            true => Err(End::Empty),
            false => Ok(()),
        }
    }

    fn is_dropped(&self, body: &Body) -> bool {
        let drops = |earlier: &Body| self.rules.dropping.drops(earlier, body);
        match &self.rows {
            None => self.steps.iter().any(|step| drops(&step.body)),
            // A line that drops it has no condition, or the same coefficients.
            Some(rows) => {
                let has = |row: Row| rows.get(&row).map_or(false, |row| row.iter().any(drops));
                has(None) || has(body.row())
            }
        }
    }
}
