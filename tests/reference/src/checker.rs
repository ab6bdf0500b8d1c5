//! The check of a book and the check of a sheet, each from the question alone: 01's "What each
//! call says", from "The check tests question faults" on. A sheet is put to the clauses as written,
//! with the four relations of 02's (i) and the open marks of (iv), and then to those of its edition.

use crate::editions::Edition;
use crate::elimination::{resolve, Limit, Origin, Step, Variable, STEP_LENGTH};
use crate::model::{MODEL_LENGTH, OPEN};
use crate::normalize::{split, Body, ClausePart};
use crate::problem::{
    read, Clause, Constraint, Fault, Problem, Relation, MAX_AMOUNT, MAX_RATIONALS,
};
use crate::FIRST_EDITION;

/// The check's answer: accepted, the first failing line or clause (a book's line count if only
/// the empty end is missing), or a fault.
#[derive(Clone, Copy, Debug, PartialEq, Eq)]
pub enum Checked {
    Accepted,
    Fails(usize),
    Refused { number: u8, place: usize },
}

impl From<Fault> for Checked {
    fn from(Fault { number, place }: Fault) -> Checked {
        Checked::Refused { number, place }
    }
}

/// Checks that every line of a book follows and that the last is empty.
pub fn check_book(question: &[u8], book: &[u8]) -> Checked {
    check_book_within(Limit::STANDARD, question, book)
}

/// The same of a book with another limit of lines.
pub fn check_book_within(limit: Limit, question: &[u8], book: &[u8]) -> Checked {
    check_book_in(FIRST_EDITION, limit, question, book)
}

/// The problem of an edition, or the first fault, which an unknown edition comes before.
fn read_in(edition: u64, question: &[u8]) -> Result<Problem, Fault> {
    let edition = Edition::named(edition)?;
    Ok(edition.state(read(question)?))
}

/// The same in the edition with this number.
pub fn check_book_in(edition: u64, limit: Limit, question: &[u8], book: &[u8]) -> Checked {
    let problem = match read_in(edition, question) {
        Ok(problem) => problem,
        Err(fault) => return fault.into(),
    };
    let length = book.len();
    if !(STEP_LENGTH..=limit.proof_length()).contains(&length) || length % STEP_LENGTH != 0 {
        return Checked::Refused {
            number: 16,
            place: length,
        };
    }
    let parts = split(&problem);
    let mut earlier = Vec::new();
    for (number, line) in book.chunks_exact(STEP_LENGTH).enumerate() {
        let step = match claimed(line, &parts, &earlier).filter(|step| step.encode() == line) {
            Some(step) => step,
            None => return Checked::Fails(number),
        };
        earlier.push(step.body);
    }
    match earlier.last() {
        Some(last) if last.is_empty() => Checked::Accepted,
        _ => Checked::Fails(earlier.len()),
    }
}

/// The step that the line's first six bytes name, if there is one.
fn claimed(line: &[u8], parts: &[ClausePart], earlier: &[Body]) -> Option<Step> {
    let (how, which, f0, f1, s0, s1) = match line {
        &[how, which, f0, f1, s0, s1, ..] => (how, which, f0, f1, s0, s1),
        _ => return None,
    };
    let first = u16::from_le_bytes([f0, f1]);
    let second = u16::from_le_bytes([s0, s1]);
    let variable = match (how, which) {
        (0, _) => return loaded(first, second, parts),
        (1, 0..=7) => Variable::Rational(usize::from(which)),
        (2, 0..=31) => Variable::Boolean(usize::from(which)),
        _ => return None,
    };
    let upper = earlier.get(usize::from(first))?;
    let lower = earlier.get(usize::from(second))?;
    if upper.sign(variable) != 1 || lower.sign(variable) != -1 {
        return None;
    }
    let body = resolve(variable, upper, lower).filter(|body| !body.overflows())?;
    let origin = Origin::Resolved {
        variable,
        first,
        second,
    };
    Some(Step { origin, body })
}

fn loaded(clause: u16, part: u16, parts: &[ClausePart]) -> Option<Step> {
    let named = parts
        .iter()
        .find(|named| named.clause == clause && named.part == part)?;
    Some(Step {
        origin: Origin::Loaded { clause, part },
        body: named.body,
    })
}

/// A choice as a sheet writes it: one denominator for all numerators. An open mark is in no clause, so
/// either value would do; it counts as no.
pub struct Model {
    booleans: u32,
    denominator: i128,
    pub numerators: [i128; MAX_RATIONALS],
}

/// Checks that every clause, as written, holds under the choice on a sheet.
pub fn check_sheet(question: &[u8], sheet: &[u8]) -> Checked {
    check_sheet_in(FIRST_EDITION, question, sheet)
}

/// The same in the edition with this number, whose clauses follow those of the question.
pub fn check_sheet_in(edition: u64, question: &[u8], sheet: &[u8]) -> Checked {
    let problem = match read_in(edition, question) {
        Ok(problem) => problem,
        Err(fault) => return fault.into(),
    };
    if sheet.len() < MODEL_LENGTH {
        return Checked::Refused {
            number: 2,
            place: 0,
        };
    }
    let model = match read_model(&problem, sheet) {
        Ok(model) => model,
        Err(fault) => return fault.into(),
    };
    let mut clauses = problem.clauses.iter();
    match clauses.position(|clause| !model.satisfies(clause)) {
        Some(clause) => Checked::Fails(clause),
        None => Checked::Accepted,
    }
}

/// Reads a sheet laid out by the problem's counts, or names its first bad field. The last field
/// ends at byte 54 at most.
pub fn read_model(problem: &Problem, sheet: &[u8]) -> Result<Model, Fault> {
    let slip = |good: bool, place: usize| match good {
        true => Ok(()),
        false => Err(Fault { number: 17, place }),
    };
    let booleans = usize::from(problem.booleans);
    slip(sheet[0] == problem.booleans, 0)?;
    let mut model = Model {
        booleans: 0,
        denominator: 0,
        numerators: [0; MAX_RATIONALS],
    };
    let open = problem.open();
    for i in 0..booleans {
        let mark = sheet[1 + i];
        if open >> i & 1 == 1 {
            slip(mark == OPEN, 1 + i)?;
        } else {
            slip(mark <= 1, 1 + i)?;
            model.booleans |= u32::from(mark) << i;
        }
    }
    let place = 1 + booleans;
    slip(usize::from(sheet[place]) == problem.rationals, place)?;
    let limit = i128::from(MAX_AMOUNT);
    let place = place + 1;
    model.denominator = amount(sheet, place);
    slip((1..=limit).contains(&model.denominator), place)?;
    for (i, numerator) in model.numerators[..problem.rationals].iter_mut().enumerate() {
        let place = place + 4 + 4 * i;
        *numerator = amount(sheet, place);
        slip(numerator.abs() <= limit, place)?;
    }
    Ok(model)
}

/// The signed four bytes at a place.
fn amount(sheet: &[u8], place: usize) -> i128 {
    let field = std::array::from_fn(|i| sheet[place + i]);
    i128::from(i32::from_le_bytes(field))
}

impl Model {
    fn satisfies(&self, clause: &Clause) -> bool {
        clause.literals.positive & self.booleans != 0
            || clause.literals.negative & !self.booleans != 0
            || clause.constraints.iter().any(|one| self.meets(one))
    }

    fn meets(&self, constraint: &Constraint) -> bool {
        let terms = constraint.coefficients.iter().zip(&self.numerators);
        let sum: i128 = terms.map(|(&c, &n)| i128::from(c) * n).sum();
        let bound = i128::from(constraint.bound) * self.denominator;
        match constraint.relation {
            Relation::AtMost => sum <= bound,
            Relation::Below => sum < bound,
            Relation::Equal => sum == bound,
            Relation::AtLeast => sum >= bound,
        }
    }
}
