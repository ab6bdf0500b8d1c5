//! Carrying a question of the first edition over to the second, and a sheet of the new question back:
//! 02's (vi), "Carry a first-edition question over".

use crate::checker::read_model;
use crate::model::MODEL_LENGTH;
use crate::problem::{read, Clause, Fault, Problem, Relation};
use crate::problem::{MAX_AMOUNT, MAX_QUESTION, MAX_RATIONALS};

/// The converter's answer: the new question's length, or a refusal.
#[derive(Clone, Copy, Debug, PartialEq, Eq)]
pub enum Converted {
    Length(usize),
    Refused { number: u8, place: usize },
}

/// What carrying back answers.
#[derive(Clone, Copy, Debug, PartialEq, Eq)]
pub enum Carried {
    Done,
    Refused { number: u8, place: usize },
}

impl From<Fault> for Converted {
    fn from(Fault { number, place }: Fault) -> Converted {
        Converted::Refused { number, place }
    }
}

impl From<Fault> for Carried {
    fn from(Fault { number, place }: Fault) -> Carried {
        Carried::Refused { number, place }
    }
}

/// Writes the question that has in edition 2 what this one has in edition 1, at the target's start.
pub fn convert(question: &[u8], target: &mut [u8]) -> Converted {
    match converted(question, target.len()) {
        Ok(new) => {
            target[..new.len()].copy_from_slice(&new);
            Converted::Length(new.len())
        }
        Err(fault) => fault.into(),
    }
}

/// The new question, if it has room in so many bytes.
fn converted(question: &[u8], room: usize) -> Result<Vec<u8>, Fault> {
    let (problem, kept) = split(question)?;
    let new = Copying::new(question, problem.rationals, &kept).question();
    if new.len() > MAX_QUESTION || new.len() > room {
        return Err(Fault {
            number: 21,
            place: 0,
        });
    }
    Ok(new)
}

/// Writes the old question's sheet for one of the new question, by subtraction, into the target's 64 bytes.
pub fn carry_back(question: &[u8], sheet: &[u8], target: &mut [u8]) -> Carried {
    match carried(question, sheet, target.len()) {
        Ok(old) => {
            target[..MODEL_LENGTH].copy_from_slice(&old);
            Carried::Done
        }
        Err(fault) => fault.into(),
    }
}

/// The old question's sheet, for a target of so many bytes. The tests come in this order: the
/// question's faults, 20, 2 of both sheets, 17, 22.
fn carried(question: &[u8], sheet: &[u8], room: usize) -> Result<[u8; MODEL_LENGTH], Fault> {
    let (problem, kept) = split(question)?;
    if sheet.len() < MODEL_LENGTH || room < MODEL_LENGTH {
        return Err(Fault {
            number: 2,
            place: 0,
        });
    }
    // a sheet depends on the counts and on the literals, which are those of the old question
    let new = Problem {
        rationals: figures(&kept),
        ..problem.clone()
    };
    let halves = read_model(&new, sheet)?.numerators;

    let marks = 1 + usize::from(problem.booleans);
    let mut old = [0; MODEL_LENGTH];
    old[..marks].copy_from_slice(&sheet[..marks]);
    old[marks] = problem.rationals as u8;
    let denominator = marks + 1..marks + 5;
    old[denominator.clone()].copy_from_slice(&sheet[denominator]);
    let mut halves = halves.into_iter();
    let mut half = || halves.next().unwrap_or_default();
    for (figure, &kept) in kept.iter().enumerate() {
        let numerator = match kept {
            true => half(),
            false => half() - half(),
        };
        if numerator.abs() > i128::from(MAX_AMOUNT) {
            return Err(Fault {
                number: 22,
                place: figure,
            });
        }
        let place = marks + 5 + 4 * figure;
        old[place..place + 4].copy_from_slice(&(numerator as i32).to_le_bytes());
    }
    Ok(old)
}

/// A question read without fault, and which of its figures are kept; 20 if the others make too many.
fn split(question: &[u8]) -> Result<(Problem, Vec<bool>), Fault> {
    let problem = read(question)?;
    let keeps = |figure| problem.clauses.iter().any(|clause| clause.keeps(figure));
    let kept: Vec<bool> = (0..problem.rationals).map(keeps).collect();
    match figures(&kept) {
        0..=MAX_RATIONALS => Ok((problem, kept)),
        _ => Err(Fault {
            number: 20,
            place: 0,
        }),
    }
}

/// The new question's figures: one for each that is kept, two for each other.
fn figures(kept: &[bool]) -> usize {
    kept.iter().map(|&kept| if kept { 1 } else { 2 }).sum()
}

impl Clause {
    /// Whether it has no literals and, as its sole condition, a negative multiple of this figure alone,
    /// written with relation 1 or 2 and a bound of at most 0.
    fn keeps(&self, figure: usize) -> bool {
        let condition = match &self.constraints[..] {
            [condition] => condition,
            _ => return false,
        };
        let mut coefficients = condition.coefficients.iter().enumerate();
        self.literals.positive | self.literals.negative == 0
            && matches!(condition.relation, Relation::AtMost | Relation::Below)
            && condition.bound <= 0
            && coefficients.all(|(i, &amount)| match i == figure {
                true => amount < 0,
                false => amount == 0,
            })
    }
}

/// The bytes of a question without fault, of which what is not yet copied is left, and the new one's.
struct Copying<'a> {
    rest: &'a [u8],
    rationals: usize,
    kept: &'a [bool],
    new: Vec<u8>,
}

impl<'a> Copying<'a> {
    fn new(question: &'a [u8], rationals: usize, kept: &'a [bool]) -> Copying<'a> {
        Copying {
            rest: question,
            rationals,
            kept,
            new: Vec::new(),
        }
    }

    fn take<const N: usize>(&mut self) -> [u8; N] {
        let (field, rest) = self.rest.split_at(N);
        self.rest = rest;
        std::array::from_fn(|i| field[i])
    }

    /// Copies so many bytes as they are, and gives the last.
    fn copy(&mut self, count: usize) -> u8 {
        let mut last = 0;
        for _ in 0..count {
            [last] = self.take();
            self.new.push(last);
        }
        last
    }

    /// The new question; what differs is r and the coefficients.
    fn question(mut self) -> Vec<u8> {
        self.copy(1);
        let [_] = self.take();
        self.new.push(figures(self.kept) as u8);
        let low = self.copy(1);
        let clauses = u16::from_le_bytes([low, self.copy(1)]);
        for _ in 0..clauses {
            let literals = self.copy(1);
            self.copy(usize::from(literals));
            for _ in 0..self.copy(1) {
                self.condition();
            }
        }
        self.new
    }

    /// A condition's relation, its coefficients, the split ones with their sign turned behind them, and its
    /// bound.
    fn condition(&mut self) {
        self.copy(1);
        for figure in 0..self.rationals {
            let amount = i32::from_le_bytes(self.take());
            self.new.extend(amount.to_le_bytes());
            if !self.kept[figure] {
                self.new.extend((-amount).to_le_bytes());
            }
        }
        self.copy(4);
    }
}
