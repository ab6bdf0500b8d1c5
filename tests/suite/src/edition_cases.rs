//! Questions of 02's (v) with their answers in both editions, worked out by hand.

use crate::examples::{agrees, cannot, refused, unwritten};
use questions::problem::{at_least, at_most, below, equal as equals, no, yes, Problem, Term};
use reference::Answer;

/// A question with its answers, which do not depend on the limit of lines; in edition 2 also the figures
/// whose own clauses are loaded, and the figures on the sheet where they are stated.
pub struct Case {
    pub name: &'static str,
    pub problem: Problem,
    pub in_1: Answer,
    pub in_2: Answer,
    pub loaded: Vec<usize>,
    pub figures: Option<Vec<i32>>,
}

impl Case {
    fn new<const N: usize>(
        name: &'static str,
        problem: Problem,
        in_1: Answer,
        in_2: Answer,
        loaded: [usize; N],
    ) -> Case {
        Case {
            name,
            problem,
            in_1,
            in_2,
            loaded: loaded.to_vec(),
            figures: None,
        }
    }

    fn with<const N: usize>(mut self, figures: [i32; N]) -> Case {
        self.figures = Some(figures.to_vec());
        self
    }
}

/// A question of figures, with these conditions alone.
fn of<const N: usize>(rationals: u8, conditions: [Term; N]) -> Problem {
    let problem = Problem::new(0, rationals);
    conditions
        .into_iter()
        .fold(problem, |problem, condition| problem.clause([condition]))
}

pub fn cases() -> impl Iterator<Item = Case> {
    one_figure()
        .into_iter()
        .chain(several())
        .chain(others())
        .chain(limits())
}

/// The edition's clause is loaded behind the question's, or dropped behind one that is equal or stronger.
fn one_figure() -> Vec<Case> {
    let one = |name, condition, in_1, in_2| {
        let case = Case::new(name, of(1, [condition]), in_1, in_2, []);
        // a line or more beside the question's own
        match in_2 {
            Answer::Verdict { lines, .. } if lines > 1 => Case {
                loaded: vec![0],
                ..case
            },
            _ => case,
        }
    };
    let alone = agrees(1, 0);
    vec![
        one("x <= -1", at_most(&[1], -1), alone, cannot(3, 1)),
        one("x < 0", below(&[1], 0), alone, cannot(3, 1)),
        // 0 <= 0 is dropped
        one("x <= 0", at_most(&[1], 0), alone, agrees(2, 1)).with([0]),
        one("x <= 7", at_most(&[1], 7), alone, agrees(2, 1)).with([0]),
        one("-x <= 0", at_most(&[-1], 0), alone, alone).with([0]),
        one("x >= 0", at_least(&[1], 0), alone, alone).with([0]),
        one("-9x <= 0", at_most(&[-9], 0), alone, alone).with([0]),
        one("-x <= -3", at_most(&[-1], -3), alone, alone).with([3]),
        one("-x < 0", below(&[-1], 0), alone, alone).with([1]),
        one("-x < -3", below(&[-1], -3), alone, alone).with([4]),
        // weaker ones stay, and drop nothing
        one("-x <= 3", at_most(&[-1], 3), alone, agrees(2, 0)).with([0]),
        one("-x < 3", below(&[-1], 3), alone, agrees(2, 0)).with([0]),
        // 2x >= 1 is stronger, but has another coefficient
        one(
            "-2x <= -4,000,001",
            at_most(&[-2], -4_000_001),
            alone,
            agrees(2, 0),
        ),
        one("-2x <= 1", at_most(&[-2], 1), alone, agrees(2, 0)).with([0]),
        // two lines, the second of which drops the edition's
        Case::new(
            "x = 0",
            of(1, [equals(&[1], 0)]),
            agrees(2, 1),
            agrees(2, 1),
            [],
        )
        .with([0]),
        Case::new(
            "x = 4",
            of(1, [equals(&[1], 4)]),
            agrees(2, 1),
            agrees(2, 1),
            [],
        )
        .with([4]),
        // x <= -1 and -x <= 1 leave x = -1, which the edition's clause contradicts by the second pair
        Case::new(
            "x = -1",
            of(1, [equals(&[1], -1)]),
            agrees(2, 1),
            cannot(4, 2),
            [0],
        ),
        // the question's own contradiction comes first
        Case::new(
            "x < 5; -x <= -5",
            of(1, [below(&[1], 5), at_most(&[-1], -5)]),
            cannot(3, 1),
            cannot(3, 1),
            [],
        ),
    ]
}

/// Several figures, each with a clause of its own.
fn several() -> Vec<Case> {
    vec![
        // x goes first: y <= -1, and then y contradicts
        Case::new(
            "x + y <= -1",
            of(2, [at_most(&[1, 1], -1)]),
            agrees(1, 0),
            cannot(5, 2),
            [0, 1],
        ),
        Case::new(
            "x + y <= 3",
            of(2, [at_most(&[1, 1], 3)]),
            agrees(1, 0),
            agrees(4, 2),
            [0, 1],
        )
        .with([0, 0]),
        // y has lowers alone and goes first; walked back to, it is 5
        Case::new(
            "x - y <= -5",
            of(2, [at_most(&[1, -1], -5)]),
            agrees(1, 0),
            agrees(3, 0),
            [0, 1],
        )
        .with([0, 5]),
        // y's clause alone is dropped
        Case::new(
            "y >= 2",
            of(3, [at_least(&[0, 1], 2)]),
            agrees(1, 0),
            agrees(3, 0),
            [0, 2],
        )
        .with([0, 2, 0]),
        Case::new(
            "z < 0",
            of(3, [below(&[0, 0, 1], 0)]),
            agrees(1, 0),
            cannot(5, 1),
            [0, 1, 2],
        ),
        Case::new(
            "no clause, two figures",
            Problem::new(0, 2),
            agrees(0, 0),
            agrees(2, 0),
            [0, 1],
        )
        .with([0, 0]),
        Case::new(
            "no clause, eight figures",
            Problem::new(0, 8),
            agrees(0, 0),
            agrees(8, 0),
            [0, 1, 2, 3, 4, 5, 6, 7],
        )
        .with([0; 8]),
        // 01's example 7: both clauses of the edition are dropped, and the rest is as it was
        Case::new(
            "x + y <= 10; -x <= -7; -y <= -4",
            of(
                2,
                [
                    at_most(&[1, 1], 10),
                    at_most(&[-1], -7),
                    at_most(&[0, -1], -4),
                ],
            ),
            cannot(5, 2),
            cannot(5, 2),
            [],
        ),
    ]
}

/// Marks and links, an empty clause, no figure.
fn others() -> Vec<Case> {
    let a_or = |condition| Problem::new(1, 1).clause([yes(0), condition]);
    vec![
        Case::new(
            "no clause",
            Problem::new(0, 0),
            agrees(0, 0),
            agrees(0, 0),
            [],
        ),
        Case::new(
            "a, no figure",
            Problem::new(1, 0).clause([yes(0)]),
            agrees(1, 0),
            agrees(1, 0),
            [],
        ),
        // a line with more literals drops nothing
        Case::new(
            "a or -x <= 0",
            a_or(at_most(&[-1], 0)),
            agrees(1, 0),
            agrees(2, 0),
            [0],
        )
        .with([0]),
        // x <= -1 and -x <= 0 leave a
        Case::new(
            "a or x <= -1",
            a_or(at_most(&[1], -1)),
            agrees(1, 0),
            agrees(3, 1),
            [0],
        )
        .with([0]),
        Case::new(
            "a or x <= -1; not a",
            a_or(at_most(&[1], -1)).clause([no(0)]),
            // not a is line 1, of another turn; with x at -1 it holds
            agrees(2, 0),
            cannot(5, 2),
            [0],
        ),
        // x <= -1 or x <= -2: two pieces, of which the edition's clause leaves the link and its negation
        Case::new(
            "x <= -1 or x <= -2",
            Problem::new(0, 1).clause([at_most(&[1], -1), at_most(&[1], -2)]),
            agrees(2, 0),
            cannot(6, 3),
            [0],
        ),
        // loading ends at the empty clause
        Case::new(
            "an empty clause",
            Problem::new(0, 1).clause([]),
            cannot(1, 0),
            cannot(1, 0),
            [],
        ),
        Case::new(
            "x <= 5; an empty clause",
            of(1, [at_most(&[1], 5)]).clause([]),
            cannot(2, 0),
            cannot(2, 0),
            [],
        ),
        // a line without a condition drops no other here: the clause has a literal
        Case::new(
            "b open: a",
            Problem::new(2, 1).clause([yes(0)]),
            agrees(1, 0),
            agrees(2, 0),
            [0],
        )
        .with([0]),
    ]
}

/// What ends a course elsewhere, or leaves it unwritten.
fn limits() -> Vec<Case> {
    const MOST: i32 = 1_000_000_000;
    vec![
        // 01's example 11: both figures are 0 now
        Case::new(
            "999,999,999x <= 1; 10^9 y <= 1",
            of(2, [at_most(&[MOST - 1], 1), at_most(&[0, MOST], 1)]),
            unwritten(2, 0),
            agrees(4, 2),
            [0, 1],
        )
        .with([0, 0]),
        Case::new(
            "999,999,999x >= 1; 10^9 y >= 1",
            of(2, [at_least(&[MOST - 1], 1), at_least(&[0, MOST], 1)]),
            unwritten(2, 0),
            unwritten(4, 0),
            [0, 1],
        ),
        // 01's example 10
        Case::new(
            "10^9 x + 3y <= 0; -999,999,999x + z <= 0",
            of(3, [at_most(&[MOST, 3], 0), at_most(&[1 - MOST, 0, 1], 0)]),
            refused(14, 2, 1),
            refused(14, 5, 1),
            [],
        ),
        // y went first, with two uppers; with a lower it costs as much as x
        Case::new(
            "10^9 x + 3y <= 0; -999,999,999x + z <= 0; y <= 7",
            of(
                3,
                [
                    at_most(&[MOST, 3], 0),
                    at_most(&[1 - MOST, 0, 1], 0),
                    at_most(&[0, 1], 7),
                ],
            ),
            agrees(3, 0),
            refused(14, 6, 1),
            [],
        ),
    ]
}
