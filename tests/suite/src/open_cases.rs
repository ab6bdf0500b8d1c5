//! 02's (iv), open marks: questions with the marks on their sheets, worked out by hand.

use crate::examples::{agrees, cannot, refused, unwritten};
use questions::problem::{at_least, at_most, below, equal as equals, no, yes, Problem, Term};
use reference::Answer;

/// A question with its answer, and the marks on its sheet if there is one.
pub struct Case {
    pub name: String,
    pub problem: Problem,
    pub answer: Answer,
    pub marks: Option<Vec<u8>>,
}

/// "Agrees", with these marks.
fn case(name: &str, problem: Problem, answer: Answer, marks: &[u8]) -> Case {
    Case {
        name: name.into(),
        problem,
        answer,
        marks: Some(marks.to_vec()),
    }
}

/// Another answer.
fn without(name: &str, problem: Problem, answer: Answer) -> Case {
    Case {
        name: name.into(),
        problem,
        answer,
        marks: None,
    }
}

fn problem(booleans: u8, rationals: u8, clauses: Vec<Vec<Term>>) -> Problem {
    Problem {
        booleans,
        rationals,
        clauses,
    }
}

/// A question of one clause, without figures.
fn one(name: &str, clause: Vec<Term>, lines: usize, marks: &[u8]) -> Case {
    let problem = problem(marks.len() as u8, 0, vec![clause]);
    case(name, problem, agrees(lines, 0), marks)
}

/// One clause, in which a mark stands in one sign or in both, once or twice, beside a constant or not.
fn alone() -> Vec<Case> {
    let constant = |bound| at_most(&[], bound);
    vec![
        one("not b", vec![no(1)], 1, &[2, 0]),
        one("a, twice", vec![yes(0), yes(0)], 1, &[1, 2]),
        one("not a, twice", vec![no(0), no(0)], 1, &[0, 2]),
        one("a or b", vec![yes(0), yes(1)], 1, &[1, 0, 2]),
        one("a or not a", vec![yes(0), no(0)], 0, &[0, 2]),
        one(
            "b or not b or a",
            vec![yes(1), no(1), yes(0)],
            0,
            &[0, 0, 2],
        ),
        one("a or 0 <= 0", vec![yes(0), constant(0)], 0, &[0, 2]),
        one("not b or 0 <= 0", vec![no(1), constant(0)], 0, &[2, 0]),
        one("a or 0 <= -1", vec![yes(0), constant(-1)], 1, &[1, 2]),
        one("not b or 0 < 0", vec![no(1), below(&[], 0)], 1, &[2, 0]),
        one("a or 0 = 0", vec![yes(0), equals(&[], 0)], 0, &[0, 2]),
        one("a or 0 = 5", vec![yes(0), equals(&[], 5)], 1, &[1, 2]),
    ]
}

/// Several clauses, with figures or without: a mark that stands in one that an earlier line covers, or in
/// one that tidying drops; and clauses that are read as two.
fn several() -> Vec<Case> {
    let x = || at_most(&[1], 5);
    let fact = problem(3, 1, vec![vec![yes(0), x()], vec![yes(1), no(1)]]);
    let dropped = problem(2, 1, vec![vec![yes(0), x(), below(&[], 1)]]);
    let covered = problem(3, 0, vec![vec![yes(0)], vec![yes(0), yes(1)]]);
    let weaker = problem(2, 1, vec![vec![x()], vec![no(0), at_most(&[1], 6)]]);
    let both = problem(3, 0, vec![vec![yes(0), yes(1)], vec![no(0), yes(1)]]);
    let figures = problem(3, 2, vec![vec![x()], vec![at_most(&[0, 1], 5)]]);
    let equality = problem(2, 1, vec![vec![equals(&[1], 5)]]);
    let beside = problem(2, 1, vec![vec![no(0), equals(&[1], 5)], vec![yes(0)]]);
    vec![
        case("a or x <= 5; b or not b", fact, agrees(1, 0), &[0, 0, 2]),
        case("a or x <= 5 or 0 < 1", dropped, agrees(0, 0), &[0, 2]),
        case("a; a or b", covered, agrees(1, 0), &[1, 0, 2]),
        case("x <= 5; not a or x <= 6", weaker, agrees(1, 0), &[0, 2]),
        case("a or b; not a or b", both, agrees(3, 1), &[0, 1, 2]),
        case("x <= 5; y <= 5", figures, agrees(2, 0), &[2, 2, 2]),
        case("x = 5", equality, agrees(2, 1), &[2, 2]),
        case("not a or x = 5; a", beside, agrees(3, 1), &[1, 2]),
    ]
}

/// Links beside open marks: of a clause without literals and of one with, one that is yes, and sixteen.
fn links() -> Vec<Case> {
    let (x, y) = (at_most(&[1], 5), at_most(&[0, 1], 5));
    let two = problem(2, 2, vec![vec![x.clone(), y.clone()]]);
    let three = problem(3, 2, vec![vec![yes(1), x, y]]);
    // x is not at most 0, so the link is yes and x is 5
    let apart = vec![at_most(&[1], 0), at_most(&[-1], -5)];
    let chosen = problem(2, 1, vec![apart, vec![at_least(&[1], 1)]]);
    let uppers = |count: i32| (0..count).map(|i| at_most(&[1], i)).collect();
    let most = problem(16, 1, vec![uppers(8), uppers(8), uppers(3)]);
    vec![
        case("a link", two, agrees(2, 0), &[2, 2]),
        case("a link and a mark", three, agrees(2, 0), &[2, 0, 2]),
        case("a link that is yes", chosen, agrees(4, 2), &[2, 2]),
        case("16 links and marks", most, agrees(19, 0), &[2; 16]),
    ]
}

/// Other answers than "agrees", which have no 2.
fn others() -> Vec<Case> {
    let contradiction = problem(2, 0, vec![vec![yes(0)], vec![no(0)]]);
    let empty = problem(2, 0, vec![vec![]]);
    let unwritable = Problem::new(2, 2)
        .clause([at_most(&[999_999_999], 1)])
        .clause([at_most(&[0, 1_000_000_000], 1)]);
    let wide = Problem::new(2, 3)
        .clause([at_most(&[1_000_000_000, 3], 0)])
        .clause([at_most(&[-999_999_999, 0, 1], 0)]);
    vec![
        without("a; not a", contradiction, cannot(3, 1)),
        without("an empty clause", empty, cannot(1, 0)),
        without("unwritten", unwritable, unwritten(2, 0)),
        without("wide", wide, refused(14, 2, 1)),
    ]
}

/// Every number of marks without a clause; each of sixteen marks alone in one, in either sign, and alone
/// in none.
fn sixteen() -> Vec<Case> {
    let mut cases: Vec<Case> = (0..=16)
        .map(|b| {
            let name = format!("{b} marks, no clause");
            case(&name, Problem::new(b, 0), agrees(0, 0), &vec![2; b.into()])
        })
        .collect();
    for mark in 0..16_u8 {
        for (literal, value) in [(yes(mark), 1), (no(mark), 0)] {
            let mut marks = [2; 16];
            marks[usize::from(mark)] = value;
            let one = problem(16, 0, vec![vec![literal]]);
            let name = format!("mark {mark} of 16 alone is {value}");
            cases.push(case(&name, one, agrees(1, 0), &marks));
        }
        // the first of the others has the line, and is yes
        let others = (0..16).filter(|&other| other != mark);
        let mut marks = [0; 16];
        marks[usize::from(mark)] = 2;
        marks[usize::from(mark == 0)] = 1;
        let rest = problem(16, 0, vec![others.map(yes).collect()]);
        let name = format!("mark {mark} of 16 alone is open");
        cases.push(case(&name, rest, agrees(1, 0), &marks));
    }
    cases
}

/// Where a literal stands: in the first or last of 32, of the first or last of 256 clauses.
fn places() -> Vec<Case> {
    let repeated = |first: u8, last: u8| {
        let mut literals = vec![yes(0); 32];
        literals[0] = yes(first);
        literals[31] = yes(last);
        problem(3, 0, vec![literals])
    };
    // bounds fall, so that no clause covers the next
    let clauses = (0..255).map(|i| vec![yes(0), at_most(&[1], 300 - i)]);
    let clauses: Vec<Vec<Term>> = clauses.collect();
    let beside = |place: usize, literal: Term| {
        let mut clauses = clauses.clone();
        clauses.insert(place, vec![literal]);
        problem(3, 1, clauses)
    };
    let mut cases = vec![
        case("the last of 32", repeated(0, 1), agrees(1, 0), &[1, 0, 2]),
        case("the first of 32", repeated(2, 0), agrees(1, 0), &[1, 2, 0]),
    ];
    for place in [0, 1, 127, 128, 254, 255] {
        let name = format!("clause {place} of 256");
        let negated = beside(place, no(1));
        cases.push(case(&name, negated, agrees(256, 0), &[0, 0, 2]));
        let last = beside(place, yes(2));
        cases.push(case(&name, last, agrees(256, 0), &[0, 2, 1]));
    }
    cases
}

pub fn cases() -> impl Iterator<Item = Case> {
    let cases = alone().into_iter().chain(several());
    let cases = cases.chain(links()).chain(others());
    cases.chain(sixteen()).chain(places())
}
