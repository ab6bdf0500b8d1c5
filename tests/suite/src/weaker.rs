//! 02's (viii), an earlier line drops a weaker one: on every two clauses of a choice of them, and on
//! random questions of few rows of coefficients, in which each part of the rule often decides. The
//! proved code and the second solver answer alike and leave the same bytes; so does the second
//! solver's search by a hash; and no clause is dropped that does not follow from the one before it.
//! On random clauses of sixteen marks, whose results drop each other, a verdict is also right by all
//! choices of the marks.

use crate::buffers::{solve_filled, BOOK_LENGTH, LINE_LENGTH, SHEET_LENGTH};
use crate::report::{demand, equal, Group, Outcome, Sums};
use crate::solver::Solver;
use crate::solving;
use questions::marks::{self, MARKS};
use questions::problem::{at_most, below, no, yes, Assignment, Problem, Term};
use questions::random::Random;
use questions::rows;
use reference::{Answer, Dropping, Rules, Search, Verdict};

const SEED: u64 = 10;
const CASES: usize = 100_000;

/// How often came: agrees, cannot agree, unwritten, wide; and another answer than where equal lines
/// alone are dropped.
type Tally = [usize; 5];
const LEAST: Tally = [20_000, 20_000, 100, 100, 50_000];

/// Questions of so many clauses of marks; and how often agrees, cannot agree and full must come.
const MARK_CASES: usize = 300;
const CLAUSES: usize = 69;
const OFTEN: usize = 30;

/// How many of the two clauses' questions drop the second. Of the sets of literals 14 pairs are a
/// subset and its set; of the conditions 53 a covering and a covered one: none covers all 13, the
/// eight of x alone are one chain, the other four cover themselves. The empty clause is first in 78.
const DROPPED: usize = 14 * (13 + 36 + 4) - 78;

pub fn run(sums: &mut Sums) {
    run_pairs(sums);
    run_random(sums);
    run_marks(sums);
}

/// Some sets of literals, each with some conditions or none.
fn clauses() -> Vec<Vec<Term>> {
    let literals = [
        vec![],
        vec![yes(0)],
        vec![no(0)],
        vec![yes(0), yes(1)],
        vec![yes(0), no(1)],
        vec![no(0), no(1)],
    ];
    let mut conditions = vec![
        None,
        Some(at_most(&[2], 1)),
        Some(at_most(&[-1], 0)),
        Some(at_most(&[0, 1], 0)),
        Some(below(&[1, 1], 0)),
    ];
    for bound in -2..=1 {
        conditions.push(Some(at_most(&[1], bound)));
        conditions.push(Some(below(&[1], bound)));
    }
    let with = |literals: &Vec<Term>| {
        let clause = |condition: &Option<Term>| literals.iter().chain(condition).cloned().collect();
        conditions.iter().map(clause).collect::<Vec<_>>()
    };
    literals.iter().flat_map(with).collect()
}

fn run_pairs(sums: &mut Sums) {
    let mut group = Group::new("solving: every two clauses of a few");
    let clauses = clauses();
    let mut dropped = 0;
    // Loading ends at an empty clause, and does not come to a second one.
    let firsts = clauses.iter().filter(|first| !first.is_empty());
    for (i, first) in firsts.enumerate() {
        for (j, second) in clauses.iter().enumerate() {
            let mut problem = Problem::new(2, 2);
            problem.clauses = vec![first.clone(), second.clone()];
            group.case(&format!("{i} and {j}"), || {
                check_pair(&problem, &mut dropped)
            });
        }
    }
    group.case("dropped", || equal("dropped", &DROPPED, &dropped));
    group.finish(sums);
}

/// Both solvers answer alike; a second clause that is not loaded follows from the first one.
fn check_pair(problem: &Problem, dropped: &mut usize) -> Outcome {
    let question = problem.encode();
    solving::compare(&question, 0xab)?;
    let solved = solve_filled(Solver::PROVED, &question);
    let mut lines = solved.used().chunks_exact(LINE_LENGTH);
    let second = |line: &[u8]| line[..6] == [0, 0, 1, 0, 0, 0];
    if lines.any(second) {
        return Ok(());
    }
    *dropped += 1;
    for point in 0..4 * 9 * 9 {
        let figure = |digits: i64| digits % 9 - 4;
        let assignment = Assignment {
            booleans: (point % 4) as u32,
            denominator: 2,
            numerators: &[figure(point / 4), figure(point / 36)],
        };
        let failing = problem.first_failing(&assignment);
        demand(failing != Some(1), "the second clause does not follow")?;
    }
    Ok(())
}

fn run_random(sums: &mut Sums) {
    let mut group = Group::new("solving: random questions of few rows");
    let mut random = Random::new(SEED);
    let mut tally = Tally::default();
    for number in 0..CASES {
        let question = random.stated(rows::problem).encode();
        group.case(&format!("number {number}"), || {
            let answer = solving::compare(&question, number as u8)?;
            equal("answer by a hash", &answer, &by_hash(&question))?;
            let kind = match answer {
                Answer::Verdict { verdict, .. } => verdict as usize,
                Answer::Refused { number, .. } => {
                    equal("refusal", &14, &number)?;
                    3
                }
            };
            tally[kind] += 1;
            tally[4] += usize::from(before(&question) != answer);
            Ok(())
        });
    }
    group.case("each comes often", || {
        let often = tally
            .iter()
            .zip(LEAST)
            .all(|(&count, least)| count >= least);
        demand(often, &format!("they came {tally:?} times"))
    });
    group.finish(sums);
}

fn run_marks(sums: &mut Sums) {
    let mut group = Group::new("solving: clauses of sixteen marks");
    let mut random = Random::new(SEED);
    let mut came = [0; 3];
    for number in 0..MARK_CASES {
        let problem = marks::clauses(&mut random, CLAUSES);
        group.case(&format!("number {number}"), || {
            let kind = match solving::compare(&problem.encode(), number as u8)? {
                Answer::Verdict { verdict, .. } => {
                    let agrees = verdict == Verdict::Agrees;
                    equal("agrees", &some_choice_satisfies(&problem), &agrees)?;
                    usize::from(!agrees)
                }
                Answer::Refused { number, .. } => {
                    equal("refusal", &15, &number)?;
                    2
                }
            };
            came[kind] += 1;
            Ok(())
        });
    }
    group.case("each comes often", || {
        let often = came.iter().all(|&count| count >= OFTEN);
        demand(often, &format!("they came {came:?} times"))
    });
    group.finish(sums);
}

/// Of a question of marks alone, by trying all choices.
fn some_choice_satisfies(problem: &Problem) -> bool {
    let satisfies = |booleans| {
        let assignment = Assignment {
            booleans,
            denominator: 1,
            numerators: &[],
        };
        problem.first_failing(&assignment).is_none()
    };
    (0..1 << MARKS).any(satisfies)
}

fn by_hash(question: &[u8]) -> Answer {
    let (mut book, mut sheet) = ([0; BOOK_LENGTH], [0; SHEET_LENGTH]);
    reference::solve_by(Search::Hashed, question, &mut book, &mut sheet)
}

fn before(question: &[u8]) -> Answer {
    let rules = Rules {
        dropping: Dropping::Equal,
        ..Rules::TODAY
    };
    let (mut book, mut sheet) = ([0; BOOK_LENGTH], [0; SHEET_LENGTH]);
    reference::solve_under(rules, question, &mut book, &mut sheet)
}
