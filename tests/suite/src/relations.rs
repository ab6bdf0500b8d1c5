//! 02's (i), = and ≥. On every two clauses of a choice of them the solvers answer alike, and a verdict
//! and the check of a sheet are right by the relations as written, evaluated at points of a grid. On
//! random questions the answer is that of the question with ≤ and < alone which they are read as, and
//! so are sheet and book, but for the numbers of its loaded lines.

use crate::buffers::{solve_filled, Solved, LINE_LENGTH, SHEET_LENGTH};
use crate::report::{demand, equal, Group, Outcome, Sums};
use crate::solver::{Solver, BOTH};
use crate::solving;
use questions::problem::{at_least, at_most, below, constraint, equal as equals, no, yes};
use questions::problem::{Assignment, Problem, Relation, Term};
use questions::random::Random;
use questions::rows;
use reference::{Answer, Checked, Verdict};

const SEED: u64 = 11;
const CASES: usize = 20_000;
/// How often agrees, cannot agree, another answer, and a clause with = whose second reading alone has
/// loaded lines must come at least.
const LEAST: [usize; 4] = [1_000, 1_000, 100, 500];

const RELATIONS: [Relation; 4] = [
    Relation::AtMost,
    Relation::Below,
    Relation::Equal,
    Relation::AtLeast,
];

/// The choices of a grid: a mark, and two figures by quarters. No condition of `clauses` tells two
/// figures apart that lie between the same two quarters.
const DENOMINATOR: i64 = 4;
const SIDE: i64 = 13;
const POINTS: i64 = 2 * SIDE * SIDE;

pub fn run(sums: &mut Sums) {
    run_sheets(sums);
    run_pairs(sums);
    for solver in BOTH {
        run_apart(solver, sums);
    }
}

/// Conditions of all relations, of a figure and of none, each alone and beside a literal; and = or ≥
/// beside another condition, before and behind it.
fn clauses() -> Vec<Vec<Term>> {
    let mut single = vec![equals(&[2], 1), equals(&[0, 1], 0), at_least(&[0, 1], 1)];
    for coefficients in [[1], [-1], [0]] {
        for relation in RELATIONS {
            single.extend((-1..=1).map(|bound| constraint(relation, &coefficients, bound)));
        }
    }
    let mut clauses = Vec::new();
    for term in single {
        clauses.push(vec![yes(0), term.clone()]);
        clauses.push(vec![term]);
    }
    let stated = [
        equals(&[1], 0),
        equals(&[-1], -1),
        equals(&[], 1),
        equals(&[], -1),
        equals(&[], 0),
        at_least(&[1], 1),
        at_least(&[0, 1], 1),
    ];
    let others = [
        at_most(&[0, 1], 0),
        at_least(&[1], 0),
        at_least(&[], 1),
        below(&[0, 1], 1),
        below(&[1], 0),
        at_most(&[-1], -1),
    ];
    for one in &stated {
        for other in &others {
            clauses.push(vec![no(0), one.clone(), other.clone()]);
            clauses.push(vec![other.clone(), one.clone()]);
        }
    }
    clauses
}

fn problem(clauses: &[&Vec<Term>]) -> Problem {
    let mut problem = Problem::new(1, 2);
    problem.clauses = clauses.iter().map(|&clause| clause.clone()).collect();
    problem
}

/// Mark and numerators of a choice of the grid.
fn choice(point: i64) -> (u8, [i64; 2]) {
    let numerator = |digits: i64| digits % SIDE - SIDE / 2;
    let rest = point / 2;
    ((point % 2) as u8, [numerator(rest), numerator(rest / SIDE)])
}

/// The first clause that fails by the relations as written.
fn failing(problem: &Problem, point: i64) -> Option<usize> {
    let (mark, numerators) = choice(point);
    problem.first_failing(&Assignment {
        booleans: u32::from(mark),
        denominator: DENOMINATOR,
        numerators: &numerators,
    })
}

/// The check of the choice's sheet names the clause that fails; the mark is 2 there if it is open, and
/// its value is then a slip.
fn check_choice(question: &[u8], problem: &Problem, point: i64) -> Outcome {
    let (mark, numerators) = choice(point);
    let expected = match failing(problem, point) {
        Some(clause) => Checked::Fails(clause),
        None => Checked::Accepted,
    };
    if problem.open() == 0 {
        return check_written(question, mark, &numerators, expected);
    }
    check_written(question, 2, &numerators, expected)?;
    let slip = Checked::Refused {
        number: 17,
        place: 1,
    };
    check_written(question, mark, &numerators, slip)
}

fn check_written(question: &[u8], mark: u8, numerators: &[i64], expected: Checked) -> Outcome {
    let mut sheet = vec![1, mark, 2];
    for amount in [DENOMINATOR].iter().chain(numerators) {
        sheet.extend((*amount as i32).to_le_bytes());
    }
    sheet.resize(SHEET_LENGTH, 0);
    for solver in BOTH {
        let checked = solver.check_sheet(question, &sheet);
        equal(&format!("mark {mark}, {numerators:?}"), &expected, &checked)?;
    }
    Ok(())
}

/// Every choice of the grid for every clause; and a clause holds exactly if each of its readings does.
fn run_sheets(sums: &mut Sums) {
    let mut group = Group::new("relations: sheets of a grid");
    for (i, clause) in clauses().iter().enumerate() {
        let problem = problem(&[clause]);
        let (question, apart) = (problem.encode(), problem.apart());
        group.case(&format!("clause {i}"), || {
            for point in 0..POINTS {
                check_choice(&question, &problem, point)?;
                let holds = failing(&problem, point).is_none();
                equal("holds", &holds, &failing(&apart, point).is_none())?;
            }
            Ok(())
        });
    }
    group.finish(sums);
}

fn run_pairs(sums: &mut Sums) {
    let mut group = Group::new("relations: every two clauses of a few");
    let clauses = clauses();
    for (i, first) in clauses.iter().enumerate() {
        for (j, second) in clauses.iter().enumerate() {
            let problem = problem(&[first, second]);
            group.case(&format!("{i} and {j}"), || {
                let question = problem.encode();
                let holds = |point| failing(&problem, point).is_none();
                let verdict = match (0..POINTS).any(holds) {
                    true => Verdict::Agrees,
                    false => Verdict::Cannot,
                };
                match solving::compare(&question, 0xab)? {
                    Answer::Verdict { verdict: got, .. } => equal("verdict", &verdict, &got)?,
                    answer => return Err(format!("undecided: {answer:?}")),
                }
                check_choice(&question, &problem, (7 * i + 31 * j) as i64 % POINTS)
            });
        }
    }
    group.finish(sums);
}

fn run_apart(solver: Solver, sums: &mut Sums) {
    let mut group = solver.group("relations: written out by at most and below");
    let mut random = Random::new(SEED);
    let mut tally = [0; 4];
    for number in 0..CASES {
        let problem = random.stated(|random| match random.between(0, 9) {
            0 => random.dense_problem(6),
            1 => random.sparse_problem(),
            2..=5 => rows::problem(random),
            _ => random.problem(),
        });
        group.case(&format!("number {number}"), || {
            let (kind, one) = compare_apart(solver, &problem)?;
            tally[kind] += 1;
            tally[3] += usize::from(one);
            Ok(())
        });
    }
    group.case("each comes often", || {
        let often = tally.iter().zip(LEAST).all(|(&came, least)| came >= least);
        demand(often, &format!("they came {tally:?} times"))
    });
    group.finish(sums);
}

/// Which of the tally's answers came, and whether the loaded lines of some clause are all of its second
/// reading.
fn compare_apart(solver: Solver, problem: &Problem) -> Result<(usize, bool), String> {
    let written = solve_filled(solver, &problem.encode());
    let apart = solve_filled(solver, &problem.apart().encode());
    let kind = match (written.answer, apart.answer) {
        // The place is that of the written clause.
        (Answer::Refused { number: 13, .. }, Answer::Refused { number: 13, .. }) => {
            return Ok((2, false))
        }
        (Answer::Verdict { verdict, .. }, _) => (verdict as usize).min(2),
        _ => 2,
    };
    equal("answer", &apart.answer, &written.answer)?;
    demand(apart.sheet == written.sheet, "the sheets differ")?;
    Ok((kind, compare_lines(problem, &written, &apart)?))
}

/// The same lines, but loaded ones by the numbers of their own questions: the clause is that which
/// is read as the other, and its pieces are numbered on.
fn compare_lines(problem: &Problem, written: &Solved, apart: &Solved) -> Result<bool, String> {
    let mut clauses = Vec::new();
    for (clause, terms) in problem.clauses.iter().enumerate() {
        let readings = 1 + usize::from(terms.iter().any(Term::is_equal));
        clauses.extend((0..readings).map(|reading| (clause, reading)));
    }
    let number = |line: &[u8], at: usize| usize::from(u16::from_le_bytes([line[at], line[at + 1]]));
    let mut last = None;
    let mut loaded = vec![[false; 2]; problem.clauses.len()];
    let lines = written.used().chunks_exact(LINE_LENGTH);
    for (line, other) in lines.zip(apart.used().chunks_exact(LINE_LENGTH)) {
        demand(line[..2] == other[..2] && line[6..] == other[6..], "a line")?;
        if line[0] > 0 {
            demand(line[2..6] == other[2..6], "the parents of a result")?;
            continue;
        }
        let (clause, reading) = clauses[number(other, 2)];
        equal("clause", &clause, &number(line, 2))?;
        loaded[clause][reading] = true;
        let piece = Some((clause, number(line, 4)));
        demand(piece > last, "a piece is not numbered on")?;
        if reading == 0 {
            equal("piece", &number(other, 4), &number(line, 4))?;
        }
        last = piece;
    }
    let one = |clause: usize| loaded[clause] == [false, true];
    Ok((0..loaded.len()).any(one))
}
