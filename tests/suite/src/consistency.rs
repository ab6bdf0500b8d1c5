//! Random problems: every verdict is judged without the elimination. A sheet must satisfy the
//! problem by the suite's own arithmetic, with the clauses that its edition adds; after "cannot agree"
//! a search of a grid of assignments must find none. The checks must accept what solving wrote.

use crate::buffers::{read_sheet, solve_filled, Solved};
use crate::report::{demand, equal, Outcome, Sums};
use crate::solver::Solver;
use questions::editions;
use questions::problem::{Assignment, Problem};
use questions::random::Random;
use reference::{Answer, Checked, Limit, Verdict};

const CASES: usize = 20_000;
/// In edition 2, of which every other one is drawn for it.
const CASES_IN_2: usize = 10_000;
const SEED: u64 = 1;

/// How often each answer came: agrees, cannot agree, unwritten, refused.
type Tally = [usize; 4];

pub fn run(solver: Solver, sums: &mut Sums) {
    let mut group = solver.group("random questions");
    let mut random = Random::new(SEED);
    let mut tally = Tally::default();
    let cases = match solver.is_in_2() {
        true => CASES_IN_2,
        false => CASES,
    };
    for number in 0..cases {
        let problem = match solver.is_in_2() && number % 2 == 0 {
            true => editions::small(&mut random),
            false => random.stated(Random::problem),
        };
        let name = format!("number {number}");
        group.case(&name, || check_problem(solver, &problem, &mut tally));
    }
    // in edition 2 most figures are 0, and few are unwritten
    let least = if solver.is_in_2() { 15 } else { 50 };
    group.case("each answer comes often", || {
        let often = tally.iter().all(|&count| count >= least);
        demand(often, &format!("answers came {tally:?} times"))
    });
    group.finish(sums);
}

fn check_problem(solver: Solver, problem: &Problem, tally: &mut Tally) -> Outcome {
    let question = problem.encode();
    let problem = &solver.stated(problem);
    let solved = solve_filled(solver, &question);
    solved.check_buffers()?;
    match solved.answer {
        Answer::Verdict {
            verdict,
            lines,
            pairs,
        } => {
            let Limit(most) = solver.limit;
            demand(
                lines <= most && pairs <= (most * most / 4) as u64,
                "too many lines or pairs",
            )?;
            tally[verdict as usize] += 1;
            match verdict {
                Verdict::Agrees => check_agrees(solver, problem, &question, &solved),
                Verdict::Cannot => check_cannot(solver, problem, &question, &solved),
                Verdict::Unwritten => Ok(()),
            }
        }
        Answer::Refused { number, .. } => {
            tally[3] += 1;
            demand(matches!(number, 13..=15 | 18), "an unexpected fault")
        }
    }
}

fn check_agrees(solver: Solver, problem: &Problem, question: &[u8], solved: &Solved) -> Outcome {
    let model = read_sheet(problem, solved.sheet())
        .map_err(|place| format!("the sheet is bad at byte {place}"))?;
    equal("failing clause", &None, &model.first_failing(problem)?)?;
    let checked = solver.check_sheet(question, solved.sheet());
    equal("check of the sheet", &Checked::Accepted, &checked)
}

fn check_cannot(solver: Solver, problem: &Problem, question: &[u8], solved: &Solved) -> Outcome {
    demand(!satisfied_on_grid(problem), "an assignment satisfies it")?;
    let checked = solver.check_book(question, solved.used());
    equal("check of the book", &Checked::Accepted, &checked)
}

/// Searches all marks, with every figure from -6 to 6 or half of such a number.
fn satisfied_on_grid(problem: &Problem) -> bool {
    let halves: Vec<i64> = (-12..=12i64)
        .filter(|n| n % 2 == 0 || n.abs() <= 6)
        .collect();
    let rationals = u32::from(problem.rationals);
    let mut numerators = vec![0; rationals as usize];
    (0..halves.len().pow(rationals)).any(|point| {
        let mut rest = point;
        for numerator in &mut numerators {
            *numerator = halves[rest % halves.len()];
            rest /= halves.len();
        }
        (0..1 << problem.booleans).any(|booleans| {
            let assignment = Assignment {
                booleans,
                denominator: 2,
                numerators: &numerators,
            };
            problem.first_failing(&assignment).is_none()
        })
    })
}
