//! Damaged books, sheets and questions: the checks must never panic, never accept a book for a
//! problem that has a model, and name the line or clause that fails.

use crate::buffers::{judged, solve_filled, Solved, LINE_LENGTH, SHEET_LENGTH};
use crate::report::{demand, equal, Outcome, Sums};
use crate::solver::Solver;
use questions::editions;
use questions::problem::Problem;
use questions::random::Random;
use reference::{Answer, Checked, Verdict};

const SEED: u64 = 3;
/// So many problems of either verdict, fewer for the preview and in edition 2, each with at most so many
/// lines; they come among the first so many.
const PROBLEMS: usize = 200;
const FEWER_PROBLEMS: usize = 20;
const TRIED: usize = 20_000;
const MAX_LINES: usize = 24;

pub fn run(solver: Solver, sums: &mut Sums) {
    let mut group = solver.group("damaged books and sheets");
    let mut random = Random::new(SEED);
    let refuted = problems(solver, Verdict::Cannot, &mut random);
    let satisfied = problems(solver, Verdict::Agrees, &mut random);
    group.case("enough problems", || {
        equal("refuted", &count(solver), &refuted.len())?;
        equal("satisfied", &count(solver), &satisfied.len())
    });
    for (i, (problem, solved)) in refuted.iter().enumerate() {
        let question = problem.encode();
        let book = solved.used();
        group.case(&format!("book {i}"), || {
            damaged_book(solver, &question, book)
        });
        group.case(&format!("question of book {i}"), || {
            damaged_question(solver, &question, book)
        });
    }
    for (i, (problem, solved)) in satisfied.iter().enumerate() {
        let book = solved.used();
        group.case(&format!("forged end {i}"), || {
            forged_end(solver, &problem.encode(), book)
        });
        group.case(&format!("sheet {i}"), || {
            damaged_sheet(solver, problem, solved.sheet())
        });
    }
    group.finish(sums);
}

fn count(solver: Solver) -> usize {
    match solver.is_preview() || solver.is_in_2() {
        true => FEWER_PROBLEMS,
        false => PROBLEMS,
    }
}

/// Random problems with this verdict and a short book of some lines.
fn problems(solver: Solver, wanted: Verdict, random: &mut Random) -> Vec<(Problem, Solved)> {
    let solve = || {
        let problem = match solver.is_in_2() {
            true => editions::small(random),
            false => random.stated(Random::problem),
        };
        let solved = solve_filled(solver, &problem.encode());
        (problem, solved)
    };
    let solved = std::iter::repeat_with(solve).take(TRIED);
    let wanted = |(_, solved): &(Problem, Solved)| match solved.answer {
        Answer::Verdict { verdict, lines, .. } => {
            verdict == wanted && (2..=MAX_LINES).contains(&lines)
        }
        Answer::Refused { .. } => false,
    };
    solved.filter(wanted).take(count(solver)).collect()
}

/// Calls the test with each place and the bytes changed there: each bit turned, and all.
pub fn for_each_change(bytes: &[u8], mut test: impl FnMut(usize, &[u8]) -> Outcome) -> Outcome {
    let mut damaged = bytes.to_vec();
    for place in 0..bytes.len() {
        for change in [1, 2, 4, 8, 16, 32, 64, 128, 255] {
            damaged[place] = bytes[place] ^ change;
            test(place, &damaged)
                .map_err(|text| format!("byte {place} changed by {change}: {text}"))?;
        }
        damaged[place] = bytes[place];
    }
    Ok(())
}

/// The first six bytes of a line settle the rest, so a change there fails at its own line; a
/// change of those six leaves the earlier lines right.
fn damaged_book(solver: Solver, question: &[u8], book: &[u8]) -> Outcome {
    for_each_change(book, |place, damaged| {
        let line = place / LINE_LENGTH;
        let checked = solver.check_book(question, damaged);
        if place % LINE_LENGTH >= 6 {
            return equal("check", &Checked::Fails(line), &checked);
        }
        match checked {
            Checked::Fails(first) => demand(first >= line, "a line before the change fails"),
            Checked::Accepted => Ok(()),
            Checked::Refused { .. } => Err("a right question is refused".into()),
        }
    })
}

/// A book for another question must not be accepted where that question has a model.
fn damaged_question(solver: Solver, question: &[u8], book: &[u8]) -> Outcome {
    for_each_change(question, |_, damaged| {
        if solver.check_book(damaged, book) != Checked::Accepted {
            return Ok(());
        }
        let Solved { answer, sheet, .. } = solve_filled(solver, damaged);
        let agrees = matches!(
            answer,
            Answer::Verdict {
                verdict: Verdict::Agrees,
                ..
            }
        );
        let has_model = agrees && solver.check_sheet(damaged, &sheet) == Checked::Accepted;
        demand(!has_model, "a book is accepted, and so is a sheet")
    })
}

/// No empty line follows from the lines of a satisfiable problem, whatever it names.
fn forged_end(solver: Solver, question: &[u8], book: &[u8]) -> Outcome {
    let lines = book.len() / LINE_LENGTH;
    let missing_end = solver.check_book(question, book);
    equal("check", &Checked::Fails(lines), &missing_end)?;
    for_each_change(book, |_, damaged| {
        let accepted = solver.check_book(question, damaged) == Checked::Accepted;
        demand(!accepted, "a damaged book is accepted")
    })?;
    let mut forged = book.to_vec();
    forged.extend([0; LINE_LENGTH]);
    for first in 0..=lines {
        for second in 0..=lines {
            for (how, which) in [
                (0, 0),
                (1, 0),
                (1, 1),
                (1, 2),
                (2, 0),
                (2, 1),
                (2, 2),
                (2, 3),
            ] {
                let end = [how, which, first as u8, 0, second as u8, 0];
                forged[book.len()..book.len() + 6].copy_from_slice(&end);
                let checked = solver.check_book(question, &forged);
                equal("forged end", &Checked::Fails(lines), &checked)?;
            }
        }
    }
    Ok(())
}

/// The check of a sheet must say what the suite's own reading of the sheet says.
fn damaged_sheet(solver: Solver, problem: &Problem, sheet: &[u8]) -> Outcome {
    let question = problem.encode();
    let stated = solver.stated(problem);
    equal("length", &SHEET_LENGTH, &sheet.len())?;
    for_each_change(sheet, |_, damaged| {
        let expected = judged(&stated, damaged)?;
        equal("check", &expected, &solver.check_sheet(&question, damaged))
    })
}
