//! The largest question of 02's (v): 256 clauses and eight figures, so that the clauses of edition 2 are 256
//! to 263; with books and sheets about these numbers. And questions whose course ends about line 256.

use crate::buffers::{solve_filled, LINE_LENGTH, SHEET_LENGTH};
use crate::examples::{agrees, cannot};
use crate::preview::full;
use crate::report::{equal, Sums};
use crate::solver::Solver;
use questions::largest::uppers;
use questions::problem::{at_most, Problem};
use reference::{Checked, FIRST_EDITION};

/// x_0 + k x_1 ≤ 0 for k from 1 to 255, and x_7 ≤ -1. Of the edition's clauses the first leaves x_1 ≤ 0,
/// once, and the last, 263, contradicts.
pub fn largest() -> Problem {
    let mut problem = Problem::new(0, 8);
    for k in 1..=255 {
        problem = problem.clause([at_most(&[1, k], 0)]);
    }
    problem.clause([at_most(&[0, 0, 0, 0, 0, 0, 0, 1], -1)])
}

pub fn run(solver: Solver, sums: &mut Sums) {
    let mut group = solver.group("editions: the largest question");
    let question = largest().encode();
    let first = solver.naming(FIRST_EDITION);
    group.case("solved", || {
        let solved = solve_filled(solver, &question);
        solved.check_buffers()?;
        if solver.is_preview() {
            return solved.expect(&full(0));
        }
        solved.expect(&cannot(266, 257))?;
        // behind the 256 clauses, the eight of the edition; then x_1 ≤ 0 and the end
        let line = |number: usize| &solved.used()[64 * number..][..6];
        equal("line 263", &&[0, 0, 7, 1, 0, 0][..], &line(263))?;
        equal("the end", &&[1, 7, 255, 0, 7, 1][..], &line(265))?;
        let accepted = solver.check_book(&question, solved.used());
        equal("check", &Checked::Accepted, &accepted)?;
        let failing = first.check_book(&question, solved.used());
        equal("check in edition 1", &Checked::Fails(256), &failing)
    });
    // each is a line, with -x ≤ 0, -y ≤ 0 and their result y ≤ 0
    for count in 252..=256 {
        group.case(&format!("{count} uppers"), || {
            let lines = count as usize + 3;
            let expected = match (solver.is_preview(), lines) {
                (true, 257) => full(1),
                (true, 258..) => full(0),
                _ => agrees(lines, count as u64 + 1),
            };
            let solved = solve_filled(solver, &uppers(count).encode());
            solved.expect(&expected)?;
            solved.check_buffers()
        });
    }
    for clause in [255, 256, 262, 263, 264, 271, 519, 1_287, 65_535] {
        for part in [0, 1, 2, 256] {
            group.case(&format!("a book with clause {clause}, part {part}"), || {
                let book = book_of(clause, part);
                let expected = match (clause, part) {
                    (263, 0) => Checked::Accepted,
                    _ => Checked::Fails(1),
                };
                equal("check", &expected, &solver.check_book(&question, &book))?;
                let failing = first.check_book(&question, &book);
                equal("check in edition 1", &Checked::Fails(1), &failing)
            });
        }
    }
    for figure in 0..8 {
        group.case(&format!("a sheet with figure {figure} below 0"), || {
            // x_1 is 0 or below, x_7 is -1, as clauses 0 to 255 have it
            let sheet = sheet_below(figure);
            let failing = Checked::Fails(256 + figure);
            equal("check", &failing, &solver.check_sheet(&question, &sheet))?;
            let accepted = first.check_sheet(&question, &sheet);
            equal("check in edition 1", &Checked::Accepted, &accepted)
        });
    }
    group.finish(sums);
}

/// x_7 ≤ -1, -x_7 ≤ 0 as this part of this clause, and the end that follows from both.
fn book_of(clause: u16, part: u16) -> Vec<u8> {
    let mut book = vec![0; 3 * LINE_LENGTH];
    book[2] = 255;
    book[6] = 1;
    book[44] = 1;
    book[48..52].fill(0xff);
    let lower = &mut book[LINE_LENGTH..];
    lower[2..4].copy_from_slice(&clause.to_le_bytes());
    lower[4..6].copy_from_slice(&part.to_le_bytes());
    lower[6] = 1;
    lower[44..48].fill(0xff);
    book[2 * LINE_LENGTH..][..6].copy_from_slice(&[1, 7, 0, 0, 1, 0]);
    book
}

/// -1/3 for this figure, -1 for the last, and 0 or 16/3 for the others.
fn sheet_below(figure: usize) -> Vec<u8> {
    let numerators = (0..8).map(|i| match i {
        7 => -3,
        _ if i == figure => -1,
        // x_0 + k x_1 ≤ 0
        0 | 1 => 0,
        _ => 16,
    });
    let mut sheet = vec![0, 8];
    sheet.extend(3_i32.to_le_bytes());
    sheet.extend(numerators.flat_map(|numerator: i32| numerator.to_le_bytes()));
    sheet.resize(SHEET_LENGTH, 0);
    sheet
}
