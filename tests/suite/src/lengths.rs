//! The lengths a book and a sheet to check may have: 01's 16 and 2.

use crate::buffers::{book_length, LINE_LENGTH, SHEET_LENGTH};
use crate::report::{equal, Outcome, Sums};
use crate::solver::Solver;
use questions::problem::{equal as equals, Problem};
use reference::Checked;

const BOOKS: [usize; 16] = [
    0, 1, 63, 64, 65, 128, 16_320, 16_383, 16_384, 16_385, 16_448, 65_535, 65_536, 65_537, 65_600,
    131_072,
];
const SHEETS: [usize; 5] = [0, 63, 64, 65, 128];

pub fn run(solver: Solver, sums: &mut Sums) {
    let mut group = solver.group("lengths of books and sheets");
    let question = Problem::new(0, 0).clause([]).encode();
    for length in BOOKS {
        group.case(&format!("book of {length} bytes"), || {
            check_book_length(solver, &question, length)
        });
        group.case(&format!("book of {length} bytes, two ="), || {
            check_fault_first(solver, length)
        });
    }
    for length in SHEETS {
        group.case(&format!("sheet of {length} bytes"), || {
            check_sheet_length(solver, &question, length)
        });
    }
    group.finish(sums);
}

/// A zero line is the piece of an empty clause 0, so zeros are a right book at every length that
/// a book may have.
fn check_book_length(solver: Solver, question: &[u8], length: usize) -> Outcome {
    let lines = length / LINE_LENGTH;
    let whole = lines * LINE_LENGTH == length;
    let expected = match whole && lines > 0 && length <= book_length(solver.limit) {
        true => Checked::Accepted,
        false => Checked::Refused {
            number: 16,
            place: length,
        },
    };
    equal(
        "check",
        &expected,
        &solver.check_book(question, &vec![0; length]),
    )
}

/// A question at fault is named at every length of a book.
fn check_fault_first(solver: Solver, length: usize) -> Outcome {
    let twice = Problem::new(0, 0).clause([equals(&[], 0), equals(&[], 0)]);
    let expected = Checked::Refused {
        number: 18,
        place: 11,
    };
    let checked = solver.check_book(&twice.encode(), &vec![0; length]);
    equal("check", &expected, &checked)
}

/// A sheet that is long enough is read, and the empty clause fails.
fn check_sheet_length(solver: Solver, question: &[u8], length: usize) -> Outcome {
    let mut sheet = vec![0; length];
    if let Some(denominator) = sheet.get_mut(2) {
        *denominator = 1;
    }
    let expected = match length >= SHEET_LENGTH {
        true => Checked::Fails(0),
        false => Checked::Refused {
            number: 2,
            place: 0,
        },
    };
    equal("check", &expected, &solver.check_sheet(question, &sheet))
}
