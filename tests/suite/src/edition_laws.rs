//! What the answers of the two editions have to do with each other, by 02's (v), and with those of the
//! question with the clauses of edition 2 written out. Both solvers and the preview are asked.

use crate::buffers::{satisfiable, solve_in, Solved};
use crate::buffers::{BOOK_LENGTH, PREVIEW_LENGTH, SHEET_LENGTH};
use crate::report::{demand, equal, Outcome};
use crate::solver::{Solver, BOTH, BOTH_IN_2};
use questions::problem::Problem;
use reference::{Checked, Limit, FIRST_EDITION, SECOND_EDITION};

/// The same answer, and the same bytes left.
fn same(what: &str, expected: &Solved, got: &Solved) -> Outcome {
    equal(what, &expected.answer, &got.answer)?;
    let bytes = expected.book == got.book && expected.sheet == got.sheet;
    demand(bytes, &format!("{what}: other bytes"))
}

/// What the proved code says of a question in both editions, with the limit of lines that the fill
/// picks. By the call that names edition 1 it says what it does by the one that names none, and in
/// edition 2 what it says of the question with the edition's clauses written out, where such a question
/// is not too large; a fault is the same in both. What can agree in edition 2 can in edition 1.
pub fn check_question(question: &[u8], fill: u8) -> Result<[Solved; 2], String> {
    let proved = Solver::proved([Limit::STANDARD, Limit::PREVIEW][usize::from(fill % 2)]);
    let solve = |solver, question: &[u8]| {
        let (book, sheet) = (vec![fill; BOOK_LENGTH + 16], vec![fill; SHEET_LENGTH + 16]);
        solve_in(solver, question, book, sheet)
    };
    let none = solve(proved, question);
    let in_1 = solve(proved.naming(FIRST_EDITION), question);
    let in_2 = solve(proved.naming(SECOND_EDITION), question);
    same("edition 1 by its number", &none, &in_1)?;
    match reference::read(question) {
        Err(_) => same("a fault in edition 2", &none, &in_2)?,
        Ok(_) => {
            let written = Problem::decode(question).with_shares().encode();
            if reference::read(&written).is_ok() {
                let written = solve(proved, &written);
                same("the clauses written out", &written, &in_2)?;
            }
        }
    }
    let [first, second] = [&in_1, &in_2].map(|solved| satisfiable(&solved.answer));
    demand(
        first != Some(false) || second != Some(true),
        "it cannot agree in edition 1, and can in edition 2",
    )?;
    Ok([in_1, in_2])
}

/// What the checks of a book say in both editions, which is the same of both solvers and, of a book that
/// is not too long for it, of the preview. Accepted in edition 1, it is accepted in 2; a refusal is the
/// same; and edition 2 names no earlier line.
pub fn books_in_both(question: &[u8], book: &[u8]) -> Result<[Checked; 2], String> {
    let in_1 = check_book_by(BOTH, question, book)?;
    let in_2 = check_book_by(BOTH_IN_2, question, book)?;
    let proved = Solver::PROVED.naming(FIRST_EDITION);
    let named = proved.check_book(question, book);
    equal("edition 1 by its number", &in_1, &named)?;
    let said = [in_1, in_2];
    let follows = match said {
        [Checked::Accepted, in_2] => in_2 == Checked::Accepted,
        [Checked::Fails(line), Checked::Fails(later)] => line <= later,
        [Checked::Fails(_), in_2] => in_2 == Checked::Accepted,
        [refused, in_2] => refused == in_2,
    };
    demand(follows, &format!("the editions say {said:?}"))?;
    Ok(said)
}

/// What these two say, and the proved code's preview.
fn check_book_by(solvers: [Solver; 2], question: &[u8], book: &[u8]) -> Result<Checked, String> {
    let [second, proved] = solvers;
    let said = second.check_book(question, book);
    equal("check", &said, &proved.check_book(question, book))?;
    let expected = match said {
        Checked::Accepted | Checked::Fails(_) if book.len() > PREVIEW_LENGTH => Checked::Refused {
            number: 16,
            place: book.len(),
        },
        said => said,
    };
    let preview = proved.within(Limit::PREVIEW);
    let preview = preview.check_book(question, book);
    equal("check by the preview", &expected, &preview)?;
    Ok(said)
}

/// The same of a sheet: accepted in edition 2, it is accepted in 1; a refusal or a clause of the question
/// that fails is the same; and where edition 2 alone names a clause, it is one of its own.
pub fn sheets_in_both(question: &[u8], sheet: &[u8]) -> Result<[Checked; 2], String> {
    let check = |[second, proved]: [Solver; 2]| {
        let said = second.check_sheet(question, sheet);
        equal("check", &said, &proved.check_sheet(question, sheet))?;
        Ok::<Checked, String>(said)
    };
    let said = [check(BOTH)?, check(BOTH_IN_2)?];
    let proved = Solver::PROVED.naming(FIRST_EDITION);
    let named = proved.check_sheet(question, sheet);
    equal("edition 1 by its number", &said[0], &named)?;
    let follows = match (said, reference::read(question)) {
        ([Checked::Accepted, Checked::Fails(clause)], Ok(problem)) => {
            let [_, r, n] = problem.counts();
            (n..n + r).contains(&clause)
        }
        ([in_1, in_2], _) => in_1 == in_2,
    };
    demand(follows, &format!("the editions say {said:?}"))?;
    Ok(said)
}
