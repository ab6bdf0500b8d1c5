//! The second solver: document 01 with 02's requests (i), (iii) to (viii) and (xi), written once
//! more, in plain Rust and from their text alone, to judge the proved one from outside. Every call here
//! takes any bytes and buffers of any length; one that names no limit of lines takes 1,024, and one that
//! names no edition the first.

pub mod big;
mod checker;
mod conversion;
mod covering;
mod editions;
mod elimination;
mod evidence;
mod fraction;
mod model;
mod normalize;
mod print;
mod problem;
mod readings;
mod shortening;

pub use checker::{check_book, check_book_in, check_book_within};
pub use checker::{check_sheet, check_sheet_in, Checked};
pub use conversion::{carry_back, convert, Carried, Converted};
pub use covering::Dropping;
pub use elimination::{Limit, Order, Rules, Search};
pub use evidence::{hand_back, hand_back_within, Part};
pub use print::print;
pub use problem::{read, Fault, Problem};
pub use shortening::{shorten_book_in, Shortened};

use editions::Edition;
use elimination::{eliminate, Elimination, End, Step, Variable, STEP_LENGTH};
use model::{model, MODEL_LENGTH};

/// The edition of a call that names none.
pub const FIRST_EDITION: u64 = 1;
pub const SECOND_EDITION: u64 = 2;

/// 01's verdicts: satisfiable, unsatisfiable, and satisfiable without a sheet.
#[derive(Clone, Copy, Debug, PartialEq, Eq)]
pub enum Verdict {
    Agrees,
    Cannot,
    Unwritten,
}

/// What solving returns: a verdict, or a refusal by 01's table.
#[derive(Clone, Copy, Debug, PartialEq, Eq)]
pub enum Answer {
    Verdict {
        verdict: Verdict,
        lines: usize,
        pairs: u64,
    },
    Refused {
        number: u8,
        place: usize,
        pairs: u64,
    },
}

/// Solves a question; book and sheet are left as 01's "What each call says" has them.
pub fn solve(question: &[u8], book: &mut [u8], sheet: &mut [u8]) -> Answer {
    Run::TODAY.solve(question, book, sheet)
}

/// The same with another limit of lines: 02's (iii).
pub fn solve_within(limit: Limit, question: &[u8], book: &mut [u8], sheet: &mut [u8]) -> Answer {
    let run = Run {
        limit,
        ..Run::TODAY
    };
    run.solve(question, book, sheet)
}

/// The same in the edition with this number: 02's (v).
pub fn solve_in(
    edition: u64,
    limit: Limit,
    question: &[u8],
    book: &mut [u8],
    sheet: &mut [u8],
) -> Answer {
    let run = Run {
        edition,
        limit,
        ..Run::TODAY
    };
    run.solve(question, book, sheet)
}

/// The same, with a choice how the line that drops another is looked for.
pub fn solve_by(search: Search, question: &[u8], book: &mut [u8], sheet: &mut [u8]) -> Answer {
    let run = Run {
        search,
        ..Run::TODAY
    };
    run.solve(question, book, sheet)
}

/// The same, by other rules of the course: in rising order, as before 02's (vii), or with equal lines
/// alone dropped, as before (viii), or both.
pub fn solve_under(rules: Rules, question: &[u8], book: &mut [u8], sheet: &mut [u8]) -> Answer {
    let run = Run {
        rules,
        ..Run::TODAY
    };
    run.solve(question, book, sheet)
}

/// The figures that a question's course takes, in their order, up to its end; none of a question
/// at fault.
pub fn figures_taken(question: &[u8]) -> Option<Vec<usize>> {
    let problem = read(question).ok()?;
    let course = Run::TODAY.eliminate(&problem);
    let figure = |variable: &Variable| match *variable {
        Variable::Rational(figure) if figure < problem.rationals => Some(figure),
        _ => None,
    };
    Some(course.taken.iter().filter_map(figure).collect())
}

/// How a question is solved: the edition that is named, the limit of lines, the rules of the course,
/// and how a line is looked for.
#[derive(Clone, Copy)]
struct Run {
    edition: u64,
    limit: Limit,
    rules: Rules,
    search: Search,
}

impl Run {
    const TODAY: Run = Run {
        edition: FIRST_EDITION,
        limit: Limit::STANDARD,
        rules: Rules::TODAY,
        search: Search::Plain,
    };

    fn eliminate(self, problem: &Problem) -> Elimination {
        eliminate(problem, self.limit, self.rules, self.search)
    }

    fn solve(self, question: &[u8], book: &mut [u8], sheet: &mut [u8]) -> Answer {
        let refused = |number, place| Answer::Refused {
            number,
            place,
            pairs: 0,
        };
        let edition = match Edition::named(self.edition) {
            Ok(edition) => edition,
            Err(Fault { number, place }) => return refused(number, place),
        };
        let book = match book.get_mut(..self.limit.proof_length()) {
            Some(book) => book,
            None => return refused(1, 0),
        };
        if sheet.len() < MODEL_LENGTH {
            return refused(2, 0);
        }
        match read(question) {
            Ok(written) => {
                let problem = edition.state(written);
                answer(&problem, &self.eliminate(&problem), book, sheet)
            }
            Err(Fault { number, place }) => refused(number, place),
        }
    }
}

/// The answer after the course, written into a book of the limit's bytes and a full-size sheet.
fn answer(problem: &Problem, course: &Elimination, book: &mut [u8], sheet: &mut [u8]) -> Answer {
    let found = match course.end {
        End::Saturated => model(problem, course),
        End::Empty => None,
        End::Overflow => return refuse(14, course, book),
        End::OutOfSteps => return refuse(15, course, book),
    };
    let verdict = match (course.end, found) {
        (End::Empty, _) => Verdict::Cannot,
        (_, Some(_)) => Verdict::Agrees,
        (_, None) => Verdict::Unwritten,
    };
    write_proof(&course.steps, book);
    sheet[..MODEL_LENGTH].copy_from_slice(&found.unwrap_or([0; MODEL_LENGTH]));
    Answer::Verdict {
        verdict,
        lines: course.steps.len(),
        pairs: course.pairs,
    }
}

/// A refused course: the book's lines are zeroed, the sheet is left.
fn refuse(number: u8, course: &Elimination, book: &mut [u8]) -> Answer {
    write_proof(&[], book);
    Answer::Refused {
        number,
        place: course.steps.len(),
        pairs: course.pairs,
    }
}

/// Writes the used lines and zeroes the unused ones.
fn write_proof(steps: &[Step], book: &mut [u8]) {
    let (used, unused) = book.split_at_mut(steps.len() * STEP_LENGTH);
    for (line, step) in used.chunks_exact_mut(STEP_LENGTH).zip(steps) {
        line.copy_from_slice(&step.encode());
    }
    unused.fill(0);
}
