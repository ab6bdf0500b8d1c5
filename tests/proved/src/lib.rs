//! The proved code with the second solver's answers: the library's own calls through the `jemuling`
//! package, and the calls for tests alone, whose declarations repeat those of `crates/test_calls`.

use jemuling::Refusal;
use reference::{Answer, Carried, Checked, Converted, Limit, Part, Shortened, Verdict};

pub fn solve(question: &[u8], book: &mut [u8], sheet: &mut [u8]) -> Answer {
    solve_within(Limit::STANDARD, question, book, sheet)
}

/// By the call with this limit of lines, if there is one.
pub fn solve_within(limit: Limit, question: &[u8], book: &mut [u8], sheet: &mut [u8]) -> Answer {
    answer(match limit {
        Limit::STANDARD => jemuling::solve(question, book, sheet),
        Limit::PREVIEW => jemuling::preview::solve(question, book, sheet),
        limit => no_call(limit),
    })
}

/// By the call with this limit that names an edition.
pub fn solve_in(
    edition: u64,
    limit: Limit,
    question: &[u8],
    book: &mut [u8],
    sheet: &mut [u8],
) -> Answer {
    answer(match limit {
        Limit::STANDARD => jemuling::solve_in(edition, question, book, sheet),
        Limit::PREVIEW => jemuling::preview::solve_in(edition, question, book, sheet),
        limit => no_call(limit),
    })
}

fn answer(solved: jemuling::Solved) -> Answer {
    let pairs = solved.pairs;
    match solved.answer {
        jemuling::Answer::Verdict(verdict, lines) => Answer::Verdict {
            verdict: match verdict {
                jemuling::Verdict::Agrees => Verdict::Agrees,
                jemuling::Verdict::Cannot => Verdict::Cannot,
                jemuling::Verdict::Unwritten => Verdict::Unwritten,
            },
            lines,
            pairs,
        },
        jemuling::Answer::Refused(Refusal { number, place }) => Answer::Refused {
            number,
            place,
            pairs,
        },
    }
}

pub fn check_book(question: &[u8], book: &[u8]) -> Checked {
    check_book_within(Limit::STANDARD, question, book)
}

pub fn check_book_within(limit: Limit, question: &[u8], book: &[u8]) -> Checked {
    checked(match limit {
        Limit::STANDARD => jemuling::check_book(question, book),
        Limit::PREVIEW => jemuling::preview::check_book(question, book),
        limit => no_call(limit),
    })
}

pub fn check_book_in(edition: u64, limit: Limit, question: &[u8], book: &[u8]) -> Checked {
    checked(match limit {
        Limit::STANDARD => jemuling::check_book_in(edition, question, book),
        Limit::PREVIEW => jemuling::preview::check_book_in(edition, question, book),
        limit => no_call(limit),
    })
}

pub fn check_sheet(question: &[u8], sheet: &[u8]) -> Checked {
    checked(jemuling::check_sheet(question, sheet))
}

pub fn check_sheet_in(edition: u64, question: &[u8], sheet: &[u8]) -> Checked {
    checked(jemuling::check_sheet_in(edition, question, sheet))
}

fn checked(checked: jemuling::Checked) -> Checked {
    match checked {
        jemuling::Checked::Accepted => Checked::Accepted,
        jemuling::Checked::Fails(first) => Checked::Fails(first),
        jemuling::Checked::Refused(Refusal { number, place }) => Checked::Refused { number, place },
    }
}

pub fn hand_back<'a>(answer: &Answer, book: &'a [u8], sheet: &'a [u8]) -> Part<'a> {
    hand_back_within(Limit::STANDARD, answer, book, sheet)
}

pub fn hand_back_within<'a>(
    limit: Limit,
    answer: &Answer,
    book: &'a [u8],
    sheet: &'a [u8],
) -> Part<'a> {
    let answer = match *answer {
        Answer::Verdict { verdict, lines, .. } => jemuling::Answer::Verdict(
            match verdict {
                Verdict::Agrees => jemuling::Verdict::Agrees,
                Verdict::Cannot => jemuling::Verdict::Cannot,
                Verdict::Unwritten => jemuling::Verdict::Unwritten,
            },
            lines,
        ),
        Answer::Refused { number, place, .. } => {
            jemuling::Answer::Refused(Refusal { number, place })
        }
    };
    let part = match limit {
        Limit::STANDARD => jemuling::hand_back(answer, book, sheet),
        Limit::PREVIEW => jemuling::preview::hand_back(answer, book, sheet),
        limit => no_call(limit),
    };
    match part {
        jemuling::Part::Book(part) => Part::Book(part),
        jemuling::Part::Sheet(part) => Part::Sheet(part),
    }
}

pub fn convert(question: &[u8], target: &mut [u8]) -> Converted {
    match jemuling::convert(question, target) {
        jemuling::Converted::Length(length) => Converted::Length(length),
        jemuling::Converted::Refused(Refusal { number, place }) => {
            Converted::Refused { number, place }
        }
    }
}

pub fn carry_back(question: &[u8], sheet: &[u8], target: &mut [u8]) -> Carried {
    match jemuling::carry_back(question, sheet, target) {
        jemuling::Carried::Done => Carried::Done,
        jemuling::Carried::Refused(Refusal { number, place }) => Carried::Refused { number, place },
    }
}

pub fn shorten_book_in(edition: u64, question: &[u8], book: &[u8], target: &mut [u8]) -> Shortened {
    match jemuling::shorten_book_in(edition, question, book, target) {
        jemuling::Shortened::Lines(lines) => Shortened::Lines(lines),
        jemuling::Shortened::Fails(line) => Shortened::Fails(line),
        jemuling::Shortened::Refused(Refusal { number, place }) => {
            Shortened::Refused { number, place }
        }
    }
}

fn no_call(Limit(lines): Limit) -> ! {
    panic!("no call has a limit of {lines} lines")
}

/// What reading a question comes to: 01's fault with its place, or the counts of a question that
/// is read without fault.
#[derive(Clone, Copy, Debug, PartialEq, Eq)]
pub enum Reading {
    Fault {
        number: u64,
        place: usize,
    },
    Sound {
        booleans: u64,
        rationals: u64,
        clauses: u64,
    },
}

#[repr(C)]
struct ReadTold {
    number: u64,
    place: usize,
    booleans: u64,
    rationals: u64,
    clauses: u64,
}

extern "C" {
    fn test_read(question: *const u8, length: usize) -> ReadTold;
}

/// Reads a question to its first fault, 3 to 13 or 18.
pub fn read(question: &[u8]) -> Reading {
    // SAFETY: the call reads the slice's bytes and nothing else, and keeps no pointer.
    let told = unsafe { test_read(question.as_ptr(), question.len()) };
    match told.number {
        0 => Reading::Sound {
            booleans: told.booleans,
            rationals: told.rationals,
            clauses: told.clauses,
        },
        number => Reading::Fault {
            number,
            place: told.place,
        },
    }
}
