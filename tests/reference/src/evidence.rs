//! Handing back: the part of the lent buffers that proves a verdict. 01's "Handing back gives
//! the caller".

use crate::elimination::{Limit, STEP_LENGTH};
use crate::model::MODEL_LENGTH;
use crate::{Answer, Verdict};

/// A part of the book or of the sheet.
#[derive(Clone, Copy, Debug, PartialEq, Eq)]
pub enum Part<'a> {
    Book(&'a [u8]),
    Sheet(&'a [u8]),
}

/// The sheet after "agrees", the used lines after "cannot agree", else an empty part of the book.
pub fn hand_back<'a>(answer: &Answer, book: &'a [u8], sheet: &'a [u8]) -> Part<'a> {
    hand_back_within(Limit::STANDARD, answer, book, sheet)
}

/// The same of a book with another limit of lines.
pub fn hand_back_within<'a>(
    limit: Limit,
    answer: &Answer,
    book: &'a [u8],
    sheet: &'a [u8],
) -> Part<'a> {
    let nothing = Part::Book(&book[..0]);
    if book.len() < limit.proof_length() || sheet.len() < MODEL_LENGTH {
        return nothing;
    }
    match *answer {
        Answer::Verdict { lines, .. } if lines > limit.0 => nothing,
        Answer::Verdict {
            verdict: Verdict::Agrees,
            ..
        } => Part::Sheet(&sheet[..MODEL_LENGTH]),
        Answer::Verdict {
            verdict: Verdict::Cannot,
            lines,
            ..
        } => Part::Book(&book[..lines * STEP_LENGTH]),
        _ => nothing,
    }
}
