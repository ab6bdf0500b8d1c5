//! What the programs share: the library's calls of one limit of lines, 1,024 or a preview's 256, the
//! options by which limit and edition are named, and refusals in words.

use jemuling::{preview, Answer, Checked, Part, Solved, BOOK_BYTES, FIRST_EDITION, PREVIEW_BYTES};

/// The calls of one limit, the bytes of its book, and what is said when that is full. Solving and the
/// check of a book take the edition's number first.
pub struct Calls {
    pub book_bytes: usize,
    pub solve: fn(u64, &[u8], &mut [u8], &mut [u8]) -> Solved,
    pub check_book: fn(u64, &[u8], &[u8]) -> Checked,
    pub hand_back: for<'a> fn(Answer, &'a [u8], &'a [u8]) -> Part<'a>,
    pub full: &'static str,
}

pub const STANDARD: Calls = Calls {
    book_bytes: BOOK_BYTES,
    solve: jemuling::solve_in,
    check_book: jemuling::check_book_in,
    hand_back: jemuling::hand_back,
    full: "a line too many for the book; that many lines were held",
};

pub const PREVIEW: Calls = Calls {
    book_bytes: PREVIEW_BYTES,
    solve: preview::solve_in,
    check_book: preview::check_book_in,
    hand_back: preview::hand_back,
    full: "the preview's 256 lines are not enough; ./solve without --preview has 1,024 lines",
};

/// `[--preview] [--edition N]`, in this order: the calls, the edition's number, and the words behind.
/// None if an edition is no number.
pub fn options<'a>(words: &'a [&'a str]) -> Option<(Calls, u64, &'a [&'a str])> {
    let (calls, words) = match words {
        ["--preview", rest @ ..] => (PREVIEW, rest),
        _ => (STANDARD, words),
    };
    match words {
        ["--edition", number, rest @ ..] => Some((calls, edition(number)?, rest)),
        _ => Some((calls, FIRST_EDITION, words)),
    }
}

/// A number in digits. One that is too large for the calls is no edition, and neither is the largest
/// that they take, which stands for it.
fn edition(word: &str) -> Option<u64> {
    let is_number = !word.is_empty() && word.bytes().all(|byte| byte.is_ascii_digit());
    is_number.then(|| word.parse().unwrap_or(u64::MAX))
}

/// Why a question is refused, with full-size buffers; a full book (15) is said by the calls' limit.
pub fn reason(number: u8) -> &'static str {
    match number {
        3 => "the question has over 32,768 bytes",
        4 => "the question ends before a field is complete",
        5 => "more than 16 marks",
        6 => "more than 8 figures",
        7 => "more than 256 clauses",
        8 => "more than 32 literals, or a mark that the question does not have",
        9 => "more than 8 conditions",
        10 => "a relation other than 1 (at most), 2 (below), 3 (equal) and 4 (at least)",
        11 => "an amount beyond 1,000,000,000 in size",
        12 => "bytes follow the last clause",
        13 => "more than 16 links",
        14 => "an amount beyond 1,000,000,000 in size arose; that many lines were held",
        18 => "a second relation 3 (equal) in one clause",
        19 => "an edition other than 1 and 2",
        20 => "the new question would have more than 8 figures",
        21 => "the new question has over 32,768 bytes",
        _ => "no refusal with full-size buffers",
    }
}
