//! Jemuling's calls behind safe functions. The declarations below are those of
//! `include/jemuling.h`, whose comments say what each call answers and leaves in the buffers.

/// The most bytes of a question.
pub const QUESTION_BYTES: usize = 32_768;
/// The bytes of a book's line.
pub const LINE_BYTES: usize = 64;
/// The bytes of a full-size book.
pub const BOOK_BYTES: usize = 65_536;
/// The bytes of a preview's book.
pub const PREVIEW_BYTES: usize = 16_384;
/// The bytes of a sheet.
pub const SHEET_BYTES: usize = 64;

/// A mark on a sheet that is no.
pub const NO: u8 = 0;
/// A mark on a sheet that is yes.
pub const YES: u8 = 1;
/// A mark on a sheet that stands in no clause: decided by nothing, it is neither yes nor no.
pub const OPEN: u8 = 2;

/// The edition of a question as it is written.
pub const FIRST_EDITION: u64 = 1;
/// The edition in which, besides, no figure is negative: behind a question's n clauses, clauses n,
/// n + 1 and so on state that figure 0, 1 and so on is at least 0.
pub const SECOND_EDITION: u64 = 2;

/// A refusal by its number, 1 to 22, and its place; the header says what each number means.
#[derive(Clone, Copy, Debug, PartialEq, Eq)]
pub struct Refusal {
    pub number: u8,
    pub place: usize,
}

impl Refusal {
    /// Whether the question itself is at fault: 3 to 13, and 18. 19 is for an edition that is none, 20
    /// to 22 for a question or a sheet that cannot be carried over or back.
    pub fn is_fault(&self) -> bool {
        matches!(self.number, 3..=13 | 18)
    }
}

#[derive(Clone, Copy, Debug, PartialEq, Eq)]
pub enum Verdict {
    Agrees,
    Cannot,
    Unwritten,
}

/// What solving answers: a verdict with the lines of the book, or a refusal.
#[derive(Clone, Copy, Debug, PartialEq, Eq)]
pub enum Answer {
    Verdict(Verdict, usize),
    Refused(Refusal),
}

/// What solving answers, and the pairs that it tried.
#[derive(Clone, Copy, Debug, PartialEq, Eq)]
pub struct Solved {
    pub answer: Answer,
    pub pairs: u64,
}

/// What a check answers: accepted, the first line or clause that fails, or a refusal.
#[derive(Clone, Copy, Debug, PartialEq, Eq)]
pub enum Checked {
    Accepted,
    Fails(usize),
    Refused(Refusal),
}

/// What converting answers: the new question's length, or a refusal.
#[derive(Clone, Copy, Debug, PartialEq, Eq)]
pub enum Converted {
    Length(usize),
    Refused(Refusal),
}

/// What carrying back answers: done, or a refusal.
#[derive(Clone, Copy, Debug, PartialEq, Eq)]
pub enum Carried {
    Done,
    Refused(Refusal),
}

/// What shortening a book answers: the short book's lines; or what the check answers of a book that it
/// does not accept, the first line that fails, or a refusal.
#[derive(Clone, Copy, Debug, PartialEq, Eq)]
pub enum Shortened {
    Lines(usize),
    Fails(usize),
    Refused(Refusal),
}

/// The part of a buffer that a verdict gives its caller.
#[derive(Clone, Copy, Debug, PartialEq, Eq)]
pub enum Part<'a> {
    Book(&'a [u8]),
    Sheet(&'a [u8]),
}

#[repr(C)]
struct Told {
    number: u64,
    value: usize,
}

#[repr(C)]
struct SolvedTold {
    number: u64,
    value: usize,
    pairs: u64,
}

extern "C" {
    fn jemuling_solve(
        question: *const u8,
        question_length: usize,
        book: *mut u8,
        book_length: usize,
        sheet: *mut u8,
        sheet_length: usize,
    ) -> SolvedTold;
    fn jemuling_preview_solve(
        question: *const u8,
        question_length: usize,
        book: *mut u8,
        book_length: usize,
        sheet: *mut u8,
        sheet_length: usize,
    ) -> SolvedTold;
    fn jemuling_solve_in(
        edition: u64,
        question: *const u8,
        question_length: usize,
        book: *mut u8,
        book_length: usize,
        sheet: *mut u8,
        sheet_length: usize,
    ) -> SolvedTold;
    fn jemuling_preview_solve_in(
        edition: u64,
        question: *const u8,
        question_length: usize,
        book: *mut u8,
        book_length: usize,
        sheet: *mut u8,
        sheet_length: usize,
    ) -> SolvedTold;
    fn jemuling_check_book(
        question: *const u8,
        question_length: usize,
        book: *const u8,
        book_length: usize,
    ) -> Told;
    fn jemuling_preview_check_book(
        question: *const u8,
        question_length: usize,
        book: *const u8,
        book_length: usize,
    ) -> Told;
    fn jemuling_check_book_in(
        edition: u64,
        question: *const u8,
        question_length: usize,
        book: *const u8,
        book_length: usize,
    ) -> Told;
    fn jemuling_preview_check_book_in(
        edition: u64,
        question: *const u8,
        question_length: usize,
        book: *const u8,
        book_length: usize,
    ) -> Told;
    fn jemuling_check_sheet(
        question: *const u8,
        question_length: usize,
        sheet: *const u8,
        sheet_length: usize,
    ) -> Told;
    fn jemuling_check_sheet_in(
        edition: u64,
        question: *const u8,
        question_length: usize,
        sheet: *const u8,
        sheet_length: usize,
    ) -> Told;
    fn jemuling_hand_back(
        number: u64,
        lines: usize,
        book: *const u8,
        book_length: usize,
        sheet: *const u8,
        sheet_length: usize,
    ) -> Told;
    fn jemuling_preview_hand_back(
        number: u64,
        lines: usize,
        book: *const u8,
        book_length: usize,
        sheet: *const u8,
        sheet_length: usize,
    ) -> Told;
    fn jemuling_convert(
        question: *const u8,
        question_length: usize,
        target: *mut u8,
        target_length: usize,
    ) -> Told;
    fn jemuling_carry_back(
        question: *const u8,
        question_length: usize,
        sheet: *const u8,
        sheet_length: usize,
        target: *mut u8,
        target_length: usize,
    ) -> Told;
    fn jemuling_shorten_book_in(
        edition: u64,
        question: *const u8,
        question_length: usize,
        book: *const u8,
        book_length: usize,
        target: *mut u8,
        target_length: usize,
    ) -> Told;
}

/// A call for solving, one for the check of a book or of a sheet, both also with an edition before the
/// rest, and one for handing back, whichever its limit of lines.
type Solving = unsafe extern "C" fn(*const u8, usize, *mut u8, usize, *mut u8, usize) -> SolvedTold;
type SolvingIn =
    unsafe extern "C" fn(u64, *const u8, usize, *mut u8, usize, *mut u8, usize) -> SolvedTold;
type Checking = unsafe extern "C" fn(*const u8, usize, *const u8, usize) -> Told;
type CheckingIn = unsafe extern "C" fn(u64, *const u8, usize, *const u8, usize) -> Told;
type HandingBack = unsafe extern "C" fn(u64, usize, *const u8, usize, *const u8, usize) -> Told;

const AGREES: u64 = 64;
const CANNOT: u64 = 65;
const UNWRITTEN: u64 = 66;
const ACCEPTED: u64 = 67;
const FAILS: u64 = 68;
const OF_SHEET: u64 = 70;
const CONVERTED: u64 = 71;
const CARRIED: u64 = 72;
const SHORTENED: u64 = 73;

/// Solves a question. The buffers are lent for the call, and hold afterwards what the header says:
/// after "agrees" the sheet has [`NO`], [`YES`] or [`OPEN`] for each mark, [`OPEN`] exactly for those
/// in no literal of the question as it is written, which is satisfied with either value.
pub fn solve(question: &[u8], book: &mut [u8], sheet: &mut [u8]) -> Solved {
    solve_by(jemuling_solve, question, book, sheet)
}

/// Solves a question in the edition of this number, [`FIRST_EDITION`] or [`SECOND_EDITION`]; any other
/// is refused before all else, 19. In the first it does what [`solve`] does.
pub fn solve_in(edition: u64, question: &[u8], book: &mut [u8], sheet: &mut [u8]) -> Solved {
    solve_in_by(jemuling_solve_in, edition, question, book, sheet)
}

/// Checks that a book refutes a question.
pub fn check_book(question: &[u8], book: &[u8]) -> Checked {
    check_by(jemuling_check_book, question, book)
}

/// Checks that a book refutes a question in the edition of this number; any other than 1 and 2 is
/// refused before all else, 19. A book that is accepted in the first is accepted in the second.
pub fn check_book_in(edition: u64, question: &[u8], book: &[u8]) -> Checked {
    check_in_by(jemuling_check_book_in, edition, question, book)
}

/// Checks that the marks and figures on a sheet satisfy a question, with either value for each open
/// mark. [`OPEN`] must stand exactly at the marks in no literal of the question as it is written, and
/// [`NO`] or [`YES`] at the others; anything else is refused, 17.
pub fn check_sheet(question: &[u8], sheet: &[u8]) -> Checked {
    check_by(jemuling_check_sheet, question, sheet)
}

/// Checks that the marks and figures on a sheet satisfy a question in the edition of this number; any
/// other than 1 and 2 is refused before all else, 19. In the second, [`Checked::Fails`] names clause
/// n + i where figure i is the first below 0 and all n written clauses hold. A sheet that is accepted
/// in the second is accepted in the first.
pub fn check_sheet_in(edition: u64, question: &[u8], sheet: &[u8]) -> Checked {
    check_in_by(jemuling_check_sheet_in, edition, question, sheet)
}

/// The part of book or sheet that an answer gives: the sheet after "agrees", the used lines of the
/// book after "cannot agree", and else, or with a book or sheet that is not of full size or over
/// 1,024 lines, nothing: a part of the book without bytes.
pub fn hand_back<'a>(answer: Answer, book: &'a [u8], sheet: &'a [u8]) -> Part<'a> {
    hand_back_by(jemuling_hand_back, answer, book, sheet)
}

/// Carries a first-edition question over to the second edition: a figure that a clause of its own
/// says is not negative is kept, any other becomes two, the first less the second. The new question is
/// the first [`Converted::Length`] bytes of the target, of which [`QUESTION_BYTES`] are enough for
/// every result; the bytes past it keep their content, all of them after a refusal: a fault of the
/// question, else 20 (over 8 figures result), else 21 (over 32,768 bytes, or over the target's). It has
/// a solution in [`SECOND_EDITION`] exactly if the old one has one in [`FIRST_EDITION`].
pub fn convert(question: &[u8], target: &mut [u8]) -> Converted {
    // SAFETY: the call reads the question and writes the target within their lengths, and keeps no
    // pointer; a slice lent mutably does not overlap another.
    let told = unsafe {
        jemuling_convert(
            question.as_ptr(),
            question.len(),
            target.as_mut_ptr(),
            target.len(),
        )
    };
    match told.number {
        CONVERTED => Converted::Length(told.value),
        number => Converted::Refused(refusal(number, told.value)),
    }
}

/// Carries a sheet of the question that [`convert`] makes of this old one back to the old one: into the
/// target's first [`SHEET_BYTES`], the same marks and denominator, and of each old figure its
/// numerator, as it is or the first half's less the second's. A refusal alters no byte: a fault of the
/// old question, else 20, else 2 (either sheet too short), else 17 (against the new question), else 22
/// (a numerator out of range, at the first such old figure). A sheet that [`check_sheet_in`] accepts of
/// the new question in [`SECOND_EDITION`] is always carried back, to one that is accepted of the old
/// question in [`FIRST_EDITION`]; whether it satisfies is not asked here.
pub fn carry_back(question: &[u8], sheet: &[u8], target: &mut [u8]) -> Carried {
    // SAFETY: as for `convert`, with a sheet that is read besides.
    let told = unsafe {
        jemuling_carry_back(
            question.as_ptr(),
            question.len(),
            sheet.as_ptr(),
            sheet.len(),
            target.as_mut_ptr(),
            target.len(),
        )
    };
    match told.number {
        CARRIED => Carried::Done,
        number => Carried::Refused(refusal(number, told.value)),
    }
}

/// Writes into the target the short book of one that refutes a question in the edition of this number:
/// the last, empty line and the lines from which it descends, in order, with parents by their new
/// numbers. The short book is the first [`Shortened::Lines`] lines of the target, of which
/// [`BOOK_BYTES`] are needed; the rest of these is 0, and the bytes beyond keep their content. It is for
/// books of at most 1,024 lines, so for a preview's, too. No byte is altered after a refusal, 19 (no
/// edition), else 1 (a short target), else as [`check_book_in`] answers, nor after
/// [`Shortened::Fails`], which is its [`Checked::Fails`]. That check accepts the short book; the
/// question reduced to the clauses that it loads cannot agree either.
pub fn shorten_book_in(edition: u64, question: &[u8], book: &[u8], target: &mut [u8]) -> Shortened {
    // SAFETY: as for `convert`, with a book that is read besides.
    let told = unsafe {
        jemuling_shorten_book_in(
            edition,
            question.as_ptr(),
            question.len(),
            book.as_ptr(),
            book.len(),
            target.as_mut_ptr(),
            target.len(),
        )
    };
    match told.number {
        SHORTENED => Shortened::Lines(told.value),
        FAILS => Shortened::Fails(told.value),
        number => Shortened::Refused(refusal(number, told.value)),
    }
}

/// The calls with a preview's book: 256 lines, [`PREVIEW_BYTES`](crate::PREVIEW_BYTES); a longer one
/// keeps its bytes from there on. A verdict of the preview, or 14, is also what
/// [`solve`](crate::solve) says with a full-size book, and in an edition
/// [`solve_in`](crate::solve_in).
pub mod preview {
    use super::{Answer, Checked, Part, Solved};

    /// Solves a question, as [`solve`](crate::solve) does.
    pub fn solve(question: &[u8], book: &mut [u8], sheet: &mut [u8]) -> Solved {
        super::solve_by(super::jemuling_preview_solve, question, book, sheet)
    }

    /// Solves a question in the edition of this number, as [`solve_in`](crate::solve_in) does.
    pub fn solve_in(edition: u64, question: &[u8], book: &mut [u8], sheet: &mut [u8]) -> Solved {
        let call = super::jemuling_preview_solve_in;
        super::solve_in_by(call, edition, question, book, sheet)
    }

    /// Checks that a book of at most 256 lines refutes a question.
    pub fn check_book(question: &[u8], book: &[u8]) -> Checked {
        super::check_by(super::jemuling_preview_check_book, question, book)
    }

    /// Checks that a book of at most 256 lines refutes a question in the edition of this number, as
    /// [`check_book_in`](crate::check_book_in) does.
    pub fn check_book_in(edition: u64, question: &[u8], book: &[u8]) -> Checked {
        let call = super::jemuling_preview_check_book_in;
        super::check_in_by(call, edition, question, book)
    }

    /// The part of book or sheet that an answer gives, as [`hand_back`](crate::hand_back) has it, of a
    /// preview's book; nothing over 256 lines.
    pub fn hand_back<'a>(answer: Answer, book: &'a [u8], sheet: &'a [u8]) -> Part<'a> {
        super::hand_back_by(super::jemuling_preview_hand_back, answer, book, sheet)
    }
}

fn solve_by(call: Solving, question: &[u8], book: &mut [u8], sheet: &mut [u8]) -> Solved {
    // SAFETY: the call reads the question and reads and writes the buffers within their lengths,
    // and keeps no pointer; slices lent mutably do not overlap.
    solved(unsafe {
        call(
            question.as_ptr(),
            question.len(),
            book.as_mut_ptr(),
            book.len(),
            sheet.as_mut_ptr(),
            sheet.len(),
        )
    })
}

fn solve_in_by(
    call: SolvingIn,
    edition: u64,
    question: &[u8],
    book: &mut [u8],
    sheet: &mut [u8],
) -> Solved {
    // SAFETY: as for `solve_by`.
    solved(unsafe {
        call(
            edition,
            question.as_ptr(),
            question.len(),
            book.as_mut_ptr(),
            book.len(),
            sheet.as_mut_ptr(),
            sheet.len(),
        )
    })
}

fn check_by(call: Checking, question: &[u8], evidence: &[u8]) -> Checked {
    // SAFETY: the call reads both slices within their lengths, and keeps no pointer.
    checked(unsafe {
        call(
            question.as_ptr(),
            question.len(),
            evidence.as_ptr(),
            evidence.len(),
        )
    })
}

fn check_in_by(call: CheckingIn, edition: u64, question: &[u8], evidence: &[u8]) -> Checked {
    // SAFETY: as for `check_by`.
    checked(unsafe {
        call(
            edition,
            question.as_ptr(),
            question.len(),
            evidence.as_ptr(),
            evidence.len(),
        )
    })
}

fn hand_back_by<'a>(
    call: HandingBack,
    answer: Answer,
    book: &'a [u8],
    sheet: &'a [u8],
) -> Part<'a> {
    let (number, lines) = match answer {
        Answer::Verdict(Verdict::Agrees, lines) => (AGREES, lines),
        Answer::Verdict(Verdict::Cannot, lines) => (CANNOT, lines),
        Answer::Verdict(Verdict::Unwritten, lines) => (UNWRITTEN, lines),
        // a refusal's number is below 64, whatever the caller put into it
        Answer::Refused(Refusal { number, place }) => (u64::from(number.min(63)), place),
    };
    // SAFETY: as for `check_by`.
    let told = unsafe {
        call(
            number,
            lines,
            book.as_ptr(),
            book.len(),
            sheet.as_ptr(),
            sheet.len(),
        )
    };
    match told.number {
        OF_SHEET => Part::Sheet(&sheet[..told.value]),
        _ => Part::Book(&book[..told.value]),
    }
}

fn solved(told: SolvedTold) -> Solved {
    let answer = match told.number {
        AGREES => Answer::Verdict(Verdict::Agrees, told.value),
        CANNOT => Answer::Verdict(Verdict::Cannot, told.value),
        UNWRITTEN => Answer::Verdict(Verdict::Unwritten, told.value),
        number => Answer::Refused(refusal(number, told.value)),
    };
    Solved {
        answer,
        pairs: told.pairs,
    }
}

fn checked(told: Told) -> Checked {
    match told.number {
        ACCEPTED => Checked::Accepted,
        FAILS => Checked::Fails(told.value),
        number => Checked::Refused(refusal(number, told.value)),
    }
}

/// The library's refusals are 1 to 22; a number that is none of its own would come out as 255.
fn refusal(number: u64, place: usize) -> Refusal {
    Refusal {
        number: u8::try_from(number).unwrap_or(u8::MAX),
        place,
    }
}
