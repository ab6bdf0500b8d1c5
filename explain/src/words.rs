//! An answer in words.

use crate::needed::needed;
use explain::{reason, Calls};
use jemuling::{
    check_sheet_in, shorten_book_in, Answer, Checked, Part, Refusal, Shortened, Solved, Verdict,
    BOOK_BYTES, LINE_BYTES, SECOND_EDITION, SHEET_BYTES,
};
use notation::{
    decode, explain_book, explain_loading, explain_order, explain_sheet, show_clause, Edition,
    Failure, Names, Question,
};

/// How a question is solved, and what is shown of a book.
pub struct Wanted {
    pub calls: Calls,
    /// By its number, which may be that of none.
    pub edition: u64,
    /// All lines of a book, where otherwise its short book is shown.
    pub whole_book: bool,
}

/// A question that was solved in this edition.
struct Run<'a> {
    wanted: &'a Wanted,
    bytes: &'a [u8],
    question: &'a Question,
    edition: Edition,
    names: &'a Names,
}

/// Solves a question: which edition, if it is the second, its clauses, the answer, the order in which
/// the figures were taken, and the sheet or the book line by line, with what the check says of it. A
/// short book comes with how much of the book it keeps, anything else after a verdict with what was not
/// loaded. A number that is no edition and a question at fault are refused before the names are asked
/// for.
pub fn explain(
    wanted: &Wanted,
    bytes: &[u8],
    names: impl Fn(&Question) -> Result<Names, Failure>,
) -> Result<String, Failure> {
    let calls = &wanted.calls;
    let (mut book, mut sheet) = (vec![0; calls.book_bytes], vec![0; SHEET_BYTES]);
    let solved = (calls.solve)(wanted.edition, bytes, &mut book, &mut sheet);
    let said = answer(solved, calls.full);
    let refused = |refusal: Refusal| refusal.is_fault() || refusal.number == 19;
    if matches!(solved.answer, Answer::Refused(refusal) if refused(refusal)) {
        return Err(Failure::Said(said));
    }
    let edition = match wanted.edition {
        SECOND_EDITION => Edition::Second,
        _ => Edition::First,
    };
    let question = &decode(bytes).map_err(Failure::Said)?;
    let names = &names(question)?;
    let run = Run {
        wanted,
        bytes,
        question,
        edition,
        names,
    };
    let shown = run.shown(solved.answer, &book, &sheet);
    let shown = shown.map_err(Failure::Said)?;
    let clauses = clauses(question, edition, names);
    Ok(format!("{clauses}{said}\n{shown}"))
}

impl Run<'_> {
    /// What is said behind the answer; nothing after a refusal.
    fn shown(&self, answer: Answer, book: &[u8], sheet: &[u8]) -> Result<String, String> {
        let (verdict, used) = match answer {
            Answer::Verdict(verdict, lines) => (verdict, &book[..lines * LINE_BYTES]),
            Answer::Refused(_) => return Ok(String::new()),
        };
        let handed_back = (self.wanted.calls.hand_back)(answer, book, sheet);
        let evidence = match (verdict, handed_back) {
            (Verdict::Agrees, Part::Sheet(sheet)) => self.sheet(sheet)?,
            (Verdict::Cannot, Part::Book(book)) if self.wanted.whole_book => {
                self.book(book, "book")?
            }
            (Verdict::Cannot, Part::Book(book)) => self.short_book(book)?,
            _ => String::new(),
        };
        let order = explain_order(self.question, used, self.names);
        let not_loaded = match verdict {
            Verdict::Cannot if !self.wanted.whole_book => String::new(),
            _ => explain_loading(self.question, self.edition, used),
        };
        Ok(order + &not_loaded + &evidence)
    }

    fn sheet(&self, sheet: &[u8]) -> Result<String, String> {
        let lines = explain_sheet(self.question, sheet, self.names)?;
        let check = check_sheet_in(self.wanted.edition, self.bytes, sheet);
        Ok(lines + &checked(check, "sheet", "clause"))
    }

    fn book(&self, book: &[u8], what: &str) -> Result<String, String> {
        let lines = explain_book(self.question, book, None, self.names)?;
        let check = (self.wanted.calls.check_book)(self.wanted.edition, self.bytes, book);
        Ok(lines + &checked(check, what, "line"))
    }

    fn short_book(&self, book: &[u8]) -> Result<String, String> {
        let mut target = vec![0; BOOK_BYTES];
        let short = match shorten_book_in(self.wanted.edition, self.bytes, book, &mut target) {
            Shortened::Lines(lines) => &target[..lines * LINE_BYTES],
            Shortened::Fails(line) => return Err(format!("shortening fails at line {line}")),
            Shortened::Refused(Refusal { number, place }) => {
                return Err(format!("shortening is refused, {number} at {place}"))
            }
        };
        let what = if short == book { "book" } else { "short book" };
        let needed = needed(self.question, self.edition, book.len() / LINE_BYTES, short);
        Ok(needed + &self.book(short, what)?)
    }
}

/// The second edition, and the clauses of either by their names.
fn clauses(question: &Question, edition: Edition, names: &Names) -> String {
    let mut text = match edition {
        Edition::First => String::new(),
        Edition::Second => "edition 2: no figure is negative\n".to_string(),
    };
    for (number, clause) in question.clauses_in(edition).iter().enumerate() {
        let name = question.clause_name(number);
        let words = show_clause(clause, names).unwrap_or_else(|| "false".into());
        text += &format!("{name}: {words}\n");
    }
    text
}

fn answer(Solved { answer, pairs }: Solved, full: &'static str) -> String {
    match answer {
        Answer::Verdict(verdict, lines) => {
            let verdict = match verdict {
                Verdict::Agrees => "agrees",
                Verdict::Cannot => "cannot agree",
                Verdict::Unwritten => {
                    "unwritten: it can agree, but a bound or a share that was worked out, the common \
                     denominator, or a numerator over it is too large for the sheet"
                }
            };
            format!("{verdict} (lines of the book: {lines}, pairs tried: {pairs})")
        }
        Answer::Refused(Refusal { number, place }) => {
            let why = if number == 15 { full } else { reason(number) };
            match number {
                14 | 15 => format!("refused, {number} at {place}: {why} (pairs tried: {pairs})"),
                _ => format!("refused, {number} at {place}: {why}"),
            }
        }
    }
}

fn checked(checked: Checked, what: &str, part: &str) -> String {
    match checked {
        Checked::Accepted => format!("The check accepts the {what}.\n"),
        Checked::Fails(place) => {
            format!("The check finds that the {what} fails at {part} {place}.\n")
        }
        Checked::Refused(Refusal { number, place }) => {
            format!("The check refuses, {number} at {place}.\n")
        }
    }
}
