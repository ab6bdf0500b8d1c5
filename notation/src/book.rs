//! A book in words, of either edition: what each line claims. Whether it follows is for the check to
//! say.

use crate::names::Names;
use crate::question::{Clause, Condition, Edition, Literal, Question, Relation, FIGURES};
use crate::reading::{Half, Reading};
use crate::show::show_clause;

/// The bytes of a line.
pub const LINE: usize = 64;

/// The first lines of a book, all whole ones if no count is given.
pub fn explain_book(
    question: &Question,
    book: &[u8],
    lines: Option<usize>,
    names: &Names,
) -> Result<String, String> {
    let whole = book.len() / LINE;
    let lines = lines.unwrap_or(whole);
    if lines > whole {
        return Err(format!("expected {lines} whole lines, found {whole}"));
    }
    let clauses = question.clauses_in(Edition::Second);
    let mut text = String::new();
    for (number, bytes) in book.chunks_exact(LINE).take(lines).enumerate() {
        let words = explain_line(question, &clauses, bytes, names)
            .map_err(|message| format!("line {number}: {message}"))?;
        text += &format!("line {number}: {words}\n");
    }
    Ok(text)
}

/// The clauses are those of the second edition, which has those of the first.
fn explain_line(
    question: &Question,
    clauses: &[Clause],
    bytes: &[u8],
    names: &Names,
) -> Result<String, String> {
    let origin = origin(question, clauses, bytes, names)?;
    let clause = stated(question, bytes)?;
    let stated = show_clause(&clause, names);
    let stated = stated.unwrap_or_else(|| "nothing: a contradiction".into());
    Ok(format!("{origin}: {stated}"))
}

/// Where a line comes from.
fn origin(
    question: &Question,
    clauses: &[Clause],
    bytes: &[u8],
    names: &Names,
) -> Result<String, String> {
    let which = usize::from(bytes[1]);
    let (first, second) = (half(bytes, 2), half(bytes, 4));
    match bytes[0] {
        0 => match clauses.get(first) {
            Some(clause) => Ok(named(question.clause_name(first), clause, second)),
            None => Err(format!("expected a clause below {}", clauses.len())),
        },
        1 => match names.figures.get(which) {
            Some(name) => Ok(format!("figure {name} from lines {first} and {second}")),
            None => Err(format!("expected a figure below {}", question.figures)),
        },
        2 if which < 32 => {
            let kind = if which < question.marks { "mark " } else { "" };
            let name = names.mark(which);
            Ok(format!("{kind}{name} from lines {first} and {second}"))
        }
        2 => Err("expected a mark below 32".into()),
        how => Err(format!("expected how, 0 to 2, found {how}")),
    }
}

/// A clause by its name, with its piece where it has several, and the half of its `=` that the piece
/// is of.
pub fn named(mut name: String, clause: &Clause, piece: usize) -> String {
    let of_pieces = |reading: Reading| vec![reading.half; reading.pieces()];
    let halves: Vec<_> = clause.readings().into_iter().flat_map(of_pieces).collect();
    if halves.len() > 1 || piece > 0 {
        name += &format!(", piece {piece}");
    }
    name + of_half(halves.get(piece).copied().flatten())
}

/// What an `=` is read as.
pub fn of_half(half: Option<Half>) -> &'static str {
    match half {
        None => "",
        Some(Half::AtMost) => " (= as <=)",
        Some(Half::AtLeast) => " (= as >=)",
    }
}

/// What a line states, as a clause.
fn stated(question: &Question, bytes: &[u8]) -> Result<Clause, String> {
    let (positive, negative) = (word(bytes, 8) as u32, word(bytes, 12) as u32);
    let literal = |mark, negated| Literal { mark, negated };
    let literals = (0..32).flat_map(|mark| {
        let bit = 1 << mark;
        let yes = (positive & bit != 0).then(|| literal(mark, false));
        let no = (negative & bit != 0).then(|| literal(mark, true));
        yes.into_iter().chain(no)
    });
    Ok(Clause {
        literals: literals.collect(),
        conditions: condition(question, bytes)?.into_iter().collect(),
    })
}

/// A line's condition, if it has one.
fn condition(question: &Question, bytes: &[u8]) -> Result<Option<Condition>, String> {
    let amounts: Vec<i32> = (0..=FIGURES).map(|i| word(bytes, 16 + 4 * i)).collect();
    if bytes[6] == 0 {
        return match amounts.iter().all(|&amount| amount == 0) {
            true => Ok(None),
            false => Err("expected amounts of 0 without a relation".into()),
        };
    }
    let relation = match bytes[6] {
        1 => Relation::AtMost,
        2 => Relation::Below,
        _ => return Err("expected a relation, 0 to 2".into()),
    };
    let (coefficients, rest) = amounts[..FIGURES].split_at(question.figures);
    if rest.iter().any(|&amount| amount != 0) {
        let message = format!(
            "expected coefficients of 0 from figure {} on",
            question.figures
        );
        return Err(message);
    }
    Ok(Some(Condition {
        relation,
        coefficients: coefficients.to_vec(),
        bound: amounts[FIGURES],
    }))
}

pub fn half(bytes: &[u8], at: usize) -> usize {
    usize::from(u16::from_le_bytes([bytes[at], bytes[at + 1]]))
}

/// Four bytes as a signed number.
pub fn word(bytes: &[u8], at: usize) -> i32 {
    i32::from_le_bytes([bytes[at], bytes[at + 1], bytes[at + 2], bytes[at + 3]])
}
