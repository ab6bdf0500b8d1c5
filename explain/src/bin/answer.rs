//! Solves standard input, `answer [--preview] [--edition N]`, and prints as the program
//! `jemuling_solve` does: the answer with its numbers, then the marks and figures, or where each line
//! of the book comes from.

use explain::{options, Calls};
use jemuling::{Answer, Part, Refusal, Solved, Verdict};
use jemuling::{LINE_BYTES, QUESTION_BYTES, SHEET_BYTES};
use std::io::{self, Read, Write};
use std::process::ExitCode;

/// One byte more than a question may have is enough to tell that it is too long.
const ENOUGH: u64 = QUESTION_BYTES as u64 + 1;

fn main() -> ExitCode {
    let arguments: Vec<String> = std::env::args().skip(1).collect();
    let words: Vec<&str> = arguments.iter().map(String::as_str).collect();
    let (calls, edition) = match options(&words) {
        Some((calls, edition, [])) => (calls, edition),
        _ => return fail(2, "usage: answer [--preview] [--edition N]"),
    };
    match run(&calls, edition) {
        Ok(()) => ExitCode::SUCCESS,
        Err(error) => fail(1, &error.to_string()),
    }
}

fn fail(status: u8, message: &str) -> ExitCode {
    eprintln!("{message}");
    ExitCode::from(status)
}

fn run(calls: &Calls, edition: u64) -> io::Result<()> {
    let mut question = Vec::new();
    io::stdin().take(ENOUGH).read_to_end(&mut question)?;
    let mut output = io::stdout().lock();
    output.write_all(printed(calls, edition, &question).as_bytes())?;
    output.flush()
}

/// All that is printed, every line ended.
fn printed(calls: &Calls, edition: u64, question: &[u8]) -> String {
    let (mut book, mut sheet) = (vec![0; calls.book_bytes], [0; SHEET_BYTES]);
    let solved = (calls.solve)(edition, question, &mut book, &mut sheet);
    let mut lines = vec![answer(solved)];
    match (calls.hand_back)(solved.answer, &book, &sheet) {
        Part::Sheet(sheet) => lines.extend(shares(sheet)),
        Part::Book([]) => {}
        Part::Book(book) => lines.extend(origins(book)),
    }
    lines.iter().map(|line| format!("{line}\n")).collect()
}

/// A verdict with its lines and pairs, or a refusal with its number, place and pairs.
fn answer(Solved { answer, pairs }: Solved) -> String {
    match answer {
        Answer::Verdict(Verdict::Agrees, lines) => format!("agrees {lines} {pairs}"),
        Answer::Verdict(Verdict::Cannot, lines) => format!("cannot {lines} {pairs}"),
        Answer::Verdict(Verdict::Unwritten, lines) => format!("unwritten {lines} {pairs}"),
        Answer::Refused(Refusal { number, place }) => format!("refused {number} {place} {pairs}"),
    }
}

/// The count of marks and the byte of each, 2 if it is open, the count of figures and of each its
/// numerator and the sheet's denominator.
fn shares(sheet: &[u8]) -> Vec<String> {
    let (marks, rest) = sheet[1..].split_at(usize::from(sheet[0]));
    let figures = usize::from(rest[0]);
    let amounts: Vec<i32> = rest[1..].chunks_exact(4).map(amount).collect();
    let mut lines = vec![format!("marks {}", marks.len())];
    lines.extend(marks.iter().map(u8::to_string));
    lines.push(format!("figures {figures}"));
    let numerators = amounts[1..].iter().take(figures);
    lines.extend(numerators.map(|numerator| format!("{numerator} {}", amounts[0])));
    lines
}

fn amount(bytes: &[u8]) -> i32 {
    i32::from_le_bytes([bytes[0], bytes[1], bytes[2], bytes[3]])
}

/// The count of lines, then of each how it came, by which figure or mark, and its two parents.
fn origins(book: &[u8]) -> Vec<String> {
    let mut lines = vec![format!("lines {}", book.len() / LINE_BYTES)];
    lines.extend(book.chunks_exact(LINE_BYTES).map(|line| {
        let parent = |at: usize| u16::from_le_bytes([line[at], line[at + 1]]);
        format!("{} {} {} {}", line[0], line[1], parent(2), parent(4))
    }));
    lines
}
