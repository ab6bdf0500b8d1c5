//! What the program prints for a question: 01's "The program solves standard input", below the
//! examples.

use crate::elimination::{Limit, STEP_LENGTH};
use crate::model::MODEL_LENGTH;
use crate::{hand_back, solve, Answer, Part, Verdict};
use std::fmt::Write;

/// The whole output, every line ended.
pub fn print(question: &[u8]) -> String {
    let mut book = vec![0; Limit::STANDARD.proof_length()];
    let mut sheet = [0; MODEL_LENGTH];
    let answer = solve(question, &mut book, &mut sheet);
    let mut output = headline(&answer);
    match hand_back(&answer, &book, &sheet) {
        Part::Sheet(sheet) => print_sheet(&mut output, sheet),
        Part::Book([]) => {}
        Part::Book(lines) => print_book(&mut output, lines),
    }
    output
}

fn headline(answer: &Answer) -> String {
    match *answer {
        Answer::Verdict {
            verdict,
            lines,
            pairs,
        } => {
            let word = match verdict {
                Verdict::Agrees => "agrees",
                Verdict::Cannot => "cannot",
                Verdict::Unwritten => "unwritten",
            };
            format!("{word} {lines} {pairs}\n")
        }
        Answer::Refused {
            number,
            place,
            pairs,
        } => format!("refused {number} {place} {pairs}\n"),
    }
}

/// The count of lines, then how, which, first and second of each.
fn print_book(output: &mut String, lines: &[u8]) {
    append(output, format_args!("lines {}", lines.len() / STEP_LENGTH));
    for line in lines.chunks_exact(STEP_LENGTH) {
        let first = u16::from_le_bytes([line[2], line[3]]);
        let second = u16::from_le_bytes([line[4], line[5]]);
        append(
            output,
            format_args!("{} {} {first} {second}", line[0], line[1]),
        );
    }
}

/// The marks, an open one as 2, then each figure's numerator and the sheet's denominator.
fn print_sheet(output: &mut String, sheet: &[u8]) {
    let booleans = usize::from(sheet[0]);
    let rationals = usize::from(sheet[1 + booleans]);
    append(output, format_args!("marks {booleans}"));
    for mark in &sheet[1..1 + booleans] {
        append(output, format_args!("{mark}"));
    }
    let amounts: Vec<i32> = sheet[2 + booleans..]
        .chunks_exact(4)
        .map(|field| i32::from_le_bytes(std::array::from_fn(|i| field[i])))
        .collect();
    append(output, format_args!("figures {rationals}"));
    for numerator in &amounts[1..1 + rationals] {
        append(output, format_args!("{numerator} {}", amounts[0]));
    }
}

fn append(output: &mut String, line: std::fmt::Arguments) {
    writeln!(output, "{line}").expect("a string takes every write");
}
