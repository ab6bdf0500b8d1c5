//! Writing the short book of one that the check accepts: 02's (xi), "Short books for the treasurer".

use crate::checker::{check_book_in, Checked};
use crate::editions::Edition;
use crate::elimination::{Limit, STEP_LENGTH};
use std::collections::BTreeSet;

/// What shortening answers: the short book's line count, what the check says of a book that it does not
/// accept, or a refusal.
#[derive(Clone, Copy, Debug, PartialEq, Eq)]
pub enum Shortened {
    Lines(usize),
    Fails(usize),
    Refused { number: u8, place: usize },
}

/// Writes the last line of a book and only the lines from which it descends, in order, at the target's
/// start, and zeros behind them up to a full-size book's end. 19 is tested first, then 1, then all that
/// the check of a book in this edition tests.
pub fn shorten_book_in(edition: u64, question: &[u8], book: &[u8], target: &mut [u8]) -> Shortened {
    let limit = Limit::STANDARD;
    if let Err(fault) = Edition::named(edition) {
        return Shortened::Refused {
            number: fault.number,
            place: fault.place,
        };
    }
    let target = match target.get_mut(..limit.proof_length()) {
        Some(target) => target,
        None => {
            return Shortened::Refused {
                number: 1,
                place: 0,
            }
        }
    };
    match check_book_in(edition, limit, question, book) {
        Checked::Accepted => (),
        Checked::Fails(line) => return Shortened::Fails(line),
        Checked::Refused { number, place } => return Shortened::Refused { number, place },
    }
    let lines: Vec<&[u8]> = book.chunks_exact(STEP_LENGTH).collect();
    let mut kept = BTreeSet::new();
    keep(&lines, lines.len() - 1, &mut kept);
    let short: Vec<u8> = kept
        .iter()
        .flat_map(|&number| renumbered(lines[number], &kept))
        .collect();
    target.fill(0);
    target[..short.len()].copy_from_slice(&short);
    Shortened::Lines(kept.len())
}

/// The parents of a result; a loaded line has none, whatever its clause and piece.
fn parents(line: &[u8]) -> Option<[u16; 2]> {
    let field = |place: usize| u16::from_le_bytes([line[place], line[place + 1]]);
    (line[0] != 0).then(|| [field(2), field(4)])
}

/// Keeps a line and all those from which it descends.
fn keep(lines: &[&[u8]], number: usize, kept: &mut BTreeSet<usize>) {
    if kept.insert(number) {
        for parent in parents(lines[number]).into_iter().flatten() {
            keep(lines, usize::from(parent), kept);
        }
    }
}

/// The line with the numbers that its parents have among the kept ones.
fn renumbered(line: &[u8], kept: &BTreeSet<usize>) -> Vec<u8> {
    let mut line = line.to_vec();
    if let Some(parents) = parents(&line) {
        for (place, parent) in [2, 4].into_iter().zip(parents) {
            let number = kept.range(..usize::from(parent)).count() as u16;
            line[place..place + 2].copy_from_slice(&number.to_le_bytes());
        }
    }
    line
}
