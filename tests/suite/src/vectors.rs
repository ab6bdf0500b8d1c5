//! The vectors beside the suite: every line of every file is a case, and a line that cannot be
//! read is a failure.

use crate::buffers::{book_length, ends_course, solve_filled};
use crate::buffers::{BOOK_LENGTH, LINE_LENGTH, PREVIEW_LENGTH, SHEET_LENGTH};
use crate::preview::{full, held, pairs};
use crate::report::{demand, equal, Outcome, Sums};
use crate::solver::Solver;
use reference::{Answer, Carried, Checked, Converted, Part, Shortened, Verdict};
use std::path::Path;

/// The fewest cases that a file has.
const FEWEST: usize = 20;

/// The files of books and of sheets to check.
pub const BOOKS: [&str; 7] = [
    "check_book.txt",
    "base_books.txt",
    "cheapest_books.txt",
    "preview/check_book.txt",
    "edition_2/check_book.txt",
    "edition_2/preview/check_book.txt",
    "shorten_book.txt",
];
pub const SHEETS: [&str; 2] = ["check_sheet.txt", "edition_2/check_sheet.txt"];

/// The fields of one line.
type Fields<'a> = [&'a str];

/// Runs all files of the edition: the preview those of its own folder, and the others' questions and
/// books, of which it says what the stored answer comes to.
pub fn run(solver: Solver, sums: &mut Sums) {
    match solver.is_in_2() {
        true => run_in_2(solver, sums),
        false => run_in_1(solver, sums),
    }
}

fn run_in_2(solver: Solver, sums: &mut Sums) {
    if solver.is_preview() {
        run_file(solver, "edition_2/preview/solve.txt", solve_case, sums);
        run_file(solver, "edition_2/preview/check_book.txt", book_case, sums);
        run_file(solver, "edition_2/solve.txt", large_case, sums);
        run_file(solver, "edition_2/check_book.txt", large_book_case, sums);
    } else {
        run_file(solver, "edition_2/solve.txt", solve_case, sums);
        run_file(solver, "edition_2/check_book.txt", book_case, sums);
        run_file(solver, "edition_2/check_sheet.txt", sheet_case, sums);
    }
}

/// The calls that name no edition; and any edition, by those that name one.
fn run_in_1(solver: Solver, sums: &mut Sums) {
    if solver.is_preview() {
        run_file(solver, "preview/editions.txt", editions_case, sums);
        run_file(solver, "preview/solve.txt", solve_case, sums);
        run_file(solver, "preview/check_book.txt", book_case, sums);
        run_file(solver, "preview/buffers.txt", buffers_case, sums);
        run_file(solver, "preview/hand_back.txt", hand_back_case, sums);
        run_file(solver, "solve.txt", large_case, sums);
        run_file(solver, "check_book.txt", large_book_case, sums);
        run_file(solver, "base_books.txt", large_book_case, sums);
        run_file(solver, "cheapest_books.txt", large_book_case, sums);
    } else {
        run_file(solver, "solve.txt", solve_case, sums);
        run_file(solver, "check_book.txt", book_case, sums);
        run_file(solver, "base_books.txt", book_case, sums);
        run_file(solver, "cheapest_books.txt", book_case, sums);
        run_file(solver, "check_sheet.txt", sheet_case, sums);
        run_file(solver, "buffers.txt", buffers_case, sums);
        run_file(solver, "editions.txt", editions_case, sums);
        run_file(solver, "hand_back.txt", hand_back_case, sums);
        run_file(solver, "convert.txt", convert_case, sums);
        run_file(solver, "carry_back.txt", carry_back_case, sums);
        run_file(solver, "shorten_book.txt", shorten_case, sums);
    }
}

/// The questions of all files that have one.
pub fn questions() -> Vec<Result<Vec<u8>, String>> {
    let second = [
        "solve.txt",
        "check_book.txt",
        "check_sheet.txt",
        "preview/solve.txt",
        "preview/check_book.txt",
        "edition_2/solve.txt",
    ];
    let second = second.into_iter().flat_map(|file| {
        let question = |line: String| bytes(line.split('|').nth(1).ok_or("malformed")?);
        lines(file).into_iter().map(question)
    });
    let padded = lines("buffers.txt").into_iter().map(|line| {
        let fields: Vec<&str> = line.split('|').collect();
        let (start, zeros) = match fields[..] {
            [start, zeros, ..] => (start, zeros),
            _ => return Err("malformed".into()),
        };
        padded(start, zeros)
    });
    second.chain(padded).collect()
}

/// The second and third field of a file's lines: a question, and a book or a sheet.
pub fn questions_with(file: &str) -> Vec<Result<(Vec<u8>, Vec<u8>), String>> {
    let parts = |line: String| {
        let fields: Vec<&str> = line.split('|').collect();
        let (question, part) = match fields[..] {
            [_, question, part, ..] => (question, part),
            _ => return Err("malformed".into()),
        };
        Ok((bytes(question)?, bytes(part)?))
    };
    lines(file).into_iter().map(parts).collect()
}

/// A file's lines: the first ones, which begin with #, say the fields; every other one is a case.
fn lines(file: &str) -> Vec<String> {
    let folder = Path::new(env!("CARGO_MANIFEST_DIR")).join("../vectors");
    let text = std::fs::read_to_string(folder.join(file)).unwrap_or_default();
    let is_header = |line: &&str| line.starts_with('#');
    let cases = text.lines().skip_while(is_header);
    cases.map(str::to_string).collect()
}

/// A question by its first bytes and the zeros after them.
fn padded(start: &str, zeros: &str) -> Result<Vec<u8>, String> {
    let mut question = bytes(start)?;
    question.resize(question.len() + number::<usize>(zeros)?, 0);
    Ok(question)
}

fn run_file(solver: Solver, file: &str, case: fn(Solver, &Fields) -> Outcome, sums: &mut Sums) {
    let mut group = solver.group(&format!("vectors of {file}"));
    let cases = lines(file);
    for (number, line) in cases.iter().enumerate() {
        let fields: Vec<&str> = line.split('|').collect();
        group.case(&format!("{} (case {number})", fields[0]), || {
            case(solver, &fields)
        });
    }
    let enough = cases.len() >= FEWEST;
    group.case(file, || demand(enough, "cases are missing"));
    group.finish(sums);
}

/// A case of solving, as it is stored.
struct Stored {
    question: Vec<u8>,
    answer: Answer,
    sheet: Vec<u8>,
    hash: u64,
}

/// name, question, answer, sheet after, hash of the book after.
fn stored(fields: &Fields) -> Result<Stored, String> {
    let (question, a, b, c, rest) = match fields {
        [_, question, a, b, c, rest @ ..] => (question, a, b, c, rest),
        _ => return Err("malformed".into()),
    };
    let (answer, rest) = answer(&[a, b, c], rest)?;
    let (sheet, hash) = match rest {
        [sheet, hash] => (sheet, hash),
        _ => return Err("malformed".into()),
    };
    Ok(Stored {
        question: bytes(question)?,
        answer,
        sheet: bytes(sheet)?,
        hash: u64::from_str_radix(hash, 16).map_err(|error| error.to_string())?,
    })
}

fn solve_case(solver: Solver, fields: &Fields) -> Outcome {
    let stored = stored(fields)?;
    let solved = solve_filled(solver, &stored.question);
    solved.expect(&stored.answer)?;
    solved.check_buffers()?;
    equal("sheet after", &stored.sheet.as_slice(), &solved.sheet())?;
    let book = &solved.book[..book_length(solver.limit)];
    equal("hash of the book", &stored.hash, &fnv1a(book))
}

/// The preview of a case with 1,024 lines: it is full if that holds more than 256, after pairs that are
/// not stored, and else the same, with a book that lacks the unused lines from there on.
fn large_case(solver: Solver, fields: &Fields) -> Outcome {
    let stored = stored(fields)?;
    let solved = solve_filled(solver, &stored.question);
    solved.check_buffers()?;
    if held(&stored.answer) > Some(256) {
        return solved.expect(&full(pairs(&solved.answer)));
    }
    solved.expect(&stored.answer)?;
    equal("sheet after", &stored.sheet.as_slice(), &solved.sheet())?;
    let mut book = solved.book[..BOOK_LENGTH].to_vec();
    if held(&stored.answer).is_some() {
        book[book_length(solver.limit)..].fill(0);
    }
    equal("hash of the book", &stored.hash, &fnv1a(&book))
}

/// name, question, book, what the check says.
fn stored_book(fields: &Fields) -> Result<(Vec<u8>, Vec<u8>, Checked), String> {
    match fields {
        [_, question, book, expected @ ..] => {
            Ok((bytes(question)?, bytes(book)?, checked(expected)?))
        }
        _ => Err("malformed".into()),
    }
}

fn book_case(solver: Solver, fields: &Fields) -> Outcome {
    let (question, book, expected) = stored_book(fields)?;
    equal("check", &expected, &solver.check_book(&question, &book))
}

/// The preview of a case with 1,024 lines: a book with more than 256 is refused, if the question is not.
fn large_book_case(solver: Solver, fields: &Fields) -> Outcome {
    let (question, book, stored) = stored_book(fields)?;
    let expected = match stored {
        Checked::Accepted | Checked::Fails(_) if book.len() > PREVIEW_LENGTH => Checked::Refused {
            number: 16,
            place: book.len(),
        },
        stored => stored,
    };
    equal("check", &expected, &solver.check_book(&question, &book))
}

/// name, question, sheet, what the check says.
fn sheet_case(solver: Solver, fields: &Fields) -> Outcome {
    let (question, sheet, expected) = match fields {
        [_, question, sheet, expected @ ..] => (question, sheet, expected),
        _ => return Err("malformed".into()),
    };
    let got = solver.check_sheet(&bytes(question)?, &bytes(sheet)?);
    equal("check", &checked(expected)?, &got)
}

/// question's start, zeros after it, book's length, sheet's length, answer; all zero before.
fn buffers_case(solver: Solver, fields: &Fields) -> Outcome {
    let (start, zeros, book, sheet, a, b, c, rest) = match fields {
        [start, zeros, book, sheet, a, b, c, rest @ ..] => {
            (start, zeros, book, sheet, a, b, c, rest)
        }
        _ => return Err("malformed".into()),
    };
    let answer = match answer(&[a, b, c], rest)? {
        (answer, []) => answer,
        _ => return Err("malformed".into()),
    };
    let question = padded(start, zeros)?;
    let mut book = vec![0; number(book)?];
    let mut sheet = vec![0; number(sheet)?];
    equal(
        "answer",
        &answer,
        &solver.solve(&question, &mut book, &mut sheet),
    )?;
    let altered = book.iter().chain(&sheet).any(|&byte| byte != 0);
    let faulty = matches!(answer, Answer::Refused { number, .. } if !ends_course(number));
    demand(!(faulty && altered), "a byte of the buffers altered")
}

/// edition, and the fields of a case of buffers.
fn editions_case(solver: Solver, fields: &Fields) -> Outcome {
    match fields {
        [edition, rest @ ..] => buffers_case(solver.naming(number(edition)?), rest),
        _ => Err("malformed".into()),
    }
}

/// answer, book's length, sheet's length, part of which buffer, its length.
fn hand_back_case(solver: Solver, fields: &Fields) -> Outcome {
    let (a, b, c, rest) = match fields {
        [a, b, c, rest @ ..] => (a, b, c, rest),
        _ => return Err("malformed".into()),
    };
    let (answer, rest) = answer(&[a, b, c], rest)?;
    let (book, sheet, buffer, length) = match rest {
        &[book, sheet, buffer, length] => (book, sheet, buffer, length),
        _ => return Err("malformed".into()),
    };
    let length: usize = number(length)?;
    let book = numbered(number(book)?);
    let sheet = numbered(number(sheet)?);
    let expected = match buffer {
        "book" => book.get(..length).map(Part::Book),
        "sheet" => sheet.get(..length).map(Part::Sheet),
        _ => None,
    };
    let expected = expected.ok_or("malformed")?;
    let part = solver.hand_back(&answer, &book, &sheet);
    equal("part", &expected, &part)
}

/// name, question, target's length, new question's length and bytes or a refusal; behind the result the
/// target is kept, after a refusal all of it.
fn convert_case(solver: Solver, fields: &Fields) -> Outcome {
    let (question, room, rest) = match fields {
        [_, question, room, rest @ ..] => (question, room, rest),
        _ => return Err("malformed".into()),
    };
    let mut target = numbered(number(room)?);
    let mut after = target.clone();
    let expected = match *rest {
        ["converted", length, new] => {
            let length = number(length)?;
            let result = after.get_mut(..length).ok_or("malformed")?;
            let new = bytes(new)?;
            equal("stored length", &length, &new.len())?;
            result.copy_from_slice(&new);
            Converted::Length(length)
        }
        ["refused", fault, place] => Converted::Refused {
            number: number(fault)?,
            place: number(place)?,
        },
        _ => return Err("malformed".into()),
    };
    let said = solver.convert(&bytes(question)?, &mut target);
    equal("converting", &expected, &said)?;
    demand(target == after, "another target")
}

/// name, old question, new question's sheet, target's length, the target's 64 bytes or a refusal; the
/// target's other bytes are kept, after a refusal all of them.
fn carry_back_case(solver: Solver, fields: &Fields) -> Outcome {
    let (question, sheet, room, rest) = match fields {
        [_, question, sheet, room, rest @ ..] => (question, sheet, room, rest),
        _ => return Err("malformed".into()),
    };
    let mut target = numbered(number(room)?);
    let mut after = target.clone();
    let expected = match *rest {
        ["carried", old] => {
            let result = after.get_mut(..SHEET_LENGTH).ok_or("malformed")?;
            let old = bytes(old)?;
            equal("stored length", &SHEET_LENGTH, &old.len())?;
            result.copy_from_slice(&old);
            Carried::Done
        }
        ["refused", fault, place] => Carried::Refused {
            number: number(fault)?,
            place: number(place)?,
        },
        _ => return Err("malformed".into()),
    };
    let said = solver.carry_back(&bytes(question)?, &bytes(sheet)?, &mut target);
    equal("carrying back", &expected, &said)?;
    demand(target == after, "another target")
}

/// name, question, book, edition, target's length, short book's lines and bytes or what the check says; the
/// target's other bytes are 0 to a full-size book's end and kept beyond, after any other answer all are.
fn shorten_case(solver: Solver, fields: &Fields) -> Outcome {
    let (question, book, edition, room, rest) = match fields {
        [_, question, book, edition, room, rest @ ..] => (question, book, edition, room, rest),
        _ => return Err("malformed".into()),
    };
    let mut target = numbered(number(room)?);
    let mut after = target.clone();
    let expected = match *rest {
        ["shortened", lines, short] => {
            let result = after.get_mut(..BOOK_LENGTH).ok_or("malformed")?;
            let (lines, short) = (number(lines)?, bytes(short)?);
            equal("stored length", &(lines * LINE_LENGTH), &short.len())?;
            result.fill(0);
            result[..short.len()].copy_from_slice(&short);
            Shortened::Lines(lines)
        }
        ["fails", line] => Shortened::Fails(number(line)?),
        ["refused", fault, place] => Shortened::Refused {
            number: number(fault)?,
            place: number(place)?,
        },
        _ => return Err("malformed".into()),
    };
    let solver = solver.naming(number(edition)?);
    let said = solver.shorten_book(&bytes(question)?, &bytes(book)?, &mut target);
    equal("shortening", &expected, &said)?;
    demand(target == after, "another target")
}

/// Bytes that differ from place to place.
fn numbered(length: usize) -> Vec<u8> {
    (0..length).map(|i| (i % 251) as u8).collect()
}

/// An answer of three fields, or of four if it is a refusal, and the fields after it.
fn answer<'a>(head: &[&str; 3], rest: &'a Fields<'a>) -> Result<(Answer, &'a Fields<'a>), String> {
    let &[word, second, third] = head;
    let verdict = match word {
        "agrees" => Verdict::Agrees,
        "cannot" => Verdict::Cannot,
        "unwritten" => Verdict::Unwritten,
        "refused" => {
            let (pairs, rest) = match rest {
                [pairs, rest @ ..] => (pairs, rest),
                _ => return Err("malformed".into()),
            };
            let refused = Answer::Refused {
                number: number(second)?,
                place: number(third)?,
                pairs: number(pairs)?,
            };
            return Ok((refused, rest));
        }
        _ => return Err(format!("unknown answer {word}")),
    };
    let answer = Answer::Verdict {
        verdict,
        lines: number(second)?,
        pairs: number(third)?,
    };
    Ok((answer, rest))
}

fn checked(fields: &Fields) -> Result<Checked, String> {
    match *fields {
        ["accepted"] => Ok(Checked::Accepted),
        ["fails", place] => Ok(Checked::Fails(number(place)?)),
        ["refused", fault, place] => Ok(Checked::Refused {
            number: number(fault)?,
            place: number(place)?,
        }),
        _ => Err("malformed".into()),
    }
}

fn number<T: std::str::FromStr>(text: &str) -> Result<T, String> {
    text.parse().map_err(|_| format!("no number: {text}"))
}

fn bytes(hex: &str) -> Result<Vec<u8>, String> {
    let digits: Option<Vec<u32>> = hex.chars().map(|digit| digit.to_digit(16)).collect();
    match digits {
        Some(digits) if digits.len() % 2 == 0 => Ok(digits
            .chunks_exact(2)
            .map(|pair| (16 * pair[0] + pair[1]) as u8)
            .collect()),
        _ => Err(format!("no bytes: {hex}")),
    }
}

fn fnv1a(bytes: &[u8]) -> u64 {
    bytes.iter().fold(0xcbf2_9ce4_8422_2325, |hash, &byte| {
        (hash ^ u64::from(byte)).wrapping_mul(0x0100_0000_01b3)
    })
}
