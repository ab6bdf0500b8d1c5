//! The checks: the proved code and the second solver accept the same books and sheets, and name
//! the same first line, clause or place where they do not; and so does the preview, of a book that is
//! not too long for it. Each is put to both in both editions.

use crate::buffers::{solve_filled, BOOK_LENGTH, LINE_LENGTH, PREVIEW_LENGTH, SHEET_LENGTH};
use crate::edition_laws::{books_in_both, sheets_in_both};
use crate::report::{demand, equal, Group, Sums};
use crate::solver::BOTH_IN_2;
use crate::vectors;
use questions::editions;
use questions::random::Random;
use reference::{Answer, Checked, Verdict};

const SEED: u64 = 6;
const BOOKS: usize = 100_000;
const SHEETS: usize = 100_000;
const FLIPPED: usize = 20;
/// The books to turn come among the first so many cases.
const TRIED: usize = 10_000;
const FLIPPED_LINES: usize = 24;

pub fn run(sums: &mut Sums) {
    let mut random = Random::new(SEED);
    check_vectors(sums);
    check_flipped(&mut random, sums);
    check_books(&mut random, sums);
    check_sheets(&mut random, sums);
    check_lengths(sums);
}

/// Compares a book or a sheet, and tells what is said of it in each edition.
type Compare = fn(&[u8], &[u8]) -> Result<[Checked; 2], String>;

/// The stored ones of either edition. Accepted, and told apart by the editions, must come of each.
fn check_vectors(sums: &mut Sums) {
    let mut group = Group::new("checks: the vectors' books and sheets");
    let parts: [(&[&str], Compare); 2] = [
        (&vectors::BOOKS, books_in_both),
        (&vectors::SHEETS, sheets_in_both),
    ];
    for (files, compare) in parts {
        let (mut accepted, mut apart) = (0, 0);
        for file in files {
            let parts = vectors::questions_with(file);
            for (number, part) in parts.iter().enumerate() {
                group.case(&format!("{file} {number}"), || {
                    let (question, part) = part.as_ref()?;
                    let [in_1, in_2] = compare(question, part)?;
                    accepted += usize::from([in_1, in_2] == [Checked::Accepted; 2]);
                    apart += usize::from(in_1 != in_2);
                    Ok(())
                });
            }
            group.case(file, || demand(!parts.is_empty(), "no case could be read"));
        }
        group.case("each comes", || {
            let often = accepted >= 10 && apart >= 10;
            let counts = format!("accepted {accepted}, told apart {apart}");
            demand(often, &format!("of {files:?}: {counts}"))
        });
    }
    group.finish(sums);
}

/// A question with what solving it left, and whether there is something to check.
pub struct Case {
    pub question: Vec<u8>,
    pub book: Vec<u8>,
    sheet: Vec<u8>,
    verdict: Option<Verdict>,
}

/// One in three is solved in edition 2.
pub fn case(random: &mut Random) -> Case {
    let in_2 = random.once_in(3);
    let problem = match in_2 {
        true => editions::problem(random),
        false => random.stated(|random| match random.once_in(10) {
            true => random.dense_problem(6),
            false => random.problem(),
        }),
    };
    let question = random.doubled(100, problem).encode();
    let solved = solve_filled(BOTH_IN_2[0].naming(1 + u64::from(in_2)), &question);
    let verdict = match solved.answer {
        Answer::Verdict { verdict, .. } => Some(verdict),
        Answer::Refused { .. } => None,
    };
    Case {
        book: solved.used().to_vec(),
        sheet: solved.sheet().to_vec(),
        question,
        verdict,
    }
}

/// Every bit of right books turned.
fn check_flipped(random: &mut Random, sums: &mut Sums) {
    let mut group = Group::new("checks: every bit of a right book turned");
    let cases = std::iter::repeat_with(|| case(random)).take(TRIED);
    let right = cases.filter(|case| {
        let lines = case.book.len() / LINE_LENGTH;
        case.verdict == Some(Verdict::Cannot) && (3..=FLIPPED_LINES).contains(&lines)
    });
    let right: Vec<Case> = right.take(FLIPPED).collect();
    group.case("enough books", || equal("books", &FLIPPED, &right.len()));
    let mut apart = 0;
    for (number, case) in right.iter().enumerate() {
        group.case(&format!("number {number}"), || {
            let [in_1, accepted] = books_in_both(&case.question, &case.book)?;
            equal("check in edition 2", &Checked::Accepted, &accepted)?;
            apart += usize::from(in_1 != accepted);
            let mut book = case.book.clone();
            for bit in 0..8 * book.len() {
                book[bit / 8] ^= 1 << (bit % 8);
                books_in_both(&case.question, &book)?;
                book[bit / 8] ^= 1 << (bit % 8);
            }
            Ok(())
        });
    }
    group.case("of either edition", || {
        let some = (2..=FLIPPED - 2).contains(&apart);
        demand(some, &format!("{apart} are accepted in edition 2 alone"))
    });
    group.finish(sums);
}

/// Right books, and right ones damaged. Each answer must come.
fn check_books(random: &mut Random, sums: &mut Sums) {
    let mut group = Group::new("checks: right and damaged books");
    let mut other = case(random);
    let mut tally = Tally::default();
    for number in 0..BOOKS {
        let case = case(random);
        let mut book = case.book.clone();
        damage_book(random, &mut book, &other.book);
        let question = match random.once_in(30) {
            true => &other.question,
            false => &case.question,
        };
        group.case(&format!("number {number}"), || {
            tally.add(books_in_both(question, &book)?);
            Ok(())
        });
        other = case;
    }
    tally.demand_all(&mut group);
    group.finish(sums);
}

/// A byte or more changed, parents swapped, lines moved, repeated or taken from another book, the
/// end cut, a loaded line's piece or signs changed; or nothing.
pub fn damage_book(random: &mut Random, book: &mut Vec<u8>, other: &[u8]) {
    let lines = book.len() / LINE_LENGTH;
    let line = |random: &mut Random, lines: usize| random.between(0, lines as i64 - 1) as usize;
    if lines == 0 {
        book.extend(other);
        return;
    }
    match random.between(0, 11) {
        0 | 1 => (),
        2 | 3 => {
            for _ in 0..random.between(1, 3) {
                let place = random.between(0, book.len() as i64 - 1) as usize;
                book[place] = match random.once_in(2) {
                    true => random.word() as u8,
                    false => random.between(0, 3) as u8,
                };
            }
        }
        4 => {
            let at = line(random, lines) * LINE_LENGTH;
            let (first, second) = ([book[at + 2], book[at + 3]], [book[at + 4], book[at + 5]]);
            book[at + 2..at + 4].copy_from_slice(&second);
            book[at + 4..at + 6].copy_from_slice(&first);
        }
        5 => {
            let (i, j) = (line(random, lines), line(random, lines));
            for k in 0..LINE_LENGTH {
                book.swap(i * LINE_LENGTH + k, j * LINE_LENGTH + k);
            }
        }
        6 => {
            let at = line(random, lines) * LINE_LENGTH;
            let repeated = book[at..at + LINE_LENGTH].to_vec();
            let place = line(random, lines + 1) * LINE_LENGTH;
            book.splice(place..place, repeated);
        }
        7 if other.len() >= LINE_LENGTH => {
            let from = line(random, other.len() / LINE_LENGTH) * LINE_LENGTH;
            let at = line(random, lines) * LINE_LENGTH;
            book[at..at + LINE_LENGTH].copy_from_slice(&other[from..from + LINE_LENGTH]);
        }
        8 => book.truncate(line(random, lines) * LINE_LENGTH),
        9 | 10 => {
            let loaded: Vec<usize> = (0..lines).filter(|i| book[i * LINE_LENGTH] == 0).collect();
            if !loaded.is_empty() {
                let at = loaded[line(random, loaded.len())] * LINE_LENGTH;
                other_piece(random, &mut book[at..at + LINE_LENGTH]);
            }
        }
        _ => {
            let at = line(random, lines) * LINE_LENGTH;
            let named = [random.between(0, 3), random.between(0, 9)];
            book[at] = named[0] as u8;
            book[at + 1] = named[1] as u8;
            book[at + 2] = line(random, lines) as u8;
            book[at + 4] = line(random, lines) as u8;
        }
    }
    if random.once_in(40) {
        book.push(0);
    }
}

/// A loaded line as another piece of its clause or of the next, or with the relation of a condition
/// as written, or with its signs turned.
fn other_piece(random: &mut Random, line: &mut [u8]) {
    match random.between(0, 3) {
        0 => line[4] = random.between(0, 3) as u8,
        1 => (line[2], line[4]) = (line[2].wrapping_add(1), 0),
        2 => line[6] = random.between(0, 4) as u8,
        _ => {
            for place in (16..52).step_by(4) {
                let amount = i32::from_le_bytes(std::array::from_fn(|i| line[place + i]));
                line[place..place + 4].copy_from_slice(&amount.wrapping_neg().to_le_bytes());
            }
        }
    }
}

/// Right sheets, right ones damaged, and sheets of another question. Each answer must come.
fn check_sheets(random: &mut Random, sums: &mut Sums) {
    let mut group = Group::new("checks: right and damaged sheets");
    let mut other = case(random);
    let mut tally = Tally::default();
    for number in 0..SHEETS {
        let case = case(random);
        let mut sheet = case.sheet.clone();
        damage_sheet(random, &mut sheet, &other.sheet);
        group.case(&format!("number {number}"), || {
            tally.add(sheets_in_both(&case.question, &sheet)?);
            Ok(())
        });
        other = case;
    }
    tally.demand_all(&mut group);
    group.finish(sums);
}

/// Another question's sheet, another length, an amount more or less by 1, or a byte or more changed; or
/// nothing.
fn damage_sheet(random: &mut Random, sheet: &mut Vec<u8>, other: &[u8]) {
    match random.between(0, 7) {
        0 | 1 => (),
        2 => sheet.copy_from_slice(other),
        3 if random.once_in(4) => sheet.truncate(random.between(0, 63) as usize),
        3 => sheet.extend((0..random.between(1, 9)).map(|_| 0xab)),
        4 | 5 => {
            let denominator = 2 + usize::from(sheet[0]);
            let place = denominator + 4 * random.between(0, 3) as usize;
            let change = [1, u8::MAX][random.between(0, 1) as usize];
            // A refused question has left the fill, whose count is beyond the sheet.
            if let Some(byte) = sheet.get_mut(place) {
                *byte = byte.wrapping_add(change);
            }
        }
        _ => {
            for _ in 0..random.between(1, 3) {
                let place = random.between(0, 20) as usize;
                sheet[place] = match random.once_in(3) {
                    true => random.word() as u8,
                    false => random.between(0, 2) as u8,
                };
            }
        }
    }
}

/// How often each answer came in edition 1: accepted, fails, refused; and in edition 2 another one.
#[derive(Default)]
struct Tally([usize; 4]);

impl Tally {
    fn add(&mut self, [in_1, in_2]: [Checked; 2]) {
        let answer = match in_1 {
            Checked::Accepted => 0,
            Checked::Fails(_) => 1,
            Checked::Refused { .. } => 2,
        };
        self.0[answer] += 1;
        self.0[3] += usize::from(in_1 != in_2);
    }

    fn demand_all(&self, group: &mut Group) {
        group.case("each answer comes often", || {
            let often = self.0.iter().all(|&count| count >= 500);
            demand(often, &format!("answers came {:?} times", self.0))
        });
    }
}

/// Zeros of every length about those that a book and a sheet may have.
fn check_lengths(sums: &mut Sums) {
    let mut group = Group::new("checks: lengths");
    let question = questions::problem::Problem::new(0, 0).clause([]).encode();
    for length in [
        0,
        1,
        63,
        64,
        65,
        128,
        PREVIEW_LENGTH - 64,
        PREVIEW_LENGTH - 1,
        PREVIEW_LENGTH,
        BOOK_LENGTH - 64,
        BOOK_LENGTH - 1,
        BOOK_LENGTH,
    ] {
        for length in [length, length + 1, length + LINE_LENGTH] {
            group.case(&format!("book of {length} bytes"), || {
                books_in_both(&question, &vec![0; length]).map(|_| ())
            });
        }
    }
    for length in [0, 1, 63, SHEET_LENGTH, SHEET_LENGTH + 1, 1_000] {
        group.case(&format!("sheet of {length} bytes"), || {
            let mut sheet = vec![0; length];
            if let Some(denominator) = sheet.get_mut(2) {
                *denominator = 1;
            }
            sheets_in_both(&question, &sheet).map(|_| ())
        });
    }
    group.finish(sums);
}
