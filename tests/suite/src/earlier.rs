//! Earlier rules of the course, which the second solver can still be asked for: the figures in
//! rising order, as before 02's (vii), and equal lines alone dropped, as before (viii). No question
//! is decided otherwise by them, and the proved checks accept their books and sheets. Books that
//! the code of either made are among the vectors; most are not ours.

use crate::buffers::{satisfiable, solve_filled, BOOK_LENGTH, SHEET_LENGTH};
use crate::report::{demand, equal, Group, Sums};
use crate::solver::{Solver, BOTH};
use crate::solving::{check_part, question};
use crate::vectors;
use questions::random::Random;
use questions::rows;
use reference::{Dropping, Order, Rules};

const SEED: u64 = 9;
const CASES: usize = 20_000;

/// How often another book, another sheet, a verdict now alone and a verdict then alone came.
type Tally = [usize; 4];

/// Rules of the course, the file of the books that they gave, and how often each of the tally's
/// must come at least.
struct Earlier {
    name: &'static str,
    rules: Rules,
    books: &'static str,
    least: Tally,
}

const BEFORE: [Earlier; 2] = [
    Earlier {
        name: "by the rules of version 1.0",
        rules: Rules {
            order: Order::Rising,
            dropping: Dropping::Equal,
        },
        books: "base_books.txt",
        least: [5_000, 500, 100, 5],
    },
    Earlier {
        name: "by the rules before (viii)",
        rules: Rules {
            order: Order::Cheapest,
            dropping: Dropping::Equal,
        },
        books: "cheapest_books.txt",
        least: [5_000, 50, 10, 1],
    },
];
/// The fewest stored books.
const FEWEST: usize = 30;

pub fn run(sums: &mut Sums) {
    for earlier in BEFORE {
        run_random(&earlier, sums);
        for solver in BOTH {
            run_stored(solver, &earlier, sums);
        }
    }
}

/// Random questions of all kinds, and as many of few rows.
fn run_random(earlier: &Earlier, sums: &mut Sums) {
    let mut group = Group::new(format!("solving: {}", earlier.name));
    let mut random = Random::new(SEED);
    let mut tally = Tally::default();
    for number in 0..CASES {
        let question = match number % 2 {
            0 => question(&mut random),
            _ => random.stated(rows::problem).encode(),
        };
        group.case(&format!("number {number}"), || {
            for (count, came) in tally.iter_mut().zip(compare(earlier.rules, &question)?) {
                *count += usize::from(came);
            }
            Ok(())
        });
    }
    group.case("each comes often", || {
        let mut often = tally.iter().zip(earlier.least);
        let often = often.all(|(&count, least)| count >= least);
        demand(often, &format!("they came {tally:?} times"))
    });
    group.finish(sums);
}

/// Solves by both rules, and tells which of the tally's came.
fn compare(rules: Rules, question: &[u8]) -> Result<[bool; 4], String> {
    let (mut our_book, mut our_sheet) = ([0; BOOK_LENGTH], [0; SHEET_LENGTH]);
    let (mut book, mut sheet) = ([0; BOOK_LENGTH], [0; SHEET_LENGTH]);
    let now = proved::solve(question, &mut our_book, &mut our_sheet);
    let then = reference::solve_under(rules, question, &mut book, &mut sheet);
    let part = reference::hand_back(&then, &book, &sheet);
    check_part(Solver::PROVED, question, &then, part)?;
    let (now, then) = (satisfiable(&now), satisfiable(&then));
    let both = now.is_some() && then.is_some();
    if both {
        equal("satisfiable", &then, &now)?;
    }
    Ok([
        both && book != our_book,
        both && sheet != our_sheet,
        now.is_some() && !both,
        then.is_some() && !both,
    ])
}

/// Where the code of these rules wrote a book, the verdict is the same, and most books are others.
fn run_stored(solver: Solver, earlier: &Earlier, sums: &mut Sums) {
    let mut group = solver.group(&format!("solving: questions of {}", earlier.books));
    let stored = vectors::questions_with(earlier.books);
    let mut others = 0;
    for (number, case) in stored.iter().enumerate() {
        group.case(&format!("number {number}"), || {
            let (question, book) = case.as_ref()?;
            let solved = solve_filled(solver, question);
            equal("satisfiable", &Some(false), &satisfiable(&solved.answer))?;
            others += usize::from(solved.used() != book);
            Ok(())
        });
    }
    group.case("most are others", || {
        let most = stored.len() >= FEWEST && 4 * others > 3 * stored.len();
        demand(most, &format!("{others} of {} differ", stored.len()))
    });
    group.finish(sums);
}
