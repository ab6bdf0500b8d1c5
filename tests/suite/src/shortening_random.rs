//! 02's (xi) on random books: those that solving writes, with lines more, damaged, and arbitrary bytes.
//! Both implementations say and leave the same, and the laws between a book and its short one hold. Every
//! group demands that its cases came.

use crate::arbitrary;
use crate::buffers::{solve_filled, Solved, BOOK_LENGTH, LINE_LENGTH};
use crate::checks::{case, damage_book};
use crate::damage::for_each_change;
use crate::lines::{read, write, Line};
use crate::report::{demand, Group, Outcome, Sums};
use crate::shortening::{EDITIONS, ROOMS};
use crate::shortening_books::lengthened;
use crate::shortening_laws::{descends, shortened, Targets};
use crate::solver::naming;
use crate::vectors;
use questions::editions;
use questions::problem::Problem;
use questions::random::Random;
use questions::rows;
use reference::{Answer, Limit, Shortened, Verdict};

const SEED: u64 = 17;
const BOOKS: usize = 4_000;
/// The books come among the first so many questions.
const TRIED: usize = 60_000;
/// The most lines of a book to which more are added, and how many are.
const MAX_LINES: usize = 24;
const MORE: i64 = 10;
const MOST_MORE: i64 = 60;
const DAMAGED: usize = 24;
const ARBITRARY: usize = 20_000;

pub fn run(sums: &mut Sums) {
    run_vectors(sums);
    run_random(sums);
    run_damaged(sums);
    run_arbitrary(sums);
}

/// The vectors' books, in both editions.
fn run_vectors(sums: &mut Sums) {
    let mut group = Group::new("shortening: the vectors' books");
    let mut targets = Targets::new(BOOK_LENGTH + 16, 0x5a);
    let mut came = [0; 3];
    for file in vectors::BOOKS {
        for (number, part) in vectors::questions_with(file).iter().enumerate() {
            group.case(&format!("{file} {number}"), || {
                let (question, book) = part.as_ref()?;
                for edition in [1, 2] {
                    let said = targets.shorten(edition, question, book)?;
                    came[match said {
                        Shortened::Lines(_) => 0,
                        Shortened::Fails(_) => 1,
                        Shortened::Refused { .. } => 2,
                    }] += 1;
                    if targets.short(said).is_some() {
                        shortened(&mut targets, edition, question, book)?;
                    }
                }
                Ok(())
            });
        }
    }
    group.case("each comes often", || {
        let often = came.iter().all(|&count| count >= 30);
        demand(often, &format!("they came {came:?} times"))
    });
    group.finish(sums);
}

/// A question that cannot agree in the edition, and its book.
struct Refuted {
    edition: u64,
    problem: Problem,
    book: Vec<u8>,
}

/// Random questions with such a book, one in four with the preview's; of few books the end needs fewer than
/// five lines.
fn refuted(random: &mut Random, count: usize) -> Vec<Refuted> {
    let draw = || {
        let edition = random.between(1, 2) as u64;
        let problem = match random.between(0, 3) {
            0 => random.stated(Random::problem),
            1 => random.stated(rows::problem),
            _ => editions::small(random),
        };
        let limit = match random.once_in(4) {
            true => Limit::PREVIEW,
            false => Limit::STANDARD,
        };
        let [_, proved] = naming(edition, limit);
        let solved: Solved = solve_filled(proved, &problem.encode());
        let cannot = Verdict::Cannot;
        let right = matches!(solved.answer, Answer::Verdict { verdict, .. } if verdict == cannot);
        let few = right && descends(&read(solved.used())).len() < 5;
        let right = right && (!few || random.once_in(6));
        right.then(|| Refuted {
            edition,
            book: solved.used().to_vec(),
            problem,
        })
    };
    let drawn = std::iter::repeat_with(draw).take(TRIED);
    drawn.flatten().take(count).collect()
}

/// The lines of edition 2's clauses.
fn shares(refuted: &Refuted) -> Vec<Line> {
    let n = refuted.problem.clauses.len();
    let line = |figure: usize| {
        let mut row = vec![0; figure + 1];
        row[figure] = -1;
        Line::loaded((n + figure) as u16, 0).condition(1, &row, 0)
    };
    let figures = 0..usize::from(refuted.problem.rationals);
    match refuted.edition {
        2 => figures.map(line).collect(),
        _ => vec![],
    }
}

/// What a book showed: a line left out; none; an empty line before the last; a loaded last line; a line
/// that stands twice, of which one is needed; a loaded line needed with a number of a line that is not;
/// a result that is not needed; over 32 lines; a clause of edition 2 needed; a link; a line with a first
/// and one with a second parent that nothing else needs.
type Shown = [usize; 12];
const LEAST: Shown = [
    4_000, 300, 2_000, 500, 1_000, 2_000, 2_000, 80, 500, 80, 500, 400,
];

/// Books that solving writes, and each with lines more.
fn run_random(sums: &mut Sums) {
    let mut group = Group::new("shortening: random books");
    let mut random = Random::new(SEED);
    let mut targets = Targets::new(BOOK_LENGTH + 8, 0xc3);
    let books = refuted(&mut random, BOOKS);
    let mut shown = Shown::default();
    for (number, refuted) in books.iter().enumerate() {
        let own = read(&refuted.book);
        group.case(&format!("number {number}"), || {
            show(&mut shown, &mut targets, refuted, &own)
        });
        if own.len() <= MAX_LINES {
            let more = if random.once_in(16) { MOST_MORE } else { MORE };
            let longer = lengthened(&mut random, &own, &shares(refuted), more);
            group.case(&format!("number {number}, longer"), || {
                show(&mut shown, &mut targets, refuted, &longer)
            });
        }
    }
    group.case("each comes often", || {
        let often = shown.iter().zip(LEAST).all(|(&came, least)| came >= least);
        let enough = books.len() == BOOKS;
        demand(often && enough, &format!("they came {shown:?} times"))
    });
    group.finish(sums);
}

fn show(shown: &mut Shown, targets: &mut Targets, refuted: &Refuted, lines: &[Line]) -> Outcome {
    let question = refuted.problem.encode();
    let short = shortened(targets, refuted.edition, &question, &write(lines))?;
    let needed = descends(lines);
    let is_needed = |i: &usize| needed.contains(i);
    let others: Vec<usize> = (0..lines.len()).filter(|i| !is_needed(i)).collect();
    let last = lines.len() - 1;
    let loaded = |i: &&usize| lines[**i].how == 0;
    let wrong_number = |i: &usize| {
        let named = [lines[*i].first, lines[*i].second].map(usize::from);
        named.iter().any(|i| *i < lines.len() && !is_needed(i))
    };
    let n = refuted.problem.clauses.len();
    let own = |i: &usize| usize::from(lines[*i].first) >= n;
    // a parent that no other line names, on this side
    let alone = |side: usize| {
        let parents = |i: &usize| lines[*i].parents();
        let of = |i: &usize| parents(i).map(|parents| parents[side]);
        let named = |parent: usize| {
            let names = needed.iter().filter_map(parents).flatten();
            names.filter(|&other| other == parent).count()
        };
        let once = |parent: usize| named(parent) == 1 && lines[parent].how != 0;
        needed.iter().filter_map(of).any(once)
    };
    let link = u32::from(refuted.problem.booleans);
    let came = [
        !others.is_empty(),
        others.is_empty(),
        lines[..last].iter().any(Line::is_empty),
        lines[last].how == 0,
        others
            .iter()
            .any(|&i| needed.iter().any(|&j| lines[i] == lines[j])),
        needed.iter().filter(loaded).any(wrong_number),
        others.iter().any(|&i| lines[i].how != 0),
        lines.len() > 32,
        refuted.edition == 2 && needed.iter().filter(loaded).any(own),
        read(&short)
            .iter()
            .any(|line| (line.positive | line.negative) >> link != 0),
        alone(0),
        alone(1),
    ];
    for (count, came) in shown.iter_mut().zip(came) {
        *count += usize::from(came);
    }
    Ok(())
}

/// Books with lines more, each bit of each byte turned, and all of them: what the check says, and no byte
/// altered, or what holds of a right one, as where a parent becomes another line that states the same.
/// How often came: a short book, a line that fails.
fn run_damaged(sums: &mut Sums) {
    let mut group = Group::new("shortening: damaged books");
    let mut random = Random::new(SEED);
    let mut targets = Targets::new(BOOK_LENGTH + 1, 0x77);
    let mut came = [0; 2];
    let mut books = refuted(&mut random, 20 * DAMAGED);
    books.retain(|refuted| (3..=8).contains(&(refuted.book.len() / LINE_LENGTH)));
    books.truncate(DAMAGED);
    let enough = books.len() == DAMAGED;
    for (number, refuted) in books.iter().enumerate() {
        let longer = lengthened(&mut random, &read(&refuted.book), &shares(refuted), 5);
        let (question, book) = (refuted.problem.encode(), write(&longer));
        group.case(&format!("number {number}"), || {
            for_each_change(&book, |_, damaged| {
                let said = targets.shorten(refuted.edition, &question, damaged)?;
                came[match said {
                    Shortened::Lines(_) => 0,
                    _ => 1,
                }] += 1;
                match targets.short(said) {
                    Some(_) => {
                        shortened(&mut targets, refuted.edition, &question, damaged).map(|_| ())
                    }
                    None => Ok(()),
                }
            })
        });
    }
    group.case("each comes often", || {
        let often = came[0] >= 20 && came[1] >= 50_000;
        demand(often && enough, &format!("they came {came:?} times"))
    });
    group.finish(sums);
}

/// Right and damaged books and arbitrary bytes, with any edition and any length of a target. How often
/// came: 19, 1, a fault of the question, 16, a line that fails, a short book.
fn run_arbitrary(sums: &mut Sums) {
    let mut group = Group::new("shortening: arbitrary bytes");
    let mut random = Random::new(SEED);
    let mut lent: Vec<Targets> = ROOMS.map(|room| Targets::new(room, 0x99)).into();
    let mut other = case(&mut random);
    let mut came = [0; 6];
    for number in 0..ARBITRARY {
        let drawn = case(&mut random);
        let mut book = drawn.book.clone();
        damage_book(&mut random, &mut book, &other.book);
        let question = match random.between(0, 15) {
            0 => other.question.clone(),
            1 => arbitrary::question(&mut random),
            _ => drawn.question.clone(),
        };
        let edition = match random.once_in(8) {
            true => EDITIONS[random.between(0, 4) as usize],
            false => random.between(1, 2) as u64,
        };
        let room = match random.once_in(8) {
            true => random.between(0, 6),
            false => random.between(4, 6),
        };
        let targets = &mut lent[room as usize];
        group.case(&format!("number {number}"), || {
            let said = targets.shorten(edition, &question, &book)?;
            came[match said {
                Shortened::Refused { number: 19, .. } => 0,
                Shortened::Refused { number: 1, .. } => 1,
                Shortened::Refused { number: 16, .. } => 3,
                Shortened::Refused { .. } => 2,
                Shortened::Fails(_) => 4,
                Shortened::Lines(_) => 5,
            }] += 1;
            targets.short(said);
            Ok(())
        });
        other = drawn;
    }
    group.case("each comes often", || {
        let often = came.iter().all(|&count| count >= 200);
        demand(often, &format!("they came {came:?} times"))
    });
    group.finish(sums);
}
