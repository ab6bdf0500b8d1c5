//! 02's (iii), a book of 256 lines: questions about that limit, in every way that a course can end,
//! with answers worked out by hand; buffers and books about its sizes; what is handed back; and what
//! the answers of two limits have to do with each other, by the second solver with small ones.

use crate::buffers::{all, book_length, solve_filled, solve_in, solve_lent, Solved};
use crate::buffers::{ends_course, BOOK_LENGTH, LINE_LENGTH, SHEET_LENGTH};
use crate::examples::{self, agrees, cannot, refused};
use crate::report::{demand, equal, Group, Outcome, Sums};
use crate::solver::{Solver, BOTH, PREVIEWS};
use crate::solving::{question, LENGTHS};
use questions::largest::{crossed, equalities, uppers};
use questions::marks::crossed as crossed_marks;
use questions::problem::{at_most, equal as equals, no, yes, Problem, Term};
use questions::random::Random;
use questions::rows;
use reference::{Answer, Checked, Limit, Part, Verdict};

const SEED: u64 = 12;
const CASES: usize = 20_000;
/// The small limits.
const SMALL: usize = 40;
const SHEETS: [usize; 5] = [0, 63, 64, 65, 128];

/// How often came: full while loading, full in a turn, wide, a verdict with as many lines as there
/// may be, and one with fewer.
type Tally = [usize; 5];
const LEAST: Tally = [1_000, 1_000, 200, 1_000, 1_000];

pub fn run(sums: &mut Sums) {
    for solver in BOTH.into_iter().chain(PREVIEWS) {
        run_at_the_limit(solver, sums);
        run_hand_back(solver, sums);
    }
    for solver in PREVIEWS {
        run_lengths(solver, sums);
    }
    run_two_limits(sums);
}

/// The preview is full, after so many pairs.
pub fn full(pairs: u64) -> Answer {
    refused(15, 256, pairs)
}

pub fn is_full(answer: &Answer) -> bool {
    matches!(answer, Answer::Refused { number: 15, .. })
}

/// The lines that a course held when it ended, if there was one.
pub fn held(answer: &Answer) -> Option<usize> {
    match *answer {
        Answer::Verdict { lines, .. } => Some(lines),
        Answer::Refused { number, place, .. } => ends_course(number).then_some(place),
    }
}

/// What two limits say of the same question, with the same buffers before, and leave: the smaller is
/// full exactly if the larger's course holds more lines; otherwise the answers are the same, and so
/// are the sheets and the books, but for the bytes beyond the smaller's, which are kept.
pub fn check_limits(small: &Solved, large: &Solved, book: &[u8], sheet: &[u8]) -> Outcome {
    let Limit(most) = small.limit;
    let length = book_length(small.limit);
    demand(
        small.book[length..] == book[length..],
        "bytes beyond the smaller book altered",
    )?;
    let tried = pairs(&small.answer);
    demand(tried <= (most * most / 4) as u64, "too many pairs")?;
    if held(&large.answer) <= Some(most) {
        small.expect(&large.answer)?;
        demand(
            small.book[..length] == large.book[..length],
            "the books differ",
        )?;
        return demand(small.sheet == large.sheet, "the sheets differ");
    }
    small.expect(&refused(15, most, tried))?;
    demand(tried <= pairs(&large.answer), "more pairs")?;
    demand(all(&small.book[..length], 0), "the full book not 0")?;
    demand(small.sheet == sheet, "the sheet altered")
}

pub fn pairs(answer: &Answer) -> u64 {
    match *answer {
        Answer::Verdict { pairs, .. } | Answer::Refused { pairs, .. } => pairs,
    }
}

/// A question with its answers: the preview's, and with 1,024 lines.
struct Case {
    name: &'static str,
    problem: Problem,
    preview: Answer,
    large: Answer,
}

impl Case {
    fn new(name: &'static str, problem: Problem, preview: Answer, large: Answer) -> Case {
        Case {
            name,
            problem,
            preview,
            large,
        }
    }

    /// With the same answer.
    fn same(name: &'static str, problem: Problem, answer: Answer) -> Case {
        Case::new(name, problem, answer, answer)
    }

    fn answer(&self, limit: Limit) -> &Answer {
        match limit {
            Limit::PREVIEW => &self.preview,
            _ => &self.large,
        }
    }
}

/// Full while loading, and nearly.
fn loading() -> Vec<Case> {
    let one = || vec![at_most(&[1, 1_000], 0)];
    let two = || vec![equals(&[1, 1_001], 0)];
    // x + 1,002y ≤ 0 or x + 1,003y ≤ 0 is two lines by a link
    let linked = || vec![at_most(&[1, 1_002], 0), at_most(&[1, 1_003], 0)];
    let repeated = || vec![at_most(&[1, 1], 0)];
    let with = |count: i32, more: Vec<Vec<Term>>| {
        let mut problem = uppers(count);
        problem.clauses.extend(more);
        problem
    };
    vec![
        Case::same("256 lines loaded", uppers(256), agrees(256, 0)),
        // every upper with the one lower, of which -y ≤ 0 is left
        Case::new(
            "257 lines loaded",
            with(255, vec![two()]),
            full(0),
            agrees(258, 256),
        ),
        Case::same(
            "256 lines and a repeated one loaded",
            with(254, vec![linked(), repeated()]),
            agrees(256, 0),
        ),
        Case::new(
            "256 lines and one more loaded",
            with(254, vec![linked(), one()]),
            full(0),
            agrees(257, 0),
        ),
        Case::same(
            "an empty clause as line 255",
            with(253, vec![two(), vec![]]),
            cannot(256, 0),
        ),
        Case::new(
            "an empty clause as line 256",
            with(254, vec![two(), vec![]]),
            full(0),
            cannot(257, 0),
        ),
        // the first equality with itself is dropped, with the second it gives -y ≤ 0
        Case::new(
            "128 equalities",
            equalities(128),
            full(2),
            agrees(258, 16_385),
        ),
        Case::new(
            "129 equalities",
            equalities(129),
            full(0),
            agrees(260, 16_642),
        ),
    ]
}

/// Ten uppers, twenty lowers of y and so many of x, from this bound on: y gives 200 lines by 200 pairs.
fn ten_by_twenty(of_x: i32, most: i32) -> Problem {
    crossed(10, (-18..=1).rev(), (most - of_x + 1..=most).rev())
}

/// The same with x + 3y ≤ this bound as an eleventh upper.
fn and_an_upper(of_x: i32, bound: i32) -> Problem {
    let mut problem = ten_by_twenty(of_x, 1_000);
    problem.clauses.insert(10, vec![at_most(&[1, 3], bound)]);
    problem
}

/// Full in a turn, and nearly. x then has a lower bound from -1,000 on that no upper contradicts, or
/// one of a million that the first does.
fn turns() -> Vec<Case> {
    let far = -1_000_000;
    vec![
        Case::same(
            "256 lines",
            ten_by_twenty(26, 1_000),
            agrees(256, 200 + 200 * 26),
        ),
        Case::new(
            "257 lines",
            ten_by_twenty(27, 1_000),
            full(200),
            agrees(257, 200 + 200 * 27),
        ),
        Case::same(
            "an empty result as line 255",
            ten_by_twenty(25, far),
            cannot(256, 201),
        ),
        Case::new(
            "an empty result as line 256",
            ten_by_twenty(26, far),
            full(201),
            cannot(257, 201),
        ),
        Case::same(
            "256 lines, then a wide result",
            and_an_upper(25, 1_000_000_000),
            refused(14, 256, 201),
        ),
        Case::new(
            "257 lines, then a wide result",
            and_an_upper(26, 1_000_000_000),
            full(200),
            refused(14, 257, 201),
        ),
        Case::same(
            "256 lines, then covered results",
            and_an_upper(25, 900_000_000),
            agrees(256, 220 + 200 * 25),
        ),
        // x ≤ -99,997 is new, and contradicts the first lower, behind all pairs of the other uppers
        Case::new(
            "256 lines, then a stronger result",
            and_an_upper(25, -100_000),
            full(201),
            cannot(277, 220 + 200 * 25 + 1),
        ),
    ]
}

/// The same at a mark, and with a contradiction of mark 15.
fn turns_of_marks() -> Vec<Case> {
    let contradiction = |threes| crossed_marks(threes).clause([yes(15)]).clause([no(15)]);
    vec![
        Case::same("256 lines by a mark", crossed_marks(5), agrees(256, 220)),
        Case::new(
            "257 lines by a mark",
            crossed_marks(6),
            full(220),
            agrees(257, 220),
        ),
        Case::same(
            "an empty result by a mark as line 255",
            contradiction(2),
            cannot(256, 221),
        ),
        Case::new(
            "an empty result by a mark as line 256",
            contradiction(3),
            full(221),
            cannot(257, 221),
        ),
    ]
}

fn cases() -> impl Iterator<Item = Case> {
    let figures = loading().into_iter().chain(turns());
    figures.chain(turns_of_marks())
}

fn run_at_the_limit(solver: Solver, sums: &mut Sums) {
    let mut group = solver.group("about 256 lines");
    let mut checked = [0; 2];
    for case in cases() {
        group.case(case.name, || {
            let question = case.problem.encode();
            let solved = solve_filled(solver, &question);
            solved.expect(case.answer(solver.limit))?;
            solved.check_buffers()?;
            check_books(solver, &question, &case, &mut checked)
        });
    }
    group.case("books of 256 lines and of more", || {
        let some = checked.iter().all(|&count| count >= 2);
        demand(some, &format!("they came {checked:?} times"))
    });
    group.finish(sums);
}

/// The book that the second solver writes for a contradiction with 1,024 lines: the check accepts it,
/// and the preview's refuses it by its length if it has more than 256.
fn check_books(solver: Solver, question: &[u8], case: &Case, checked: &mut [usize; 2]) -> Outcome {
    let lines = match case.large {
        Answer::Verdict {
            verdict: Verdict::Cannot,
            lines,
            ..
        } => lines,
        _ => return Ok(()),
    };
    checked[usize::from(lines > 256)] += 1;
    let book = solve_filled(Solver::SECOND, question);
    let expected = match solver.is_preview() && lines > 256 {
        true => Checked::Refused {
            number: 16,
            place: lines * LINE_LENGTH,
        },
        false => Checked::Accepted,
    };
    let said = solver.check_book(question, book.used());
    equal("check of the book", &expected, &said)
}

/// Buffers of lengths about those of both limits: 1 and 2 are asked in order, and every byte is left as
/// it should be.
fn run_lengths(solver: Solver, sums: &mut Sums) {
    let mut group = solver.group("lengths of the buffers");
    let own = cases().map(|case| (case.name, case.problem.encode(), case.preview));
    for (name, question, answer) in examples::questions(solver.limit).into_iter().chain(own) {
        for book in LENGTHS {
            for sheet in SHEETS {
                group.case(&format!("{name}, {book}, {sheet}"), || {
                    let solved = solve_lent(solver, &question, book, sheet);
                    solved.expect(&match (book, sheet) {
                        (0..=16_383, _) => refused(1, 0, 0),
                        (_, 0..=63) => refused(2, 0, 0),
                        _ => answer,
                    })?;
                    solved.check_buffers()
                });
            }
        }
    }
    group.finish(sums);
}

/// Every verdict, 14, 15 and a fault, with counts of lines and lengths of buffers about those of both
/// limits.
fn run_hand_back(solver: Solver, sums: &mut Sums) {
    let mut group = solver.group("handing back");
    for lines in [0, 1, 255, 256, 257, 1_023, 1_024, 1_025, usize::MAX] {
        let verdict = |verdict| Answer::Verdict {
            verdict,
            lines,
            pairs: 1,
        };
        let verdicts = [Verdict::Agrees, Verdict::Cannot, Verdict::Unwritten].map(verdict);
        let refusals = [4, 14, 15].map(|number| refused(number, lines, 1));
        for answer in verdicts.into_iter().chain(refusals) {
            group.case(&format!("{answer:?}"), || {
                for book in LENGTHS {
                    for sheet in SHEETS {
                        check_hand_back(solver, &answer, book, sheet)
                            .map_err(|text| format!("buffers of {book}, {sheet}: {text}"))?;
                    }
                }
                Ok(())
            });
        }
    }
    group.finish(sums);
}

fn check_hand_back(solver: Solver, answer: &Answer, book: usize, sheet: usize) -> Outcome {
    let numbered = |length| -> Vec<u8> { (0..length).map(|i| (i % 251) as u8).collect() };
    let (book, sheet) = (numbered(book), numbered(sheet));
    let Limit(most) = solver.limit;
    let full_size = book.len() >= most * LINE_LENGTH && sheet.len() >= SHEET_LENGTH;
    let expected = match *answer {
        Answer::Verdict { verdict, lines, .. } if full_size && lines <= most => match verdict {
            Verdict::Agrees => Part::Sheet(&sheet[..SHEET_LENGTH]),
            Verdict::Cannot => Part::Book(&book[..lines * LINE_LENGTH]),
            Verdict::Unwritten => Part::Book(&[]),
        },
        _ => Part::Book(&[]),
    };
    let part = solver.hand_back(answer, &book, &sheet);
    demand(part == expected, "another part")
}

/// Random questions by the second solver with a limit of 1 to 40 lines beside 1,024: in turn each, as
/// many as the question's course holds, and one fewer.
fn run_two_limits(sums: &mut Sums) {
    let mut group = Group::new("two limits, second solver");
    let mut random = Random::new(SEED);
    let mut tally = Tally::default();
    let mut came = [[0; 2]; SMALL];
    for number in 0..CASES {
        let question = match number % 2 {
            0 => question(&mut random),
            _ => random.stated(rows::problem).encode(),
        };
        group.case(&format!("number {number}"), || {
            let (limit, answer) = compare_limits(number, &question)?;
            if let Some(kind) = kind(&answer, limit) {
                tally[kind] += 1;
                came[limit - 1][usize::from(is_full(&answer))] += 1;
            }
            Ok(())
        });
    }
    group.case("each comes often", || {
        let often = tally.iter().zip(LEAST).all(|(&came, least)| came >= least);
        demand(often, &format!("they came {tally:?} times"))
    });
    group.case("each limit is met, and not", || {
        let some = came.iter().flatten().all(|&count| count > 0);
        demand(some, &format!("they came {came:?} times"))
    });
    group.finish(sums);
}

/// The small limit, and what is said with it.
fn compare_limits(number: usize, question: &[u8]) -> Result<(usize, Answer), String> {
    let (book, sheet) = (vec![0xab; BOOK_LENGTH], vec![0xcd; SHEET_LENGTH]);
    let solve = |limit| solve_in(Solver::second(limit), question, book.clone(), sheet.clone());
    let large = solve(Limit::STANDARD);
    let limit = match (number % 3, held(&large.answer)) {
        (1, Some(lines)) => lines,
        (2, Some(lines)) => lines.saturating_sub(1),
        _ => number / 3 % SMALL + 1,
    };
    let limit = limit.clamp(1, SMALL);
    let small = solve(Limit(limit));
    check_limits(&small, &large, &book, &sheet)?;
    Ok((limit, small.answer))
}

/// Which of the tally's an answer is, if there was a course.
fn kind(answer: &Answer, limit: usize) -> Option<usize> {
    match *answer {
        Answer::Refused {
            number: 15, pairs, ..
        } => Some(usize::from(pairs > 0)),
        Answer::Refused { number: 14, .. } => Some(2),
        Answer::Refused { .. } => None,
        Answer::Verdict { lines, .. } => Some(3 + usize::from(lines < limit)),
    }
}
