//! Solving: the proved code and the second solver give the same answer and leave the same bytes in
//! book and sheet; what a verdict hands back, the proved checks accept; and the preview says and
//! leaves what 02's (iii) makes of it. In edition 2 they do the same, and both editions have to do with
//! each other what 02's (v) says.

use crate::buffers::{ends_course, solve_filled, solve_in, Solved};
use crate::buffers::{BOOK_LENGTH, LINE_LENGTH, PREVIEW_LENGTH, SHEET_LENGTH};
use crate::preview::{self, is_full};
use crate::report::{demand, equal, Group, Outcome, Sums};
use crate::solver::{both, naming, Solver, BOTH, BOTH_IN_2};
use crate::{edition_laws, examples, vectors};
use questions::largest::{self, Kind};
use questions::problem::{at_most, yes, Problem};
use questions::random::Random;
use reference::{Answer, Checked, Limit, Part, Verdict, SECOND_EDITION};
use std::collections::BTreeMap;

const SEED: u64 = 7;
const RANDOM: usize = 200_000;
/// One in so many is solved in edition 2, too.
const IN_2: usize = 8;
/// How often each kind of answer must come at least.
const OFTEN: usize = 20;
pub const LENGTHS: [usize; 12] = [
    0, 1, 63, 64, 65, 16_383, 16_384, 16_385, 65_535, 65_536, 65_537, 65_600,
];

pub fn run(sums: &mut Sums) {
    solve_vectors(sums);
    solve_examples(sums);
    solve_random(sums);
    solve_lengths(sums);
    solve_largest(sums);
    hand_back_refusals(sums);
}

/// Bytes that differ from place to place.
fn filled(length: usize, fill: u8) -> Vec<u8> {
    (0..length).map(|i| (i as u8) ^ fill).collect()
}

/// Both solve with these buffers, and must leave them alike.
fn compare_in(
    [second, proved]: [Solver; 2],
    question: &[u8],
    book: &[u8],
    sheet: &[u8],
) -> Result<Solved, String> {
    let theirs = solve_in(second, question, book.to_vec(), sheet.to_vec());
    let ours = solve_in(proved, question, book.to_vec(), sheet.to_vec());
    equal("answer", &theirs.answer, &ours.answer)?;
    demand(theirs.book == ours.book, "the books differ")?;
    demand(theirs.sheet == ours.sheet, "the sheets differ")?;
    let part = second.hand_back(&ours.answer, &theirs.book, &theirs.sheet);
    let our_part = proved.hand_back(&ours.answer, &ours.book, &ours.sheet);
    equal("part", &part, &our_part)?;
    check_part(proved, question, &ours.answer, part)?;
    Ok(ours)
}

/// What is handed back after a verdict is accepted by the checks of the proved code; by the preview's,
/// too, if it has no more lines. A book is then accepted in edition 2, too, and a sheet in edition 1.
pub fn check_part(proved: Solver, question: &[u8], answer: &Answer, part: Part) -> Outcome {
    let checked = match (answer, part) {
        (
            Answer::Verdict {
                verdict: Verdict::Cannot,
                ..
            },
            Part::Book(book),
        ) => {
            let preview = proved.within(Limit::PREVIEW).check_book(question, book);
            let expected = match book.len() {
                0..=PREVIEW_LENGTH => Checked::Accepted,
                place => Checked::Refused { number: 16, place },
            };
            equal("check by the preview", &expected, &preview)?;
            let proved = proved.within(Limit::STANDARD);
            let in_2 = proved.naming(SECOND_EDITION).check_book(question, book);
            equal("check in edition 2", &Checked::Accepted, &in_2)?;
            proved.check_book(question, book)
        }
        (
            Answer::Verdict {
                verdict: Verdict::Agrees,
                ..
            },
            Part::Sheet(sheet),
        ) => {
            let in_1 = proved::check_sheet(question, sheet);
            equal("check in edition 1", &Checked::Accepted, &in_1)?;
            proved.check_sheet(question, sheet)
        }
        _ => return Ok(()),
    };
    equal("check", &Checked::Accepted, &checked)
}

/// Both solve with buffers somewhat longer than asked for, and so does the preview.
pub fn compare(question: &[u8], fill: u8) -> Result<Answer, String> {
    compare_limits(question, fill).map(|(large, _)| large.answer)
}

/// The same with all that the proved code said and left with 1,024 lines, and with 256, which it is
/// lent a book of either size for, by the fill. The second solver's preview is asked where the answer
/// with 1,024 lines does not settle it.
pub fn compare_limits(question: &[u8], fill: u8) -> Result<(Solved, Solved), String> {
    compare_limits_by(BOTH, question, fill)
}

/// The same by these two, which have a limit of 1,024 lines.
pub fn compare_limits_by(
    solvers: [Solver; 2],
    question: &[u8],
    fill: u8,
) -> Result<(Solved, Solved), String> {
    let (book, sheet) = (
        filled(BOOK_LENGTH + 16, fill),
        filled(SHEET_LENGTH + 16, fill),
    );
    let large = compare_in(solvers, question, &book, &sheet)?;
    let book = match fill % 4 {
        3 => &book[..],
        _ => &book[..PREVIEW_LENGTH + 16],
    };
    let previews = solvers.map(|solver| solver.within(Limit::PREVIEW));
    let small = solve_in(previews[1], question, book.to_vec(), sheet.clone());
    preview::check_limits(&small, &large, book, &sheet)?;
    if is_full(&small.answer) {
        let theirs = compare_in(previews, question, book, &sheet)?;
        small.expect(&theirs.answer)?;
    }
    Ok((large, small))
}

fn solve_vectors(sums: &mut Sums) {
    let mut group = Group::new("solving: the vectors' questions");
    let questions = vectors::questions();
    for (number, question) in questions.iter().enumerate() {
        group.case(&format!("number {number}"), || {
            let question = question.as_ref()?;
            compare(question, 0xab)?;
            compare_limits_by(BOTH_IN_2, question, 0xab)?;
            // with either limit
            edition_laws::check_question(question, 0xaa)?;
            edition_laws::check_question(question, 0xab).map(|_| ())
        });
    }
    group.case("some", || demand(!questions.is_empty(), "no question"));
    group.finish(sums);
}

fn solve_examples(sums: &mut Sums) {
    let mut group = Group::new("solving: examples");
    let previews = examples::questions(Limit::PREVIEW);
    for ((name, question, expected), (.., preview)) in examples::questions(Limit::STANDARD)
        .into_iter()
        .zip(previews)
    {
        group.case(name, || {
            let (large, small) = compare_limits(&question, 0xab)?;
            large.expect(&expected)?;
            small.expect(&preview)?;
            compare_limits_by(BOTH_IN_2, &question, 0xab).map(|_| ())
        });
    }
    group.finish(sums);
}

/// Random questions of all kinds. Each answer must come, near the limit of lines too.
fn solve_random(sums: &mut Sums) {
    let mut group = Group::new("solving: random questions");
    let mut random = Random::new(SEED);
    let mut seen = BTreeMap::new();
    for number in 0..RANDOM {
        let question = question(&mut random);
        group.case(&format!("number {number}"), || {
            let (large, small) = compare_limits(&question, number as u8)?;
            if number % IN_2 == 0 {
                edition_laws::check_question(&question, (number / IN_2) as u8)?;
            }
            let preview = is_full(&small.answer).then(|| "15 by the preview".to_string());
            let (answer, lines) = match large.answer {
                Answer::Verdict { verdict, lines, .. } => (format!("{verdict:?}"), lines),
                Answer::Refused { number, place, .. } if ends_course(number) => {
                    (number.to_string(), place)
                }
                Answer::Refused { number, .. } => (number.to_string(), 0),
            };
            let near = (lines >= 1_000).then(|| format!("{answer} with 1,000 lines"));
            for kind in near.into_iter().chain(preview).chain([answer]) {
                *seen.entry(kind).or_insert(0_usize) += 1;
            }
            Ok(())
        });
    }
    let near = ["Agrees", "Cannot", "14"].map(|answer| format!("{answer} with 1,000 lines"));
    let all = [
        "Agrees",
        "Cannot",
        "Unwritten",
        "4",
        "10",
        "11",
        "13",
        "14",
        "15",
        "18",
        "15 by the preview",
    ];
    let all = all.map(str::to_string);
    for kind in all.iter().chain(&near) {
        let count = seen.get(kind).copied().unwrap_or(0);
        group.case(kind, || {
            demand(count >= OFTEN, &format!("came {count} times only"))
        });
    }
    group.finish(sums);
}

/// Small ones, large amounts, many figures, many lines, many links, damaged ones.
pub fn question(random: &mut Random) -> Vec<u8> {
    let problem = match random.between(0, 99) {
        0 => many_lines(random).joined(),
        1..=9 => random.stated(|random| random.dense_problem(6)),
        10..=24 => random.stated(Random::sparse_problem),
        _ => random.stated(Random::problem),
    };
    let mut question = random.doubled(50, problem).encode();
    if random.once_in(10) {
        let place = random.between(0, question.len() as i64 - 1) as usize;
        question[place] = random.word() as u8;
    }
    if random.once_in(50) {
        question.truncate(random.between(0, question.len() as i64) as usize);
    }
    question
}

/// Near the 1,024 lines: uppers and lowers of one figure whose pairs all give lines, since bounds
/// fall, and lowers of another, which make it the costlier one and contradict no result or the
/// first; or the last upper gives a wide one.
fn many_lines(random: &mut Random) -> Problem {
    let cheap = random.between(0, 2) as usize;
    let costly = (cheap + random.between(1, 2) as usize) % 3;
    let term = |of_cheap: i32, of_costly: i32, bound: i32| {
        let mut row = [0; 3];
        row[cheap] = of_cheap;
        row[costly] = of_costly;
        at_most(&row, bound)
    };
    let uppers = random.between(20, 44) as i32;
    // All clauses and pairs are (uppers + 2) × (lowers + 1) - 1 lines.
    let lowers = 1_025 / (uppers + 2) - 1 + random.between(-1, 2) as i32;
    let most = [1_000, -1_000_000][random.between(0, 1) as usize];
    let mut problem = Problem::new(1, 3);
    let clauses = &mut problem.clauses;
    for i in (1..=uppers).rev() {
        let mut upper = vec![term(1, 1, 100 * i)];
        if random.once_in(4) {
            upper.push(yes(0));
        }
        clauses.push(upper);
    }
    if random.once_in(4) {
        clauses.push(vec![term(1, 3, 1_000_000_000)]);
    }
    clauses.extend((0..lowers).map(|j| vec![term(-1, 0, 1 - j)]));
    clauses.extend((0..=lowers).map(|k| vec![term(0, -1, most - k)]));
    problem
}

/// Buffers of every length about those that are asked for.
fn solve_lengths(sums: &mut Sums) {
    let mut group = Group::new("solving: lengths of the buffers");
    for (name, question, _) in examples::questions(Limit::STANDARD) {
        for book in LENGTHS {
            for sheet in [0, 63, 64, 65, 128] {
                let (book, sheet) = (filled(book, 0x5a), filled(sheet, 0x5a));
                for limit in [Limit::STANDARD, Limit::PREVIEW] {
                    let name = format!("{name}, {}, {}, {limit:?}", book.len(), sheet.len());
                    group.case(&name, || {
                        compare_in(both(limit), &question, &book, &sheet)?;
                        let in_2 = naming(SECOND_EDITION, limit);
                        compare_in(in_2, &question, &book, &sheet).map(|_| ())
                    });
                }
            }
        }
    }
    group.finish(sums);
}

fn solve_largest(sums: &mut Sums) {
    let mut group = Group::new("solving: the largest questions and runs");
    let agrees = Answer::Verdict {
        verdict: Verdict::Agrees,
        lines: 1_024,
        pairs: 231_360,
    };
    let full = Answer::Refused {
        number: 15,
        place: 1_024,
        pairs: 960,
    };
    // 64 and 65 lines are loaded, and each pair adds one, until the preview's 256 are held.
    for (more, expected, pairs) in [(None, agrees, 193), (Some(13), full, 192)] {
        group.case(&format!("{more:?} more"), || {
            let (large, small) = compare_limits(&largest::run(more).encode(), 1)?;
            large.expect(&expected)?;
            small.expect(&preview::full(pairs))?;
            compare_limits_by(BOTH_IN_2, &largest::run(more).encode(), 1).map(|_| ())
        });
    }
    group.case("the most lines loaded", solve_loaded);
    for kind in [Kind::Dropped, Kind::Struck, Kind::Equal, Kind::Doubled] {
        group.case(&format!("as long as it may be, {kind:?}"), || {
            let question = largest::question(32_768, kind);
            compare(&question, 1)?;
            compare_limits_by(BOTH_IN_2, &question, 1).map(|_| ())
        });
    }
    group.finish(sums);
}

/// 512 lines for 256 clauses with =, and one more for each link; all follow, and none is empty.
fn solve_loaded() -> Outcome {
    let question = largest::loaded().encode();
    let lines = 512 + 16;
    let expected = Answer::Verdict {
        verdict: Verdict::Agrees,
        lines,
        pairs: 256 * 256,
    };
    let (large, small) = compare_limits(&question, 1)?;
    large.expect(&expected)?;
    small.expect(&preview::full(0))?;
    let solved = solve_filled(Solver::PROVED, &question);
    let mut loaded = solved.used().chunks_exact(LINE_LENGTH);
    demand(loaded.all(|line| line[0] == 0), "a result")?;
    for solver in BOTH {
        let checked = solver.check_book(&question, solved.used());
        equal("check", &Checked::Fails(lines), &checked)?;
    }
    Ok(())
}

/// A refusal hands nothing back, whatever number a caller puts into it.
fn hand_back_refusals(sums: &mut Sums) {
    let mut group = Group::new("handing back: refusals by any number");
    let (book, sheet) = ([1; BOOK_LENGTH], [1; SHEET_LENGTH]);
    let limits = [Limit::STANDARD, Limit::PREVIEW];
    for number in 0..=u8::MAX {
        let refused = Answer::Refused {
            number,
            place: 5,
            pairs: 0,
        };
        group.case(&format!("number {number}"), || {
            limits.into_iter().try_for_each(|limit| {
                let part = proved::hand_back_within(limit, &refused, &book, &sheet);
                equal("part", &Part::Book(&[]), &part)
            })
        });
    }
    group.finish(sums);
}
