//! Examples 1 to 12 of document 01, each variant, with all that 01 states of them, and what 02's
//! (viii) states of the last; a pair at the limit of lines in its place; what follows from 02's (i)
//! for the shortest questions; and what the program prints for some.

use crate::buffers::{read_sheet, solve_filled, Solved, LINE_LENGTH};
use crate::preview::full;
use crate::report::{equal, Group, Outcome, Sums};
use crate::solver::Solver;
use questions::largest;
use questions::problem::{at_least, at_most, below, equal as equals, no, yes, Problem};
use reference::{print, Answer, Checked, Limit, Verdict};

/// An example and what is stated of it.
struct Example {
    name: &'static str,
    problem: Problem,
    answer: Answer,
    /// The preview's, if it is another one.
    preview: Option<Answer>,
    /// The marks and figures, where they are stated.
    values: Option<Values>,
}

/// Marks as the sheet has them, figures as numerator and denominator.
struct Values {
    booleans: &'static [u8],
    rationals: &'static [(i64, i64)],
}

fn verdict(verdict: Verdict, lines: usize, pairs: u64) -> Answer {
    Answer::Verdict {
        verdict,
        lines,
        pairs,
    }
}

pub fn agrees(lines: usize, pairs: u64) -> Answer {
    verdict(Verdict::Agrees, lines, pairs)
}

pub fn cannot(lines: usize, pairs: u64) -> Answer {
    verdict(Verdict::Cannot, lines, pairs)
}

pub fn unwritten(lines: usize, pairs: u64) -> Answer {
    verdict(Verdict::Unwritten, lines, pairs)
}

pub fn refused(number: u8, place: usize, pairs: u64) -> Answer {
    Answer::Refused {
        number,
        place,
        pairs,
    }
}

fn example(name: &'static str, problem: Problem, answer: Answer) -> Example {
    Example {
        name,
        problem,
        answer,
        preview: None,
        values: None,
    }
}

impl Example {
    /// The preview is full, after so many pairs.
    fn full_in_preview(mut self, pairs: u64) -> Example {
        self.preview = Some(full(pairs));
        self
    }

    /// What is stated with this limit of lines.
    fn answer(&self, limit: Limit) -> Answer {
        match self.preview {
            Some(preview) if limit == Limit::PREVIEW => preview,
            _ => self.answer,
        }
    }

    fn with(mut self, booleans: &'static [u8], rationals: &'static [(i64, i64)]) -> Example {
        self.values = Some(Values {
            booleans,
            rationals,
        });
        self
    }
}

fn example_5() -> Problem {
    Problem::new(0, 1)
        .clause([below(&[1], 5)])
        .clause([below(&[-1], -4)])
}

/// x + y ≤ 10; -x ≤ -7; -y ≤ the bound.
fn example_7(bound: i32) -> Problem {
    Problem::new(0, 2)
        .clause([at_most(&[1, 1], 10)])
        .clause([at_most(&[-1], -7)])
        .clause([at_most(&[0, -1], bound)])
}

fn example_8() -> Problem {
    Problem::new(1, 0).clause([yes(0)]).clause([no(0)])
}

fn example_9() -> Problem {
    Problem::new(1, 1)
        .clause([yes(0), at_most(&[1], 0), at_most(&[-1], -5)])
        .clause([no(0)])
}

/// 1,000,000,000x and so many y ≤ 0; -999,999,999x + z ≤ 0.
fn example_10(y: i32) -> Problem {
    Problem::new(0, 3)
        .clause([at_most(&[1_000_000_000, y], 0)])
        .clause([at_most(&[-999_999_999, 0, 1], 0)])
}

fn example_11() -> Problem {
    Problem::new(0, 2)
        .clause([at_most(&[999_999_999], 1)])
        .clause([at_most(&[0, 1_000_000_000], 1)])
}

/// x + y ≤ 100i for i from 1 to the last; -x ≤ -j for j from 0 to 39.
fn example_12(last: i32) -> Problem {
    let uppers = (1..=last).map(|i| at_most(&[1, 1], 100 * i));
    let lowers = (0..40).map(|j| at_most(&[-1], -j));
    uppers
        .chain(lowers)
        .fold(Problem::new(0, 2), |problem, term| problem.clause([term]))
}

fn examples_1_to_6() -> Vec<Example> {
    let no_clause = Problem::new(0, 0);
    let one_empty = Problem::new(0, 0).clause([]);
    let example_3 = Problem::new(0, 1)
        .clause([at_most(&[1], 5)])
        .clause([at_most(&[-1], -5)]);
    let example_4 = Problem::new(0, 1)
        .clause([below(&[1], 5)])
        .clause([at_most(&[-1], -5)]);
    let example_6 = Problem::new(0, 1).clause([at_most(&[3], 1)]);
    vec![
        example("example 1", no_clause, agrees(0, 0)).with(&[], &[]),
        example("example 2", one_empty, cannot(1, 0)),
        example("example 3", example_3, agrees(2, 1)).with(&[], &[(5, 1)]),
        example("example 4", example_4, cannot(3, 1)),
        example("example 5", example_5(), agrees(2, 1)).with(&[], &[(9, 2)]),
        example("example 6", example_6, agrees(1, 0)).with(&[], &[(1, 3)]),
    ]
}

fn examples_7_to_12() -> Vec<Example> {
    let figures_12 = &[(39, 1), (61, 1)];
    vec![
        example("example 7", example_7(-4), cannot(5, 2)),
        example("example 7, -y at most -3", example_7(-3), agrees(4, 2))
            .with(&[], &[(7, 1), (3, 1)]),
        example("example 8", example_8(), cannot(3, 1)),
        example("example 9", example_9(), agrees(3, 1)).with(&[0], &[(0, 1)]),
        example("example 10", example_10(3), refused(14, 2, 1)),
        example("example 10, y for 3y", example_10(1), agrees(3, 1)),
        example("example 11", example_11(), unwritten(2, 0)),
        example("example 12", example_12(24), agrees(81, 40)).with(&[], figures_12),
        example("example 12, i = 25 too", example_12(25), agrees(81, 40)).with(&[], figures_12),
    ]
}

/// "the testers make a new pair at the limit": each figure gets its greatest lower, x before y. 104
/// and 105 lines are loaded, and then each pair adds one, until the preview's 256 are held.
fn at_the_limit() -> Vec<Example> {
    let too_many = refused(15, 1_024, 920);
    vec![
        example("at the limit", largest::limit(23), agrees(1_024, 38_640))
            .full_in_preview(153)
            .with(&[], &[(-960, 1), (39, 1)]),
        example("at the limit, one upper more", largest::limit(24), too_many).full_in_preview(152),
    ]
}

/// "A clause with one = is read as two", each tidied by itself, and a second = is refused.
fn equal_and_at_least() -> Vec<Example> {
    let half = Problem::new(1, 0).clause([yes(0), equals(&[], 5)]);
    let at_least_5 = Problem::new(0, 1).clause([at_least(&[1], 5)]);
    let both = x_is_5().clause([at_most(&[1], 4)]);
    vec![
        example("x = 5", x_is_5(), agrees(2, 1)).with(&[], &[(5, 1)]),
        example("a or 0 = 5", half, agrees(1, 0)).with(&[1], &[]),
        example("x at least 5", at_least_5, agrees(1, 0)).with(&[], &[(5, 1)]),
        example("x = 5, x at most 4", both, cannot(4, 2)),
        example("two =", two_equal(), refused(18, 15, 0)),
    ]
}

fn x_is_5() -> Problem {
    Problem::new(0, 1).clause([equals(&[1], 5)])
}

fn two_equal() -> Problem {
    Problem::new(0, 1).clause([equals(&[1], 1), equals(&[1], 2)])
}

fn examples() -> impl Iterator<Item = Example> {
    let document = examples_1_to_6().into_iter().chain(examples_7_to_12());
    document.chain(at_the_limit()).chain(equal_and_at_least())
}

/// The examples' questions, with their answers under this limit of lines.
pub fn questions(limit: Limit) -> Vec<(&'static str, Vec<u8>, Answer)> {
    let question = |example: Example| {
        (
            example.name,
            example.problem.encode(),
            example.answer(limit),
        )
    };
    examples().map(question).collect()
}

/// Runs the examples.
pub fn run(solver: Solver, sums: &mut Sums) {
    let mut group = solver.group("examples");
    for example in examples() {
        group.case(example.name, || check_example(solver, &example));
    }
    for last in [24, 25] {
        group.case(&format!("example 12's book, i to {last}"), || {
            check_example_12(solver, last)
        });
    }
    group.finish(sums);
}

/// "Example 12 then loads 41 lines, both ways; x and y tie, x goes first": the first upper, all
/// lowers, and their pairs by figure 0.
fn check_example_12(solver: Solver, last: u16) -> Outcome {
    let solved = solve_filled(solver, &example_12(i32::from(last)).encode());
    let origin = |line: &[u8]| {
        let parent = |place: usize| u16::from_le_bytes([line[place], line[place + 1]]);
        (line[0], line[1], parent(2), parent(4))
    };
    let lines = solved.used().chunks_exact(LINE_LENGTH).map(origin);
    let loaded = [0].into_iter().chain(last..last + 40);
    let loaded = loaded.map(|clause| (0, 0, clause, 0));
    let results = (1..=40).map(|lower| (1, 0, 0, lower));
    let expected: Vec<_> = loaded.chain(results).collect();
    equal("lines", &expected, &lines.collect())
}

fn check_example(solver: Solver, example: &Example) -> Outcome {
    let question = example.problem.encode();
    let solved = solve_filled(solver, &question);
    solved.expect(&example.answer(solver.limit))?;
    solved.check_buffers()?;
    match (&example.values, solved.answer) {
        (Some(values), Answer::Verdict { .. }) => check_values(&example.problem, &solved, values)?,
        _ => (),
    }
    match solved.answer {
        Answer::Verdict {
            verdict: Verdict::Agrees,
            ..
        } => equal(
            "check of the sheet",
            &Checked::Accepted,
            &solver.check_sheet(&question, solved.sheet()),
        ),
        Answer::Verdict {
            verdict: Verdict::Cannot,
            ..
        } => equal(
            "check of the book",
            &Checked::Accepted,
            &solver.check_book(&question, solved.used()),
        ),
        _ => Ok(()),
    }
}

/// Compares the sheet's marks and, as exact fractions, its figures.
fn check_values(problem: &Problem, solved: &Solved, values: &Values) -> Outcome {
    let model = read_sheet(problem, solved.sheet())
        .map_err(|place| format!("the sheet is bad at byte {place}"))?;
    let booleans = &solved.sheet()[1..=usize::from(problem.booleans)];
    equal("marks", &values.booleans, &booleans)?;
    equal("figures", &values.rationals.len(), &model.numerators.len())?;
    for (i, &(numerator, denominator)) in values.rationals.iter().enumerate() {
        let crosswise = (
            numerator * model.denominator,
            model.numerators[i] * denominator,
        );
        equal(&format!("figure {i}"), &crosswise.0, &crosswise.1)?;
    }
    Ok(())
}

/// Compares what is printed.
pub fn run_printed(sums: &mut Sums) {
    let book_7 = "cannot 5 2\nlines 5\n0 0 0 0\n0 0 1 0\n0 0 2 0\n1 0 0 1\n1 1 3 2\n";
    // y from lines 0 and 1 gives x ≤ 6, which line 3 contradicts.
    let book_of_y =
        "cannot 7 5\nlines 7\n0 0 0 0\n0 0 1 0\n0 0 2 0\n0 0 3 0\n0 0 4 0\n1 1 0 1\n1 0 5 3\n";
    let y_first = Problem::new(0, 2)
        .clause([at_most(&[1, 1], 10)])
        .clause([at_most(&[0, -1], -4)])
        .clause([at_most(&[-1], -1)])
        .clause([at_most(&[-1], -7)])
        .clause([at_most(&[1], 9)]);
    let book_8 = "cannot 3 1\nlines 3\n0 0 0 0\n0 0 1 0\n2 0 0 1\n";
    let marks = Problem::new(2, 2)
        .clause([yes(0)])
        .clause([no(1)])
        .clause([at_most(&[0, -2], 3)]);
    let sheet = "agrees 3 0\nmarks 2\n1\n0\nfigures 2\n0 2\n-3 2\n";
    let open_marks = Problem::new(4, 1)
        .clause([yes(0), no(0)])
        .clause([yes(2), below(&[], 0)])
        .clause([at_most(&[1], 5)]);
    let sheet_of_open = "agrees 2 0\nmarks 4\n0\n2\n1\n2\nfigures 1\n5 1\n";
    let book_of_equal = "cannot 4 2\nlines 4\n0 0 0 0\n0 0 0 1\n0 0 1 0\n1 0 2 1\n";
    let cases = [
        (
            "example 5",
            example_5(),
            "agrees 2 1\nmarks 0\nfigures 1\n9 2\n",
        ),
        ("example 7", example_7(-4), book_7),
        ("the cheapest figure first", y_first, book_of_y),
        ("by a mark", example_8(), book_8),
        (
            "marks",
            example_9(),
            "agrees 3 1\nmarks 1\n0\nfigures 1\n0 1\n",
        ),
        ("one denominator", marks, sheet),
        ("unwritten", example_11(), "unwritten 2 0\n"),
        ("a fault", Problem::new(17, 0), "refused 5 0 0\n"),
        ("wide", example_10(3), "refused 14 2 1\n"),
        ("full", largest::limit(24), "refused 15 1024 920\n"),
        (
            "both readings of a clause",
            x_is_5().clause([at_most(&[1], 4)]),
            book_of_equal,
        ),
        ("two =", two_equal(), "refused 18 15 0\n"),
        ("open marks", open_marks, sheet_of_open),
    ];
    let mut group = Group::new("printed output");
    for (name, problem, expected) in cases {
        group.case(name, || {
            equal("printed", &expected.to_string(), &print(&problem.encode()))
        });
    }
    group.finish(sums);
}
