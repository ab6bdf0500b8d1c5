//! 02's (v), shares that are never negative: questions with their answers in both editions, worked out by
//! hand, and the largest one; every two clauses of a few, random questions and arbitrary sheets in both;
//! and other editions, which are refused before anything else.

use crate::buffers::{judged, satisfiable, solve_filled, Solved, LINE_LENGTH, SHEET_LENGTH};
use crate::edition_cases::{cases, Case};
use crate::edition_largest::{self, largest};
use crate::edition_laws::{check_question, sheets_in_both};
use crate::examples::refused;
use crate::report::{demand, equal, Group, Outcome, Sums};
use crate::solver::{naming, Solver, BOTH, BOTH_IN_2, PREVIEWS_IN_2};
use crate::solving::compare_limits_by;
use questions::editions;
use questions::problem::{at_most, constraint, equal as equals, yes, Problem, Relation, Term};
use questions::random::Random;
use reference::{Answer, Checked, Limit, Verdict, FIRST_EDITION};

const SEED: u64 = 14;
const CASES: usize = 30_000;
const SHEETS: usize = 30_000;
const LIMITS: [Limit; 2] = [Limit::STANDARD, Limit::PREVIEW];

/// Editions that there are none of, among them some that are 1 or 2 in fewer bytes, or less a sign.
const OTHERS: [u64; 16] = [
    0,
    3,
    4,
    19,
    255,
    256,
    256 + 1,
    256 + 2,
    65_536 + 1,
    65_536 + 2,
    (1 << 32) + 1,
    (1 << 32) + 2,
    1 << 63,
    (1 << 63) + 2,
    u64::MAX - 1,
    u64::MAX,
];

pub fn run(sums: &mut Sums) {
    for solver in BOTH_IN_2.into_iter().chain(PREVIEWS_IN_2) {
        run_by_hand(solver, sums);
        edition_largest::run(solver, sums);
    }
    run_others(sums);
    run_pairs(sums);
    run_random(sums);
    run_sheets(sums);
}

fn run_by_hand(solver: Solver, sums: &mut Sums) {
    let mut group = solver.group("editions: by hand");
    let first = solver.naming(FIRST_EDITION);
    for case in cases() {
        group.case(case.name, || {
            let question = case.problem.encode();
            let in_1 = solve_filled(first, &question);
            in_1.expect(&case.in_1)?;
            in_1.check_buffers()?;
            let in_2 = solve_filled(solver, &question);
            in_2.expect(&case.in_2)?;
            in_2.check_buffers()?;
            check_loaded(&case, &in_2)?;
            check_figures(&case, &in_2)?;
            check_parts(solver, &question, &in_1, &in_2)
        });
    }
    group.finish(sums);
}

/// The lines that the edition's clauses gave, by their figures.
fn check_loaded(case: &Case, solved: &Solved) -> Outcome {
    let n = case.problem.clauses.len();
    let lines = solved.used().chunks_exact(LINE_LENGTH);
    let clause = |line: &[u8]| usize::from(u16::from_le_bytes([line[2], line[3]]));
    let own = lines.filter(|line| line[0] == 0 && clause(line) >= n);
    let own = own.map(|line| (clause(line) - n, line.to_vec()));
    let expected = case.loaded.iter().map(|&figure| {
        let mut line = vec![0; LINE_LENGTH];
        line[2..4].copy_from_slice(&((n + figure) as u16).to_le_bytes());
        line[6] = 1;
        line[16 + 4 * figure..20 + 4 * figure].fill(0xff);
        (figure, line)
    });
    let (own, expected): (Vec<_>, Vec<_>) = (own.collect(), expected.collect());
    equal("lines of the edition's clauses", &expected, &own)
}

/// The figures on the sheet, which are whole ones.
fn check_figures(case: &Case, solved: &Solved) -> Outcome {
    let figures = match &case.figures {
        Some(figures) => figures,
        None => return Ok(()),
    };
    let b = usize::from(case.problem.booleans);
    let amounts = solved.sheet()[2 + b..].chunks_exact(4);
    let amounts = amounts.map(|field| i32::from_le_bytes(std::array::from_fn(|i| field[i])));
    let written: Vec<i32> = amounts.take(1 + figures.len()).collect();
    equal("denominator", &1, &written[0])?;
    equal("figures", &figures.as_slice(), &&written[1..])
}

/// A book is accepted in its edition; that of edition 1 in 2, too, and that of edition 2 in 1 if it loads
/// no clause of the edition's. A sheet is accepted in its edition; that of edition 2 in 1, too, and that
/// of edition 1 in 2 if no figure is below 0.
fn check_parts(solver: Solver, question: &[u8], in_1: &Solved, in_2: &Solved) -> Outcome {
    let first = solver.naming(FIRST_EDITION);
    let problem = Problem::decode(question);
    for solved in [in_1, in_2] {
        match solved.answer {
            Answer::Verdict {
                verdict: Verdict::Cannot,
                ..
            } => {
                let n = problem.clauses.len();
                let mut lines = solved.used().chunks_exact(LINE_LENGTH);
                let own = |line: &[u8]| {
                    line[0] == 0 && usize::from(u16::from_le_bytes([line[2], line[3]])) >= n
                };
                let expected = match lines.position(own) {
                    Some(line) => Checked::Fails(line),
                    None => Checked::Accepted,
                };
                let said = first.check_book(question, solved.used());
                equal("book in edition 1", &expected, &said)?;
                let said = solver.check_book(question, solved.used());
                equal("book in edition 2", &Checked::Accepted, &said)?;
            }
            Answer::Verdict {
                verdict: Verdict::Agrees,
                ..
            } => {
                let said = first.check_sheet(question, solved.sheet());
                equal("sheet in edition 1", &Checked::Accepted, &said)?;
                let expected = judged(&solver.stated(&problem), solved.sheet())?;
                let said = solver.check_sheet(question, solved.sheet());
                equal("sheet in edition 2", &expected, &said)?;
            }
            _ => (),
        }
    }
    Ok(())
}

/// Whatever question and buffers are lent, another edition is refused, and no byte is altered.
fn run_others(sums: &mut Sums) {
    let mut group = Group::new("editions: others");
    let twice = Problem::new(0, 0).clause([equals(&[], 0), equals(&[], 0)]);
    let questions = [
        ("no byte", vec![]),
        ("17 marks", vec![17]),
        ("no clause", vec![0, 0, 0, 0]),
        (
            "x <= -1",
            Problem::new(0, 1).clause([at_most(&[1], -1)]).encode(),
        ),
        ("an empty clause", Problem::new(0, 0).clause([]).encode()),
        ("two =", twice.encode()),
        ("32,769 bytes", vec![0; 32_769]),
        ("the largest", largest().encode()),
    ];
    for edition in OTHERS {
        for (name, question) in &questions {
            group.case(&format!("{edition}, {name}"), || {
                LIMITS
                    .into_iter()
                    .flat_map(|limit| naming(edition, limit))
                    .try_for_each(|solver| check_other(solver, question))
            });
        }
    }
    group.finish(sums);
}

fn check_other(solver: Solver, question: &[u8]) -> Outcome {
    let checked = Checked::Refused {
        number: 19,
        place: 0,
    };
    for book in [0, 1, 63, 64, 16_383, 16_384, 65_535, 65_536, 65_537] {
        for sheet in [0, 63, 64, 65] {
            let (mut book, mut sheet) = (vec![0xab; book], vec![0xcd; sheet]);
            let answer = solver.solve(question, &mut book, &mut sheet);
            equal("solving", &refused(19, 0, 0), &answer)?;
            let kept =
                book.iter().all(|&byte| byte == 0xab) && sheet.iter().all(|&byte| byte == 0xcd);
            demand(kept, "a byte altered")?;
            let said = solver.check_sheet(question, &sheet);
            equal("check of a sheet", &checked, &said)?;
        }
        let said = solver.check_book(question, &vec![0; book]);
        equal("check of a book", &checked, &said)?;
    }
    Ok(())
}

/// A condition of one figure with each relation about 0, alone and beside a mark.
fn clauses() -> Vec<Vec<Term>> {
    let relations = [
        Relation::AtMost,
        Relation::Below,
        Relation::Equal,
        Relation::AtLeast,
    ];
    let mut clauses = Vec::new();
    for relation in relations {
        for coefficient in [1, -1] {
            for bound in -1..=1 {
                let condition = constraint(relation, &[coefficient], bound);
                clauses.push(vec![condition.clone()]);
                clauses.push(vec![yes(0), condition]);
            }
        }
    }
    clauses
}

/// Every two of these clauses. How often came: it can agree in both editions, in edition 1 alone, in
/// none.
fn run_pairs(sums: &mut Sums) {
    let mut group = Group::new("editions: every two clauses of a few");
    let mut came = [0; 3];
    for (i, first) in clauses().iter().enumerate() {
        for (j, second) in clauses().iter().enumerate() {
            let mut problem = Problem::new(1, 1);
            problem.clauses = vec![first.clone(), second.clone()];
            group.case(&format!("{i} and {j}"), || {
                let agree = [BOTH, BOTH_IN_2].map(|solvers| check_pair(solvers, &problem));
                let [in_1, in_2] = agree;
                came[2 - usize::from(in_1?) - usize::from(in_2?)] += 1;
                check_choices(&problem)
            });
        }
    }
    group.case("each comes often", || {
        let often = came.iter().all(|&count| count >= 100);
        demand(often, &format!("they came {came:?} times"))
    });
    group.finish(sums);
}

/// The choices of a grid: no condition tells two figures apart that lie between the same two of these
/// halves. A sheet has 2 for a mark that stands in neither clause.
fn choices(problem: &Problem) -> Vec<Vec<u8>> {
    let marks = match problem.open() {
        0 => 0..=1,
        _ => 2..=2,
    };
    let sheet = |mark: u8, half: i32| {
        let mut sheet = vec![1, mark, 1];
        sheet.extend(
            [2, half]
                .iter()
                .flat_map(|amount: &i32| amount.to_le_bytes()),
        );
        sheet.resize(SHEET_LENGTH, 0);
        sheet
    };
    let of_mark = |mark| (-4..=4).map(move |half| sheet(mark, half));
    marks.flat_map(of_mark).collect()
}

/// Both solvers answer alike, and it can agree exactly if a choice of the grid satisfies the question in
/// its edition, by the suite's own arithmetic.
fn check_pair(solvers: [Solver; 2], problem: &Problem) -> Result<bool, String> {
    let (solved, _) = compare_limits_by(solvers, &problem.encode(), 0xab)?;
    let stated = solvers[0].stated(problem);
    let mut agrees = false;
    for sheet in choices(problem) {
        agrees |= judged(&stated, &sheet)? == Checked::Accepted;
    }
    equal("can agree", &Some(agrees), &satisfiable(&solved.answer))?;
    Ok(agrees)
}

/// The checks of all these choices say in each edition what the suite's own arithmetic does.
fn check_choices(problem: &Problem) -> Outcome {
    let (question, stated) = (problem.encode(), problem.with_shares());
    for sheet in choices(problem) {
        let expected = [judged(problem, &sheet)?, judged(&stated, &sheet)?];
        equal("check", &expected, &sheets_in_both(&question, &sheet)?)?;
    }
    Ok(())
}

/// What a random question showed: agrees in both, with the same figures and with others; agrees in edition
/// 1 and cannot in 2; cannot in both; unwritten in edition 2; wide in it; a clause of the edition not
/// loaded; one loaded; one a parent.
type Shown = [usize; 9];
const LEAST: Shown = [2_000, 2_000, 1_000, 2_000, 20, 50, 2_000, 2_000, 2_000];

/// Both solvers answer alike in both editions, with both limits of lines.
fn run_random(sums: &mut Sums) {
    let mut group = Group::new("editions: random questions");
    let mut random = Random::new(SEED);
    let mut shown = Shown::default();
    for number in 0..CASES {
        let problem = editions::problem(&mut random);
        group.case(&format!("number {number}"), || {
            let question = problem.encode();
            let (in_2, _) = compare_limits_by(BOTH_IN_2, &question, number as u8)?;
            let (in_1, _) = compare_limits_by(BOTH, &question, number as u8)?;
            check_question(&question, number as u8)?;
            show(&problem, &in_1, &in_2, &mut shown);
            Ok(())
        });
    }
    group.case("each comes often", || {
        let often = shown.iter().zip(LEAST).all(|(&came, least)| came >= least);
        demand(often, &format!("they came {shown:?} times"))
    });
    group.finish(sums);
}

fn show(problem: &Problem, in_1: &Solved, in_2: &Solved, shown: &mut Shown) {
    let is = |solved: &Solved, wanted| matches!(solved.answer, Answer::Verdict { verdict, .. } if verdict == wanted);
    let both = |wanted| is(in_1, wanted) && is(in_2, wanted);
    let n = problem.clauses.len();
    let lines: Vec<&[u8]> = in_2.used().chunks_exact(LINE_LENGTH).collect();
    let number =
        |line: &[u8], place: usize| usize::from(u16::from_le_bytes([line[place], line[place + 1]]));
    let own = |line: &&[u8]| line[0] == 0 && number(line, 2) >= n;
    let loaded = lines.iter().filter(|line| own(line)).count();
    let of_own =
        |line: &&&[u8]| line[0] > 0 && [2, 4].iter().any(|&place| own(&lines[number(line, place)]));
    let came = [
        both(Verdict::Agrees) && in_1.sheet == in_2.sheet,
        both(Verdict::Agrees) && in_1.sheet != in_2.sheet,
        is(in_1, Verdict::Agrees) && is(in_2, Verdict::Cannot),
        both(Verdict::Cannot),
        is(in_2, Verdict::Unwritten),
        matches!(in_2.answer, Answer::Refused { number: 14, .. }),
        is(in_2, Verdict::Agrees) && loaded < usize::from(problem.rationals),
        loaded > 0,
        lines.iter().any(|line| of_own(&line)),
    ];
    for (count, came) in shown.iter_mut().zip(came) {
        *count += usize::from(came);
    }
}

/// Sheets of random figures about 0, by the suite's own arithmetic. How often came: accepted in both,
/// in edition 1 alone, and a clause of the question that fails.
fn run_sheets(sums: &mut Sums) {
    let mut group = Group::new("editions: arbitrary sheets");
    let mut random = Random::new(SEED);
    let mut came = [0; 3];
    for number in 0..SHEETS {
        let problem = editions::problem(&mut random);
        let sheet = sheet(&mut random, &problem);
        let question = problem.encode();
        if reference::read(&question).is_err() {
            continue;
        }
        group.case(&format!("number {number}"), || {
            let said = sheets_in_both(&question, &sheet)?;
            equal("in edition 1", &judged(&problem, &sheet)?, &said[0])?;
            let stated = problem.with_shares();
            equal("in edition 2", &judged(&stated, &sheet)?, &said[1])?;
            came[match said {
                [_, Checked::Accepted] => 0,
                [Checked::Accepted, _] => 1,
                _ => 2,
            }] += 1;
            Ok(())
        });
    }
    group.case("each comes often", || {
        let often = came.iter().all(|&count| count >= 1_000);
        demand(often, &format!("they came {came:?} times"))
    });
    group.finish(sums);
}

fn sheet(random: &mut Random, problem: &Problem) -> Vec<u8> {
    let mut sheet = vec![problem.booleans];
    for mark in 0..problem.booleans {
        sheet.push(match problem.open() >> mark & 1 {
            1 => 2,
            _ => random.between(0, 1) as u8,
        });
    }
    sheet.push(problem.rationals);
    sheet.extend((random.between(1, 3) as i32).to_le_bytes());
    let least = [-6, -1, 0][random.between(0, 2) as usize];
    for _ in 0..problem.rationals {
        sheet.extend((random.between(least, 6) as i32).to_le_bytes());
    }
    sheet.resize(SHEET_LENGTH, 0);
    sheet
}
