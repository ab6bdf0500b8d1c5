//! 02's (iv), open marks: a mark that stands in no clause as written is 2 on the sheet, whoever solved,
//! and its value makes no difference; the check demands 2 there, and 0 or 1 elsewhere. The cases by hand;
//! their sheets with every mark and other fields changed; and random questions, read back from their
//! bytes, of which all choices of the open marks are tried.

use crate::buffers::{judged, read_sheet, solve_filled, Solved, LINE_LENGTH, SHEET_LENGTH};
use crate::open_cases::cases;
use crate::report::{demand, equal, Group, Outcome, Sums};
use crate::solver::{Solver, BOTH, PREVIEWS};
use crate::{solving, vectors};
use questions::open;
use questions::problem::Problem;
use questions::random::Random;
use reference::{Answer, Checked, Verdict, SECOND_EDITION};

const SEED: u64 = 13;
const CASES: usize = 20_000;
const SHEETS: usize = 20_000;

pub fn run(sums: &mut Sums) {
    for solver in BOTH.into_iter().chain(PREVIEWS) {
        run_by_hand(solver, sums);
    }
    run_changed(sums);
    run_vectors(sums);
    run_random(sums);
    run_arbitrary(sums);
}

fn run_by_hand(solver: Solver, sums: &mut Sums) {
    let mut group = solver.group("open marks: by hand");
    for case in cases() {
        group.case(&case.name, || {
            let question = case.problem.encode();
            let solved = solve_filled(solver, &question);
            solved.expect(&case.answer)?;
            // after any other verdict the sheet is 0, and after a refusal kept
            solved.check_buffers()?;
            let marks = match &case.marks {
                Some(marks) => marks,
                None => return Ok(()),
            };
            let written = &solved.sheet()[..=marks.len()];
            equal("b", &case.problem.booleans, &written[0])?;
            equal("marks", &marks.as_slice(), &&written[1..])?;
            check_accepted(&question, &solved)
        });
    }
    group.finish(sums);
}

/// Both checks accept the sheet.
fn check_accepted(question: &[u8], solved: &Solved) -> Outcome {
    for solver in BOTH {
        let checked = solver.check_sheet(question, solved.sheet());
        equal("check", &Checked::Accepted, &checked)?;
    }
    Ok(())
}

/// Both checks say what the suite's own reading of the sheet does.
fn check_sheet(problem: &Problem, question: &[u8], sheet: &[u8]) -> Result<Checked, String> {
    let expected = judged(problem, sheet)?;
    for solver in BOTH {
        let checked = solver.check_sheet(question, sheet);
        equal("check", &expected, &checked).map_err(|text| format!("{text}, of {sheet:?}"))?;
    }
    Ok(expected)
}

/// The fields of a sheet apart from the marks, and a byte that is at fault there.
fn other_fields(problem: &Problem) -> Vec<(usize, u8)> {
    let b = usize::from(problem.booleans);
    let numerators = (0..usize::from(problem.rationals)).map(|i| (6 + b + 4 * i + 3, 0x7f));
    let counts = [(0, problem.booleans + 1), (1 + b, problem.rationals + 1)];
    let denominator = [(2 + b + 3, 0x7f)];
    let fields = counts.into_iter().chain(denominator);
    fields.chain(numerators).collect()
}

/// How often a changed sheet was accepted, named a clause, and was refused at a mark that is open, at
/// one that is not, and elsewhere.
type Tally = [usize; 5];

fn count(tally: &mut Tally, problem: &Problem, checked: Checked) {
    let open = problem.open();
    let kind = match checked {
        Checked::Accepted => 0,
        Checked::Fails(_) => 1,
        Checked::Refused { place, .. } => match place.checked_sub(1) {
            Some(mark) if mark < usize::from(problem.booleans) => 3 - (open >> mark & 1) as usize,
            _ => 4,
        },
    };
    tally[kind] += 1;
}

fn demand_all(group: &mut Group, tally: &Tally, least: &Tally) {
    group.case("each answer comes often", || {
        let often = tally.iter().zip(least).all(|(came, least)| came >= least);
        demand(often, &format!("answers came {tally:?} times"))
    });
}

fn run_changed(sums: &mut Sums) {
    let mut group = Group::new("open marks: each mark changed");
    let mut tally = Tally::default();
    for case in cases().filter(|case| case.marks.is_some()) {
        group.case(&case.name, || check_changed(&case.problem, &mut tally));
    }
    demand_all(&mut group, &tally, &[500, 50, 5_000, 1_000, 5_000]);
    group.finish(sums);
}

/// Every mark of a right sheet with each of these values, alone and beside another field at fault.
fn check_changed(problem: &Problem, tally: &mut Tally) -> Outcome {
    let question = problem.encode();
    let right = solve_filled(Solver::PROVED, &question);
    let accepted = check_sheet(problem, &question, right.sheet())?;
    equal("check", &Checked::Accepted, &accepted)?;
    for mark in 1..=usize::from(problem.booleans) {
        for value in [0, 1, 2, 3, 255] {
            let mut sheet = right.sheet().to_vec();
            sheet[mark] = value;
            count(tally, problem, check_sheet(problem, &question, &sheet)?);
            for (place, byte) in other_fields(problem) {
                let mut sheet = sheet.clone();
                sheet[place] = byte;
                count(tally, problem, check_sheet(problem, &question, &sheet)?);
            }
        }
    }
    Ok(())
}

/// The sheet has 2 exactly at the marks that no literal of the bytes names, it is accepted by both checks,
/// and with either value of each open mark every clause holds.
fn check_open(question: &[u8], solved: &Solved) -> Outcome {
    let problem = Problem::decode(question);
    demand(problem.encode() == question, "other bytes")?;
    let model = read_sheet(&problem, solved.sheet())
        .map_err(|place| format!("the sheet is bad at byte {place}"))?;
    equal("failing clause", &None, &model.first_failing(&problem)?)?;
    check_accepted(question, solved)
}

/// Every question of the vectors that agrees.
fn run_vectors(sums: &mut Sums) {
    let mut group = Group::new("open marks: the vectors' questions");
    let mut came = [0; 2];
    for (number, question) in vectors::questions().iter().enumerate() {
        group.case(&format!("number {number}"), || {
            let question = question.as_ref()?;
            let solved = solve_filled(Solver::PROVED, question);
            if is(&solved.answer, Verdict::Agrees) {
                check_open(question, &solved)?;
                let open = Problem::decode(question).open();
                came[usize::from(open > 0)] += 1;
            }
            Ok(())
        });
    }
    group.case("both come often", || {
        let often = came.iter().all(|&count| count >= 100);
        demand(often, &format!("without and with open marks: {came:?}"))
    });
    group.finish(sums);
}

fn is(answer: &Answer, wanted: Verdict) -> bool {
    matches!(answer, Answer::Verdict { verdict, .. } if *verdict == wanted)
}

/// What a random question showed: "agrees" with open marks alone, with some and others, with others
/// alone, with a mark that is not open and stands in no line; "cannot agree" and "unwritten" with an
/// open mark.
type Shown = [usize; 6];
const LEAST: Shown = [500, 2_000, 500, 500, 500, 20];

fn run_random(sums: &mut Sums) {
    let mut group = Group::new("open marks: random questions");
    let mut random = Random::new(SEED);
    let mut shown = Shown::default();
    let mut in_2 = 0;
    for number in 0..CASES {
        let problem = random.stated(open::problem);
        let other = renumbered(&mut random, &problem);
        group.case(&format!("number {number}"), || {
            let question = problem.encode();
            let (large, small) = solving::compare_limits(&question, number as u8)?;
            if is(&large.answer, Verdict::Agrees) {
                check_open(&question, &large)?;
                demand(large.sheet == small.sheet, "another sheet of the preview")?;
            }
            compare_renumbered(&problem, &large, &other)?;
            in_2 += usize::from(check_in_2(&question)?);
            show(&problem, &large, &mut shown);
            Ok(())
        });
    }
    group.case("each comes often", || {
        let often = shown.iter().zip(LEAST).all(|(&came, least)| came >= least);
        demand(often, &format!("they came {shown:?} times"))
    });
    group.case("in edition 2", || {
        demand(in_2 >= 2_000, &format!("open marks came {in_2} times"))
    });
    group.finish(sums);
}

/// In edition 2, whose clauses have no literal, the same marks are open; whether one is, on a sheet.
fn check_in_2(question: &[u8]) -> Result<bool, String> {
    let solved = solve_filled(Solver::PROVED.naming(SECOND_EDITION), question);
    let agrees = is(&solved.answer, Verdict::Agrees);
    if agrees {
        check_open(question, &solved)?;
    }
    Ok(agrees && Problem::decode(question).open() > 0)
}

fn show(problem: &Problem, solved: &Solved, shown: &mut Shown) {
    let (open, all) = (problem.open(), (1 << problem.booleans) - 1);
    let answer = &solved.answer;
    let agrees = is(answer, Verdict::Agrees);
    let came = [
        agrees && all > 0 && open == all,
        agrees && open > 0 && open < all,
        agrees && all > 0 && open == 0,
        agrees && all & !open & !in_lines(solved) > 0,
        open > 0 && is(answer, Verdict::Cannot),
        open > 0 && is(answer, Verdict::Unwritten),
    ];
    for (count, came) in shown.iter_mut().zip(came) {
        *count += usize::from(came);
    }
}

/// The marks and links of all lines of a book.
fn in_lines(solved: &Solved) -> u32 {
    let lines = solved.used().chunks_exact(LINE_LENGTH);
    lines.fold(0, |marks, line| {
        let word = |place: usize| u32::from_le_bytes(std::array::from_fn(|i| line[place + i]));
        marks | word(8) | word(12)
    })
}

/// The same question among other open marks: those that stand in a clause have other numbers, in the same
/// order, and there are fewer or more of the others.
fn renumbered(random: &mut Random, problem: &Problem) -> Problem {
    let standing = u32::from(problem.booleans) - problem.open().count_ones();
    let mut numbers: Vec<u8> = Vec::new();
    let mut booleans = 0;
    while numbers.len() < standing as usize {
        let left = standing as i64 - numbers.len() as i64;
        booleans += random.between(0, (16 - i64::from(booleans) - left).min(2)) as u8;
        numbers.push(booleans);
        booleans += 1;
    }
    booleans += random.between(0, (16 - i64::from(booleans)).min(3)) as u8;
    problem.renumbered(booleans, &numbers)
}

/// It is answered alike, and what is on the sheet is the same, but for the open marks.
fn compare_renumbered(problem: &Problem, solved: &Solved, other: &Problem) -> Outcome {
    let again = solve_filled(Solver::PROVED, &other.encode());
    again.expect(&solved.answer)?;
    if is(&solved.answer, Verdict::Agrees) {
        equal(
            "what is not open",
            &decided(problem, solved.sheet()),
            &decided(other, again.sheet()),
        )?;
    }
    Ok(())
}

/// The bytes of a sheet without b and the open marks; zeros behind the last numerator are left out.
fn decided(problem: &Problem, sheet: &[u8]) -> Vec<u8> {
    let b = usize::from(problem.booleans);
    let end = 6 + b + 4 * usize::from(problem.rationals);
    let marks = (0..b).filter(|mark| problem.open() >> mark & 1 == 0);
    let marks = marks.map(|mark| sheet[1 + mark]);
    marks.chain(sheet[1 + b..end].iter().copied()).collect()
}

fn run_arbitrary(sums: &mut Sums) {
    let mut group = Group::new("open marks: arbitrary sheets");
    let mut random = Random::new(SEED);
    let mut tally = Tally::default();
    for number in 0..SHEETS {
        let problem = random.stated(open::problem);
        let question = problem.encode();
        if reference::read(&question).is_err() {
            continue;
        }
        let sheet = sheet(&mut random, &problem);
        group.case(&format!("number {number}"), || {
            let said = check_sheet(&problem, &question, &sheet)?;
            count(&mut tally, &problem, said);
            Ok(())
        });
    }
    demand_all(&mut group, &tally, &[2_000, 2_000, 1_000, 1_000, 200]);
    group.finish(sums);
}

/// Bytes drawn for their fields, most of which may stand there; one sheet in ten has any bytes behind b.
fn sheet(random: &mut Random, problem: &Problem) -> Vec<u8> {
    let mut sheet = vec![problem.booleans];
    if random.once_in(10) {
        sheet.resize_with(SHEET_LENGTH, || random.word() as u8);
        return sheet;
    }
    for mark in 0..problem.booleans {
        let open = problem.open() >> mark & 1 == 1;
        sheet.push(match random.between(0, 19) {
            0 => random.word() as u8,
            1 => random.between(0, 3) as u8,
            _ if open => 2,
            _ => random.between(0, 1) as u8,
        });
    }
    sheet.push(problem.rationals);
    sheet.extend((random.between(1, 3) as i32).to_le_bytes());
    for _ in 0..problem.rationals {
        sheet.extend((random.between(-9, 9) as i32).to_le_bytes());
    }
    sheet.resize(SHEET_LENGTH, 0);
    if random.once_in(8) {
        let place = random.between(0, 24) as usize;
        sheet[place] = random.word() as u8;
    }
    sheet
}
