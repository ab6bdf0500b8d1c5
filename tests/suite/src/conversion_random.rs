//! 02's (vi) on random and arbitrary questions and sheets: both implementations say and leave the same,
//! and the laws between a question and its conversion hold. Every group demands that its cases came.

use crate::arbitrary;
use crate::buffers::SHEET_LENGTH;
use crate::conversion::not_converted;
use crate::conversion_laws::{add, carry_back, convert, converted, filled, sheet};
use crate::conversion_laws::{check_new, check_sheet, check_verdicts};
use crate::damage::for_each_change;
use crate::report::{demand, equal, Group, Outcome, Sums};
use crate::vectors;
use questions::conversion;
use questions::problem::{Problem, Term};
use questions::random::Random;
use reference::{Carried, Converted};

const SEED: u64 = 15;
const CASES: usize = 24_000;
const SHEETS: usize = 40_000;
const DAMAGED: usize = 200;
const ARBITRARY: usize = 30_000;
const MOST: i32 = 1_000_000_000;

pub fn run(sums: &mut Sums) {
    run_vectors(sums);
    run_random(sums);
    run_sheets(sums);
    run_damaged(sums);
    run_arbitrary(sums);
}

/// The questions of all vectors; those that are read without fault and are small enough have conversions
/// for which the laws hold.
fn run_vectors(sums: &mut Sums) {
    let mut group = Group::new("conversion: the vectors' questions");
    let mut came = [0; 2];
    let mut shown = [0; 5];
    for (number, question) in vectors::questions().iter().enumerate() {
        group.case(&format!("number {number}"), || {
            let question = question.as_ref()?;
            match converted(question)? {
                Ok(new) => {
                    check_new(question, &new)?;
                    add(&mut shown, check_verdicts(question, &new)?);
                    came[0] += 1;
                }
                Err(_) => came[1] += 1,
            }
            Ok(())
        });
    }
    group.case("each comes often", || {
        let often = came.iter().all(|&count| count >= 100) && shown[3].min(shown[4]) >= 100;
        demand(often, &format!("they came {came:?} and {shown:?} times"))
    });
    group.finish(sums);
}

/// What a random question showed: no figure kept, some, all; a literal or a second condition beside one that
/// would keep a figure; a new question of eight figures; 20; an old question of eight figures; a fault.
type Shown = [usize; 8];
const LEAST: Shown = [2_000, 2_000, 2_000, 2_000, 1_000, 500, 200, 100];
/// The same of what the verdicts and the sheets showed.
const LEAST_VERDICTS: [usize; 5] = [5_000, 5_000, 200, 5_000, 5_000];

/// Both convert alike, one in four with every target up to two bytes more than the new question; and the
/// laws hold.
fn run_random(sums: &mut Sums) {
    let mut group = Group::new("conversion: random questions");
    let mut random = Random::new(SEED);
    let mut shown = Shown::default();
    let mut verdicts = [0; 5];
    for number in 0..CASES {
        let problem = conversion::problem(&mut random);
        let problem = random.doubled(40, problem);
        group.case(&format!("number {number}"), || {
            let question = problem.encode();
            let new = converted(&question)?;
            add(&mut shown, show(&problem, &new));
            let new = match new {
                Ok(new) => new,
                Err(refused) => return check_refused(&problem, refused),
            };
            check_new(&question, &new)?;
            let first = match number % 4 {
                0 => 0,
                _ => new.len().saturating_sub(1),
            };
            for room in first..=new.len() + 2 {
                let (said, target) = convert(&question, room, number as u8)?;
                let expected = match room >= new.len() {
                    true => Converted::Length(new.len()),
                    false => not_converted(21, 0),
                };
                equal("said", &expected, &said)?;
                let same = room < new.len() || target[..new.len()] == new;
                demand(same, "another new question")?;
            }
            add(&mut verdicts, check_verdicts(&question, &new)?);
            Ok(())
        });
    }
    group.case("each comes often", || {
        let often = |came: &[usize], least: &[usize]| came.iter().zip(least).all(|(c, l)| c >= l);
        demand(
            often(&shown, &LEAST) && often(&verdicts, &LEAST_VERDICTS),
            &format!("they came {shown:?} and {verdicts:?} times"),
        )
    });
    let [.., back, over] = verdicts;
    println!("conversion: {back} sheets went back, and {over} over and back");
    group.finish(sums);
}

/// A question at fault, or one with more than eight figures in halves.
fn check_refused(problem: &Problem, refused: (u8, usize)) -> Outcome {
    let question = problem.encode();
    let expected = match reference::read(&question) {
        Err(fault) => (fault.number, fault.place),
        Ok(_) => (20, 0),
    };
    equal("refused", &expected, &refused)?;
    let many = problem.split().rationals > 8;
    demand(many || expected.0 != 20, "20 of eight figures or fewer")
}

fn show(problem: &Problem, new: &Result<Vec<u8>, (u8, usize)>) -> Shown {
    let kept = problem.kept();
    let all = !kept.is_empty() && kept.iter().all(|&kept| kept);
    let none = !kept.is_empty() && kept.iter().all(|&kept| !kept);
    let near = |clause: &Vec<Term>| clause.len() > 1 && clause.iter().any(keeps_alone);
    let figures = problem.split().rationals;
    let split = matches!(new, Err((20, 0)));
    [
        none && new.is_ok(),
        !all && !none && !kept.is_empty() && new.is_ok(),
        all && new.is_ok(),
        problem.clauses.iter().any(near),
        figures == 8 && new.is_ok(),
        split,
        problem.rationals == 8 && new.is_ok(),
        matches!(new, Err((3..=18, _))),
    ]
    .map(usize::from)
}

/// Whether a condition would keep a figure if it stood alone.
fn keeps_alone(term: &Term) -> bool {
    let mut problem = Problem::new(0, 8);
    problem.clauses = vec![vec![term.clone()]];
    problem.kept().contains(&true)
}

/// Sheets of random questions' conversions with figures about 0 or at their limits, some with bytes
/// changed, or of the old question. How often came: 17; 22; accepted in edition 2; in edition 1 alone;
/// a clause that fails.
fn run_sheets(sums: &mut Sums) {
    let mut group = Group::new("conversion: arbitrary sheets");
    let mut random = Random::new(SEED);
    let mut came = [0; 5];
    for number in 0..SHEETS {
        let problem = conversion::problem(&mut random);
        let question = problem.encode();
        let written = arbitrary_sheet(&mut random, &problem);
        group.case(&format!("number {number}"), || {
            if let Ok(new) = converted(&question)? {
                add(&mut came, check_sheet(&question, &new, &written)?);
            }
            Ok(())
        });
    }
    group.case("each comes often", || {
        let often = came.iter().all(|&count| count >= 500);
        demand(often, &format!("they came {came:?} times"))
    });
    group.finish(sums);
}

/// Sheets of random questions' conversions with each bit of each byte turned, and all of them. How often
/// came what `run_sheets` counts.
fn run_damaged(sums: &mut Sums) {
    let mut group = Group::new("conversion: damaged sheets");
    let mut random = Random::new(SEED);
    let mut came = [0; 5];
    for number in 0..DAMAGED {
        let problem = conversion::problem(&mut random);
        let question = problem.encode();
        let written = arbitrary_sheet(&mut random, &problem);
        group.case(&format!("number {number}"), || {
            let new = match converted(&question)? {
                Ok(new) => new,
                Err(_) => return Ok(()),
            };
            for_each_change(&written, |_, damaged| {
                add(&mut came, check_sheet(&question, &new, damaged)?);
                Ok(())
            })
        });
    }
    group.case("each comes often", || {
        let often = came.iter().all(|&count| count >= 1_000);
        demand(often, &format!("they came {came:?} times"))
    });
    group.finish(sums);
}

fn arbitrary_sheet(random: &mut Random, problem: &Problem) -> Vec<u8> {
    let figures = match random.once_in(8) {
        true => problem.rationals,
        false => problem.split().rationals,
    };
    let size = [1, 3, 10, MOST][random.between(0, 3) as usize];
    let least = [-size, 0][random.between(0, 1) as usize];
    let open = problem.open();
    let mut mark = |i: u8| match open >> i & 1 {
        1 => 2,
        _ => random.between(0, 1) as u8,
    };
    let marks: Vec<u8> = (0..problem.booleans).map(&mut mark).collect();
    let mut amount = || match size {
        MOST => [least, 0, 1, MOST - 1, MOST][random.between(0, 4) as usize],
        _ => random.between(i64::from(least), i64::from(size)) as i32,
    };
    let numerators: Vec<i32> = (0..figures.min(8)).map(|_| amount()).collect();
    let mut sheet = sheet(&marks, random.between(1, 3) as i32, &numerators);
    if random.once_in(4) {
        let place = random.between(0, SHEET_LENGTH as i64 - 1) as usize;
        sheet[place] = [0, 1, 2, 3, 128, 255][random.between(0, 5) as usize];
    }
    sheet
}

/// Arbitrary bytes as questions, and buffers of arbitrary lengths and content. How often came of converting: a
/// fault, 20, 21, a new question; of carrying back: a fault, 20, 2, 17, 22, a sheet.
fn run_arbitrary(sums: &mut Sums) {
    let mut group = Group::new("conversion: arbitrary bytes");
    let mut random = Random::new(SEED);
    let mut came = [0; 10];
    for number in 0..ARBITRARY {
        let question = arbitrary_question(&mut random);
        let room = random.between(0, 2 * question.len() as i64 + 8) as usize;
        let length = [0, 62, 63, 64, 64, 64, 65][random.between(0, 6) as usize];
        let to = [0, 63, 64, 64, 64, 65, 80][random.between(0, 6) as usize];
        let mut sheet = match reference::read(&question) {
            Ok(_) => arbitrary_sheet(&mut random, &Problem::decode(&question)),
            Err(_) => filled(SHEET_LENGTH, number as u8),
        };
        sheet.push(9);
        group.case(&format!("number {number}"), || {
            let (said, _) = convert(&question, room, number as u8)?;
            came[match said {
                Converted::Refused { number: 20, .. } => 1,
                Converted::Refused { number: 21, .. } => 2,
                Converted::Refused { .. } => 0,
                Converted::Length(_) => 3,
            }] += 1;
            let (said, _) = carry_back(&question, &sheet[..length], to, number as u8)?;
            came[match said {
                Carried::Refused { number: 20, .. } => 5,
                Carried::Refused { number: 2, .. } => 6,
                Carried::Refused { number: 17, .. } => 7,
                Carried::Refused { number: 22, .. } => 8,
                Carried::Refused { .. } => 4,
                Carried::Done => 9,
            }] += 1;
            Ok(())
        });
    }
    group.case("each comes often", || {
        let often = came.iter().all(|&count| count >= 100);
        demand(often, &format!("they came {came:?} times"))
    });
    group.finish(sums);
}

/// Random bytes, or a question with some bytes changed and cut or lengthened at its end.
fn arbitrary_question(random: &mut Random) -> Vec<u8> {
    if random.once_in(3) {
        return arbitrary::question(random);
    }
    let mut question = conversion::problem(random).encode();
    for _ in 0..random.between(0, 3).min(random.between(0, 3)) {
        let place = random.between(0, question.len() as i64 - 1) as usize;
        question[place] = match random.once_in(2) {
            true => random.word() as u8,
            false => random.between(0, 5) as u8,
        };
    }
    if random.once_in(8) {
        let length = random.between(0, question.len() as i64 + 1) as usize;
        question.resize(length, 0);
    }
    question
}
