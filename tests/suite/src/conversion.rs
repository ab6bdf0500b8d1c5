//! 02's (vi), a first-edition question carried over to the second and its sheets back: questions and
//! sheets by hand, every fault, numerators about their range, every two clauses of a few, and
//! conversions about their greatest length.

use crate::buffers::SHEET_LENGTH;
use crate::conversion_cases::{cases, Case};
use crate::conversion_laws::{add, carry_back, check_new, check_verdicts};
use crate::conversion_laws::{convert, converted, filled, sheet};
use crate::conversion_random;
use crate::report::{demand, equal, Group, Outcome, Sums};
use crate::solver::{Solver, BOTH};
use questions::conversion;
use questions::problem::{at_most, constraint, equal as equals, no, yes, Problem, Relation, Term};
use reference::{Carried, Converted};

const MOST: i32 = 1_000_000_000;

pub fn run(sums: &mut Sums) {
    for solver in BOTH {
        run_by_hand(solver, sums);
        run_refused(solver, sums);
        run_range(solver, sums);
    }
    run_pairs(sums);
    run_long(sums);
    conversion_random::run(sums);
}

/// The marks of a sheet: open ones are 2, and of the others every second is yes.
fn marks(problem: &Problem) -> Vec<u8> {
    let open = problem.open();
    let mark = |i: u8| match open >> i & 1 {
        1 => 2,
        _ => i % 2,
    };
    (0..problem.booleans).map(mark).collect()
}

fn run_by_hand(solver: Solver, sums: &mut Sums) {
    let mut group = solver.group("conversion: by hand");
    for case in cases() {
        group.case(case.name, || {
            let new = case.new.encode();
            demand(new == case.old.split().encode(), "split otherwise")?;
            check_rooms(solver, &case.old.encode(), &new)
        });
        for (i, (new, old)) in case.sheets.iter().enumerate() {
            group.case(&format!("{}, sheet {i}", case.name), || {
                check_case_sheet(solver, &case, new, old)
            });
        }
    }
    group.case("every length of both sheets", || every_length(solver));
    group.case("34 bytes become 42", || {
        let old = Problem::new(0, 2)
            .clause([at_most(&[1, 1], -5)])
            .clause([at_most(&[-1], 0)])
            .encode();
        equal("length before", &34, &old.len())?;
        let said = solver.convert(&old, &mut [0; 42]);
        equal("said", &Converted::Length(42), &said)
    });
    group.finish(sums);
}

/// With a target of every length up to two more than the new question's: 21 while it is too short, and no
/// byte altered; and no byte behind the result.
fn check_rooms(solver: Solver, question: &[u8], new: &[u8]) -> Outcome {
    for room in 0..=new.len() + 2 {
        check_room(solver, question, new, room)?;
    }
    Ok(())
}

fn check_room(solver: Solver, question: &[u8], new: &[u8], room: usize) -> Outcome {
    let before = filled(room, room as u8);
    let mut target = before.clone();
    let said = solver.convert(question, &mut target);
    if room < new.len() {
        equal("said", &not_converted(21, 0), &said)?;
        return demand(target == before, "a byte altered by 21");
    }
    equal("said", &Converted::Length(new.len()), &said)?;
    demand(target[..new.len()] == *new, "another new question")?;
    let kept = target[new.len()..] == before[new.len()..];
    demand(kept, "a byte past the result altered")
}

pub fn not_converted(number: u8, place: usize) -> Converted {
    Converted::Refused { number, place }
}

fn not_carried(number: u8, place: usize) -> Carried {
    Carried::Refused { number, place }
}

/// A sheet of the new question, with bytes behind its last numerator that are not read, and what it is
/// carried back to, over several denominators and with lengths about 64 of both.
fn check_case_sheet(solver: Solver, case: &Case, new: &[i32], old: &[i32]) -> Outcome {
    let question = case.old.encode();
    let marks = marks(&case.old);
    for denominator in [1, 6, 256, MOST] {
        let mut given = sheet(&marks, denominator, new);
        let read = 6 + marks.len() + 4 * new.len();
        given[read..].fill(0xee);
        given.extend([0xdd; 2]);
        let expected = sheet(&marks, denominator, old);
        for length in [0, 1, 63, 64, 66] {
            for room in [0, 1, 63, 64, 65, 70] {
                let before = filled(room, length as u8);
                let mut target = before.clone();
                let said = solver.carry_back(&question, &given[..length], &mut target);
                if length.min(room) < SHEET_LENGTH {
                    equal("said", &not_carried(2, 0), &said)?;
                    demand(target == before, "a byte altered by 2")?;
                } else {
                    equal("said", &Carried::Done, &said)?;
                    equal("sheet", &expected, &target[..SHEET_LENGTH].to_vec())?;
                    let kept = target[SHEET_LENGTH..] == before[SHEET_LENGTH..];
                    demand(kept, "a byte past the sheet altered")?;
                }
            }
        }
    }
    Ok(())
}

/// 2 where one of them is too short, whatever is on the sheet.
fn every_length(solver: Solver) -> Outcome {
    let question = Problem::new(0, 2).clause([at_most(&[-1], 0)]).encode();
    let right = sheet(&[], 4, &[2, 6, 8]);
    let slip = sheet(&[], 4, &[2, 6]);
    for (given, full) in [(right, Carried::Done), (slip, not_carried(17, 1))] {
        let longer = [&given[..], &[1, 2, 3]].concat();
        for length in 0..=longer.len() {
            for room in 0..=longer.len() {
                let expected = match length.min(room) < SHEET_LENGTH {
                    true => not_carried(2, 0),
                    false => full,
                };
                let before = filled(room, 3);
                let mut target = before.clone();
                let said = solver.carry_back(&question, &longer[..length], &mut target);
                equal(&format!("{length} and {room} bytes"), &expected, &said)?;
                let kept = said == Carried::Done || target == before;
                demand(kept, "a byte altered by a refusal")?;
            }
        }
    }
    Ok(())
}

/// Questions that both calls refuse, each with its number and place.
fn refused() -> Vec<(&'static str, Vec<u8>, u8, usize)> {
    let kept = |count: usize, rationals| {
        let problem = Problem::new(0, rationals);
        (0..count).fold(problem, |problem, figure| {
            let mut row = vec![0; figure + 1];
            row[figure] = -1;
            problem.clause([at_most(&row, 0)])
        })
    };
    let mut tail = kept(1, 1).encode();
    tail.push(0);
    let mut large = kept(1, 1).encode();
    large[7..11].copy_from_slice(&(-MOST - 1).to_le_bytes());
    let mut bound = kept(1, 1).encode();
    bound[11..15].copy_from_slice(&(MOST + 1).to_le_bytes());
    let eight: Vec<Term> = (0..8).map(|i| at_most(&[1], i)).collect();
    let mut links = kept(1, 1);
    links.clauses.extend(vec![eight; 3]);
    let twice = kept(1, 1).clause([equals(&[1], 1), equals(&[1], 2)]);
    // 17 links, and five figures that would be ten
    let mut links_of_five = Problem::new(0, 5);
    links_of_five.clauses = vec![(0..6).map(|i| at_most(&[1], i)).collect(); 4];
    vec![
        ("no byte", vec![], 4, 0),
        ("32,769 bytes", vec![0; 32_769], 3, 32_768),
        ("17 marks", vec![17, 9], 5, 0),
        ("9 figures", vec![0, 9, 0, 0], 6, 1),
        ("257 clauses", vec![0, 5, 1, 1], 7, 2),
        ("33 literals", vec![1, 5, 1, 0, 33], 8, 4),
        ("no such mark", vec![1, 5, 1, 0, 1, 1], 8, 5),
        ("9 conditions", vec![0, 5, 1, 0, 0, 9], 9, 5),
        ("relation 0", vec![0, 5, 1, 0, 0, 1, 0], 10, 6),
        ("relation 5", vec![0, 5, 1, 0, 0, 1, 5], 10, 6),
        ("-1,000,000,001 x <= 0", large, 11, 7),
        ("-x <= 1,000,000,001", bound, 11, 11),
        ("five figures, cut", vec![0, 5, 1, 0, 0, 1, 1, 0], 4, 8),
        ("a byte behind", tail, 12, 15),
        ("five figures, a byte behind", vec![0, 5, 0, 0, 0], 12, 4),
        // 7 links each, the third passes 16
        ("21 links", links.encode(), 13, 4 + 11 + 2 * 74),
        (
            "20 links, five figures",
            links_of_five.encode(),
            13,
            4 + 3 * 152,
        ),
        ("two =", twice.encode(), 18, 26),
        ("five figures", Problem::new(0, 5).encode(), 20, 0),
        ("eight figures", Problem::new(16, 8).encode(), 20, 0),
        ("one of five kept", kept(1, 5).encode(), 20, 0),
        ("three of six kept", kept(3, 6).encode(), 20, 0),
        ("seven of eight kept", kept(7, 8).encode(), 20, 0),
        ("five figures, long", long(5, 50_000), 20, 0),
    ]
}

/// The bytes of a question whose conversion has so many.
fn long(figures: u8, length: usize) -> Vec<u8> {
    conversion::long(figures, false, length).encode()
}

/// A fault of the question comes before 20, and 20 before 21, 2 and 17; with every buffer, none of which is
/// altered.
fn run_refused(solver: Solver, sums: &mut Sums) {
    let mut group = solver.group("conversion: refused questions");
    for (name, question, number, place) in refused() {
        group.case(name, || {
            for room in [0, 1, 63, 64, 65, 1_000, 32_768, 70_000] {
                let before = filled(room, 7);
                let mut target = before.clone();
                let said = solver.convert(&question, &mut target);
                equal("converting", &not_converted(number, place), &said)?;
                for length in [0, 63, 64, 65] {
                    let sheet = filled(length, 9);
                    let said = solver.carry_back(&question, &sheet, &mut target);
                    equal("carrying back", &not_carried(number, place), &said)?;
                }
                demand(target == before, "a byte altered")?;
            }
            Ok(())
        });
    }
    group.finish(sums);
}

/// Two halves and what they come to, or none beyond the range.
type Halves = (i32, i32, Option<i32>);
const HALVES: [Halves; 14] = [
    (MOST, 0, Some(MOST)),
    (0, MOST, Some(-MOST)),
    (MOST, MOST, Some(0)),
    (-MOST, -MOST, Some(0)),
    (-MOST, 0, Some(-MOST)),
    (0, -MOST, Some(MOST)),
    (500_000_000, -500_000_000, Some(MOST)),
    (-1, MOST - 1, Some(-MOST)),
    (MOST, -1, None),
    (-1, MOST, None),
    (-MOST, 1, None),
    (500_000_001, -500_000_000, None),
    (MOST, -MOST, None),
    (-MOST, MOST, None),
];

/// 22: halves of either sign that the sheet may have, at each figure, alone and before or behind another; the
/// first old figure that leaves the range is named, by its own number.
fn run_range(solver: Solver, sums: &mut Sums) {
    let mut group = solver.group("conversion: numerators at their range");
    // figure 1 of four is kept, or none is
    let none = Problem::new(2, 4).clause([yes(1)]);
    let one = none.clone().clause([at_most(&[0, -1], 0)]);
    for (kept, problem) in [(None, none), (Some(1), one)] {
        for first in (0..4).filter(|&figure| Some(figure) != kept) {
            for second in (0..4).filter(|&figure| Some(figure) != kept) {
                let name = format!("figures {first} and {second}, kept {kept:?}");
                group.case(&name, || {
                    for one in HALVES {
                        for other in HALVES {
                            let at = [(second, other), (first, one)];
                            check_range(solver, &problem, kept, &at)?;
                        }
                    }
                    Ok(())
                });
            }
        }
    }
    group.finish(sums);
}

/// The halves of some figures, the later ones of the list counting, and 3 and 1 for the others; the
/// kept figure is -10^9.
fn check_range(
    solver: Solver,
    problem: &Problem,
    kept: Option<usize>,
    at: &[(usize, Halves)],
) -> Outcome {
    let mut halves = [(3, 1, Some(2)); 4];
    for &(figure, pair) in at {
        halves[figure] = pair;
    }
    let (mut new, mut old) = (Vec::new(), Vec::new());
    for (figure, (first, second, numerator)) in halves.into_iter().enumerate() {
        if Some(figure) == kept {
            new.push(-MOST);
            old.push(Some(-MOST));
        } else {
            new.extend([first, second]);
            old.push(numerator);
        }
    }
    let given = sheet(&[2, 1], 7, &new);
    let before = filled(SHEET_LENGTH + 2, 5);
    let mut target = before.clone();
    let said = solver.carry_back(&problem.encode(), &given, &mut target);
    match old.iter().position(Option::is_none) {
        Some(figure) => {
            equal("said", &not_carried(22, figure), &said)?;
            demand(target == before, "a byte altered by 22")
        }
        None => {
            let old: Vec<i32> = old.into_iter().flatten().collect();
            let mut expected = sheet(&[2, 1], 7, &old);
            expected.extend(&before[SHEET_LENGTH..]);
            equal("said", &Carried::Done, &said)?;
            equal("target", &expected, &target)
        }
    }
}

/// Clauses of one mark and two figures: conditions that keep the first, the second or none, alone, beside
/// a mark and beside another condition.
fn clauses() -> Vec<Vec<Term>> {
    let relations = [
        Relation::AtMost,
        Relation::Below,
        Relation::Equal,
        Relation::AtLeast,
    ];
    let rows: [&[i32]; 6] = [&[-1], &[0, -1], &[1], &[-1, 1], &[-2], &[]];
    let mut clauses = Vec::new();
    for relation in relations {
        for row in rows {
            for bound in -1..=1 {
                clauses.push(vec![constraint(relation, row, bound)]);
            }
        }
    }
    let own = || at_most(&[-1], 0);
    clauses.push(vec![yes(0), own()]);
    clauses.push(vec![no(0), own()]);
    clauses.push(vec![yes(0), no(0), own()]);
    clauses.push(vec![own(), own()]);
    clauses.push(vec![own(), at_most(&[], -1)]);
    clauses.push(vec![at_most(&[], 0), own()]);
    clauses.push(vec![at_most(&[1, 1], -3)]);
    clauses
}

/// Every two of these clauses. How often came: no figure kept, the first, the second, both; and what
/// the verdicts and sheets showed.
fn run_pairs(sums: &mut Sums) {
    let mut group = Group::new("conversion: every two clauses of a few");
    let mut kept = [0; 4];
    let mut shown = [0; 5];
    for (i, first) in clauses().iter().enumerate() {
        for (j, second) in clauses().iter().enumerate() {
            let mut problem = Problem::new(1, 2);
            problem.clauses = vec![first.clone(), second.clone()];
            group.case(&format!("{i} and {j}"), || {
                let question = problem.encode();
                let new = converted(&question)?.map_err(|refused| format!("{refused:?}"))?;
                check_new(&question, &new)?;
                add(&mut shown, check_verdicts(&question, &new)?);
                let keeps = problem.kept();
                kept[usize::from(keeps[0]) + 2 * usize::from(keeps[1])] += 1;
                Ok(())
            });
        }
    }
    group.case("each comes often", || {
        let often = kept.iter().all(|&count| count >= 50);
        let [can, cannot, undecided, back, over] = shown;
        let shows = can >= 1_000 && cannot >= 300 && undecided == 0;
        demand(
            often && shows && back >= 1_000 && over >= 1_000,
            &format!("they came {kept:?} and {shown:?} times"),
        )
    });
    group.finish(sums);
}

/// Conversions about 32,768 bytes, and far beyond, with targets about their length and about that.
/// Carrying back asks for no length.
fn run_long(sums: &mut Sums) {
    let mut group = Group::new("conversion: long questions");
    let lengths = [
        32_000, 32_766, 32_767, 32_768, 32_769, 32_770, 33_000, 50_000,
    ];
    for length in lengths {
        for figures in [4, 3] {
            let problem = conversion::long(figures, false, length);
            let name = format!("{figures} figures, {length} bytes");
            group.case(&name, || check_long(&problem, length));
        }
    }
    for length in [32_000, 32_767, 32_768] {
        let problem = conversion::long(8, true, length);
        let name = format!("eight figures kept, {length} bytes");
        group.case(&name, || check_long(&problem, length));
    }
    group.finish(sums);
}

fn check_long(problem: &Problem, length: usize) -> Outcome {
    let question = problem.encode();
    let new = problem.split();
    demand(reference::read(&question).is_ok(), "a question at fault")?;
    equal("length", &length, &new.encode().len())?;
    let rooms = [
        0,
        64,
        length - 1,
        length,
        length + 1,
        32_767,
        32_768,
        32_769,
    ];
    for room in rooms.into_iter().chain([question.len(), 65_536]) {
        let (said, target) = convert(&question, room, room as u8)?;
        if length <= room.min(32_768) {
            equal("said", &Converted::Length(length), &said)?;
            demand(target[..length] == new.encode(), "another new question")?;
        } else {
            equal("said", &not_converted(21, 0), &said)?;
        }
    }
    if length <= 32_768 {
        check_new(&question, &new.encode())?;
    }
    let figures = usize::from(new.rationals);
    let halves: Vec<i32> = (1..=figures as i32).collect();
    let marks = marks(problem);
    let (said, back) = carry_back(&question, &sheet(&marks, 3, &halves), 64, 1)?;
    equal("said", &Carried::Done, &said)?;
    let old: Vec<i32> = match problem.kept().contains(&true) {
        true => halves,
        false => vec![-1; usize::from(problem.rationals)],
    };
    equal("sheet", &sheet(&marks, 3, &old), &back)
}
