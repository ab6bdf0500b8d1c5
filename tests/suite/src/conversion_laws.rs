//! What a question and its conversion have to do with each other, by 02's (vi), and sheets with those
//! that they are carried back to. Both implementations are asked.

use crate::buffers::{read_sheet, satisfiable, solve_in, Solved, BOOK_LENGTH, SHEET_LENGTH};
use crate::report::{demand, equal, Outcome};
use crate::solver::{Solver, BOTH};
use proved::Reading;
use questions::problem::Problem;
use reference::{Answer, Carried, Checked, Converted, Verdict, FIRST_EDITION, SECOND_EDITION};

/// Bytes that differ from place to place.
pub fn filled(length: usize, fill: u8) -> Vec<u8> {
    (0..length)
        .map(|i| (i as u8).wrapping_mul(29) ^ fill)
        .collect()
}

/// What both say with a target of so many bytes, and what they leave there: the new question and then
/// the bytes as they were, or after a refusal all of them.
pub fn convert(question: &[u8], room: usize, fill: u8) -> Result<(Converted, Vec<u8>), String> {
    let before = filled(room, fill);
    let [(theirs, their_target), (ours, our_target)] = BOTH.map(|solver| {
        let mut target = before.clone();
        let said = solver.convert(question, &mut target);
        (said, target)
    });
    equal("converting", &theirs, &ours)?;
    demand(their_target == our_target, "the targets differ")?;
    let written = match ours {
        Converted::Length(length) => length,
        Converted::Refused { .. } => 0,
    };
    demand(written <= room, "longer than its target")?;
    let kept = our_target[written..] == before[written..];
    demand(kept, "a byte past the result altered")?;
    Ok((ours, our_target))
}

/// The new question, or the refusal with the largest target that may be asked for.
pub fn converted(question: &[u8]) -> Result<Result<Vec<u8>, (u8, usize)>, String> {
    let (said, mut target) = convert(question, 32_768, 0x5a)?;
    Ok(match said {
        Converted::Length(length) => {
            target.truncate(length);
            Ok(target)
        }
        Converted::Refused { number, place } => Err((number, place)),
    })
}

/// What both say of a sheet, with a target of so many bytes, and what they leave there: the old question's
/// sheet and then the bytes as they were, or after a refusal all of them.
pub fn carry_back(
    question: &[u8],
    sheet: &[u8],
    room: usize,
    fill: u8,
) -> Result<(Carried, Vec<u8>), String> {
    let before = filled(room, fill);
    let [(theirs, their_target), (ours, our_target)] = BOTH.map(|solver| {
        let mut target = before.clone();
        let said = solver.carry_back(question, sheet, &mut target);
        (said, target)
    });
    equal("carrying back", &theirs, &ours)?;
    demand(their_target == our_target, "the targets differ")?;
    let written = match ours {
        Carried::Done => SHEET_LENGTH,
        Carried::Refused { .. } => 0,
    };
    demand(written <= room, "longer than its target")?;
    let kept = our_target[written..] == before[written..];
    demand(kept, "a byte past the sheet altered")?;
    Ok((ours, our_target))
}

/// The old question's sheet, which carrying back must write.
pub fn carried(question: &[u8], sheet: &[u8]) -> Result<Vec<u8>, String> {
    let (said, mut target) = carry_back(question, sheet, SHEET_LENGTH + 3, 0xc3)?;
    equal("carrying back", &Carried::Done, &said)?;
    target.truncate(SHEET_LENGTH);
    Ok(target)
}

/// Adds what came to the sums.
pub fn add<const N: usize>(sums: &mut [usize; N], more: [usize; N]) {
    for (sum, more) in sums.iter_mut().zip(more) {
        *sum += more;
    }
}

/// A sheet of these marks and figures.
pub fn sheet(marks: &[u8], denominator: i32, numerators: &[i32]) -> Vec<u8> {
    let mut sheet = vec![marks.len() as u8];
    sheet.extend(marks);
    sheet.push(numerators.len() as u8);
    sheet.extend(denominator.to_le_bytes());
    sheet.extend(numerators.iter().flat_map(|amount| amount.to_le_bytes()));
    sheet.resize(SHEET_LENGTH, 0);
    sheet
}

/// The old question's sheet with max(x, 0) and max(-x, 0) for each figure that is split, if it is a
/// sheet of this question.
pub fn halves(old: &Problem, written: &[u8]) -> Option<Vec<u8>> {
    let model = read_sheet(old, written).ok()?;
    let mut numerators = Vec::new();
    for (numerator, kept) in model.numerators.into_iter().zip(old.kept()) {
        let numerator = numerator as i32;
        match kept {
            true => numerators.push(numerator),
            false => numerators.extend([numerator.max(0), (-numerator).max(0)]),
        }
    }
    let marks = &written[1..1 + usize::from(old.booleans)];
    Some(sheet(marks, model.denominator as i32, &numerators))
}

/// The new question is the old one with its figures split, by the suite's own reading; it is read without
/// fault, and has the same open marks. It converts again, to whatever both say alike.
pub fn check_new(question: &[u8], new: &[u8]) -> Outcome {
    let old = Problem::decode(question);
    let split = old.split();
    demand(split.encode() == new, "another new question")?;
    equal("open marks", &old.open(), &split.open())?;
    let expected = Reading::Sound {
        booleans: u64::from(split.booleans),
        rationals: u64::from(split.rationals),
        clauses: split.clauses.len() as u64,
    };
    equal("reading", &expected, &proved::read(new))?;
    demand(reference::read(new).is_ok(), "the new question has a fault")?;
    converted(new).map(|_| ())
}

fn solved(edition: u64, question: &[u8]) -> Solved {
    let (book, sheet) = (vec![0xab; BOOK_LENGTH], vec![0xcd; SHEET_LENGTH]);
    solve_in(Solver::PROVED.naming(edition), question, book, sheet)
}

fn agrees(solved: &Solved) -> bool {
    let agrees = Verdict::Agrees;
    matches!(solved.answer, Answer::Verdict { verdict, .. } if verdict == agrees)
}

/// The old question in edition 1 and the new one in edition 2 can both agree, or neither, where both are
/// decided. Their sheets are carried over and back. How often came: both can agree, both cannot, one is
/// not decided; a sheet of the new question that went back, one of the old that went over and back.
pub fn check_verdicts(question: &[u8], new: &[u8]) -> Result<[usize; 5], String> {
    let (in_1, in_2) = (solved(FIRST_EDITION, question), solved(SECOND_EDITION, new));
    let can = [&in_1, &in_2].map(|solved| satisfiable(&solved.answer));
    let mut came = [0; 5];
    match can {
        [Some(first), Some(second)] => {
            equal("can agree in edition 2", &first, &second)?;
            came[usize::from(!first)] += 1;
        }
        _ => came[2] += 1,
    }
    if agrees(&in_2) {
        check_back(question, new, in_2.sheet())?;
        came[3] += 1;
    }
    if agrees(&in_1) {
        let halves = halves(&Problem::decode(question), in_1.sheet()).ok_or("a slip")?;
        let back = check_back(question, new, &halves)?;
        demand(back == in_1.sheet(), "another sheet comes back")?;
        came[4] += 1;
    }
    Ok(came)
}

/// A sheet that the check accepts of the new question in edition 2 is carried back, to one that it
/// accepts of the old question in edition 1, and which has halves that are accepted, too.
fn check_back(question: &[u8], new: &[u8], sheet: &[u8]) -> Result<Vec<u8>, String> {
    let accepted = |question, edition, sheet: &[u8]| {
        BOTH.into_iter().try_for_each(|solver| {
            let said = solver.naming(edition).check_sheet(question, sheet);
            equal("check", &Checked::Accepted, &said)
        })
    };
    accepted(new, SECOND_EDITION, sheet)?;
    let back = carried(question, sheet)?;
    accepted(question, FIRST_EDITION, &back)?;
    let halves = halves(&Problem::decode(question), &back).ok_or("a slip")?;
    accepted(new, SECOND_EDITION, &halves)?;
    Ok(back)
}

/// Whatever sheet is carried back: clause by clause it says of the new question what the sheet that comes
/// back says of the old one, and it satisfies the new one in edition 2 exactly if besides no figure of the
/// new question is below 0; then it is carried back. How often came: 17; 22; accepted in edition 2;
/// accepted in edition 1 alone; a clause that fails.
pub fn check_sheet(question: &[u8], new: &[u8], sheet: &[u8]) -> Result<[usize; 5], String> {
    let proved = Solver::PROVED;
    let in_1 = proved.naming(FIRST_EDITION).check_sheet(new, sheet);
    let in_2 = proved.naming(SECOND_EDITION).check_sheet(new, sheet);
    let (said, back) = carry_back(question, sheet, SHEET_LENGTH + 1, 0x3c)?;
    let mut came = [0; 5];
    match said {
        Carried::Refused { number: 17, place } => {
            equal("check", &Checked::Refused { number: 17, place }, &in_1)?;
            came[0] += 1;
        }
        Carried::Refused { number, place } => {
            equal("refusal", &22, &number)?;
            demand(in_2 != Checked::Accepted, "22 of an accepted sheet")?;
            let figures = usize::from(question[1]);
            demand(place < figures, "22 at no figure")?;
            came[1] += 1;
        }
        Carried::Done => {
            let old = proved.naming(FIRST_EDITION).check_sheet(question, &back);
            equal("check of the sheet that comes back", &in_1, &old)?;
            let problem = Problem::decode(new);
            let model = read_sheet(&problem, sheet).map_err(|_| "a slip is carried back")?;
            let shares = model.numerators.iter().all(|&numerator| numerator >= 0);
            let expected = old == Checked::Accepted && shares;
            equal(
                "accepted in edition 2",
                &expected,
                &(in_2 == Checked::Accepted),
            )?;
            came[match (old, shares) {
                (Checked::Accepted, true) => 2,
                (Checked::Accepted, false) => 3,
                _ => 4,
            }] += 1;
        }
    }
    Ok(came)
}
