//! Batches and diamonds: the proved code and the second solver give the same answer and leave the
//! same bytes, a sheet satisfies its batch by the suite's own arithmetic, and the proved checks
//! accept what a verdict hands back. None of these batches is refused, as README says, and of the
//! natural and loose ones none by the preview. Edition 2 answers them alike.

use crate::buffers::{read_sheet, solve_filled, Solved, BOOK_LENGTH, SHEET_LENGTH};
use crate::edition_laws::check_question;
use crate::preview::is_full;
use crate::report::{demand, equal, Group, Outcome, Sums};
use crate::solver::{Solver, BOTH_IN_2};
use crate::solving::{compare_limits, compare_limits_by};
use questions::batches::{loose, natural, richer};
use questions::diamonds::{diamonds, Ways};
use questions::problem::{Problem, Term};
use questions::random::Random;
use reference::{Answer, Dropping, Order, Rules, Verdict};

/// That of the benchmark, which draws the same batches and more.
const SEED: u64 = 2;
/// The batches of a family, and how often each verdict must come at least.
const CASES: usize = 300;
const OFTEN: usize = 60;
/// So many are solved by earlier rules, too.
const BEFORE: usize = 30;
/// One in so many is solved with = and ≥, too, and in edition 2.
const STATED: usize = 3;

/// The rules of version 1.0, and those with 02's (vii) alone.
const EARLIER: [Rules; 2] = [
    Rules {
        order: Order::Rising,
        dropping: Dropping::Equal,
    },
    Rules {
        order: Order::Cheapest,
        dropping: Dropping::Equal,
    },
];

/// A family by its name, with the fewest that each of the earlier rules refuses.
type Family = (&'static str, fn(&mut Random) -> Problem, [usize; 2]);
const FAMILIES: [Family; 8] = [
    ("natural, 2 x 2", |random| natural(random, 2, 2), [0, 0]),
    ("natural, 2 x 3", |random| natural(random, 2, 3), [0, 0]),
    ("natural, 3 x 2", |random| natural(random, 3, 2), [0, 0]),
    ("natural, 2 x 4", |random| natural(random, 2, 4), [10, 0]),
    ("natural, 4 x 2", |random| natural(random, 4, 2), [10, 0]),
    (RICHER, richer, [10, 3]),
    ("loose, 2 x 4", |random| loose(random, 2, 4), [3, 0]),
    ("loose, 4 x 2", |random| loose(random, 4, 2), [3, 0]),
];
/// Of this family alone some fill the preview's book, and not all.
const RICHER: &str = "richer";

pub fn run(sums: &mut Sums) {
    for family in FAMILIES {
        run_family(family, sums);
    }
    run_diamonds(sums);
}

fn run_family((name, draw, fewest): Family, sums: &mut Sums) {
    let mut group = Group::new(format!("batches: {name}"));
    let mut random = Random::new(SEED);
    let (mut verdicts, mut refused, mut stated, mut full) = ([0; 2], [0; 2], 0, 0);
    for number in 0..CASES {
        let problem = draw(&mut random);
        group.case(&format!("number {number}"), || {
            let (agrees, fills) = decide(&problem)?;
            verdicts[usize::from(agrees)] += 1;
            full += usize::from(fills);
            let earlier = EARLIER.into_iter().zip(&mut refused);
            for (rules, refused) in earlier.filter(|_| number < BEFORE) {
                match decide_under(rules, &problem) {
                    Some(agreed) => equal("agreed", &agrees, &agreed)?,
                    None => *refused += 1,
                }
            }
            if number % STATED == 0 {
                stated += usize::from(decide_stated(&problem)?);
                decide_in_2(&problem, agrees)?;
            }
            Ok(())
        });
    }
    group.case("both verdicts come often", || {
        let often = verdicts.iter().all(|&count| count >= OFTEN);
        demand(often, &format!("they came {verdicts:?} times"))
    });
    group.case("full in the preview", || {
        let expected = if name == RICHER { 1..CASES } else { 0..1 };
        demand(expected.contains(&full), &format!("{full} are"))
    });
    group.case("most state an =", || {
        let most = 10 * stated > 8 * CASES / STATED;
        demand(most, &format!("{stated} do"))
    });
    group.case("earlier rules refuse some", || {
        let mut some = refused.iter().zip(fewest);
        let some = some.all(|(&count, fewest)| count >= fewest);
        demand(some, &format!("they refuse {refused:?}"))
    });
    group.finish(sums);
}

/// Whether a batch agrees, which must be decided, and whether it fills the preview's book.
fn decide(problem: &Problem) -> Result<(bool, bool), String> {
    let (solved, preview) = compare_limits(&problem.encode(), 0xab)?;
    let agrees = match solved.answer {
        Answer::Verdict {
            verdict: Verdict::Agrees,
            ..
        } => satisfies(problem, &solved).map(|()| true),
        Answer::Verdict {
            verdict: Verdict::Cannot,
            ..
        } => Ok(false),
        answer => Err(format!("undecided: {answer:?}")),
    };
    Ok((agrees?, is_full(&preview.answer)))
}

/// The batch with its charges and entries as =, and shares that are at least 0, is answered alike,
/// with the same sheet. Tells whether it has an =.
fn decide_stated(problem: &Problem) -> Result<bool, String> {
    let stated = problem.joined();
    demand(stated.apart() == *problem, "another batch")?;
    decide(&stated)?;
    let solve = |problem: &Problem| solve_filled(Solver::PROVED, &problem.encode());
    let (joined, written) = (solve(&stated), solve(problem));
    joined.expect(&written.answer)?;
    demand(joined.sheet() == written.sheet(), "the sheets differ")?;
    Ok(stated.clauses.iter().flatten().any(Term::is_equal))
}

/// The batch states that its shares are at least 0, so edition 2 adds nothing, and says and leaves the
/// same; without these clauses it adds them, and decides alike.
fn decide_in_2(problem: &Problem, agrees: bool) -> Outcome {
    let question = problem.encode();
    let [in_1, in_2] = check_question(&question, 0)?;
    in_2.expect(&in_1.answer)?;
    let alike = in_1.book == in_2.book && in_1.sheet == in_2.sheet;
    demand(alike, "edition 2 leaves other bytes")?;
    let fewer = problem.without_shares();
    let shares = problem.clauses.len() - fewer.clauses.len();
    equal("shares", &usize::from(problem.rationals), &shares)?;
    let (solved, _) = compare_limits_by(BOTH_IN_2, &fewer.encode(), 0xab)?;
    match solved.answer {
        Answer::Verdict { verdict, .. } => equal(
            "agrees in edition 2",
            &agrees,
            &(verdict == Verdict::Agrees),
        ),
        answer => Err(format!("undecided in edition 2: {answer:?}")),
    }
}

fn satisfies(problem: &Problem, solved: &Solved) -> Outcome {
    let model = read_sheet(problem, solved.sheet())
        .map_err(|place| format!("the sheet is bad at byte {place}"))?;
    equal("failing clause", &None, &model.first_failing(problem)?)
}

/// Whether a batch agrees by earlier rules, if they decide it.
fn decide_under(rules: Rules, problem: &Problem) -> Option<bool> {
    let (mut book, mut sheet) = ([0; BOOK_LENGTH], [0; SHEET_LENGTH]);
    match reference::solve_under(rules, &problem.encode(), &mut book, &mut sheet) {
        Answer::Verdict { verdict, .. } => Some(verdict != Verdict::Cannot),
        Answer::Refused { .. } => None,
    }
}

/// Of three ways five diamonds fit and six fill the book; of two ways all that there are figures for
/// fit, of four ways four. Where the last figure may be as much as it must, all fit.
fn run_diamonds(sums: &mut Sums) {
    let mut group = Group::new("diamonds");
    for (ways, fitting) in [(Ways::Two, 7), (Ways::Three, 5), (Ways::Four, 4)] {
        for count in 1..=7 {
            for (most, agrees) in [(i32::from(count) - 1, false), (i32::from(count), true)] {
                group.case(&format!("{count} of {ways:?} ways, {most}"), || {
                    let problem = diamonds(count, ways, most);
                    let fits = agrees || count <= fitting;
                    equal(
                        "agrees",
                        &fits.then_some(agrees),
                        &decide_or_full(&problem)?,
                    )
                });
            }
        }
    }
    for (count, ways, lines, pairs) in [(5, Ways::Three, 549, 15_053), (7, Ways::Two, 308, 5_627)] {
        group.case(&format!("lines of {count} of {ways:?} ways"), || {
            let most = i32::from(count) - 1;
            let question = diamonds(count, ways, most).encode();
            let (solved, _) = compare_limits(&question, 0xab)?;
            let verdict = Verdict::Cannot;
            solved.expect(&Answer::Verdict {
                verdict,
                lines,
                pairs,
            })
        });
    }
    group.finish(sums);
}

/// Whether a question agrees; none if it fills the book.
fn decide_or_full(problem: &Problem) -> Result<Option<bool>, String> {
    match compare_limits(&problem.encode(), 0xab)? {
        (large, _) if is_full(&large.answer) => Ok(None),
        _ => decide(problem).map(|(agrees, _)| Some(agrees)),
    }
}
