//! 02's (xi), short books: books by hand, every refusal in its order, long books of which any lines are
//! needed, and the books that solving writes for batches and diamonds.

use crate::buffers::{solve_filled, BOOK_LENGTH, LINE_LENGTH};
use crate::lines::{read, write, Line};
use crate::report::{demand, equal, Group, Outcome, Sums};
use crate::shortening_books::{chain, shuffled, Side, SHORTEST};
use crate::shortening_cases::{cases, Case};
use crate::shortening_laws::{shortened, Targets};
use crate::shortening_random;
use crate::solver::{naming, Solver, BOTH};
use questions::batches::{loose, natural, richer};
use questions::diamonds::{diamonds, Ways};
use questions::problem::{at_most, constraint, no, yes, Problem, Relation};
use questions::random::Random;
use reference::{Answer, Limit, Shortened, Verdict};

const SEED: u64 = 16;
/// The lengths of a target that are tried, and editions.
pub const ROOMS: [usize; 7] = [0, 1, 64, 65_535, 65_536, 65_537, 70_000];
pub const EDITIONS: [u64; 5] = [0, 1, 2, 3, u64::MAX];

pub fn run(sums: &mut Sums) {
    for solver in BOTH {
        run_by_hand(solver, sums);
        run_refused(solver, sums);
    }
    run_laws(sums);
    run_long(sums);
    run_solved(sums);
    shortening_random::run(sums);
}

fn run_by_hand(solver: Solver, sums: &mut Sums) {
    let mut group = solver.group("shortening: by hand");
    for case in cases() {
        group.case(case.name, || check_case(solver, &case));
    }
    group.finish(sums);
}

/// The short book with every length of a target, which has no other bytes altered.
fn check_case(solver: Solver, case: &Case) -> Outcome {
    let (question, book) = (case.problem.encode(), write(&case.book));
    let short = write(&case.short);
    for room in ROOMS {
        let mut target = vec![0xab; room];
        let said = solver
            .naming(case.edition)
            .shorten_book(&question, &book, &mut target);
        if room < BOOK_LENGTH {
            equal("said", &refused(1, 0), &said)?;
            demand(
                target.iter().all(|&byte| byte == 0xab),
                "a byte altered by 1",
            )?;
            continue;
        }
        equal("said", &Shortened::Lines(case.short.len()), &said)?;
        let (lines, beyond) = target.split_at(BOOK_LENGTH);
        let (lines, unused) = lines.split_at(short.len());
        equal("lines", &case.short, &read(lines))?;
        demand(lines == short, "another byte of a line")?;
        demand(unused.iter().all(|&byte| byte == 0), "an unused line not 0")?;
        demand(
            beyond.iter().all(|&byte| byte == 0xab),
            "a byte beyond altered",
        )?;
    }
    Ok(())
}

/// What holds between those books and their short ones, and of both implementations.
fn run_laws(sums: &mut Sums) {
    let mut group = Group::new("shortening: by hand, the laws");
    let mut targets = Targets::new(BOOK_LENGTH, 1);
    for case in cases() {
        let (question, book) = (case.problem.encode(), write(&case.book));
        for edition in case.edition..=2 {
            group.case(&format!("{}, edition {edition}", case.name), || {
                let short = shortened(&mut targets, edition, &question, &book)?;
                equal("lines", &case.short, &read(&short))
            });
        }
    }
    group.finish(sums);
}

fn refused(number: u8, place: usize) -> Shortened {
    Shortened::Refused { number, place }
}

/// A question or a book, and what is said of it where nothing before is refused.
type Part = (&'static str, Vec<u8>, Option<Shortened>);

/// x < 5; -x ≤ -5, and its book.
fn contradiction() -> (Problem, Vec<u8>) {
    let problem = Problem::new(0, 1)
        .clause([constraint(Relation::Below, &[1], 5)])
        .clause([at_most(&[-1], -5)]);
    let book = solve_filled(Solver::SECOND, &problem.encode());
    (problem, book.used().to_vec())
}

/// Questions with the fault that is named of each.
fn questions() -> Vec<Part> {
    let (fine, _) = contradiction();
    let fault = |number, place| Some(refused(number, place));
    let twice = Problem::new(0, 1).clause([
        constraint(Relation::Equal, &[1], 1),
        constraint(Relation::Equal, &[1], 2),
    ]);
    let links = (0..3).fold(Problem::new(0, 1), |mut problem, _| {
        problem
            .clauses
            .push((0..8).map(|i| at_most(&[1], i)).collect());
        problem
    });
    let with = |bytes: &[u8]| bytes.to_vec();
    vec![
        ("no fault", fine.encode(), None),
        ("long", vec![0; 32_769], fault(3, 32_768)),
        ("short", fine.encode()[..9].to_vec(), fault(4, 9)),
        ("no byte", vec![], fault(4, 0)),
        ("marks", with(&[17]), fault(5, 0)),
        ("figures", with(&[0, 9]), fault(6, 1)),
        ("clauses", with(&[0, 0, 1, 1]), fault(7, 2)),
        ("literal", with(&[1, 0, 1, 0, 1, 1]), fault(8, 5)),
        ("conditions", with(&[0, 0, 1, 0, 0, 9]), fault(9, 5)),
        ("relation", with(&[0, 0, 1, 0, 0, 1, 5]), fault(10, 6)),
        (
            "amount",
            with(&[0, 0, 1, 0, 0, 1, 1, 1, 202, 154, 59]),
            fault(11, 7),
        ),
        ("tail", [&fine.encode()[..], &[0]].concat(), fault(12, 26)),
        ("links", links.encode(), fault(13, 152)),
        ("double", twice.encode(), fault(18, 15)),
    ]
}

/// Books of that question without a fault.
fn books() -> Vec<Part> {
    let (_, book) = contradiction();
    let claim = |length| Some(refused(16, length));
    let changed = |place: usize, byte: u8| {
        let mut book = book.clone();
        book[place] = byte;
        book
    };
    let line = LINE_LENGTH;
    let long = [&book[..], &book[..line].repeat(1_022)].concat();
    vec![
        ("right", book.clone(), None),
        ("no byte", vec![], claim(0)),
        ("63 bytes", book[..63].to_vec(), claim(63)),
        ("65 bytes", book[..65].to_vec(), claim(65)),
        (
            "a byte short",
            book[..3 * line - 1].to_vec(),
            claim(3 * line - 1),
        ),
        (
            "a byte more",
            [&book[..], &[0]].concat(),
            claim(3 * line + 1),
        ),
        ("1,025 lines", long.clone(), claim(65_600)),
        ("65,535 bytes", long[..65_535].to_vec(), claim(65_535)),
        ("65,537 bytes", long[..65_537].to_vec(), claim(65_537)),
        (
            "1,024 lines, no end",
            long[..65_536].to_vec(),
            Some(Shortened::Fails(1_024)),
        ),
        (
            "no end",
            book[..2 * line].to_vec(),
            Some(Shortened::Fails(2)),
        ),
        (
            "line 0 alone",
            book[..line].to_vec(),
            Some(Shortened::Fails(1)),
        ),
        ("line 0", changed(16, 2), Some(Shortened::Fails(0))),
        (
            "line 1's clause",
            changed(line + 2, 0),
            Some(Shortened::Fails(1)),
        ),
        (
            "line 2's last byte",
            changed(3 * line - 1, 1),
            Some(Shortened::Fails(2)),
        ),
        (
            "line 2 from itself",
            changed(2 * line + 2, 2),
            Some(Shortened::Fails(2)),
        ),
        (
            "behind the end",
            [&book[..], &book[..line]].concat(),
            Some(Shortened::Fails(4)),
        ),
    ]
}

/// 19, then 1, then the question's faults, then 16, then what the check says: each before all behind it,
/// with no byte altered.
fn run_refused(solver: Solver, sums: &mut Sums) {
    let mut group = solver.group("shortening: refusals");
    for (question_name, question, fault) in questions() {
        for (book_name, book, failure) in books() {
            group.case(&format!("{question_name}, {book_name}"), || {
                for (edition, room) in EDITIONS
                    .into_iter()
                    .flat_map(|edition| ROOMS.map(|room| (edition, room)))
                {
                    let expected = match (edition, room) {
                        (0 | 3.., _) => Some(refused(19, 0)),
                        (_, 0..=65_535) => Some(refused(1, 0)),
                        _ => fault.or(failure),
                    };
                    let before: Vec<u8> = (0..room).map(|i| (i % 253) as u8).collect();
                    let mut target = before.clone();
                    let solver = solver.naming(edition);
                    let said = solver.shorten_book(&question, &book, &mut target);
                    let name = format!("edition {edition}, {room} bytes");
                    equal(&name, &expected.unwrap_or(Shortened::Lines(3)), &said)?;
                    let kept = expected.is_none() || target == before;
                    demand(kept, "a byte altered")?;
                }
                Ok(())
            });
        }
    }
    group.finish(sums);
}

/// Places in a book of so many lines, the last among them: all, or about those where a word or a byte of
/// a number ends, or at random.
fn places(random: &mut Random, count: usize, kind: usize) -> Vec<usize> {
    let last = count - 1;
    let about = |place: &usize| {
        [
            0, 31, 32, 33, 63, 64, 95, 96, 255, 256, 257, 511, 512, 1_022,
        ]
        .contains(place)
    };
    let mut places: Vec<usize> = match kind {
        0 => (0..count).collect(),
        1 => (0..count).filter(|place| place % 2 == 1).collect(),
        2 => (0..count).filter(about).collect(),
        3 => (0..count).filter(|place| !about(place)).collect(),
        4 => (0..count).filter(|place| place % 32 == 31).collect(),
        5 => (0..count).filter(|place| place % 32 == 0).collect(),
        6 => (count.saturating_sub(40)..count).collect(),
        7 => (0..count.min(40)).collect(),
        _ => {
            let times = [2, 3, 10, 50][random.between(0, 3) as usize];
            (0..count).filter(|_| random.once_in(times)).collect()
        }
    };
    places.retain(|&place| place != last);
    places.push(last);
    for place in 0..count {
        if places.len() < SHORTEST && !places.contains(&place) {
            places.push(place);
        }
    }
    places.sort_unstable();
    places
}

/// The lengths of long books: about every end of a word of 32 lines, and about both limits.
const LENGTHS: [usize; 20] = [
    7, 8, 31, 32, 33, 34, 63, 64, 65, 66, 97, 128, 255, 256, 257, 300, 512, 1_000, 1_023, 1_024,
];

/// Chains, of which the lines at these places are needed, on either side.
fn run_long(sums: &mut Sums) {
    let mut group = Group::new("shortening: long books");
    let mut random = Random::new(SEED);
    let mut targets = Targets::new(BOOK_LENGTH + 1, 7);
    for count in LENGTHS {
        for kind in 0..13 {
            for side in [Side::First, Side::Second] {
                let needed = places(&mut random, count, kind);
                let (problem, lines) = chain(side, &needed);
                group.case(&format!("{count} lines, places {kind}, {side:?}"), || {
                    equal("lines", &count, &lines.len())?;
                    let short = shortened(&mut targets, 1, &problem.encode(), &write(&lines))?;
                    check_chain(&lines, &needed, &read(&short))
                });
            }
        }
    }
    for marks in [1, 5, 7, 8] {
        group.case(&format!("all choices of {marks} marks"), || {
            let question = choices(marks).encode();
            let solved = solve_filled(Solver::PROVED, &question);
            let lines = 2 * (1 << marks) - 1;
            equal("lines", &(lines * LINE_LENGTH), &solved.used().len())?;
            let short = shortened(&mut targets, 1, &question, solved.used())?;
            demand(short == solved.used(), "a line of these is left out")?;
            let order = shuffled(&mut random, &read(solved.used()));
            let short = shortened(&mut targets, 2, &question, &write(&order))?;
            demand(
                short == write(&order),
                "in another order, a line is left out",
            )
        });
    }
    group.finish(sums);
}

/// The lines at these places, each result from the one before it that is left.
fn check_chain(lines: &[Line], needed: &[usize], short: &[Line]) -> Outcome {
    equal("lines", &needed.len(), &short.len())?;
    for (k, (&place, line)) in needed.iter().zip(short).enumerate() {
        let same = lines[place].states(line) && lines[place].how == line.how;
        demand(same, &format!("line {k} is not line {place}"))?;
        let before = match k {
            0..=3 => continue,
            4 => 0,
            k => k - 1,
        };
        let parents = line.parents().unwrap_or_default();
        demand(
            parents.contains(&before),
            &format!("line {k} is from {parents:?}"),
        )?;
    }
    Ok(())
}

/// A clause for each choice of so many marks, which fails for that alone: every line is needed.
fn choices(marks: u8) -> Problem {
    let mut problem = Problem::new(marks, 0);
    for choice in 0..1u32 << marks {
        let literal = |mark: u8| match choice >> mark & 1 {
            0 => yes(mark),
            _ => no(mark),
        };
        problem.clauses.push((0..marks).map(literal).collect());
    }
    problem
}

/// A family of batches by its name.
type Family = (&'static str, fn(&mut Random) -> Problem);
const FAMILIES: [Family; 5] = [
    ("natural, 2 x 3", |random| natural(random, 2, 3)),
    ("natural, 2 x 4", |random| natural(random, 2, 4)),
    ("natural, 4 x 2", |random| natural(random, 4, 2)),
    ("richer", richer),
    ("loose, 2 x 4", |random| loose(random, 2, 4)),
];
const BATCHES: usize = 24;

/// The books of batches and diamonds that cannot agree, of both editions and by both limits; those that
/// are shortened must lose lines often. The suite prints how many lines they had and have.
fn run_solved(sums: &mut Sums) {
    let mut group = Group::new("shortening: batches and diamonds");
    let mut targets = Targets::new(BOOK_LENGTH, 0x33);
    let mut tally = Tally::default();
    for (name, draw) in FAMILIES {
        let mut random = Random::new(SEED);
        for number in 0..BATCHES {
            let problem = draw(&mut random);
            let problem = match number % 3 {
                0 => problem.joined(),
                _ => problem,
            };
            group.case(&format!("{name} {number}"), || {
                tally.add(&mut targets, &problem)
            });
        }
    }
    for (count, ways) in [
        (3, Ways::Two),
        (7, Ways::Two),
        (4, Ways::Three),
        (5, Ways::Three),
        (3, Ways::Four),
    ] {
        group.case(&format!("{count} diamonds, {ways:?}"), || {
            let most = i32::from(count) - 1;
            tally.add(&mut targets, &diamonds(count, ways, most))
        });
    }
    group.case("each comes often", || tally.demand_often());
    println!(
        "shortening: {} books of batches and diamonds, {} lines before and {} after",
        tally.books, tally.before, tally.after
    );
    group.finish(sums);
}

/// The books that came, their lines before and after, and how many lost some, how many had over 256.
#[derive(Default)]
struct Tally {
    books: usize,
    before: usize,
    after: usize,
    lost: usize,
    long: usize,
}

impl Tally {
    fn add(&mut self, targets: &mut Targets, problem: &Problem) -> Outcome {
        let question = problem.encode();
        for edition in [1, 2] {
            for limit in [Limit::STANDARD, Limit::PREVIEW] {
                let [_, proved] = naming(edition, limit);
                let solved = solve_filled(proved, &question);
                let cannot = Verdict::Cannot;
                if !matches!(solved.answer, Answer::Verdict { verdict, .. } if verdict == cannot) {
                    continue;
                }
                let book = solved.used();
                let short = shortened(targets, edition, &question, book)?;
                let [before, after] = [book, &short].map(|book| book.len() / LINE_LENGTH);
                self.books += 1;
                self.before += before;
                self.after += after;
                self.lost += usize::from(after < before);
                self.long += usize::from(before > 256);
            }
        }
        Ok(())
    }

    fn demand_often(&self) -> Outcome {
        let often = self.books >= 200 && self.lost >= 200 && self.long >= 4;
        let counts = [self.books, self.lost, self.long];
        demand(often, &format!("they came {counts:?} times"))
    }
}
