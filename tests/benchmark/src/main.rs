//! Times the proved code beside the second solver, on the same questions and in the same run. It
//! prints, and judges nothing.

mod families;
mod solved;

use families::{FAMILIES, SEED};
use questions::batches::{natural, richer};
use questions::largest::{self, Kind};
use questions::problem::Problem;
use questions::random::Random;
use reference::{Answer, Order, Rules, Search};
use std::time::{Duration, Instant};

/// The best of so many rounds of about this time.
const ROUNDS: usize = 15;
const ROUND: Duration = Duration::from_millis(20);
/// The questions of a family.
const OF_FAMILY: u32 = 100;

fn main() {
    reading();
    checks();
    solving();
    families();
    equalities();
}

fn reading() {
    println!("reading the largest question (32,768 bytes), time of a call");
    for kind in [Kind::Dropped, Kind::Struck, Kind::Equal] {
        let question = largest::question(32_768, kind);
        compare(
            &format!("{kind:?}"),
            || {
                black_box(proved::read(black_box(&question)));
            },
            || {
                black_box(reference::read(black_box(&question))).ok();
            },
        );
    }
}

/// Books of 1,024 lines: pieces of the largest question, over and over; and the results of a
/// question with few clauses.
fn checks() {
    println!("checking a book of 65,536 bytes, time of a call");
    let question = largest::question(32_768, Kind::Struck);
    let mut book = vec![0; 65_536];
    let mut sheet = [0; 64];
    // In rising order, in which this question's course keeps its book.
    let rising = Rules {
        order: Order::Rising,
        ..Rules::TODAY
    };
    let answer = reference::solve_under(rising, &question, &mut book, &mut sheet);
    println!("pieces: solving in rising order says {answer:?}");
    repeat_lines(&mut book, 256);
    compare_books("pieces", &question, &book);
    let question = largest::run(None).encode();
    let answer = reference::solve(&question, &mut book, &mut sheet);
    println!("results: solving says {answer:?}");
    compare_books("results", &question, &book);
    println!("checking a sheet against the largest question, time of a call");
    let question = largest::question(32_768, Kind::Dropped);
    reference::solve(&question, &mut book, &mut sheet);
    compare(
        "sheet",
        || {
            black_box(proved::check_sheet(black_box(&question), black_box(&sheet)));
        },
        || {
            black_box(reference::check_sheet(
                black_box(&question),
                black_box(&sheet),
            ));
        },
    );
}

/// Solving: small, medium and large questions, the largest run known, one whose results nearly all
/// equal a line late in the book, and one with neighbouring Fibonacci coefficients.
fn solving() {
    println!("solving, time of a call");
    for (name, problem) in solved::questions() {
        let question = problem.encode();
        let (mut book, mut sheet) = (vec![0; 65_536], [0; 64]);
        let answer = proved::solve(&question, &mut book, &mut sheet);
        let pairs = match answer {
            Answer::Verdict { pairs, .. } | Answer::Refused { pairs, .. } => pairs,
        };
        println!("{name}: {answer:?}");
        let (mut other_book, mut other_sheet) = (book.clone(), sheet);
        let ours = compare(
            name,
            || {
                black_box(proved::solve(black_box(&question), &mut book, &mut sheet));
            },
            || {
                let (book, sheet) = (&mut other_book, &mut other_sheet);
                black_box(reference::solve(black_box(&question), book, sheet));
            },
        );
        let by_hash = best(1, &mut || {
            let (book, sheet) = (&mut other_book, &mut other_sheet);
            let question = black_box(&question);
            black_box(reference::solve_by(Search::Hashed, question, book, sheet));
        });
        let ratio = ours.as_secs_f64() / by_hash.as_secs_f64();
        println!("{name}: second solver with a hash {by_hash:?}, ratio {ratio:.2}");
        if pairs > 0 {
            println!(
                "{name}: {:.0} ns for each pair",
                ours.as_secs_f64() * 1e9 / pairs as f64
            );
        }
    }
}

/// Families of questions: how many are decided, the most lines of one that is, and the mean times.
fn families() {
    println!("solving {OF_FAMILY} questions of a family, mean time of a call");
    for (name, draw) in FAMILIES {
        let mut random = Random::new(SEED);
        let drawn = (0..OF_FAMILY).map(|_| draw(&mut random).encode());
        let family: Vec<Vec<u8>> = drawn.collect();
        let answers = solve_all(proved::solve, &family);
        let lines = answers.iter().filter_map(|answer| match answer {
            Answer::Verdict { lines, .. } => Some(lines),
            Answer::Refused { .. } => None,
        });
        let (decided, most) = (lines.clone().count(), lines.max().unwrap_or(&0));
        println!("{name}: {decided} decided, most lines {most}");
        let mean = |solve: Solve| timed(1, &mut || drop(solve_all(solve, &family))) / OF_FAMILY;
        report(name, mean(proved::solve), mean(reference::solve));
    }
}

/// Batches that state by two clauses each what is met exactly, and the same with an = for each two.
fn equalities() {
    println!("solving {OF_FAMILY} batches by two clauses and with =, mean time of a call");
    let batches: [(&str, fn(&mut Random) -> Problem); 3] = [
        ("natural batches of 2 x 4", |random| natural(random, 2, 4)),
        ("natural batches of 4 x 2", |random| natural(random, 4, 2)),
        ("richer batches", richer),
    ];
    for (name, draw) in batches {
        let mut random = Random::new(SEED);
        let drawn: Vec<Problem> = (0..OF_FAMILY).map(|_| draw(&mut random)).collect();
        let apart: Vec<Vec<u8>> = drawn.iter().map(Problem::encode).collect();
        let joined: Vec<Vec<u8>> = drawn.iter().map(|one| one.joined().encode()).collect();
        let answers = solve_all(proved::solve, &apart).into_iter();
        let pairs = answers.zip(solve_all(proved::solve, &joined));
        let same = pairs.filter(|(two, one)| two == one).count();
        let bytes = [&apart, &joined].map(|family| family.concat().len() / family.len());
        println!("{name}: {same} with the same answer, lines and pairs, mean bytes {bytes:?}");
        let (two, one) = in_turn(
            1,
            || drop(solve_all(proved::solve, &apart)),
            || drop(solve_all(proved::solve, &joined)),
        );
        let ratio = one.as_secs_f64() / two.as_secs_f64();
        let (two, one) = (two / OF_FAMILY, one / OF_FAMILY);
        println!("{name}: by two clauses {two:?}, with = {one:?}, ratio {ratio:.2}");
    }
}

type Solve = fn(&[u8], &mut [u8], &mut [u8]) -> Answer;

fn solve_all(solve: Solve, family: &[Vec<u8>]) -> Vec<Answer> {
    let (mut book, mut sheet) = (vec![0; 65_536], [0; 64]);
    let solve = |question: &Vec<u8>| solve(question, &mut book, &mut sheet);
    family.iter().map(solve).collect()
}

/// The first lines of a book, again and again up to its end.
fn repeat_lines(book: &mut [u8], lines: usize) {
    let used = book[..64 * lines].to_vec();
    for chunk in book.chunks_mut(used.len()) {
        chunk.copy_from_slice(&used[..chunk.len()]);
    }
}

fn compare_books(name: &str, question: &[u8], book: &[u8]) {
    println!(
        "{name}: the check says {:?}",
        proved::check_book(question, book)
    );
    compare(
        name,
        || {
            black_box(proved::check_book(black_box(question), black_box(book)));
        },
        || {
            black_box(reference::check_book(black_box(question), black_box(book)));
        },
    );
}

/// Both timed in turn and reported. Our best time.
fn compare(name: &str, mut proved: impl FnMut(), reference: impl FnMut()) -> Duration {
    let calls = calls(&mut proved);
    let (ours, theirs) = in_turn(calls, proved, reference);
    report(name, ours, theirs);
    ours
}

/// The best of all rounds of so many calls, both in turn, so that what slows the machine slows both.
fn in_turn(calls: u32, mut one: impl FnMut(), mut other: impl FnMut()) -> (Duration, Duration) {
    let mut best = (Duration::MAX, Duration::MAX);
    for _ in 0..ROUNDS {
        best.0 = best.0.min(timed(calls, &mut one));
        best.1 = best.1.min(timed(calls, &mut other));
    }
    best
}

fn report(name: &str, ours: Duration, theirs: Duration) {
    let ratio = ours.as_secs_f64() / theirs.as_secs_f64();
    println!("{name}: proved {ours:?}, second solver {theirs:?}, ratio {ratio:.2}");
}

/// The best of all rounds, of so many calls each.
fn best(calls: u32, call: &mut impl FnMut()) -> Duration {
    let rounds = (0..ROUNDS).map(|_| timed(calls, call));
    rounds.min().unwrap_or_default()
}

/// So many calls take about a round's time.
fn calls(call: &mut impl FnMut()) -> u32 {
    let one = timed(1, call).max(Duration::from_nanos(100));
    (ROUND.as_nanos() / one.as_nanos()).clamp(1, 1_000) as u32
}

fn timed(calls: u32, call: &mut impl FnMut()) -> Duration {
    let start = Instant::now();
    for _ in 0..calls {
        call();
    }
    start.elapsed() / calls
}

/// The value, as something that the compiler knows nothing of.
fn black_box<T>(value: T) -> T {
    let value = std::mem::ManuallyDrop::new(value);
    // SAFETY: the value is read once and is not dropped where it was.
    unsafe { std::ptr::read_volatile(&*value) }
}
