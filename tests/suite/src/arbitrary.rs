//! Arbitrary bytes and buffers of arbitrary length and content, in an arbitrary edition: no call panics,
//! with either limit of lines both solvers answer alike and leave the same bytes, all calls name the
//! same first fault of a question, and a fault leaves every lent byte as it was.

use crate::buffers::{book_length, SHEET_LENGTH};
use crate::report::{demand, equal, Group, Outcome, Sums};
use crate::solver::{both, naming, Solver};
use questions::random::Random;
use reference::{print, read, Answer, Checked, Fault, Limit, Part};

const CASES: usize = 6_000;
const SEED: u64 = 4;
/// How often each answer must come at least.
const OFTEN: usize = 200;

/// How often an edition that there is none of, a short book, a short sheet, two = in a clause, another
/// fault of the question and a course came.
type Tally = [usize; 6];

pub fn run(sums: &mut Sums) {
    let mut group = Group::new("arbitrary bytes");
    let mut random = Random::new(SEED);
    let mut tallies = [Tally::default(); 4];
    for number in 0..CASES {
        let question = question(&mut random);
        let (book, sheet) = lengths(&mut random);
        let book = bytes(&mut random, book);
        let sheet = bytes(&mut random, sheet);
        let named = edition(&mut random);
        let name = format!("number {number}");
        group.case(&name, || {
            let editions = [None, Some(named)];
            let calls = editions.into_iter().flat_map(|edition| {
                [Limit::STANDARD, Limit::PREVIEW].map(|limit| (edition, limit))
            });
            for ((edition, limit), tally) in calls.zip(&mut tallies) {
                let lent = (&question[..], &book[..], &sheet[..]);
                check_calls(edition, limit, lent, tally)?;
            }
            Ok(())
        });
    }
    group.case("each answer comes often", || {
        let [none, named] = [&tallies[..2], &tallies[2..]];
        let none = none.iter().flat_map(|tally| &tally[1..]);
        let often = none
            .chain(named.iter().flatten())
            .all(|&count| count >= OFTEN);
        demand(often, &format!("answers came {tallies:?} times"))
    });
    group.finish(sums);
}

/// Mostly one that there is; else near them, in more bytes, or any number.
fn edition(random: &mut Random) -> u64 {
    match random.between(0, 9) {
        0 => [0, 3, u64::MAX][random.between(0, 2) as usize],
        1 => random.between(1, 2) as u64 | 1 << random.between(8, 63),
        2 => random.word(),
        _ => random.between(1, 2) as u64,
    }
}

/// Lengths of a book and a sheet, mostly about the shortest that solving takes, or its preview.
fn lengths(random: &mut Random) -> (i64, i64) {
    match random.between(0, 4) {
        0 => (random.between(0, 70_000), random.between(0, 70)),
        1 => (random.between(16_381, 16_393), random.between(62, 72)),
        _ => (random.between(65_533, 65_545), random.between(62, 72)),
    }
}

fn bytes(random: &mut Random, length: i64) -> Vec<u8> {
    (0..length).map(|_| random.word() as u8).collect()
}

/// Random bytes, or a right question with some bytes changed and cut or lengthened at its end.
pub fn question(random: &mut Random) -> Vec<u8> {
    if random.once_in(4) {
        let length = random.between(0, 40);
        return bytes(random, length);
    }
    let problem = random.stated(Random::problem);
    let mut question = random.doubled(2, problem).encode();
    for _ in 0..random.between(0, 2) {
        let place = random.between(0, question.len() as i64 - 1) as usize;
        question[place] = random.word() as u8;
    }
    if random.once_in(3) {
        let length = random.between(0, question.len() as i64 + 1) as usize;
        question.resize(length, 0);
    }
    question
}

/// All that the calls say and leave.
#[derive(Debug, PartialEq)]
struct Said {
    answer: Answer,
    book: Vec<u8>,
    sheet: Vec<u8>,
    checked: [Checked; 2],
}

/// Question, book and sheet.
type Lent<'a> = (&'a [u8], &'a [u8], &'a [u8]);

/// By the calls with this limit of lines that name this edition, or by those that name none.
fn check_calls(edition: Option<u64>, limit: Limit, lent: Lent, tally: &mut Tally) -> Outcome {
    let solvers = match edition {
        Some(edition) => naming(edition, limit),
        None => both(limit),
    };
    let known = edition.map_or(true, |edition| (1..=2).contains(&edition));
    let faults = Faults {
        of_all: (!known).then_some(EDITION),
        of_buffers: of_buffers(limit, lent),
        of_question: read(lent.0).err(),
    };
    tally[match faults.of_solving().map(|fault| fault.number) {
        Some(19) => 0,
        Some(1) => 1,
        Some(2) => 2,
        Some(18) => 3,
        Some(_) => 4,
        None => 5,
    }] += 1;
    let [second, proved] = solvers.map(|solver| said(solver, lent, &faults));
    demand(second? == proved?, "the solvers differ")?;
    let question = lent.0;
    if let Some(Fault { number, place }) = faults.of_question {
        let printed = format!("refused {number} {place} 0\n");
        equal("printed", &printed, &print(question))?;
    }
    Ok(())
}

/// What one solver says and leaves, which a fault settles.
fn said(solver: Solver, (question, book, sheet): Lent, faults: &Faults) -> Result<Said, String> {
    let (mut book_after, mut sheet_after) = (book.to_vec(), sheet.to_vec());
    let answer = solver.solve(question, &mut book_after, &mut sheet_after);
    let part = solver.hand_back(&answer, &book_after, &sheet_after);
    if let Some(Fault { number, place }) = faults.of_solving() {
        let refused = Answer::Refused {
            number,
            place,
            pairs: 0,
        };
        equal("answer", &refused, &answer)?;
        demand(book == book_after, "the book altered")?;
        demand(sheet == sheet_after, "the sheet altered")?;
        equal("part", &Part::Book(&[]), &part)?;
    }
    let checked = [
        solver.check_book(question, book),
        solver.check_sheet(question, sheet),
    ];
    if let Some(Fault { number, place }) = faults.of_checks() {
        let refused = Checked::Refused { number, place };
        equal("checks", &[refused, refused], &checked)?;
    }
    Ok(Said {
        answer,
        book: book_after,
        sheet: sheet_after,
        checked,
    })
}

const EDITION: Fault = Fault {
    number: 19,
    place: 0,
};

/// The faults of the edition, of the buffers and of the question.
struct Faults {
    of_all: Option<Fault>,
    of_buffers: Option<Fault>,
    of_question: Option<Fault>,
}

impl Faults {
    /// The one that solving must name, and the one that the checks must, whatever they are to check.
    fn of_solving(&self) -> Option<Fault> {
        self.of_all.or(self.of_buffers).or(self.of_question)
    }

    fn of_checks(&self) -> Option<Fault> {
        self.of_all.or(self.of_question)
    }
}

fn of_buffers(limit: Limit, (_, book, sheet): Lent) -> Option<Fault> {
    let place = 0;
    if book.len() < book_length(limit) {
        return Some(Fault { number: 1, place });
    }
    (sheet.len() < SHEET_LENGTH).then_some(Fault { number: 2, place })
}
