//! A call of solve on lent buffers with known content, and what 01's "What each call says" has
//! in them afterwards; and the choices on a sheet.

use crate::report::{demand, equal, Outcome};
use crate::solver::Solver;
use questions::problem::{Assignment, Problem};
use reference::{Answer, Checked, Limit, Verdict};

pub const BOOK_LENGTH: usize = 65_536;
pub const PREVIEW_LENGTH: usize = 16_384;
pub const SHEET_LENGTH: usize = 64;
pub const LINE_LENGTH: usize = 64;

/// Bytes lent beyond what solving may touch.
const BEYOND: usize = 16;
const BOOK_FILL: u8 = 0xab;
const SHEET_FILL: u8 = 0xcd;

/// An answer, and both buffers after the call, which had this limit of lines.
pub struct Solved {
    pub limit: Limit,
    pub answer: Answer,
    pub book: Vec<u8>,
    pub sheet: Vec<u8>,
}

/// Solves with buffers filled beforehand and somewhat longer than any call needs.
pub fn solve_filled(solver: Solver, question: &[u8]) -> Solved {
    solve_lent(
        solver,
        question,
        BOOK_LENGTH + BEYOND,
        SHEET_LENGTH + BEYOND,
    )
}

/// The same with buffers of these lengths.
pub fn solve_lent(solver: Solver, question: &[u8], book: usize, sheet: usize) -> Solved {
    solve_in(
        solver,
        question,
        vec![BOOK_FILL; book],
        vec![SHEET_FILL; sheet],
    )
}

/// The same with these buffers.
pub fn solve_in(solver: Solver, question: &[u8], mut book: Vec<u8>, mut sheet: Vec<u8>) -> Solved {
    let answer = solver.solve(question, &mut book, &mut sheet);
    Solved {
        limit: solver.limit,
        answer,
        book,
        sheet,
    }
}

impl Solved {
    /// The lines in use after a verdict.
    pub fn used(&self) -> &[u8] {
        match self.answer {
            Answer::Verdict { lines, .. } => &self.book[..lines * LINE_LENGTH],
            Answer::Refused { .. } => &[],
        }
    }

    /// The sheet's own bytes.
    pub fn sheet(&self) -> &[u8] {
        &self.sheet[..SHEET_LENGTH]
    }

    /// Tests all that 01 says of buffers filled beforehand but the content of the used lines and of
    /// the sheet after "agrees".
    pub fn check_buffers(&self) -> Outcome {
        let (book, beyond_book) = split(&self.book, book_length(self.limit));
        let (sheet, beyond_sheet) = split(&self.sheet, SHEET_LENGTH);
        demand(all(beyond_book, BOOK_FILL), "bytes after the book altered")?;
        demand(
            all(beyond_sheet, SHEET_FILL),
            "bytes after the sheet altered",
        )?;
        match self.answer {
            Answer::Verdict { verdict, .. } => {
                demand(all(&book[self.used().len()..], 0), "an unused line not 0")?;
                let zero = verdict == Verdict::Agrees || all(sheet, 0);
                demand(zero, "the sheet not 0")
            }
            Answer::Refused { number, .. } => {
                demand(all(sheet, SHEET_FILL), "the sheet altered")?;
                let left = if ends_course(number) { 0 } else { BOOK_FILL };
                demand(all(book, left), "the book not as it should be left")
            }
        }
    }

    pub fn expect(&self, answer: &Answer) -> Outcome {
        equal("answer", answer, &self.answer)
    }
}

/// Whether the refusal ends a course: 14 and 15 have pairs and zero the book. All others come before
/// it, and alter no byte.
pub fn ends_course(number: u8) -> bool {
    matches!(number, 14 | 15)
}

/// What a verdict says of the question; a refusal says nothing.
pub fn satisfiable(answer: &Answer) -> Option<bool> {
    match answer {
        Answer::Verdict { verdict, .. } => Some(*verdict != Verdict::Cannot),
        Answer::Refused { .. } => None,
    }
}

/// The bytes of a full-size book with this limit of lines.
pub fn book_length(Limit(lines): Limit) -> usize {
    lines * LINE_LENGTH
}

/// The bytes that a call may touch, and those beyond; a short buffer has none beyond.
fn split(bytes: &[u8], length: usize) -> (&[u8], &[u8]) {
    bytes.split_at(length.min(bytes.len()))
}

pub fn all(bytes: &[u8], byte: u8) -> bool {
    bytes.iter().all(|&b| b == byte)
}

/// What is on a sheet: the marks that are yes, the open ones, and the figures.
pub struct Model {
    pub booleans: u32,
    pub open: u32,
    pub denominator: i64,
    pub numerators: Vec<i64>,
}

/// Reads a problem's sheet by 01's "The sheet" and 02's (iv), or gives the place of its first bad field.
pub fn read_sheet(problem: &Problem, sheet: &[u8]) -> Result<Model, usize> {
    let (b, r) = (
        usize::from(problem.booleans),
        usize::from(problem.rationals),
    );
    let field = |place: usize| {
        let bytes = std::array::from_fn(|i| sheet[place + i]);
        i64::from(i32::from_le_bytes(bytes))
    };
    let size = 1_000_000_000;
    let open = problem.open();
    let denominator = field(2 + b);
    let numerators: Vec<i64> = (0..r).map(|i| field(6 + b + 4 * i)).collect();

    let mut fields = vec![(0, sheet[0] == problem.booleans)];
    let allowed = |i: usize| match open >> i & 1 {
        1 => 2..=2,
        _ => 0..=1,
    };
    fields.extend((0..b).map(|i| (1 + i, allowed(i).contains(&sheet[1 + i]))));
    fields.push((1 + b, sheet[1 + b] == problem.rationals));
    fields.push((2 + b, (1..=size).contains(&denominator)));
    let fits = |i: usize| (-size..=size).contains(&numerators[i]);
    fields.extend((0..r).map(|i| (6 + b + 4 * i, fits(i))));
    if let Some((place, _)) = fields.iter().find(|(_, good)| !good) {
        return Err(*place);
    }
    let yes = |i: &usize| sheet[1 + i] == 1;
    Ok(Model {
        booleans: (0..b).filter(yes).map(|i| 1 << i).sum(),
        open,
        denominator,
        numerators,
    })
}

impl Model {
    /// The problem's first clause that fails; every choice of the open marks must have the same.
    pub fn first_failing(&self, problem: &Problem) -> Result<Option<usize>, String> {
        let failing = |chosen| {
            problem.first_failing(&Assignment {
                booleans: self.booleans | chosen,
                denominator: self.denominator,
                numerators: &self.numerators,
            })
        };
        let expected = failing(0);
        for chosen in subsets(self.open) {
            equal("an open mark chosen otherwise", &expected, &failing(chosen))?;
        }
        Ok(expected)
    }
}

/// What the check of a sheet must say, by the suite's own reading of it.
pub fn judged(problem: &Problem, sheet: &[u8]) -> Result<Checked, String> {
    let model = match read_sheet(problem, sheet) {
        Ok(model) => model,
        Err(place) => return Ok(Checked::Refused { number: 17, place }),
    };
    Ok(match model.first_failing(problem)? {
        Some(clause) => Checked::Fails(clause),
        None => Checked::Accepted,
    })
}

/// Every set of bits of this one, beginning with the empty one.
fn subsets(whole: u32) -> impl Iterator<Item = u32> {
    let next = move |&part: &u32| match part.wrapping_sub(whole) & whole {
        0 => None,
        next => Some(next),
    };
    std::iter::successors(Some(0), next)
}
