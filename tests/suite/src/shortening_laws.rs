//! What a book and its short one have to do with each other, by 02's (xi). Both implementations are
//! asked, and lent the same bytes.

use crate::buffers::{all, satisfiable, solve_filled, BOOK_LENGTH, LINE_LENGTH};
use crate::lines::{read, write, Line};
use crate::report::{demand, equal, Outcome};
use crate::solver::{naming, Solver, BOTH};
use questions::problem::Problem;
use reference::{Checked, Limit, Shortened, FIRST_EDITION, SECOND_EDITION};
use std::collections::BTreeSet;

/// What a call is to say of a book, by what the check says.
pub fn expected(edition: u64, room: usize, checked: Checked) -> Option<Shortened> {
    let refused = |number, place| Some(Shortened::Refused { number, place });
    match checked {
        _ if !(FIRST_EDITION..=SECOND_EDITION).contains(&edition) => refused(19, 0),
        _ if room < BOOK_LENGTH => refused(1, 0),
        Checked::Accepted => None,
        Checked::Fails(line) => Some(Shortened::Fails(line)),
        Checked::Refused { number, place } => refused(number, place),
    }
}

/// A target for each of the two, which are filled alike; what a refusal leaves is lent again.
pub struct Targets {
    before: Vec<u8>,
    after: [Vec<u8>; 2],
}

impl Targets {
    /// So many bytes that differ from place to place.
    pub fn new(room: usize, fill: u8) -> Targets {
        let byte = |i: usize| (i as u8).wrapping_mul(29) ^ (i >> 8) as u8 ^ fill;
        let before: Vec<u8> = (0..room).map(byte).collect();
        Targets {
            after: [before.clone(), before.clone()],
            before,
        }
    }

    /// What both say of a book. A book that the checks accept is shortened: every byte behind the short
    /// book is 0 to a full-size one's end, and those beyond are kept. Of any other is said what the
    /// check says, and then all bytes of the target are kept. Question and book are kept always.
    pub fn shorten(
        &mut self,
        edition: u64,
        question: &[u8],
        book: &[u8],
    ) -> Result<Shortened, String> {
        let said = self.compare(edition, question, book);
        if said.is_err() {
            self.restore();
        }
        said
    }

    fn compare(&mut self, edition: u64, question: &[u8], book: &[u8]) -> Result<Shortened, String> {
        let room = self.before.len();
        let [theirs, ours] = naming(edition, Limit::STANDARD);
        let [their_target, our_target] = &mut self.after;
        let said = theirs.shorten_book(question, book, their_target);
        let lent = (question.to_vec(), book.to_vec());
        equal(
            "said",
            &said,
            &ours.shorten_book(&lent.0, &lent.1, our_target),
        )?;
        demand(lent.0 == question, "the question altered")?;
        demand(lent.1 == book, "the book altered")?;
        demand(their_target == our_target, "the targets differ")?;
        let checked = ours.check_book(question, book);
        match (expected(edition, room, checked), said) {
            (None, Shortened::Lines(lines)) => {
                let most = book.len() / LINE_LENGTH;
                demand((1..=most).contains(&lines), "no line, or more than before")?;
                let rest = &our_target[lines * LINE_LENGTH..BOOK_LENGTH];
                demand(all(rest, 0), "an unused line not 0")?;
                let kept = our_target[BOOK_LENGTH..] == self.before[BOOK_LENGTH..];
                demand(kept, "a byte beyond altered")?;
            }
            (expected, said) => {
                equal("said, by the check", &expected, &Some(said))?;
                demand(*our_target == self.before, "a byte altered")?;
            }
        }
        Ok(said)
    }

    /// The short book, if that is what was said; the targets are then as they were before.
    pub fn short(&mut self, said: Shortened) -> Option<Vec<u8>> {
        match said {
            Shortened::Lines(lines) => {
                let short = self.after[1][..lines * LINE_LENGTH].to_vec();
                self.restore();
                Some(short)
            }
            _ => None,
        }
    }

    fn restore(&mut self) {
        for target in &mut self.after {
            target.copy_from_slice(&self.before);
        }
    }
}

/// The short book of one that is accepted in this edition, for which all laws are tested.
pub fn shortened(
    targets: &mut Targets,
    edition: u64,
    question: &[u8],
    book: &[u8],
) -> Result<Vec<u8>, String> {
    let said = targets.shorten(edition, question, book)?;
    let short = targets.short(said);
    let short = short.ok_or_else(|| format!("not accepted: {said:?}"))?;
    check_lines(&read(book), &read(&short))?;
    let said = targets.shorten(edition, question, &short)?;
    let again = targets
        .short(said)
        .ok_or("the short book is not accepted")?;
    demand(again == short, "shortened again it is another")?;
    check_reduced(targets, edition, question, &short)?;
    Ok(short)
}

/// The last line and those from which it descends, found the other way round: a line is one of them if the
/// last is among its children, theirs and so on.
pub fn descends(lines: &[Line]) -> Vec<usize> {
    let last = lines.len() - 1;
    let needed = |line: &usize| {
        let mut from = vec![false; lines.len()];
        from[*line] = true;
        for child in line + 1..lines.len() {
            let parents = lines[child].parents();
            from[child] = parents.map_or(false, |parents| parents.iter().any(|&i| from[i]));
        }
        from[last]
    };
    (0..lines.len()).filter(needed).collect()
}

/// The short book has the last line and those from which it descends, in order, each with its clause and
/// piece, or from the lines that stand where its parents went.
fn check_lines(book: &[Line], short: &[Line]) -> Outcome {
    let needed = descends(book);
    equal("lines", &needed.len(), &short.len())?;
    for (&before, line) in needed.iter().zip(short) {
        let from = |i: usize| needed.get(i).copied();
        let parents = line.parents().map(|parents| parents.map(from));
        let expected = book[before].parents();
        let same = expected.map(|parents| parents.map(Some));
        equal("parents", &same, &parents)?;
        let kept = match expected {
            Some(parents) => line.with_parents(parents) == book[before],
            None => *line == book[before],
        };
        demand(kept, &format!("line {before} is another"))?;
    }
    Ok(())
}

/// The question reduced to the clauses that a book loads, those of edition 2 written out, has no solution
/// either in edition 1: no verdict says that it can agree, and the book is one of it, once clauses and
/// links have its numbers.
fn check_reduced(targets: &mut Targets, edition: u64, question: &[u8], short: &[u8]) -> Outcome {
    let problem = Problem::decode(question);
    let problem = match edition {
        SECOND_EDITION => problem.with_shares(),
        _ => problem,
    };
    let lines = read(short);
    let loaded = lines.iter().filter(|line| line.how == 0);
    let loaded: BTreeSet<usize> = loaded.map(|line| usize::from(line.first)).collect();
    let clauses: Vec<usize> = loaded.into_iter().collect();
    let reduced = problem.reduced(&clauses).encode();
    match reference::read(&reduced) {
        // with the clauses written out there may be more than 256, or too many bytes
        Err(fault) if edition == SECOND_EDITION && matches!(fault.number, 3 | 7) => return Ok(()),
        Err(fault) => return Err(format!("the reduced question is refused, {fault:?}")),
        Ok(_) => (),
    }
    let solved = solve_filled(Solver::PROVED, &reduced);
    demand(
        satisfiable(&solved.answer) != Some(true),
        "the reduced question can agree",
    )?;
    let named = Named::new(&problem, &clauses);
    let renamed: Vec<Line> = lines.iter().map(|line| named.line(line)).collect();
    let renamed = write(&renamed);
    for solver in BOTH {
        let said = solver.check_book(&reduced, &renamed);
        equal("the short book, reduced", &Checked::Accepted, &said)?;
    }
    let said = targets.shorten(FIRST_EDITION, &reduced, &renamed)?;
    let again = targets.short(said);
    equal("shortened once more", &Some(renamed), &again)
}

/// Clauses and links by the numbers that they have in a reduced question.
struct Named<'a> {
    clauses: &'a [usize],
    /// By its number before, a mark's or link's number; a link of another clause has none.
    marks: Vec<Option<usize>>,
}

impl Named<'_> {
    fn new<'a>(problem: &Problem, clauses: &'a [usize]) -> Named<'a> {
        let mut marks: Vec<Option<usize>> = (0..usize::from(problem.booleans)).map(Some).collect();
        let mut next = marks.len();
        for (clause, count) in problem.links().into_iter().enumerate() {
            for _ in 0..count {
                let own = clauses.contains(&clause);
                marks.push(own.then_some(next));
                next += usize::from(own);
            }
        }
        Named { clauses, marks }
    }

    fn line(&self, line: &Line) -> Line {
        let set = |marks: u32| {
            let there = (0..32).filter(|i| marks >> i & 1 == 1);
            there.fold(0, |set, i| set | 1 << self.mark(i))
        };
        let mut line = line.clone().marks(set(line.positive), set(line.negative));
        match line.how {
            0 => {
                let place = |&clause: &usize| clause == usize::from(line.first);
                line.first = self
                    .clauses
                    .iter()
                    .position(place)
                    .map_or(u16::MAX, |i| i as u16);
            }
            2 => line.which = self.mark(usize::from(line.which)) as u8,
            _ => (),
        }
        line
    }

    /// 31 where it has none, which no book of so few links has.
    fn mark(&self, number: usize) -> usize {
        self.marks.get(number).copied().flatten().unwrap_or(31)
    }
}
