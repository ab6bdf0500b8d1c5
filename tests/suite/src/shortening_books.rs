//! Books with lines that their end does not need, for 02's (xi): right books with more lines, in other
//! orders and with other ends, and long ones of which any lines are needed.

use crate::lines::{result, Line};
use crate::shortening_laws::descends;
use questions::problem::{at_most, Problem};
use questions::random::Random;

/// A right book with up to so many more lines: loaded ones once more, also those that an edition
/// states, results that nobody needs, and lines that stand there already; in another order; from any of
/// the lines that state what a parent does; and at the end an empty line by any way.
pub fn lengthened(random: &mut Random, book: &[Line], shares: &[Line], more: i64) -> Vec<Line> {
    let mut lines = book.to_vec();
    for _ in 0..random.between(0, more) {
        let line = pick(random, lines.len());
        match random.between(0, 5) {
            0 if !shares.is_empty() => {
                let share = pick(random, shares.len());
                lines.push(shares[share].clone());
            }
            0 | 1 => {
                let loaded: Vec<&Line> = lines.iter().filter(|line| line.how == 0).collect();
                let again = loaded[pick(random, loaded.len())].clone();
                lines.push(again);
            }
            2 => lines.push(lines[line].clone()),
            _ => {
                let found = results(&lines, |line| !line.is_empty());
                if !found.is_empty() {
                    lines.push(found[pick(random, found.len())].clone());
                }
            }
        }
    }
    let mut lines = shuffled(random, &lines);
    scatter(random, &mut lines);
    let mut ends = results(&lines, Line::is_empty);
    let empty = lines.iter().filter(|line| line.is_empty());
    ends.extend(empty.cloned());
    // one in four ends with the last empty line that it has, and the others with what needs most of some
    match lines.iter().rposition(Line::is_empty) {
        Some(last) if random.once_in(4) => lines.truncate(last + 1),
        _ => {
            let drawn = (0..random.between(1, 6)).map(|_| pick(random, ends.len()));
            let needs = |&end: &usize| descends(&[&lines[..], &ends[end..=end]].concat()).len();
            let end = drawn.max_by_key(needs).unwrap_or_default();
            lines.push(ends[end].clone());
        }
    }
    lines
}

fn pick(random: &mut Random, count: usize) -> usize {
    random.between(0, count as i64 - 1) as usize
}

/// The results of all two lines by all figures and marks.
fn results(lines: &[Line], wanted: fn(&Line) -> bool) -> Vec<Line> {
    let mut found = Vec::new();
    for (first, upper) in lines.iter().enumerate() {
        let figures = (0..8).filter(|&i| upper.amounts[usize::from(i)] > 0);
        let marks = (0..32).filter(|i| upper.positive >> i & 1 == 1);
        let ways = figures.map(|i| (1, i)).chain(marks.map(|i| (2, i)));
        for (how, which) in ways {
            let pairs = (0..lines.len()).map(|second| [first, second]);
            let results = pairs.filter_map(|parents| result(how, which, lines, parents));
            found.extend(results.filter(wanted));
        }
    }
    found
}

/// The lines in another order, each behind its parents.
pub fn shuffled(random: &mut Random, lines: &[Line]) -> Vec<Line> {
    let mut places = vec![None; lines.len()];
    let mut order: Vec<Line> = Vec::new();
    while order.len() < lines.len() {
        let ready = |&i: &usize| {
            let parents = lines[i].parents().into_iter().flatten();
            places[i].is_none() && parents.into_iter().all(|parent| places[parent].is_some())
        };
        let ready: Vec<usize> = (0..lines.len()).filter(ready).collect();
        let next = ready[pick(random, ready.len())];
        places[next] = Some(order.len());
        let place = |parent: usize| places[parent].unwrap_or_default();
        let line = match lines[next].parents() {
            Some(parents) => lines[next].with_parents(parents.map(place)),
            None => lines[next].clone(),
        };
        order.push(line);
    }
    order
}

/// From any of the earlier lines that state what a parent does, one in two.
fn scatter(random: &mut Random, lines: &mut [Line]) {
    for i in 0..lines.len() {
        if let Some(parents) = lines[i].parents() {
            let other = parents.map(|parent| {
                let same = |&other: &usize| lines[other].states(&lines[parent]);
                let same: Vec<usize> = (0..i).filter(same).collect();
                match random.once_in(2) {
                    true => same[pick(random, same.len())],
                    false => parent,
                }
            });
            lines[i] = lines[i].with_parents(other);
        }
    }
}

/// Where the lines of a chain are found among its parents: as the first, or as the second.
#[derive(Clone, Copy, Debug)]
pub enum Side {
    First,
    Second,
}

/// The fewest lines of a chain.
pub const SHORTEST: usize = 7;

/// A question, and a book of it of so many lines, in which those at these places, at least seven and the
/// last among them, are needed: the clauses, and results that each come from the one before, as this
/// parent, and from a clause. All others repeat a clause.
///
/// x ≤ k; y ≤ x - 1; x ≤ y - 1; 0 ≤ x; 0 ≤ y. The results are y ≤ k - 1, x ≤ k - 2 and so on. Or with
/// all signs turned.
pub fn chain(side: Side, needed: &[usize]) -> (Problem, Vec<Line>) {
    let steps = (needed.len() - 6) as i32;
    let sign = match side {
        Side::First => 1,
        Side::Second => -1,
    };
    let rows: [(&[i32], i32); 5] = [
        (&[sign], steps),
        (&[-sign, sign], -1),
        (&[sign, -sign], -1),
        (&[-sign], 0),
        (&[0, -sign], 0),
    ];
    let mut problem = Problem::new(0, 2);
    problem.clauses = rows.map(|(row, bound)| vec![at_most(row, bound)]).to_vec();
    let clause = |clause: usize| {
        let (row, bound) = rows[clause];
        Line::loaded(clause as u16, 0).condition(1, row, bound)
    };
    // the last result but one is of x if the steps are odd, and so the clause that ends it
    let used = [0, 1, 2, 3 + (steps as usize + 1) % 2];
    let mut lines: Vec<Line> = Vec::new();
    for (k, &place) in needed.iter().enumerate() {
        while lines.len() < place {
            lines.push(clause(lines.len() % 5));
        }
        lines.push(match k {
            0..=3 => clause(used[k]),
            _ => {
                let before = if k == 4 { needed[0] } else { needed[k - 1] };
                let other = match k + 1 == needed.len() {
                    true => needed[3],
                    false => needed[1 + k % 2],
                };
                let parents = match side {
                    Side::First => [before, other],
                    Side::Second => [other, before],
                };
                let figure = (k % 2) as u8;
                match result(1, figure, &lines, parents) {
                    Some(line) => line,
                    None => unreachable!("line {k} of a chain"),
                }
            }
        });
    }
    (problem, lines)
}
