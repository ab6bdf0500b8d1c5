//! 02's (vi), a first-edition question carried over: a problem with two figures for each that no clause
//! keeps; random problems with clauses that keep a figure, or nearly do; and long ones.

use crate::problem::{at_most, constraint, no, yes, Problem, Relation, Term};
use crate::random::Random;

const MOST: i32 = 1_000_000_000;

impl Problem {
    /// Which figures some clause keeps.
    pub fn kept(&self) -> Vec<bool> {
        let figures = 0..usize::from(self.rationals);
        let keeps = |figure| self.clauses.iter().any(|clause| keeps(clause, figure));
        figures.map(keeps).collect()
    }

    /// The problem with two figures side by side for each that is not kept, the first minus the second.
    pub fn split(&self) -> Problem {
        let kept = self.kept();
        let both = kept.iter().filter(|&&kept| !kept).count();
        let split = |term: &Term| match term {
            Term::Literal { .. } => term.clone(),
            Term::Constraint {
                relation,
                coefficients,
                bound,
            } => {
                let mut row = Vec::new();
                for (figure, kept) in kept.iter().enumerate() {
                    let amount = coefficients.get(figure).copied().unwrap_or(0);
                    row.push(amount);
                    if !kept {
                        row.push(-amount);
                    }
                }
                constraint(*relation, &row, *bound)
            }
        };
        let clauses = self.clauses.iter();
        let clauses = clauses.map(|clause| clause.iter().map(split).collect());
        Problem {
            booleans: self.booleans,
            rationals: self.rationals + both as u8,
            clauses: clauses.collect(),
        }
    }
}

/// Whether a clause is one condition, -c·x ≤ or < a bound of at most 0, of this figure alone.
fn keeps(clause: &[Term], figure: usize) -> bool {
    match clause {
        [Term::Constraint {
            relation: Relation::AtMost | Relation::Below,
            coefficients,
            bound: i32::MIN..=0,
        }] => {
            let mut places = (0..coefficients.len()).filter(|&i| coefficients[i] != 0);
            let alone = places.next() == Some(figure) && places.next().is_none();
            alone && coefficients[figure] < 0
        }
        _ => false,
    }
}

/// At most three marks and mostly at most five figures. About each figure there may be a clause that
/// keeps it, or one that nearly does; the others are sums whose bounds lie about 0.
pub fn problem(random: &mut Random) -> Problem {
    let figures = match random.between(0, 5) {
        0 => random.between(5, 8),
        1 => 4,
        _ => random.between(0, 3),
    };
    let mut problem = Problem::new(random.between(0, 3) as u8, figures as u8);
    // of ten figures, so many are kept
    let often = match figures {
        0..=4 => [0, 4, 7, 10][random.between(0, 3) as usize],
        _ => [7, 9, 10][random.between(0, 2) as usize],
    };
    for figure in 0..figures as usize {
        if random.between(0, 9) < often {
            problem.clauses.push(keeping(random, figure));
        }
        if random.once_in(3) {
            let clause = nearly(random, &problem, figure);
            problem.clauses.push(clause);
        }
    }
    for _ in 0..random.between(0, 4) {
        let clause = sum(random, &problem);
        problem.clauses.push(clause);
    }
    shuffled(random, problem)
}

/// The same clauses in another order.
fn shuffled(random: &mut Random, mut problem: Problem) -> Problem {
    for i in (1..problem.clauses.len()).rev() {
        problem
            .clauses
            .swap(i, random.between(0, i as i64) as usize);
    }
    problem
}

/// The coefficients of this figure alone.
fn of_figure(figure: usize, amount: i32) -> Vec<i32> {
    let mut row = vec![0; figure + 1];
    row[figure] = amount;
    row
}

fn upper(random: &mut Random) -> Relation {
    match random.once_in(3) {
        true => Relation::Below,
        false => Relation::AtMost,
    }
}

/// A clause that keeps the figure.
fn keeping(random: &mut Random, figure: usize) -> Vec<Term> {
    let factor = [1, 1, 1, 2, 7, MOST][random.between(0, 5) as usize];
    let bound = [0, 0, 0, -1, -2, -MOST][random.between(0, 5) as usize];
    let row = of_figure(figure, -factor);
    vec![constraint(upper(random), &row, bound)]
}

/// A clause that keeps it but for one thing.
pub fn nearly(random: &mut Random, problem: &Problem, figure: usize) -> Vec<Term> {
    let mut row = of_figure(figure, -1);
    let mut bound = -random.between(0, 1) as i32;
    let mut relation = upper(random);
    let mut more = None;
    match random.between(0, 9) {
        0 => relation = Relation::Equal,
        1 => relation = Relation::AtLeast,
        2 => {
            relation = Relation::AtLeast;
            row[figure] = 1;
        }
        3 if problem.booleans > 0 => more = Some(literal(random, problem.booleans)),
        4 => more = Some(constraint(relation, &row, bound)),
        // a constant beside it, false or true
        5 => more = Some(at_most(&[], random.between(-1, 0) as i32)),
        6 => {
            row.resize(usize::from(problem.rationals), 0);
            let other = random.between(0, row.len() as i64 - 1) as usize;
            row[other] += [1, 2, -1][random.between(0, 2) as usize];
        }
        7 => bound = 1,
        8 => row[figure] = 0,
        _ => row[figure] = 1,
    }
    let mut clause = vec![constraint(relation, &row, bound)];
    clause.extend(more);
    if random.once_in(2) {
        clause.reverse();
    }
    clause
}

fn literal(random: &mut Random, booleans: u8) -> Term {
    let mark = random.between(0, i64::from(booleans) - 1) as u8;
    match random.once_in(2) {
        true => no(mark),
        false => yes(mark),
    }
}

/// A sum of few figures, now and then beside a mark or two, or a second condition; one amount in twenty is
/// large.
fn sum(random: &mut Random, problem: &Problem) -> Vec<Term> {
    let mut clause = Vec::new();
    if problem.booleans > 0 {
        for _ in 0..random.between(0, 2).min(random.between(0, 2)) {
            clause.push(literal(random, problem.booleans));
        }
    }
    for _ in 0..1 + i64::from(random.once_in(12)) {
        let mut amount = || match random.between(0, 19) {
            0 => random.between(-i64::from(MOST), i64::from(MOST)) as i32,
            1..=9 => 0,
            _ => random.between(-2, 2) as i32,
        };
        let row: Vec<i32> = (0..problem.rationals).map(|_| amount()).collect();
        let relation = match random.between(0, 7) {
            0 => Relation::Equal,
            1 => Relation::AtLeast,
            2 | 3 => Relation::Below,
            _ => Relation::AtMost,
        };
        let several = clause.iter().any(Term::is_equal);
        let relation = match relation {
            Relation::Equal if several => Relation::AtMost,
            relation => relation,
        };
        clause.push(constraint(relation, &row, random.between(-4, 4) as i32));
    }
    clause
}

/// A question of so many figures, all kept or none, whose conversion has so many bytes, which the literals
/// of clauses that tidying drops make up. Its amounts are of all sizes and both signs.
pub fn long(figures: u8, kept: bool, length: usize) -> Problem {
    let mut problem = Problem::new(16, figures);
    if kept {
        problem.clauses = (0..usize::from(figures))
            .map(|figure| vec![at_most(&of_figure(figure, -1), 0)])
            .collect();
    }
    let own = problem.clauses.len();
    let row = |i: i32| -> Vec<i32> {
        let amount = |f: i32| (i - 129) * 7_000_003 + f * 12_000_007;
        (0..i32::from(figures)).map(amount).collect()
    };
    let of_new = if kept { figures } else { 2 * figures };
    // as many conditions as leave room for a literal or more of each clause
    let condition = 5 + 4 * usize::from(of_new);
    let conditions = ((length / 256 - 6) / condition).min(8);
    for i in own as i32..256 {
        let mut clause = vec![yes(1), no(1)];
        for j in 0..conditions as i32 {
            let relation = [Relation::AtMost, Relation::Below, Relation::AtLeast][j as usize % 3];
            clause.push(constraint(relation, &row(i), j - i));
        }
        problem.clauses.push(clause);
    }
    let mut rest = length - problem.split().encode().len();
    for (i, clause) in problem.clauses.iter_mut().enumerate().skip(own) {
        let more = rest.min(30);
        clause.extend((0..more).map(|mark| yes(((i + mark) % 16) as u8)));
        rest -= more;
    }
    assert_eq!(rest, 0, "no question has a conversion of this length");
    problem
}
