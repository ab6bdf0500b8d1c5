//! Batches of a treasurer: entries of a bank statement that are to pay charges. A share is what one
//! entry gives to one charge. Figure i is share i, mark i says that the entry belongs to the charge,
//! and a share is 0 unless its mark is yes.

use crate::problem::{at_most, no, yes, Problem, Term};
use crate::random::Random;

type Clauses = Vec<Vec<Term>>;

/// A natural batch of so many entries and charges, with at most eight shares: every entry is used up
/// exactly, and every charge is covered exactly. In one batch of three the entries do not come to
/// what is due; in one of two, one share in four is ruled out.
pub fn natural(random: &mut Random, entries: usize, charges: usize) -> Problem {
    let shares = Shares::all(entries, charges);
    let mut clauses = shares.clauses();
    let dues = draw(random, charges);
    let due: i32 = dues.iter().sum();
    let off = match random.once_in(3) {
        true => random.between(1, 2_000) as i32,
        false => 0,
    };
    let paid = match random.once_in(2) {
        true => due + off,
        false => due - off,
    };
    let amounts = cut(paid, &draw(random, entries));
    for (entry, amount) in amounts.into_iter().enumerate() {
        clauses.extend(exactly(&shares.of_entry(entry), amount));
    }
    for (charge, due) in dues.into_iter().enumerate() {
        clauses.extend(exactly(&shares.of_charge(charge), due));
    }
    if random.once_in(2) {
        let ruled_out = (0..shares.count()).filter(|_| random.once_in(4));
        clauses.extend(ruled_out.map(|share| vec![no(share as u8)]));
    }
    shares.problem(0, clauses)
}

/// A richer batch: eight shares of three or four entries and three to five charges. A mark for each
/// charge says whether it is paid, whole or not at all, and at most one is left open; an entry serves
/// at most two charges. One entry in two is used up exactly, the others leave a rest. The amounts are
/// those of a payment that was made, but in one batch of two the entries have a third less.
pub fn richer(random: &mut Random) -> Problem {
    let entries = random.between(3, 4) as usize;
    let charges = random.between(3, 5) as usize;
    let shares = Shares::picked(random, entries, charges);
    let mut clauses = shares.clauses();
    let (amounts, dues) = shares.payment(random, entries, charges);
    for (entry, amount) in amounts.into_iter().enumerate() {
        clauses.extend(within(random, &shares.of_entry(entry), amount));
    }
    let paid = |charge: usize| (shares.count() + charge) as u8;
    for (charge, due) in dues.into_iter().enumerate() {
        let of_charge = shares.of_charge(charge);
        clauses.push(vec![no(paid(charge)), sum(&of_charge, -1, -due)]);
        clauses.push(vec![sum(&of_charge, 1, due)]);
        clauses.push(vec![yes(paid(charge)), sum(&of_charge, 1, 0)]);
    }
    for pair in choices(&(0..charges).collect::<Vec<_>>(), 2) {
        clauses.push(pair.into_iter().map(|charge| yes(paid(charge))).collect());
    }
    for entry in 0..entries {
        for three in choices(&shares.of_entry(entry), 3) {
            clauses.push(three.into_iter().map(|share| no(share as u8)).collect());
        }
    }
    shares.problem(charges, clauses)
}

/// A batch with at most eight shares: no entry gives more than it has, one in two all of it; every
/// charge is covered, one in two exactly. One entry in two belongs to one charge only, and one in
/// four says to which it does.
pub fn loose(random: &mut Random, entries: usize, charges: usize) -> Problem {
    let shares = Shares::all(entries, charges);
    let mut clauses = shares.clauses();
    for entry in 0..entries {
        clauses.extend(belonging(random, &shares.of_entry(entry)));
    }
    let (weights, dues) = (draw(random, entries), draw(random, charges));
    // in one batch of three what is due, in one more and in one less
    let due: i32 = dues.iter().sum();
    let paid = due + random.between(-1, 1) as i32 * random.between(1, 2_000) as i32;
    for (entry, amount) in cut(paid, &weights).into_iter().enumerate() {
        clauses.extend(within(random, &shares.of_entry(entry), amount));
    }
    for (charge, due) in dues.into_iter().enumerate() {
        let exactly = random.once_in(2);
        clauses.push(vec![sum(&shares.of_charge(charge), -1, -due)]);
        clauses.extend(exactly.then(|| vec![sum(&shares.of_charge(charge), 1, due)]));
    }
    shares.problem(0, clauses)
}

/// One entry in two belongs to one of its shares' charges only, and one in four says to which it does.
fn belonging(random: &mut Random, shares: &[usize]) -> Clauses {
    let mut clauses = Vec::new();
    if random.once_in(2) {
        for pair in choices(shares, 2) {
            clauses.push(pair.into_iter().map(|share| no(share as u8)).collect());
        }
    }
    if random.once_in(4) {
        let named = random.between(0, shares.len() as i64 - 1) as usize;
        clauses.push(vec![yes(shares[named] as u8)]);
    }
    clauses
}

/// The entry and the charge of each share.
struct Shares(Vec<(usize, usize)>);

impl Shares {
    /// Of every entry to every charge.
    fn all(entries: usize, charges: usize) -> Shares {
        let of = |entry| (0..charges).map(move |charge| (entry, charge));
        Shares((0..entries).flat_map(of).collect())
    }

    /// Eight of them, so that every entry and every charge has one.
    fn picked(random: &mut Random, entries: usize, charges: usize) -> Shares {
        loop {
            let Shares(mut pairs) = Shares::all(entries, charges);
            while pairs.len() > 8 {
                pairs.remove(random.between(0, pairs.len() as i64 - 1) as usize);
            }
            let shares = Shares(pairs);
            let has = |of: Vec<usize>| !of.is_empty();
            let entries_have = (0..entries).all(|entry| has(shares.of_entry(entry)));
            if entries_have && (0..charges).all(|charge| has(shares.of_charge(charge))) {
                return shares;
            }
        }
    }

    fn count(&self) -> usize {
        self.0.len()
    }

    fn of_entry(&self, entry: usize) -> Vec<usize> {
        (0..self.count())
            .filter(|&i| self.0[i].0 == entry)
            .collect()
    }

    fn of_charge(&self, charge: usize) -> Vec<usize> {
        (0..self.count())
            .filter(|&i| self.0[i].1 == charge)
            .collect()
    }

    /// No share is negative, and only a marked one is more than 0.
    fn clauses(&self) -> Clauses {
        let at_least_0 = (0..self.count()).map(|share| vec![sum(&[share], -1, 0)]);
        let marked = (0..self.count()).map(|share| vec![yes(share as u8), sum(&[share], 1, 0)]);
        at_least_0.chain(marked).collect()
    }

    /// What the entries have and what is due, by shares drawn at random, of which no entry has more
    /// than two. In one batch of two a charge is left open, and in one of two the entries have a third less.
    fn payment(&self, random: &mut Random, entries: usize, charges: usize) -> (Vec<i32>, Vec<i32>) {
        let (mut amounts, mut dues) = (vec![0; entries], vec![0; charges]);
        let mut served = vec![0; entries];
        let open = random.between(0, 2 * charges as i64 - 1) as usize;
        for &(entry, charge) in &self.0 {
            let share = 100 * random.between(1, 90) as i32;
            if charge == open {
                dues[charge] += share;
            } else if served[entry] < 2 {
                served[entry] += 1;
                amounts[entry] += share;
                dues[charge] += share;
            }
        }
        // what nothing was drawn for
        for amount in amounts
            .iter_mut()
            .chain(&mut dues)
            .filter(|amount| **amount == 0)
        {
            *amount = 100 * random.between(1, 90) as i32;
        }
        if random.once_in(2) {
            amounts.iter_mut().for_each(|amount| *amount -= *amount / 3);
        }
        (amounts, dues)
    }

    /// The problem of these clauses, with a mark for each share and so many more.
    fn problem(&self, more_marks: usize, clauses: Clauses) -> Problem {
        let figures = self.count() as u8;
        let mut problem = Problem::new(figures + more_marks as u8, figures);
        problem.clauses = clauses;
        problem
    }
}

/// These shares, each times the same coefficient, are at most the bound.
fn sum(shares: &[usize], coefficient: i32, bound: i32) -> Term {
    let mut coefficients = [0; 8];
    for &share in shares {
        coefficients[share] = coefficient;
    }
    at_most(&coefficients, bound)
}

/// These shares are the amount together.
fn exactly(shares: &[usize], amount: i32) -> Clauses {
    let at_most = sum(shares, 1, amount);
    let at_least = sum(shares, -1, -amount);
    vec![vec![at_most], vec![at_least]]
}

/// These shares are at most the amount together, once in two times all of it.
fn within(random: &mut Random, shares: &[usize], amount: i32) -> Clauses {
    let mut clauses = exactly(shares, amount);
    clauses.truncate(if random.once_in(2) { 2 } else { 1 });
    clauses
}

/// The choices of so many of these, each in their order.
fn choices(of: &[usize], count: usize) -> Vec<Vec<usize>> {
    if count == 0 {
        return vec![Vec::new()];
    }
    let mut all = Vec::new();
    for (i, &first) in of.iter().enumerate() {
        for rest in choices(&of[i + 1..], count - 1) {
            all.push([vec![first], rest].concat());
        }
    }
    all
}

/// So many amounts.
fn draw(random: &mut Random, count: usize) -> Vec<i32> {
    let amount = |_| 100 * random.between(20, 900) as i32;
    (0..count).map(amount).collect()
}

/// A sum in as many parts, in proportion to their weights; the last takes what is left.
fn cut(sum: i32, weights: &[i32]) -> Vec<i32> {
    let all: i32 = weights.iter().sum();
    let part = |&weight: &i32| (i64::from(sum) * i64::from(weight) / i64::from(all)) as i32;
    let mut parts: Vec<i32> = weights.iter().map(part).collect();
    let left = sum - parts.iter().sum::<i32>();
    if let Some(last) = parts.last_mut() {
        *last += left;
    }
    parts
}
