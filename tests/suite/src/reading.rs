//! Reading: the proved code and the second solver name the same first fault with the same place,
//! or the same counts, for right questions, cut ones, changed ones and arbitrary bytes.

use crate::report::{demand, equal, Group, Outcome, Sums};
use crate::vectors;
use proved::Reading;
use questions::largest::{self, Kind};
use questions::random::Random;
use reference::Fault;
use std::collections::BTreeMap;

const SEED: u64 = 5;
const PREFIXED: usize = 50;
const SMALL: usize = 20;
const SMALL_LENGTH: usize = 64;
/// The small questions come among the first so many.
const TRIED: usize = 10_000;
const DAMAGED: usize = 100_000;
/// The faults that a question can have, and 0 for none.
const FAULTS: [u64; 13] = [0, 3, 4, 5, 6, 7, 8, 9, 10, 11, 12, 13, 18];

pub fn run(sums: &mut Sums) {
    let mut random = Random::new(SEED);
    read_vectors(sums);
    read_prefixes(&mut random, sums);
    read_changed_bytes(&mut random, sums);
    read_relations(sums);
    read_damaged(&mut random, sums);
    read_lengths(sums);
}

/// What the second solver says, in the proved code's words.
fn expected(question: &[u8]) -> Reading {
    match reference::read(question) {
        Ok(problem) => {
            let [booleans, rationals, clauses] = problem.counts().map(|count| count as u64);
            Reading::Sound {
                booleans,
                rationals,
                clauses,
            }
        }
        Err(Fault { number, place }) => Reading::Fault {
            number: u64::from(number),
            place,
        },
    }
}

fn compare(question: &[u8]) -> Outcome {
    equal("reading", &expected(question), &proved::read(question))
}

fn read_vectors(sums: &mut Sums) {
    let mut group = Group::new("reading: the vectors' questions");
    let questions = vectors::questions();
    for (number, question) in questions.iter().enumerate() {
        group.case(&format!("number {number}"), || compare(question.as_ref()?));
    }
    group.case("some", || demand(!questions.is_empty(), "no question"));
    group.finish(sums);
}

/// Every prefix of a question, itself included.
fn read_prefixes(random: &mut Random, sums: &mut Sums) {
    let mut group = Group::new("reading: every prefix of a question");
    for number in 0..PREFIXED {
        let question = random.stated(|random| random.dense_problem(12)).encode();
        group.case(&format!("number {number}"), || {
            (0..=question.len()).try_for_each(|length| compare(&question[..length]))
        });
    }
    group.finish(sums);
}

/// Every value of every byte of a small question.
fn read_changed_bytes(random: &mut Random, sums: &mut Sums) {
    let mut group = Group::new("reading: every value of every byte");
    let question = || random.stated(Random::problem).encode();
    let questions = std::iter::repeat_with(question).take(TRIED);
    let small = questions.filter(|question| (16..=SMALL_LENGTH).contains(&question.len()));
    let small: Vec<Vec<u8>> = small.take(SMALL).collect();
    group.case("enough questions", || {
        equal("questions", &SMALL, &small.len())
    });
    for (number, question) in small.iter().enumerate() {
        group.case(&format!("number {number}"), || {
            let mut changed = question.clone();
            for place in 0..question.len() {
                for value in 0..=255 {
                    changed[place] = value;
                    compare(&changed)?;
                }
                changed[place] = question[place];
            }
            Ok(())
        });
    }
    group.finish(sums);
}

/// Every three relations from 0 to 5 of a clause of constants, cut at every byte, and with a bound
/// outside its range in one condition or in none: 10, 18 and 11 come where 02's (i) has them.
fn read_relations(sums: &mut Sums) {
    let mut group = Group::new("reading: every three relations");
    for number in 0..6 * 6 * 6 {
        let relations = [number / 36, number / 6 % 6, number % 6];
        for bad in 0..=3 {
            group.case(&format!("{relations:?}, {bad}"), || {
                let mut question = vec![0, 0, 1, 0, 0, 3];
                for (i, relation) in relations.iter().enumerate() {
                    let bound: i32 = if i == bad { 1_000_000_001 } else { -1 };
                    question.push(*relation);
                    question.extend(bound.to_le_bytes());
                }
                (6..=question.len()).try_for_each(|length| {
                    let expected = relations_fault(&relations, bad, length);
                    let got = match proved::read(&question[..length]) {
                        Reading::Sound { .. } => None,
                        Reading::Fault { number, place } => Some((number, place)),
                    };
                    equal(&format!("{length} bytes"), &expected, &got)?;
                    compare(&question[..length])
                })
            });
        }
    }
    group.finish(sums);
}

/// The first fault of such a question of this length, by the order of its fields.
fn relations_fault(relations: &[u8], bad: usize, length: usize) -> Option<(u64, usize)> {
    let mut has_equal = false;
    for (i, &relation) in relations.iter().enumerate() {
        let (place, bound) = (6 + 5 * i, 7 + 5 * i);
        let fault = match relation {
            _ if length <= place => Some((4, length)),
            0 | 5 => Some((10, place)),
            3 if has_equal => Some((18, place)),
            _ if length < bound + 4 => Some((4, length)),
            _ if i == bad => Some((11, bound)),
            _ => None,
        };
        if fault.is_some() {
            return fault;
        }
        has_equal |= relation == 3;
    }
    None
}

/// Random questions, most of them damaged. Every fault must come, and so must none.
fn read_damaged(random: &mut Random, sums: &mut Sums) {
    let mut group = Group::new("reading: random and damaged questions");
    let mut seen = BTreeMap::new();
    for number in 0..DAMAGED {
        let question = damaged(random);
        group.case(&format!("number {number}"), || compare(&question));
        let fault = match expected(&question) {
            Reading::Fault { number, .. } => number,
            Reading::Sound { .. } => 0,
        };
        *seen.entry(fault).or_insert(0_usize) += 1;
    }
    for fault in FAULTS {
        let count = seen.get(&fault).copied().unwrap_or(0);
        group.case(&format!("fault {fault}"), || {
            demand(count >= 20, &format!("came {count} times only"))
        });
    }
    group.finish(sums);
}

fn damaged(random: &mut Random) -> Vec<u8> {
    if random.once_in(20) {
        let length = random.between(0, 60);
        return (0..length).map(|_| random.word() as u8).collect();
    }
    let clauses = match random.once_in(50) {
        true => 256,
        false => 8,
    };
    let problem = random.stated(|random| random.dense_problem(clauses));
    let mut question = random.doubled(20, problem).encode();
    for _ in 0..random.between(0, 2) {
        let last = question.len() as i64 - 1;
        let place = match random.once_in(3) {
            true => random.between(0, last.min(8)),
            false => random.between(0, last),
        };
        question[place as usize] = match random.once_in(2) {
            true => random.word() as u8,
            false => random.between(0, 9) as u8,
        };
    }
    match random.between(0, 9) {
        0 => question.truncate(random.between(0, question.len() as i64) as usize),
        1 => question.push(random.word() as u8),
        2 if random.once_in(30) => question.resize(32_769, 0),
        _ => (),
    }
    question
}

/// Questions as long as they may be, and a byte shorter and longer: right ones but for the last,
/// and zeros.
fn read_lengths(sums: &mut Sums) {
    let mut group = Group::new("reading: lengths");
    for length in [0, 32_767, 32_768, 32_769] {
        group.case(&format!("{length} zeros"), || compare(&vec![0; length]));
    }
    for kind in [Kind::Dropped, Kind::Struck, Kind::Equal, Kind::Doubled] {
        for length in [32_767, 32_768, 32_769] {
            let question = largest::question(length, kind);
            group.case(&format!("{kind:?}, {length} bytes"), || {
                equal("length", &length, &question.len())?;
                let number = match proved::read(&question) {
                    Reading::Sound { .. } => 0,
                    Reading::Fault { number, .. } => number,
                };
                let expected = match kind {
                    _ if length > 32_768 => 3,
                    Kind::Doubled => 18,
                    _ => 0,
                };
                equal("fault", &expected, &number)?;
                compare(&question)
            });
        }
    }
    group.finish(sums);
}
