//! A question's bytes.

use crate::question::{Clause, Condition, Literal, Question};

/// The bytes of a question within the limits.
pub fn encode(question: &Question) -> Vec<u8> {
    let mut bytes = vec![question.marks as u8, question.figures as u8];
    bytes.extend((question.clauses.len() as u16).to_le_bytes());
    for clause in &question.clauses {
        put_clause(clause, &mut bytes);
    }
    bytes
}

fn put_clause(clause: &Clause, bytes: &mut Vec<u8>) {
    bytes.push(clause.literals.len() as u8);
    bytes.extend(clause.literals.iter().map(literal_byte));
    bytes.push(clause.conditions.len() as u8);
    for condition in &clause.conditions {
        put_condition(condition, bytes);
    }
}

fn literal_byte(literal: &Literal) -> u8 {
    literal.mark as u8 + if literal.negated { 128 } else { 0 }
}

fn put_condition(condition: &Condition, bytes: &mut Vec<u8>) {
    bytes.push(condition.relation.byte());
    for amount in &condition.coefficients {
        bytes.extend(amount.to_le_bytes());
    }
    bytes.extend(condition.bound.to_le_bytes());
}
