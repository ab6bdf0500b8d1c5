//! Questions, clauses and conditions in the notation.

use crate::names::Names;
use crate::question::{Clause, Condition, Literal, Question, Relation};

/// A question as a notation file; written again it gives the same bytes.
pub fn show(question: &Question, names: &Names) -> String {
    let mut text = header("marks", &names.marks) + &header("figures", &names.figures);
    for clause in &question.clauses {
        text += &show_clause(clause, names).unwrap_or_else(|| "false".into());
        text += "\n";
    }
    text
}

fn header(word: &str, names: &[String]) -> String {
    if names.is_empty() {
        return String::new();
    }
    format!("{word} {}\n", names.join(" "))
}

/// A clause, conditions first; none if nothing is in it.
pub fn show_clause(clause: &Clause, names: &Names) -> Option<String> {
    let conditions = clause.conditions.iter().map(|c| show_condition(c, names));
    let literals = clause.literals.iter().map(|l| show_literal(l, names));
    let parts: Vec<String> = conditions.chain(literals).collect();
    (!parts.is_empty()).then(|| parts.join(" or "))
}

fn show_literal(literal: &Literal, names: &Names) -> String {
    let sign = if literal.negated { "not " } else { "" };
    format!("{sign}{}", names.mark(literal.mark))
}

fn show_condition(condition: &Condition, names: &Names) -> String {
    let relation = match condition.relation {
        Relation::AtMost => "<=",
        Relation::Below => "<",
        Relation::Equal => "=",
        Relation::AtLeast => ">=",
    };
    let sum = show_sum(&condition.coefficients, names);
    format!("{sum} {relation} {}", condition.bound)
}

fn show_sum(coefficients: &[i32], names: &Names) -> String {
    let mut sum = String::new();
    for (&amount, name) in coefficients.iter().zip(&names.figures) {
        if amount != 0 {
            sum += sign(amount < 0, sum.is_empty());
            sum += &product(amount.unsigned_abs(), name);
        }
    }
    if sum.is_empty() {
        sum += "0";
    }
    sum
}

fn sign(negative: bool, first: bool) -> &'static str {
    match (negative, first) {
        (false, true) => "",
        (true, true) => "-",
        (false, false) => " + ",
        (true, false) => " - ",
    }
}

/// `x`, `2x` or `2 rent`.
fn product(size: u32, name: &str) -> String {
    match (size, name.chars().count()) {
        (1, _) => name.to_string(),
        (_, 1) => format!("{size}{name}"),
        _ => format!("{size} {name}"),
    }
}
