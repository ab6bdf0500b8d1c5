//! The notation of a clause.

use crate::failure::Mistake;
use crate::line::Line;
use crate::names::{Meaning, Names};
use crate::question::{Clause, Condition, Literal, CONDITIONS, LITERALS};
use crate::sum::{Beyond, Sum};
use crate::token::Comparison;

const SECOND_EQUALITY: &str = "expected at most one '=' in a clause; write two clauses, and for \
    'or' between them a mark: 'x = 1 or m' and 'y = 2 or not m'";

/// One side of an `or`.
enum Part {
    Literal(Literal),
    Condition(Condition),
}

/// The clause on a line.
pub fn clause(line: &mut Line, names: &Names) -> Result<Clause, Mistake> {
    let mut clause = Clause::default();
    if line.skip("false") {
        return match line.at_end() {
            true => Ok(clause),
            false => Err(line.expected("the end of the line")),
        };
    }
    loop {
        let column = line.column();
        match part(line, names, clause.has_equality())? {
            Part::Literal(literal) => clause.literals.push(literal),
            Part::Condition(condition) => clause.conditions.push(condition),
        }
        limits(line, &clause, column)?;
        if line.at_end() {
            return Ok(clause);
        }
        if !line.skip("or") {
            one_equality(line, clause.has_equality())?;
            return Err(line.expected("'or' or the end of the line"));
        }
    }
}

/// No `=` comes next where one stands before it.
fn one_equality(line: &Line, equated: bool) -> Result<(), Mistake> {
    if equated && line.peek_comparison() == Some(Comparison::Equal) {
        return Err(line.mistake(line.column(), SECOND_EQUALITY.into()));
    }
    Ok(())
}

fn limits(line: &Line, clause: &Clause, column: usize) -> Result<(), Mistake> {
    let over = |limit, what| {
        let message = format!("expected at most {limit} {what} in a clause");
        Err(line.mistake(column, message))
    };
    if clause.literals.len() > LITERALS {
        return over(LITERALS, "literals");
    }
    if clause.conditions.len() > CONDITIONS {
        return over(CONDITIONS, "conditions");
    }
    Ok(())
}

/// `equated` says that an `=` stands before it in the clause.
fn part(line: &mut Line, names: &Names, equated: bool) -> Result<Part, Mistake> {
    if line.skip("not") {
        let mark = mark(line, names)?;
        return Ok(Part::Literal(Literal {
            mark,
            negated: true,
        }));
    }
    match line.peek_name().and_then(|name| names.meaning(name)) {
        Some(Meaning::Mark(mark)) => {
            line.name();
            Ok(Part::Literal(Literal {
                mark,
                negated: false,
            }))
        }
        _ => condition(line, names, equated).map(Part::Condition),
    }
}

/// The mark after `not`.
fn mark(line: &mut Line, names: &Names) -> Result<usize, Mistake> {
    let column = line.column();
    let name = line.name().ok_or_else(|| line.expected("a mark"))?;
    match names.meaning(&name) {
        Some(Meaning::Mark(mark)) => Ok(mark),
        Some(Meaning::Figure(_)) => {
            Err(line.mistake(column, format!("expected a mark, found figure '{name}'")))
        }
        None => Err(unknown(line, column, &name)),
    }
}

fn condition(line: &mut Line, names: &Names, equated: bool) -> Result<Condition, Mistake> {
    let column = line.column();
    let left = sum(line, names, "a mark, a figure or a number")?;
    one_equality(line, equated)?;
    let comparison = line
        .comparison()
        .ok_or_else(|| line.expected("'<=', '<', '>=', '>' or '='"))?;
    let right = sum(line, names, "a figure or a number")?;
    left.condition(comparison, right)
        .map_err(|beyond| line.mistake(column, beyond_range(&beyond, names)))
}

fn beyond_range(beyond: &Beyond, names: &Names) -> String {
    let what = match beyond {
        Beyond::Coefficient(figure) => format!("coefficient of '{}'", names.figures[*figure]),
        Beyond::Bound => "bound".into(),
    };
    format!("expected at most 1,000,000,000 in size as {what}")
}

/// Terms with signs between them, and perhaps one before the first.
fn sum(line: &mut Line, names: &Names, first: &str) -> Result<Sum, Mistake> {
    let mut sum = Sum::zero(names.figures.len());
    let mut sign = line.sign();
    let mut what = first;
    loop {
        if sign.is_some() {
            what = "a figure or a number";
        }
        let column = line.column();
        let (figure, size) = term(line, names, what)?;
        let amount = if sign == Some(true) { -size } else { size };
        sum.add(figure, amount)
            .ok_or_else(|| line.mistake(column, "expected a sum within 64 bits".into()))?;
        sign = line.sign();
        if sign.is_none() {
            return Ok(sum);
        }
    }
}

/// `3`, `x` or `3x`: a figure, if any, and a size.
fn term(line: &mut Line, names: &Names, what: &str) -> Result<(Option<usize>, i64), Mistake> {
    let number = line.number();
    let column = line.column();
    match (number, line.name()) {
        (None, None) => Err(line.expected(what)),
        (Some(size), None) => Ok((None, size)),
        (size, Some(name)) => {
            let figure = figure(line, column, names, &name)?;
            Ok((Some(figure), size.unwrap_or(1)))
        }
    }
}

fn figure(line: &Line, column: usize, names: &Names, name: &str) -> Result<usize, Mistake> {
    match names.meaning(name) {
        Some(Meaning::Figure(figure)) => Ok(figure),
        Some(Meaning::Mark(_)) => {
            Err(line.mistake(column, format!("expected a figure, found mark '{name}'")))
        }
        None => Err(unknown(line, column, name)),
    }
}

fn unknown(line: &Line, column: usize, name: &str) -> Mistake {
    line.mistake(column, format!("unknown name '{name}'"))
}
