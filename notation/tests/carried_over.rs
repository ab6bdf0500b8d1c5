//! Questions that were carried over: the names of halves, and the text, which is the new question
//! again. Which figures are kept is the library's to say, and drawn here.

mod common;

use common::texts;
use notation::{decode, encode, parse, CarriedOver, Condition, Names, Question};
use questions::editions;
use questions::random::Random;
use std::collections::HashSet;
use std::fs;

/// A question whose figures are kept or become two, c and -c.
fn split(question: &Question, kept: &[bool]) -> Question {
    let mut new = question.clone();
    new.figures = kept.iter().map(|&kept| if kept { 1 } else { 2 }).sum();
    let conditions = new.clauses.iter_mut().flat_map(|c| &mut c.conditions);
    conditions.for_each(|condition: &mut Condition| {
        let amounts = condition.coefficients.iter().zip(kept);
        let halves = amounts.flat_map(|(&c, &kept)| match kept {
            true => vec![c],
            false => vec![c, -c],
        });
        condition.coefficients = halves.collect();
    });
    new
}

fn names(marks: &str, figures: &str) -> Names {
    let list = |words: &str| words.split_whitespace().map(str::to_string).collect();
    Names {
        marks: list(marks),
        figures: list(figures),
    }
}

/// The new figures' names, apart by blanks.
fn new_figures(marks: &str, figures: &str, kept: &[bool]) -> String {
    let carried_over = CarriedOver::new(names(marks, figures), kept);
    assert_eq!(carried_over.names().marks, names(marks, "").marks);
    carried_over.names().figures.join(" ")
}

#[test]
fn halves_by_name() {
    assert_eq!(new_figures("", "", &[]), "");
    assert_eq!(new_figures("a", "x", &[true]), "x");
    assert_eq!(new_figures("a", "x", &[false]), "x_plus x_minus");
    let both = new_figures("", "rent x größe", &[false, true, false]);
    assert_eq!(both, "rent_plus rent_minus x größe_plus größe_minus");
}

/// A name that is there already moves both halves on to the next number; it need not stay.
#[test]
fn halves_whose_names_are_taken() {
    let with_marks = |marks: &str| new_figures(marks, "x", &[false]);
    assert_eq!(with_marks("x_plus"), "x_plus2 x_minus2");
    assert_eq!(with_marks("x_minus"), "x_plus2 x_minus2");
    assert_eq!(with_marks("x_plus x_minus2"), "x_plus3 x_minus3");
    assert_eq!(with_marks("x_plus2"), "x_plus x_minus");
    let kept_one = new_figures("", "x x_plus", &[false, true]);
    assert_eq!(kept_one, "x_plus2 x_minus2 x_plus");
    let both = new_figures("", "x x_plus", &[false, false]);
    assert_eq!(both, "x_plus2 x_minus2 x_plus_plus x_plus_minus");
    let of_another = new_figures("x_minus_minus", "x_minus x x_minus_plus2", &[false; 3]);
    let expected = "x_minus_plus3 x_minus_minus3 x_plus2 x_minus2 \
                    x_minus_plus2_plus x_minus_plus2_minus";
    assert_eq!(of_another, expected);
}

#[test]
fn a_text() {
    let old = "\
# not carried over
marks a
figures x y z
-x <= 0   # nor this
2x + 3y - z >= -1 or y < 5 or not a
0 = 0
y - z = 7 or a
false
";
    let text = parse(old).unwrap();
    let kept = [true, false, false];
    let carried_over = CarriedOver::new(text.names, &kept);
    let new = "\
# carried over from edition 1: a question for edition 2
# kept: x
# y = y_plus - y_minus
# z = z_plus - z_minus
marks a
figures x y_plus y_minus z_plus z_minus
-x <= 0
2x + 3 y_plus - 3 y_minus - z_plus + z_minus >= -1 or y_plus - y_minus < 5 or not a
0 = 0
y_plus - y_minus - z_plus + z_minus = 7 or a
false
";
    let question = split(&text.question, &kept);
    assert_eq!(carried_over.show(&question), new);
    assert_eq!(encode(&parse(new).unwrap().question), encode(&question));
    assert_eq!(carried_over.kept(), ["x"]);
    let differences = ["y = y_plus - y_minus", "z = z_plus - z_minus"];
    assert_eq!(carried_over.differences(), differences);
}

#[test]
fn a_text_without_figures() {
    let text = parse("marks a\nfalse").unwrap();
    let carried_over = CarriedOver::new(text.names, &[]);
    let new = "# carried over from edition 1: a question for edition 2\nmarks a\nfalse\n";
    assert_eq!(carried_over.show(&text.question), new);
    assert!(carried_over.kept().is_empty() && carried_over.differences().is_empty());
}

/// The text gives the new question's bytes and names again; marks and kept figures have their own
/// names, no name stands twice, and a difference is said of every other figure.
fn is_read_again(old: &Question, names: Names, kept: &[bool]) {
    let question = split(old, kept);
    let carried_over = CarriedOver::new(names.clone(), kept);
    let text = carried_over.show(&question);
    let again = parse(&text).unwrap();
    assert_eq!(encode(&again.question), encode(&question), "{text}");
    assert_eq!(again.names, carried_over.names(), "{text}");
    assert_eq!(again.names.marks, names.marks, "{text}");
    let all = again.names.marks.iter().chain(&again.names.figures);
    let apart: HashSet<_> = all.clone().collect();
    assert_eq!(apart.len(), all.count(), "{text}");
    let mut figures = again.names.figures.iter();
    for (name, &kept) in names.figures.iter().zip(kept) {
        let first = figures.next().unwrap();
        match kept {
            true => assert_eq!(first, name),
            false => {
                let second = figures.next().unwrap();
                assert!(text.contains(&format!("# {name} = {first} - {second}\n")));
                assert!(first.starts_with(&format!("{name}_plus")));
                assert!(second.starts_with(&format!("{name}_minus")));
            }
        }
    }
    assert_eq!(figures.next(), None);
}

/// At random, as many kept as eight figures leave room for.
fn drawn_kept(random: &mut Random, figures: usize) -> Vec<bool> {
    let mut room = 8 - figures;
    let draw = |_| {
        let kept = room == 0 || random.once_in(2);
        room -= usize::from(!kept);
        kept
    };
    (0..figures).map(draw).collect()
}

/// Names that are often in each other's way.
fn drawn_names(random: &mut Random, question: &Question) -> Names {
    let mut left: Vec<String> = vec!["x".to_string(), "y".to_string()];
    for end in ["_plus", "_minus", "_plus2", "_minus2"] {
        let longer = left.iter().map(|name| format!("{name}{end}"));
        let longer: Vec<String> = longer.collect();
        left.extend(longer);
    }
    left.truncate(30);
    let mut draw = || left.swap_remove(random.between(0, left.len() as i64 - 1) as usize);
    Names {
        marks: (0..question.marks).map(|_| draw()).collect(),
        figures: (0..question.figures).map(|_| draw()).collect(),
    }
}

#[test]
fn random_questions() {
    let mut random = Random::new(6);
    let mut halves = 0;
    for _ in 0..2000 {
        // some have a second = in a clause
        let question = match decode(&editions::problem(&mut random).encode()) {
            Ok(question) => question,
            Err(_) => continue,
        };
        let kept = drawn_kept(&mut random, question.figures);
        halves += kept.iter().filter(|&&kept| !kept).count();
        let names = drawn_names(&mut random, &question);
        is_read_again(&question, names, &kept);
        is_read_again(&question, Names::numbered(&question), &kept);
    }
    assert!(halves > 1000, "{halves}");
}

#[test]
fn every_example() {
    let mut random = Random::new(7);
    for file in texts() {
        let text = parse(&fs::read_to_string(&file).unwrap()).unwrap();
        for _ in 0..10 {
            let kept = drawn_kept(&mut random, text.question.figures);
            is_read_again(&text.question, text.names.clone(), &kept);
            is_read_again(&text.question, Names::numbered(&text.question), &kept);
        }
    }
}
