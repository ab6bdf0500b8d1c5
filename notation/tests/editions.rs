//! The second edition in words. Its run of a question is, byte for byte, the run of the first on that
//! question with its clauses written out, which is what the second solver is asked for here.

mod common;

use common::solved;
use notation::{
    decode, encode, explain_book, explain_loading, parse, show_clause, Edition, Names, Question,
    Text,
};
use questions::random::Random;
use questions::rows;
use reference::Answer;

/// A question with the clauses of the second edition written out.
fn written_out(question: &Question) -> Question {
    Question {
        clauses: question.clauses_in(Edition::Second),
        ..question.clone()
    }
}

/// The used lines of a run in the second edition; none if it is refused.
fn book(question: &Question) -> Option<Vec<u8>> {
    let (answer, mut book, _) = solved(&encode(&written_out(question)));
    match answer {
        Answer::Verdict { lines, .. } => {
            book.truncate(64 * lines);
            Some(book)
        }
        Answer::Refused { .. } => None,
    }
}

#[test]
fn one_clause_for_each_figure() {
    let Text { names, question } = parse("marks a\nfigures x y z\nx <= 5 or a\nfalse").unwrap();
    assert_eq!(question.clauses_in(Edition::First), question.clauses);
    let clauses = question.clauses_in(Edition::Second);
    assert_eq!(clauses[..2], question.clauses);
    let added: Vec<_> = clauses[2..]
        .iter()
        .map(|clause| show_clause(clause, &names))
        .collect();
    let words = ["x >= 0", "y >= 0", "z >= 0"].map(|words| Some(words.to_string()));
    assert_eq!(added, words);
    let without = parse("marks a\na").unwrap().question;
    assert_eq!(without.clauses_in(Edition::Second), without.clauses);
}

#[test]
fn a_book() {
    let Text { names, question } = parse("figures x y\nx + y <= -1\nx >= 0").unwrap();
    let book = book(&question).unwrap();
    let words = "\
line 0: clause 0: x + y <= -1
line 1: clause 1: -x <= 0
line 2: clause 3 (edition 2): -y <= 0
line 3: figure x from lines 0 and 1: y <= -1
line 4: figure y from lines 3 and 2: nothing: a contradiction
";
    let said = explain_book(&question, &book, None, &names);
    assert_eq!(said.as_deref(), Ok(words));
    let covered = "\
not loaded, covered by an earlier line: 1
clause 2 (edition 2): covered by line 1 (clause 1)
";
    let said = explain_loading(&question, Edition::Second, &book);
    assert_eq!(said, covered);
    // without the edition's clauses nothing is left out
    assert_eq!(explain_loading(&question, Edition::First, &book), "");
}

/// An empty line ends the loading before the edition's clauses.
#[test]
fn clauses_not_come_to() {
    let question = parse("figures x\nx >= 1\nfalse").unwrap().question;
    let book = book(&question).unwrap();
    assert_eq!(explain_loading(&question, Edition::Second, &book), "");
}

/// Of the largest question the last clause is 263.
#[test]
fn the_last_clause() {
    let question = Question {
        marks: 0,
        figures: 8,
        clauses: vec![Default::default(); 256],
    };
    let names = Names::numbered(&question);
    let said = |clause: u16, piece: u8| {
        let mut line = [0; 64];
        line[2..4].copy_from_slice(&clause.to_le_bytes());
        (line[4], line[6], line[44]) = (piece, 1, 1);
        explain_book(&question, &line, None, &names)
    };
    let line = |name: &str| Ok(format!("line 0: {name}: x7 <= 0\n"));
    assert_eq!(said(255, 0), line("clause 255"));
    assert_eq!(said(256, 0), line("clause 256 (edition 2)"));
    assert_eq!(said(263, 0), line("clause 263 (edition 2)"));
    assert_eq!(said(263, 1), line("clause 263 (edition 2), piece 1"));
    let beyond = "line 0: expected a clause below 264".to_string();
    assert_eq!(said(264, 0), Err(beyond));
}

/// On random questions all is said as of the question written out, but for the name of a clause that
/// is not written, which is said exactly there.
#[test]
fn of_random_questions() {
    let mut random = Random::new(5);
    let (mut lines, mut covered) = (0, 0);
    for number in 0..2_000 {
        let problem = match number % 2 {
            0 => random.problem(),
            _ => rows::problem(&mut random),
        };
        let question = decode(&problem.encode()).unwrap();
        let book = match book(&question) {
            Some(book) => book,
            None => continue,
        };
        let names = Names::numbered(&question);
        let of_lines = explain_book(&question, &book, None, &names).unwrap();
        let of_loading = explain_loading(&question, Edition::Second, &book);
        let out = written_out(&question);
        let plain = explain_book(&out, &book, None, &names).unwrap();
        assert_eq!(of_lines.replace(" (edition 2)", ""), plain, "{number}");
        let plain = explain_loading(&out, Edition::First, &book);
        assert_eq!(of_loading.replace(" (edition 2)", ""), plain, "{number}");
        lines += named(&question, &of_lines);
        covered += named(&question, &of_loading);
    }
    assert!(lines > 1_000 && covered > 100, "{lines}, {covered}");
}

/// How many clauses are said to be of the second edition: exactly those behind the written ones.
fn named(question: &Question, said: &str) -> usize {
    let clauses = said.split("clause ").skip(1);
    let mut count = 0;
    for clause in clauses {
        let digits = clause.find(|c: char| !c.is_ascii_digit()).unwrap();
        let number: usize = clause[..digits].parse().unwrap();
        let of_edition = clause[digits..].starts_with(" (edition 2)");
        assert_eq!(of_edition, number >= question.clauses.len(), "{clause}");
        count += usize::from(of_edition);
    }
    count
}
