//! What a run did not load: on questions by hand, and on random ones with the books of the second
//! solver, which must not have what is said to be covered, nor lack anything else.

mod common;

use common::{solved, text};
use notation::{decode, encode, explain_loading, parse, Edition, Question, Relation, Text};
use questions::random::Random;
use questions::rows;
use reference::Answer;

/// The used lines of the second solver's book; none if it refuses the question.
fn book(question: &[u8]) -> Option<Vec<u8>> {
    let (answer, mut book, _) = solved(question);
    match answer {
        Answer::Verdict { lines, .. } => {
            book.truncate(64 * lines);
            Some(book)
        }
        Answer::Refused { .. } => None,
    }
}

fn said(text: &Text) -> String {
    let book = book(&encode(&text.question)).unwrap();
    explain_loading(&text.question, Edition::First, &book)
}

#[test]
fn example_12() {
    let mut expected = "not loaded, covered by an earlier line: 23\n".to_string();
    for clause in 1..24 {
        expected += &format!("clause {clause}: covered by line 0 (clause 0)\n");
    }
    assert_eq!(said(&text("example_12")), expected);
}

#[test]
fn nothing_of_a_question_that_is_loaded_whole() {
    assert_eq!(said(&text("example_09")), "");
    assert_eq!(said(&text("payment_missing")), "");
    assert_eq!(said(&text("example_01")), "");
}

#[test]
fn lines_are_numbered_by_the_book_and_pieces_named() {
    let text = "\
marks a b
figures x y
x <= 5 or a
2x <= 12 or a or b
x < 5 or a
x <= 5 or y <= 3
y <= 2 or not b or b
0 <= 3 or a
a
3x <= 3 or y < 2 or a
y <= 3 or y <= 4
y <= 4
y <= 4 or x <= 1
x + y <= 1 or y <= 5 or a
";
    let expected = "\
not loaded, covered by an earlier line: 5
clause 1: covered by line 0 (clause 0)
clause 7, piece 0: covered by line 4 (clause 6)
clause 10, piece 0: covered by line 8 (clause 9)
clause 11, piece 0: covered by line 4 (clause 6)
clause 11, piece 1: covered by line 8 (clause 9)
not loaded, always true: 2
clause 4: always true
clause 5: always true
";
    assert_eq!(said(&parse(text).unwrap()), expected);
}

/// The halves of an `=` are covered or dropped each by itself.
#[test]
fn halves_of_an_equality() {
    let text = "\
marks a b
figures x y
x <= 5
x = 6 or a
x = 4
x >= 4
-x >= -5
0 = 3 or x <= 4 or b
0 = -3 or x <= 3 or b
0 = 0
x = 5 or a or not a
x <= 9 or y = 2 or x >= 1
";
    let expected = "\
not loaded, covered by an earlier line: 8
clause 1, piece 0 (= as <=): covered by line 0 (clause 0)
clause 3: covered by line 3 (clause 2, piece 1 (= as >=))
clause 4: covered by line 0 (clause 0)
clause 5 (= as >=): covered by line 2 (clause 2, piece 0 (= as <=))
clause 9, piece 0 (= as <=): covered by line 0 (clause 0)
clause 9, piece 2 (= as <=): covered by line 3 (clause 2, piece 1 (= as >=))
clause 9, piece 3 (= as >=): covered by line 0 (clause 0)
clause 9, piece 5 (= as >=): covered by line 3 (clause 2, piece 1 (= as >=))
not loaded, always true: 4
clause 5 (= as <=): always true
clause 6 (= as >=): always true
clause 7: always true
clause 8: always true
";
    assert_eq!(said(&parse(text).unwrap()), expected);
}

/// The clauses, and the half of one, behind an empty line are not come to.
#[test]
fn an_empty_line_ends_the_loading() {
    let expected = "\
not loaded, covered by an earlier line: 1
clause 1: covered by line 0 (clause 0)
";
    for empty in ["false", "0 = -1"] {
        let text = format!("figures x\nx <= 1\nx <= 2\n{empty}\nx <= 3\n0 <= 1\n0 = 0");
        assert_eq!(said(&parse(&text).unwrap()), expected);
    }
    let first = "not loaded, always true: 1\nclause 0 (= as <=): always true\n";
    assert_eq!(said(&parse("0 = 1\n0 = 2").unwrap()), first);
}

/// Pairs of clauses, of which the first covers the second, or nearly does.
#[test]
fn what_covers() {
    let pairs = [
        ("x <= 5", "x <= 5", true),
        ("x <= 5", "x <= 6", true),
        ("x <= 6", "x <= 5", false),
        ("x < 5", "x <= 5", true),
        ("x <= 5", "x < 5", false),
        ("x <= 4", "x < 5", true),
        ("x < 5", "x <= 4", false),
        ("-x <= -5", "-x <= -4", true),
        ("-x <= -4", "-x <= -5", false),
        ("2x <= 4", "3x <= 6", true),
        ("2x <= 3", "x <= 2", false),
        ("x <= 1", "x + y <= 2", false),
        ("x <= 5", "x <= 5 or a", true),
        ("x <= 5 or a", "x <= 5", false),
        ("x <= 5 or a", "x <= 5 or not a", false),
        ("x <= 5 or a", "x <= 6 or b or a", true),
        ("x <= 5 or not a", "x <= 5 or not a or not b", true),
        ("a", "x <= 5 or a", true),
        ("a or b", "a or x <= 5", false),
        ("a or a", "b or a", true),
        ("x <= 5 or a", "a", false),
    ];
    for (first, second, covered) in pairs {
        let text = parse(&format!("marks a b\nfigures x y\n{first}\n{second}\n")).unwrap();
        let expected = match covered {
            true => {
                "not loaded, covered by an earlier line: 1\nclause 1: covered by line 0 (clause 0)\n"
            }
            false => "",
        };
        assert_eq!(said(&text), expected, "{first}; {second}");
    }
}

/// Every piece is loaded or said, and each clause that is said to be covered is not loaded behind
/// the one that covers it alone.
#[test]
fn of_random_questions() {
    let mut random = Random::new(3);
    let (mut whole, mut pieces, mut halves) = (0, 0, 0);
    for number in 0..4_000 {
        let problem = match number % 4 {
            0 => random.problem(),
            _ => rows::problem(&mut random),
        };
        let question = decode(&problem.encode()).unwrap();
        let question = match number % 2 {
            0 => question,
            _ => with_relations(&mut random, question),
        };
        let book = match book(&encode(&question)) {
            Some(book) if !ends_loading(&book) => book,
            _ => continue,
        };
        let said = explain_loading(&question, Edition::First, &book);
        let covered: Vec<&str> = said
            .lines()
            .filter(|line| line.contains(" by line "))
            .collect();
        let loaded = book.chunks_exact(64).filter(|line| line[0] == 0).count();
        assert_eq!(loaded + covered.len(), count(&question), "{number}: {said}");
        for line in covered {
            match alone(&question, line) {
                Some(lines) => {
                    whole += 1;
                    assert_eq!(lines, 1, "{number}: {line}");
                }
                None if line.contains("(= as") => halves += 1,
                None => pieces += 1,
            }
        }
    }
    let enough = whole > 1_000 && pieces > 100 && halves > 1_000;
    assert!(enough, "{whole}, {pieces}, {halves}");
}

/// With one condition in three at least its bound, and in one clause of two one equal to it.
fn with_relations(random: &mut Random, mut question: Question) -> Question {
    for clause in &mut question.clauses {
        for condition in &mut clause.conditions {
            if random.once_in(3) {
                condition.relation = Relation::AtLeast;
            }
        }
        let last = clause.conditions.len() as i64 - 1;
        if last >= 0 && random.once_in(2) {
            clause.conditions[random.between(0, last) as usize].relation = Relation::Equal;
        }
    }
    question
}

/// Whether a loaded line is empty.
fn ends_loading(book: &[u8]) -> bool {
    let is_empty = |line: &[u8]| line[0] == 0 && line[6..16].iter().all(|&byte| byte == 0);
    book.chunks_exact(64).any(is_empty)
}

/// All pieces of a question.
fn count(question: &Question) -> usize {
    let readings = question.clauses.iter().flat_map(|clause| clause.readings());
    readings.map(|reading| reading.pieces()).sum()
}

/// The lines that are loaded of the two clauses that a line names; none if it names a piece.
fn alone(question: &Question, said: &str) -> Option<usize> {
    let said = said.replace(':', "").replace(')', "");
    let words: Vec<&str> = said.split(' ').collect();
    let named = match words[..] {
        ["clause", covered, "covered", "by", "line", _, "(clause", by] => [by, covered],
        _ => return None,
    };
    let clauses = named.map(|number| question.clauses[number.parse::<usize>().unwrap()].clone());
    let two = Question {
        clauses: clauses.to_vec(),
        ..question.clone()
    };
    let book = book(&encode(&two)).unwrap();
    Some(book.chunks_exact(64).filter(|line| line[0] == 0).count())
}
