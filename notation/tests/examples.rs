//! The examples' questions: as stored, as in C, and written again after reading.

mod common;

use common::{from_c, root, solved, stored, text, texts, Stored};
use notation::{decode, encode, parse, show, Names};
use std::fs;

#[test]
fn every_example_gives_its_question() {
    assert_eq!(texts().len(), 20);
    for file in texts() {
        let text = parse(&fs::read_to_string(&file).unwrap()).unwrap();
        let question = fs::read(file.with_extension("question")).unwrap();
        assert_eq!(encode(&text.question), question, "{}", file.display());
    }
}

#[test]
fn every_question_has_its_text() {
    let mut questions = 0;
    for entry in fs::read_dir(root().join("examples")).unwrap() {
        let file = entry.unwrap().path();
        if file.extension().map_or(false, |end| end == "question") {
            assert!(file.with_extension("txt").exists(), "{}", file.display());
            questions += 1;
        }
    }
    assert_eq!(questions, 20);
}

#[test]
fn read_and_written_again_they_are_the_same() {
    for file in texts() {
        let names = parse(&fs::read_to_string(&file).unwrap()).unwrap().names;
        let bytes = fs::read(file.with_extension("question")).unwrap();
        let question = decode(&bytes).unwrap();
        for names in [names, Names::numbered(&question)] {
            let again = parse(&show(&question, &names)).unwrap();
            assert_eq!(encode(&again.question), bytes, "{}", file.display());
            assert_eq!(again.names, names, "{}", file.display());
        }
    }
}

#[test]
fn one_to_nine_are_those_of_the_c_tests() {
    for number in 1..=9 {
        let ours = encode(&text(&format!("example_{number:02}")).question);
        assert_eq!(from_c(&format!("example_{number}_question")), Some(ours));
    }
}

#[test]
fn they_are_answered_as_the_papers_say() {
    let answers = [
        ("example_01", "agrees 0 0"),
        ("example_02", "cannot 1 0"),
        ("example_03", "agrees 2 1"),
        ("example_04", "cannot 3 1"),
        ("example_05", "agrees 2 1"),
        ("example_06", "agrees 1 0"),
        ("example_07", "cannot 5 2"),
        ("example_07_variant", "agrees 4 2"),
        ("example_08", "cannot 3 1"),
        ("example_09", "agrees 3 1"),
        ("example_10", "refused 14 2 1"),
        ("example_10_variant", "agrees 3 1"),
        ("example_11", "unwritten 2 0"),
        ("example_12", "agrees 81 40"),
        ("example_12_variant", "agrees 81 40"),
        ("negative_share", "agrees 10 9"),
        ("open", "agrees 6 3"),
        ("payment", "agrees 35 37"),
        ("payment_missing", "cannot 29 29"),
        ("refund", "agrees 8 6"),
    ];
    assert_eq!(answers.len(), texts().len());
    for (name, answer) in answers {
        let printed = reference::print(&encode(&text(name).question));
        assert_eq!(printed.lines().next(), Some(answer), "{name}");
    }
}

#[test]
fn books_and_sheets_of_the_c_tests_are_the_second_solvers() {
    for number in 1..=9 {
        let question = from_c(&format!("example_{number}_question")).unwrap();
        let (_, book, sheet) = solved(&question);
        match stored(number) {
            Stored::Book(stored) => assert_eq!(book[..stored.len()], stored),
            Stored::Sheet(stored) => assert_eq!(sheet, stored),
        }
    }
}
