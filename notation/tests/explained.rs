//! Sheets and books in words: those of the C tests, and the second solver's.

mod common;

use common::{solved, stored, text, Stored};
use notation::{decode, encode, explain_book, explain_sheet, Names, Text};

fn sheet(name: &str) -> String {
    let Text { names, question } = text(name);
    let (_, _, sheet) = solved(&encode(&question));
    explain_sheet(&question, &sheet, &names).unwrap()
}

fn book(name: &str) -> String {
    let Text { names, question } = text(name);
    let (answer, book, _) = solved(&encode(&question));
    let lines = match answer {
        reference::Answer::Verdict { lines, .. } => lines,
        _ => panic!("{name} is refused"),
    };
    explain_book(&question, &book, Some(lines), &names).unwrap()
}

#[test]
fn sheets() {
    assert_eq!(sheet("example_01"), "");
    assert_eq!(sheet("example_03"), "figure x: 5\n");
    assert_eq!(sheet("example_05"), "figure x: 9/2\n");
    assert_eq!(sheet("example_06"), "figure x: 1/3\n");
    assert_eq!(sheet("example_09"), "mark a: no\nfigure x: 0\n");
    assert_eq!(sheet("example_12"), "figure x: 39\nfigure y: 61\n");
}

/// A sheet written by hand, in words.
fn by_hand(text: &str, start: &[u8]) -> Result<String, String> {
    let Text { names, question } = notation::parse(text).unwrap();
    let mut sheet = start.to_vec();
    sheet.resize(64, 0);
    explain_sheet(&question, &sheet, &names)
}

#[test]
fn open_marks() {
    let text = "marks a b c\nfigures x\na or x <= 5\nb or not b";
    let words = "mark a: no\nmark b: no\nmark c: open: decided by nothing\nfigure x: 5\n";
    let start = [3, 0, 0, 2, 1, 1, 0, 0, 0, 5];
    assert_eq!(by_hand(text, &start).as_deref(), Ok(words));
    let open = "mark a: open: decided by nothing\nmark b: open: decided by nothing\n";
    assert_eq!(by_hand("marks a b", &[2, 2, 2, 0, 1]).as_deref(), Ok(open));
}

/// In a clause that is always true, covered by an earlier one, or with nothing else that can hold;
/// negated alone; written twice; in the last of the clauses.
#[test]
fn marks_in_a_clause_are_not_open() {
    let clauses = [
        "a or not a",
        "0 <= 0 or a",
        "0 <= 0 or not a",
        "x <= 5 or a",
        "not a",
        "not a or not a",
        "x = 5 or 0 <= -1 or not a",
        "x <= 6\nb\nb or a",
    ];
    for clause in clauses {
        let text = format!("marks a b\nfigures x\nx <= 5\nb\n{clause}");
        let sheet = |mark| by_hand(&text, &[2, mark, 1, 1, 1, 0, 0, 0, 5]);
        let words = |mark| format!("mark a: {mark}\nmark b: yes\nfigure x: 5\n");
        assert_eq!(sheet(0), Ok(words("no")), "{clause}");
        assert_eq!(sheet(1), Ok(words("yes")), "{clause}");
        let slip = "byte 1: expected 0 or 1, found 2".to_string();
        assert_eq!(sheet(2), Err(slip), "{clause}");
    }
}

#[test]
fn every_byte_of_a_mark() {
    let sheet = |first, second| by_hand("marks a b\na", &[2, first, second, 0, 1]);
    for byte in 0..=255 {
        let decided = match byte {
            0 => Ok("mark a: no\nmark b: open: decided by nothing\n".to_string()),
            1 => Ok("mark a: yes\nmark b: open: decided by nothing\n".to_string()),
            _ => Err(format!("byte 1: expected 0 or 1, found {byte}")),
        };
        assert_eq!(sheet(byte, 2), decided);
        let open = match byte {
            2 => Ok("mark a: yes\nmark b: open: decided by nothing\n".to_string()),
            _ => Err(format!(
                "byte 2: expected 2, as the mark stands in no clause, found {byte}"
            )),
        };
        assert_eq!(sheet(1, byte), open);
    }
    let first = "byte 1: expected 0 or 1, found 2".to_string();
    assert_eq!(sheet(2, 1), Err(first));
}

#[test]
fn sheets_are_in_lowest_terms() {
    let question = decode(&[0, 2, 0, 0]).unwrap();
    let mut sheet = vec![0, 2, 6, 0, 0, 0, 252, 255, 255, 255, 12];
    sheet.resize(64, 0);
    let words = explain_sheet(&question, &sheet, &Names::numbered(&question));
    assert_eq!(words.unwrap(), "figure x0: -2/3\nfigure x1: 2\n");
}

#[test]
fn the_open_mark() {
    let words = "\
mark a_rent: yes
mark b_rent: no
mark c_rent: open: decided by nothing
figure rent_a: 800
";
    assert_eq!(sheet("open"), words);
}

#[test]
fn the_payment() {
    let words = "\
mark a_rent: yes
mark a_heating: no
mark b_heating: yes
mark b_arrears: no
mark c_arrears: yes
figure rent_a: 800
figure heating_a: 0
figure heating_b: 300
figure arrears_b: 0
figure arrears_c: 200
";
    assert_eq!(sheet("payment"), words);
}

#[test]
fn the_payment_with_an_entry_missing() {
    let book = book("payment_missing");
    let lines: Vec<&str> = book.lines().collect();
    assert_eq!(lines.len(), 29);
    assert_eq!(lines[4], "line 4: clause 4: rent_a <= 0 or a_rent");
    assert_eq!(
        lines[13],
        "line 13: clause 12, piece 0 (= as <=): heating_a + heating_b <= 300"
    );
    assert_eq!(
        lines[14],
        "line 14: clause 12, piece 1 (= as >=): -heating_a - heating_b <= -300"
    );
    assert_eq!(
        lines[22],
        "line 22: figure arrears_b from lines 7 and 16: b_arrears"
    );
    assert_eq!(
        lines[26],
        "line 26: figure heating_a from lines 19 and 20: b_heating"
    );
    assert_eq!(
        lines[27],
        "line 27: mark b_heating from lines 26 and 8: not b_arrears"
    );
    assert!(lines[28].starts_with("line 28: mark b_arrears from lines 22 and 27: nothing"));
}

#[test]
fn books() {
    let seven = "\
line 0: clause 0: x + y <= 10
line 1: clause 1: -x <= -7
line 2: clause 2: -y <= -4
line 3: figure x from lines 0 and 1: y <= 3
line 4: figure y from lines 3 and 2: nothing: a contradiction
";
    assert_eq!(book("example_07"), seven);
    let eight = "\
line 0: clause 0: a
line 1: clause 1: not a
line 2: mark a from lines 0 and 1: nothing: a contradiction
";
    assert_eq!(book("example_08"), eight);
    let nine = "\
line 0: clause 0, piece 0: x <= 0 or a or link 0
line 1: clause 0, piece 1: -x <= -5 or not link 0
line 2: clause 1: not a
";
    assert_eq!(book("example_09"), nine);
    assert_eq!(
        book("example_02"),
        "line 0: clause 0: nothing: a contradiction\n"
    );
}

#[test]
fn books_and_sheets_of_the_c_tests() {
    for number in 1..=9 {
        let name = format!("example_{number:02}");
        let Text { names, question } = text(&name);
        match stored(number) {
            Stored::Book(stored) => {
                let words = explain_book(&question, &stored, None, &names).unwrap();
                assert_eq!(words, book(&name));
            }
            Stored::Sheet(stored) => {
                let words = explain_sheet(&question, &stored, &names).unwrap();
                assert_eq!(words, sheet(&name));
            }
        }
    }
}

#[test]
fn links_are_eliminated_too() {
    let text = notation::parse("figures x\nx < 0 or 0 < -5 or x > 5\nx > 1\nx < 4").unwrap();
    let (_, book, _) = solved(&encode(&text.question));
    let words = explain_book(&text.question, &book, Some(9), &text.names).unwrap();
    let expected = "\
line 0: clause 0, piece 0: x < 0 or link 0
line 1: clause 0, piece 1: -x < -5 or not link 0
line 2: clause 1: -x < -1
line 3: clause 2: x < 4
";
    assert!(words.starts_with(expected), "{words}");
    assert!(words.contains(": link 0 from lines "), "{words}");
}

/// The lines of the second solver's book that are loaded.
fn loaded(text: &str) -> String {
    let Text { names, question } = notation::parse(text).unwrap();
    let (_, book, _) = solved(&encode(&question));
    let is_loaded = |line: &&[u8]| line[0] == 0 && line[1..].iter().any(|&byte| byte != 0);
    let lines = book.chunks_exact(64).take_while(is_loaded).count().max(1);
    explain_book(&question, &book, Some(lines), &names).unwrap()
}

#[test]
fn halves_of_an_equality() {
    let both = "\
line 0: clause 0, piece 0 (= as <=): y <= 1 or a or link 0
line 1: clause 0, piece 1 (= as <=): x <= 5 or not link 0 or link 1
line 2: clause 0, piece 2 (= as <=): -z <= -2 or not link 1
line 3: clause 0, piece 3 (= as >=): y <= 1 or a or link 2
line 4: clause 0, piece 4 (= as >=): -x <= -5 or not link 2 or link 3
line 5: clause 0, piece 5 (= as >=): -z <= -2 or not link 3
line 6: clause 1: -x <= -6
line 7: clause 2, piece 0 (= as <=): y <= 3
line 8: clause 2, piece 1 (= as >=): -y <= -3
";
    let text = "marks a\nfigures x y z\ny <= 1 or x = 5 or z >= 2 or a\nx >= 6\ny = 3";
    assert_eq!(loaded(text), both);
    // of an '=' without figures one half is true, and dropped
    let text = "marks a\nfigures x\n0 = 5 or a\n0 = -5 or x < 1 or x < 2";
    let one = "\
line 0: clause 0 (= as >=): a
line 1: clause 1, piece 0 (= as <=): x < 1 or link 0
line 2: clause 1, piece 1 (= as <=): x < 2 or not link 0
";
    assert_eq!(loaded(text), one);
    let nothing = "line 0: clause 0 (= as <=): nothing: a contradiction\n";
    assert_eq!(loaded("0 = -5"), nothing);
}

/// A piece that the clause does not have is of no half.
#[test]
fn a_piece_too_many() {
    let question = notation::parse("figures x\nx = 5").unwrap().question;
    let (_, mut book, _) = solved(&encode(&question));
    book[4] = 2;
    let words = explain_book(&question, &book, Some(2), &Names::numbered(&question)).unwrap();
    let expected = "\
line 0: clause 0, piece 2: x0 <= 5
line 1: clause 0, piece 1 (= as >=): -x0 <= -5
";
    assert_eq!(words, expected);
}

#[test]
fn what_cannot_be_explained() {
    let Text { names, question } = text("example_07");
    let (_, book, _) = solved(&encode(&question));
    let said = |place: usize, byte: u8| {
        let mut book = book[..320].to_vec();
        book[place] = byte;
        explain_book(&question, &book, None, &names).unwrap_err()
    };
    assert_eq!(said(0, 3), "line 0: expected how, 0 to 2, found 3");
    assert_eq!(said(66, 5), "line 1: expected a clause below 5");
    assert_eq!(said(193, 2), "line 3: expected a figure below 2");
    assert_eq!(
        said(70, 0),
        "line 1: expected amounts of 0 without a relation"
    );
    for relation in [3, 4, 5] {
        assert_eq!(said(70, relation), "line 1: expected a relation, 0 to 2");
    }
    assert_eq!(
        said(24, 1),
        "line 0: expected coefficients of 0 from figure 2 on"
    );
    let short = explain_book(&question, &book[..100], Some(2), &names);
    assert_eq!(short.unwrap_err(), "expected 2 whole lines, found 1");
}

#[test]
fn slips_of_a_sheet() {
    let Text { names, question } = text("example_09");
    let (_, _, sheet) = solved(&encode(&question));
    let said = |place: usize, byte: u8| {
        let mut sheet = sheet.clone();
        sheet[place] = byte;
        explain_sheet(&question, &sheet, &names).unwrap_err()
    };
    assert_eq!(
        said(0, 2),
        "byte 0: expected 1 as the count of marks, found 2"
    );
    assert_eq!(said(1, 2), "byte 1: expected 0 or 1, found 2");
    assert_eq!(
        said(3, 0),
        "byte 3: expected a denominator within 1 to 1,000,000,000"
    );
    let range = "expected an amount within -1,000,000,000 to 1,000,000,000";
    assert_eq!(said(10, 127), format!("byte 7: {range}"));
    let short = explain_sheet(&question, &sheet[..63], &names);
    assert_eq!(short.unwrap_err(), "byte 63: expected 64 bytes");
}
