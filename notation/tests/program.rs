//! The program: output, exit status, and one line for whatever is wrong.

mod common;

use common::{from_c, root};
use std::fs;
use std::path::PathBuf;
use std::process::{Command, Output};

fn notation(arguments: &[&str]) -> Output {
    Command::new(env!("CARGO_BIN_EXE_notation"))
        .args(arguments)
        .current_dir(root().join("examples"))
        .output()
        .unwrap()
}

/// What it prints when all is well.
fn printed(arguments: &[&str]) -> String {
    let output = notation(arguments);
    assert_eq!(output.status.code(), Some(0), "{arguments:?}");
    assert!(output.stderr.is_empty());
    String::from_utf8(output.stdout).unwrap()
}

/// Its status and its line of complaint.
fn refused(arguments: &[&str]) -> (i32, String) {
    let output = notation(arguments);
    assert!(output.stdout.is_empty());
    let said = String::from_utf8(output.stderr).unwrap();
    assert_eq!(said.lines().count(), 1, "{said}");
    (output.status.code().unwrap(), said.trim_end().to_string())
}

/// A file of the test's own.
fn file(name: &str, bytes: &[u8]) -> String {
    let path = PathBuf::from(env!("CARGO_TARGET_TMPDIR")).join(name);
    fs::write(&path, bytes).unwrap();
    path.to_str().unwrap().to_string()
}

#[test]
fn writes_and_reads() {
    let written = notation(&["write", "payment.txt"]).stdout;
    assert_eq!(
        written,
        fs::read(root().join("examples/payment.question")).unwrap()
    );
    let numbered = "figures x0 x1\nx0 + x1 <= 10\n-x0 <= -7\n-x1 <= -4\n";
    assert_eq!(printed(&["read", "example_07.question"]), numbered);
    let named = "marks a\nfigures x\nx <= 0 or -x <= -5 or a\nnot a\n";
    assert_eq!(
        printed(&["read", "example_09.question", "example_09.txt"]),
        named
    );
}

#[test]
fn explains() {
    let book = file("eight.book", &from_c("example_8_book").unwrap());
    let question = "example_08.question";
    let all = printed(&["book", question, &book]);
    assert!(all.ends_with("line 2: mark m0 from lines 0 and 1: nothing: a contradiction\n"));
    assert_eq!(
        printed(&["book", question, &book, "1"]),
        "line 0: clause 0: m0\n"
    );
    let named = printed(&["book", question, &book, "example_08.txt", "2"]);
    assert_eq!(named, "line 0: clause 0: a\nline 1: clause 1: not a\n");
    let sheet = file("five.sheet", &from_c("example_5_sheet").unwrap());
    let question = "example_05.question";
    assert_eq!(printed(&["sheet", question, &sheet]), "figure x0: 9/2\n");
    assert_eq!(
        printed(&["sheet", question, &sheet, "example_05.txt"]),
        "figure x: 9/2\n"
    );
}

/// A sheet of the example with an open mark, whose byte is this one.
fn open_sheet(byte: u8) -> String {
    let mut sheet = vec![3, 1, 0, byte, 1, 1, 0, 0, 0, 32, 3];
    sheet.resize(64, 0);
    file(&format!("open_{byte}.sheet"), &sheet)
}

#[test]
fn explains_an_open_mark() {
    let numbered = "mark m0: yes\nmark m1: no\nmark m2: open: decided by nothing\nfigure x0: 800\n";
    let sheet = open_sheet(2);
    assert_eq!(printed(&["sheet", "open.question", &sheet]), numbered);
    let named = printed(&["sheet", "open.question", &sheet, "open.txt"]);
    assert!(
        named.contains("\nmark c_rent: open: decided by nothing\n"),
        "{named}"
    );
    for byte in [0, 1, 3] {
        let sheet = open_sheet(byte);
        let slip = "expected 2, as the mark stands in no clause";
        let said = format!("{sheet}: byte 3: {slip}, found {byte}");
        assert_eq!(refused(&["sheet", "open.question", &sheet]), (1, said));
    }
}

#[test]
fn says_what_is_wrong() {
    let wrong = file("wrong.txt", b"figures x\n\nx + z <= 1\n");
    let said = format!("{wrong}:3:5: unknown name 'z'");
    assert_eq!(refused(&["write", &wrong]), (1, said));
    let latin = file("latin.txt", b"figures x\n# \xe9\n");
    let said = format!("{latin}:2:3: expected UTF-8");
    assert_eq!(refused(&["write", &latin]), (1, said));
    let said =
        "example_07.txt:1:1: expected names for marks: 1, figures: 1, found marks: 0, figures: 2";
    let arguments = ["read", "example_09.question", "example_07.txt"];
    assert_eq!(refused(&arguments), (1, said.to_string()));
    let cut = file("cut.question", &[0, 1, 1, 0, 0]);
    assert_eq!(
        refused(&["read", &cut]),
        (1, format!("{cut}: byte 5: expected more bytes"))
    );
    let (status, said) = refused(&["read", "nowhere.question"]);
    assert!(
        status == 1 && said.starts_with("nowhere.question: "),
        "{said}"
    );
}

#[test]
fn says_its_usage() {
    let wrong: [&[&str]; 6] = [
        &[],
        &["write"],
        &["solve", "example_07.question"],
        &["read", "a", "b", "c"],
        &["book", "a", "b", "c", "d"],
        &["book", "a", "b", "99999999999999999999999"],
    ];
    for arguments in wrong {
        let (status, said) = refused(arguments);
        assert!(
            status == 2 && said.starts_with("usage: notation write FILE"),
            "{said}"
        );
    }
}
