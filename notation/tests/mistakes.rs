//! Mistakes, with their exact text.

use notation::{encode, parse};

fn said(text: &str) -> String {
    parse(text).unwrap_err().of("payment.txt")
}

/// The mistake in one clause on line 3, with marks a, b and figures x, y.
fn said_of(clause: &str) -> String {
    let said = said(&format!("marks a b\nfigures x y\n{clause}\n"));
    said.strip_prefix("payment.txt:3:").unwrap().to_string()
}

#[test]
fn in_clauses() {
    let cases = [
        ("x + z <= 1", "5: unknown name 'z'"),
        ("not z", "5: unknown name 'z'"),
        ("x + 2a <= 1", "6: expected a figure, found mark 'a'"),
        ("not x", "5: expected a mark, found figure 'x'"),
        ("not 3", "5: expected a mark, found '3'"),
        (
            "x + y",
            "6: expected '<=', '<', '>=', '>' or '=', found the end of the line",
        ),
        (
            "x or a",
            "3: expected '<=', '<', '>=', '>' or '=', found 'or'",
        ),
        (
            "x <=   # what?",
            "5: expected a figure or a number, found the end of the line",
        ),
        (
            "x + - y <= 1",
            "5: expected a figure or a number, found '-'",
        ),
        (
            "<= 1",
            "1: expected a mark, a figure or a number, found '<='",
        ),
        (
            "a or",
            "5: expected a mark, a figure or a number, found the end of the line",
        ),
        (
            "a or false",
            "6: expected a mark, a figure or a number, found 'false'",
        ),
        (
            "1 <= x <= 5",
            "8: expected 'or' or the end of the line, found '<='",
        ),
        ("a b", "3: expected 'or' or the end of the line, found 'b'"),
        ("false or a", "7: expected the end of the line, found 'or'"),
        ("x = 5 a", "7: expected a figure, found mark 'a'"),
        (
            "x < y = 5",
            "7: expected 'or' or the end of the line, found '='",
        ),
        (
            "x = y <= 5",
            "7: expected 'or' or the end of the line, found '<='",
        ),
        (
            "x * 2 <= 1",
            "3: expected a name, a number or a sign, found '*'",
        ),
        (
            "x \u{200b}<= 1",
            "3: expected a name, a number or a sign, found U+200B",
        ),
        (
            "x \0<= 1",
            "3: expected a name, a number or a sign, found U+0000",
        ),
        (
            "_x <= 1",
            "1: expected a name, a number or a sign, found '_'",
        ),
        (
            "a or 1000000001x <= 1",
            "6: expected at most 1,000,000,000 in size as coefficient of 'x'",
        ),
        (
            "y <= 999999999 + 2",
            "1: expected at most 1,000,000,000 in size as bound",
        ),
        (
            "x <= 9223372036854775808",
            "6: expected a number within 64 bits",
        ),
        (
            "x <= 9223372036854775807 + 1",
            "28: expected a sum within 64 bits",
        ),
        (
            "x - 9223372036854775807 <= 9223372036854775807",
            "1: expected at most 1,000,000,000 in size as bound",
        ),
    ];
    for (clause, message) in cases {
        assert_eq!(said_of(clause), message, "{clause}");
    }
}

/// A second `=`, whatever stands behind it.
#[test]
fn two_equalities() {
    let cases = [
        ("x = 1 or y = 2", 12),
        ("x = y = 5", 7),
        ("0 = 0 or 0 = z", 12),
        ("x = 1 or a or x < 3 or 2x - 5 = ", 31),
        ("a or not a or x = 1 or y = 2000000000", 26),
    ];
    let message = "expected at most one '=' in a clause; write two clauses, and for 'or' between \
                   them a mark: 'x = 1 or m' and 'y = 2 or not m'";
    for (clause, column) in cases {
        assert_eq!(said_of(clause), format!("{column}: {message}"), "{clause}");
    }
    assert_eq!(said_of("x = 1 or z = 2"), "10: unknown name 'z'");
    let instead = "marks m\nfigures x y\nx = 1 or m\ny = 2 or not m";
    assert_eq!(parse(instead).unwrap().question.clauses.len(), 2);
}

#[test]
fn in_names() {
    let cases = [
        ("marks a\nmarks b", "2:1: expected 'marks' once"),
        (
            "false\n  figures x",
            "2:3: expected 'figures' before the first clause",
        ),
        ("marks a b a", "1:11: expected a new name, found 'a' again"),
        ("figures x or", "1:11: expected a name, found 'or'"),
        ("figures x 3", "1:11: expected a name, found '3'"),
        (
            "marks a b\nfigures b",
            "2:9: expected a new name, found 'b' again",
        ),
        (
            "figures größe x, y",
            "1:16: expected a name, a number or a sign, found ','",
        ),
        (
            "marks a b c d e f g h i j k l m n o p q",
            "1:39: expected at most 16 marks",
        ),
        (
            "figures a b c d e f g h i",
            "1:25: expected at most 8 figures",
        ),
    ];
    for (text, message) in cases {
        assert_eq!(said(text), format!("payment.txt:{message}"));
    }
}

#[test]
fn beyond_the_limits() {
    let literals = |count| vec!["a"; count].join(" or ");
    assert!(parse(&format!("marks a\n{}", literals(32))).is_ok());
    assert_eq!(
        said_of(&literals(33)),
        "161: expected at most 32 literals in a clause"
    );
    let conditions = |count| vec!["x<1"; count].join(" or ");
    assert!(parse(&format!("figures x\n{}", conditions(8))).is_ok());
    assert_eq!(
        said_of(&conditions(9)),
        "57: expected at most 8 conditions in a clause"
    );
    assert!(parse(&"false\n".repeat(256)).is_ok());
    let many = "false\n".repeat(257);
    assert_eq!(
        said(&many),
        "payment.txt:257:1: expected at most 256 clauses"
    );
    let equations = "figures x\n".to_string() + &"x = 1\n".repeat(256);
    assert!(parse(&equations).is_ok());
    assert_eq!(
        said(&(equations + "  x = 1")),
        "payment.txt:258:3: expected at most 256 clauses"
    );
}

/// 109 clauses of 298 bytes, one of 278 and four bytes before them are 32,764; a true constant
/// drops its clause, so that none takes links.
#[test]
fn beyond_the_bytes() {
    let clause = ["0<1"; 8].join(" or ") + "\n";
    let head = "marks z\nfigures x b c d e f g h\n".to_string() + &clause.repeat(109);
    let most = ["0<1"; 7].join(" or ") + &" or z".repeat(17) + "\n";
    let full = head + &most + "z or z\n";
    assert_eq!(encode(&parse(&full).unwrap().question).len(), 32_768);
    let more = full + " z\n";
    assert_eq!(
        said(&more),
        "payment.txt:114:2: expected at most 32,768 bytes"
    );
}

/// Two clauses of eight conditions and one of three take 16 links; clauses that tidying drops and
/// conditions that it strikes out take none.
#[test]
fn beyond_the_links() {
    let conditions = |count| vec!["x<1"; count].join(" or ") + "\n";
    let head = "marks a\nfigures x\n".to_string() + &conditions(8) + &conditions(8);
    let free = "x<1 or x<2 or 0<=0\nx<1 or x<2 or a or not a\nx<1 or 0<0\na\n";
    let full = head.clone() + &conditions(3) + free;
    assert!(parse(&full).is_ok());
    let links =
        "expected at most 16 links; a clause takes one for each condition after its first, \
                 or two if it has an '='";
    assert_eq!(
        said(&(full + "  x<1 or x<2 or 1<0")),
        format!("payment.txt:10:3: {links}")
    );
    assert_eq!(
        said(&(head + &conditions(4))),
        format!("payment.txt:5:1: {links}")
    );
    // an '=' without figures leaves one reading, its other side being true
    let twice = "figures x\n".to_string() + &"x<1 or x=2 or x<3 or x<4\n".repeat(2);
    let full = twice + "x<1 or x<2 or x<3 or 0=1\nx<1 or x<2 or x<3 or -1=0\n";
    assert!(parse(&full).is_ok());
    assert_eq!(
        said(&(full + "x=1 or x<2\n")),
        format!("payment.txt:6:1: {links}")
    );
}
