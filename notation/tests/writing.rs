//! Ways to write the same condition, and random questions there and back.

use notation::{
    decode, encode, parse, show, Clause, Condition, Literal, Names, Question, Relation,
};

/// The clauses of a text, shown in the notation.
fn shown(clauses: &str) -> String {
    let text = parse(&format!("marks a b\nfigures x y rent\n{clauses}")).unwrap();
    let shown = show(&text.question, &text.names);
    shown.lines().skip(2).collect::<Vec<_>>().join("; ")
}

#[test]
fn conditions() {
    assert_eq!(shown("x + y <= 10 or not a"), "x + y <= 10 or not a");
    assert_eq!(shown("not a or x+y<=10"), "x + y <= 10 or not a");
    assert_eq!(
        shown("3x - 2 rent <= -5 or a or b"),
        "3x - 2 rent <= -5 or a or b"
    );
    assert_eq!(shown("x >= 7"), "x >= 7");
    assert_eq!(shown("7 >= x - y + 10"), "x - y <= -3");
    assert_eq!(shown("0 <= x"), "x >= 0");
    assert_eq!(shown("5 = x"), "x = 5");
    assert_eq!(shown("2 < x"), "-x < -2");
    assert_eq!(shown("2 > x"), "x < 2");
    assert_eq!(shown("x > 7 - y"), "-x - y < -7");
    assert_eq!(shown("x = y + 7"), "x - y = 7");
    assert_eq!(shown("7 + y = x"), "-x + y = -7");
    assert_eq!(shown("x + 1 < 2x + y - 4"), "-x - y < -5");
    assert_eq!(shown("- 3 x + 0 < 0"), "-3x < 0");
    assert_eq!(shown("x - x <= 5"), "0 <= 5");
    assert_eq!(
        shown("0 < 0 or a or a or not a"),
        "0 < 0 or a or a or not a"
    );
    assert_eq!(shown("x + 5000000000 <= 5000000001"), "x <= 1");
    assert_eq!(
        shown("1000000000x >= -1000000000"),
        "1000000000x >= -1000000000"
    );
    assert_eq!(
        shown("a or x <= 1 or x - rent = 3 or x >= 2 or not b"),
        "x <= 1 or x - rent = 3 or x >= 2 or a or not b"
    );
    assert_eq!(shown("0 = 5 or a"), "0 = 5 or a");
    assert_eq!(shown("x - x >= y - y"), "0 >= 0");
    assert_eq!(
        shown("\n  # nothing\n\tfalse # the empty clause\r\n"),
        "false"
    );
}

#[test]
fn names() {
    let text = parse("figures Kaltmiete_2 größe\nmarks or_not\nor_not or 2größe < Kaltmiete_2");
    let text = text.unwrap();
    let again = "marks or_not\nfigures Kaltmiete_2 größe\n-Kaltmiete_2 + 2 größe < 0 or or_not\n";
    assert_eq!(show(&text.question, &text.names), again);
    assert_eq!(encode(&parse("").unwrap().question), [0, 0, 0, 0]);
    assert_eq!(
        encode(&parse("marks\nfigures").unwrap().question),
        [0, 0, 0, 0]
    );
}

/// Numbers that look random, the same in every run.
struct Random(u64);

impl Random {
    fn below(&mut self, limit: usize) -> usize {
        self.0 = self.0.wrapping_mul(6_364_136_223_846_793_005);
        self.0 = self.0.wrapping_add(1_442_695_040_888_963_407);
        (self.0 >> 33) as usize % limit
    }

    fn amount(&mut self) -> i32 {
        let size = [0, 1, 2, 999, 1_000_000_000][self.below(5)];
        if self.below(2) == 0 {
            size
        } else {
            -size
        }
    }

    fn question(&mut self) -> Question {
        let (marks, figures) = (self.below(17), self.below(9));
        let clauses = self.below(20);
        Question {
            marks,
            figures,
            clauses: (0..clauses).map(|_| self.clause(marks, figures)).collect(),
        }
    }

    /// With at most one `=`.
    fn clause(&mut self, marks: usize, figures: usize) -> Clause {
        let literals = if marks == 0 { 0 } else { self.below(33) };
        let conditions = self.below(9);
        let mut clause = Clause {
            literals: (0..literals).map(|_| self.literal(marks)).collect(),
            conditions: (0..conditions).map(|_| self.condition(figures)).collect(),
        };
        if conditions > 0 && self.below(2) == 0 {
            clause.conditions[self.below(conditions)].relation = Relation::Equal;
        }
        clause
    }

    fn literal(&mut self, marks: usize) -> Literal {
        Literal {
            mark: self.below(marks),
            negated: self.below(2) == 1,
        }
    }

    fn condition(&mut self, figures: usize) -> Condition {
        Condition {
            relation: [Relation::AtMost, Relation::Below, Relation::AtLeast][self.below(3)],
            coefficients: (0..figures).map(|_| self.amount()).collect(),
            bound: self.amount(),
        }
    }
}

/// Line ends of other systems, no line end and a byte order mark make no difference.
#[test]
fn texts_of_other_systems() {
    let text = "marks a\nfigures x\n\n  x <= 1 or a # why\n";
    let bytes = encode(&parse(text).unwrap().question);
    let others = [
        text.replace('\n', "\r\n"),
        text.trim_end().to_string(),
        format!("\u{feff}{text}"),
        text.replace(' ', "\t"),
    ];
    for other in others {
        assert_eq!(encode(&parse(&other).unwrap().question), bytes);
    }
}

/// A text is a question again, or a mistake on the line of the clause where the second solver
/// finds a link too many.
#[test]
fn random_questions_there_and_back() {
    let mut random = Random(1);
    let mut passed = 0;
    for _ in 0..300 {
        let question = random.question();
        let bytes = encode(&question);
        assert_eq!(decode(&bytes).as_ref(), Ok(&question));
        let text = show(&question, &Names::numbered(&question));
        match (parse(&text), reference::read(&bytes)) {
            (Ok(again), Ok(_)) => assert_eq!(encode(&again.question), bytes),
            (Err(mistake), Err(fault)) => {
                assert!(fault.number == 13 && mistake.message.contains("16 links"));
                assert_eq!(mistake.line, line_of(&question, fault.place as usize));
                passed += 1;
            }
            (text, bytes) => panic!("{text:?}, but {bytes:?}"),
        }
    }
    assert!(passed > 0 && passed < 300);
}

/// The line of a question's text for the clause that begins at this byte.
fn line_of(question: &Question, place: usize) -> usize {
    let header = usize::from(question.marks > 0) + usize::from(question.figures > 0);
    let mut at = 4;
    let before = question.clauses.iter().take_while(|clause| {
        let here = at;
        at += clause.length(question.figures);
        here < place
    });
    header + before.count() + 1
}

/// The bytes of one clause, and each relation's own byte.
#[test]
fn relations() {
    let text = parse("figures x\nx <= 1 or x < 2 or x = 3 or x >= 4 or x > 5").unwrap();
    let condition = |relation, coefficient: i32, bound: i32| {
        let amounts = [coefficient, bound].map(i32::to_le_bytes);
        [vec![relation], amounts.concat()].concat()
    };
    let conditions = [(1, 1, 1), (2, 1, 2), (3, 1, 3), (4, 1, 4), (2, -1, -5)];
    let conditions = conditions.map(|(relation, c, bound)| condition(relation, c, bound));
    let bytes = [vec![0, 1, 1, 0, 0, 5], conditions.concat()].concat();
    assert_eq!(encode(&text.question), bytes);
}

#[test]
fn damaged_questions_are_refused_where_the_second_solver_refuses_them() {
    let mut random = Random(2);
    let mut doubles = 0;
    for _ in 0..3000 {
        let mut bytes = encode(&random.question());
        let place = random.below(bytes.len());
        bytes[place] = [random.below(256), 3][random.below(2)] as u8;
        bytes.truncate(bytes.len() - random.below(2));
        let theirs = reference::read(&bytes)
            .err()
            .filter(|fault| fault.number != 13);
        doubles += usize::from(matches!(&theirs, Some(fault) if fault.number == 18));
        let ours = decode(&bytes).err();
        let place = ours.map(|said| said.split(':').next().unwrap().to_string());
        assert_eq!(place, theirs.map(|fault| format!("byte {}", fault.place)));
    }
    assert!(doubles > 10, "{doubles}");
}

/// A second `=` is found at its relation, before its amounts, in a clause that tidying drops, too.
#[test]
fn a_second_equality_in_bytes() {
    let said = |bytes: &[u8]| decode(bytes).unwrap_err();
    let double = "expected at most one relation 3 in a clause";
    let first = [0, 0, 1, 0, 0, 2, 3, 0, 0, 0, 0];
    for rest in [&[3][..], &[3, 0, 0, 0], &[3, 255, 255, 255, 127]] {
        assert_eq!(said(&[&first, rest].concat()), format!("byte 11: {double}"));
    }
    let relation = "byte 11: expected a relation, 1 to 4";
    for byte in [0, 5, 255] {
        assert_eq!(said(&[&first[..], &[byte]].concat()), relation);
    }
    let apart = [&[0, 0, 2, 0][..], &[0, 1, 3, 0, 0, 0, 0].repeat(2)].concat();
    assert!(decode(&apart).is_ok());
}
