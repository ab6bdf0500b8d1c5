//! The order in which a run took its figures: on books by hand, each of which another reading of
//! the rule would order otherwise, and on runs of the second solver.

mod common;

use common::{solved, text, texts};
use notation::{encode, explain_order, order_taken, parse, Names, Text};

const CLAUSE: (u8, u8) = (0, 0);

fn figure(number: u8) -> (u8, u8) {
    (1, number)
}

fn mark(number: u8) -> (u8, u8) {
    (2, number)
}

/// Lines of a book, each with its own bound.
#[derive(Default)]
struct Book(Vec<u8>);

impl Book {
    /// So many lines with this origin and this condition.
    fn lines(mut self, count: usize, (how, which): (u8, u8), coefficients: &[i32]) -> Book {
        for _ in 0..count {
            let mut line = [0; 64];
            (line[0], line[1], line[6]) = (how, which, 1);
            for (i, coefficient) in coefficients.iter().enumerate() {
                line[16 + 4 * i..20 + 4 * i].copy_from_slice(&coefficient.to_le_bytes());
            }
            line[48] = (self.0.len() / 64) as u8;
            self.0.extend(line);
        }
        self
    }

    fn clauses(self, count: usize, coefficients: &[i32]) -> Book {
        self.lines(count, CLAUSE, coefficients)
    }

    /// A line without a condition, with these marks and these negated.
    fn marks(mut self, (how, which): (u8, u8), positive: u8, negative: u8) -> Book {
        let mut line = [0; 64];
        (line[0], line[1], line[8], line[12]) = (how, which, positive, negative);
        self.0.extend(line);
        self
    }

    fn empty(self, origin: (u8, u8)) -> Book {
        self.marks(origin, 0, 0)
    }

    fn order(&self, figures: usize) -> Vec<usize> {
        order_taken(figures, &self.0)
    }
}

/// Clauses of one figure each: for each figure its uppers and its lowers.
fn apart<const R: usize>(sides: [(usize, usize); R]) -> Book {
    let mut book = Book::default();
    for (figure, (uppers, lowers)) in sides.into_iter().enumerate() {
        let mut coefficients = [0; R];
        coefficients[figure] = 2;
        book = book.clauses(uppers, &coefficients);
        coefficients[figure] = -3;
        book = book.clauses(lowers, &coefficients);
    }
    book
}

#[test]
fn the_cost_has_a_sign() {
    assert_eq!(apart([(0, 0), (3, 0)]).order(2), [1, 0]);
    assert_eq!(apart([(0, 0), (0, 3)]).order(2), [1, 0]);
    // 1, 0 and -1: a figure in no line stands between them
    assert_eq!(apart([(2, 3), (0, 0), (1, 1)]).order(3), [2, 1, 0]);
}

#[test]
fn the_lines_that_go_are_taken_off() {
    // 4 - 4 and 5 - 6
    assert_eq!(apart([(2, 2), (1, 5)]).order(2), [1, 0]);
    assert_eq!(apart([(2, 2), (5, 1)]).order(2), [1, 0]);
    // 6 - 5 and 4 - 5
    assert_eq!(apart([(3, 2), (4, 1)]).order(2), [1, 0]);
}

#[test]
fn ties_go_to_the_lower_number() {
    assert_eq!(apart([(1, 1), (1, 1), (1, 1)]).order(3), [0, 1, 2]);
    assert_eq!(apart([(2, 3), (1, 4), (7, 1)]).order(3), [1, 2, 0]);
    assert_eq!(apart([(0, 0), (2, 2), (0, 0)]).order(3), [0, 1, 2]);
}

#[test]
fn lines_with_a_figure_already_taken_do_not_count() {
    let book = Book::default()
        .clauses(3, &[1, 1])
        .clauses(2, &[0, 1])
        .clauses(2, &[0, -1])
        .clauses(2, &[0, 0, 1])
        .clauses(3, &[0, 0, -1]);
    // -3; then 0 for figure 1, which would be 3 with the first lines, and 1 for figure 2
    assert_eq!(book.order(3), [0, 1, 2]);
}

#[test]
fn the_cost_is_counted_anew_at_each_turn() {
    let book = Book::default()
        .clauses(1, &[1, 0, 1])
        .clauses(1, &[-1, 0, 1])
        .clauses(2, &[0, 0, -1])
        .clauses(2, &[0, 1, 0])
        .clauses(2, &[0, -1, 0])
        .lines(1, figure(0), &[0, 0, 1]);
    // figures 1 and 2 cost 0 at first; after figure 0, figure 2 costs -1
    assert_eq!(book.order(3), [0, 2, 1]);
}

#[test]
fn results_of_figures_taken_count() {
    let book = Book::default()
        .clauses(1, &[1, 1])
        .clauses(2, &[-1, 1])
        .clauses(3, &[0, -1])
        .clauses(2, &[0, 0, 1])
        .clauses(2, &[0, 0, -1])
        .lines(2, figure(0), &[0, 1]);
    // figure 1 costs 6 - 5 with its two results, and -3 without
    assert_eq!(book.order(3), [0, 2, 1]);
}

#[test]
fn results_of_later_turns_do_not_count() {
    let book = Book::default()
        .clauses(1, &[1, 1])
        .clauses(2, &[-1])
        .lines(2, figure(0), &[0, 1]);
    // both cost -1; with the results figure 1 would cost -3
    assert_eq!(book.order(2), [0, 1]);
    let book = Book::default()
        .clauses(2, &[1])
        .clauses(2, &[-1])
        .lines(3, mark(0), &[0, 1]);
    assert_eq!(book.order(2), [0, 1]);
}

#[test]
fn an_empty_line_ends_the_order() {
    let sides = [(2, 2), (1, 1), (2, 3)];
    assert_eq!(apart(sides).order(3), [1, 0, 2]);
    assert_eq!(apart(sides).empty(CLAUSE).order(3), []);
    assert_eq!(apart(sides).empty(figure(1)).order(3), [1]);
    assert_eq!(apart(sides).empty(figure(0)).order(3), [1, 0]);
    assert_eq!(apart(sides).empty(figure(2)).order(3), [1, 0, 2]);
    assert_eq!(apart(sides).empty(mark(1)).order(3), [1, 0, 2]);
}

#[test]
fn lines_of_marks_alone_do_not_end_it() {
    let sides = [(2, 2), (1, 1)];
    let book = apart(sides).marks(CLAUSE, 1, 0).marks(CLAUSE, 0, 1);
    assert_eq!(book.order(2), [1, 0]);
    let book = apart(sides).marks(figure(1), 1, 0).marks(figure(1), 0, 2);
    assert_eq!(book.order(2), [1, 0]);
}

#[test]
fn without_lines_or_figures() {
    assert_eq!(Book::default().order(0), []);
    assert_eq!(Book::default().order(3), [0, 1, 2]);
    assert_eq!(Book::default().empty(CLAUSE).order(8), []);
    assert_eq!(Book::default().marks(CLAUSE, 1, 0).order(0), []);
}

#[test]
fn eight_figures() {
    let sides = [8, 7, 6, 5, 4, 3, 2, 1].map(|lines| (lines, lines));
    assert_eq!(apart(sides).order(8), [7, 6, 5, 4, 3, 2, 1, 0]);
}

/// What is said of the second solver's run.
fn said(Text { question, names }: &Text) -> String {
    let (answer, book, _) = solved(&encode(question));
    match answer {
        reference::Answer::Verdict { lines, .. } => {
            explain_order(question, &book[..64 * lines], names)
        }
        reference::Answer::Refused { number, .. } => panic!("refused, {number}"),
    }
}

#[test]
fn in_words() {
    assert_eq!(
        said(&text("payment")),
        "figures in the order taken: rent_a, heating_b, arrears_c, arrears_b, heating_a\n"
    );
    let question = text("payment").question;
    let numbered = Text {
        names: Names::numbered(&question),
        question,
    };
    assert_eq!(
        said(&numbered),
        "figures in the order taken: x0, x2, x4, x3, x1\n"
    );
    assert_eq!(said(&text("example_05")), "figures in the order taken: x\n");
    let early = "figures x y z\nx <= 6\nx <= 5\nx >= 0\nx >= 1\ny <= 1\ny >= 2";
    assert_eq!(
        said(&parse(early).unwrap()),
        "figures in the order taken: y\n"
    );
    for nothing in ["example_01", "example_02", "example_08"] {
        assert_eq!(said(&text(nothing)), "");
    }
    assert_eq!(said(&parse("figures x\nx <= 5\nfalse").unwrap()), "");
}

/// The order of the second solver's book, and the one that it took; none after a refusal.
fn orders(question: &[u8]) -> Option<(Vec<usize>, Vec<usize>)> {
    let (answer, book, _) = solved(question);
    let lines = match answer {
        reference::Answer::Verdict { lines, .. } => &book[..64 * lines],
        reference::Answer::Refused { .. } => return None,
    };
    let order = order_taken(usize::from(question[1]), lines);
    Some((order, reference::figures_taken(question)?))
}

#[test]
fn the_book_tells_the_order_taken() {
    let mut random = questions::random::Random::new(7);
    let mut all: Vec<Vec<u8>> = (0..3_000)
        .map(|i| match i % 2 {
            0 => random.problem().encode(),
            _ => random.sparse_problem().encode(),
        })
        .collect();
    all.extend(texts().iter().map(|file| {
        let text = std::fs::read_to_string(file).unwrap();
        encode(&parse(&text).unwrap().question)
    }));
    let mut not_rising = 0;
    for (order, taken) in all.iter().filter_map(|question| orders(question)) {
        assert_eq!(order, taken);
        not_rising += usize::from(order.windows(2).any(|two| two[0] > two[1]));
    }
    assert!(not_rising >= 200, "{not_rising}");
}
