//! Books by hand with their short ones, for 02's (xi), both written out, and the readings that each
//! tells apart.

use crate::lines::Line;
use questions::problem::{at_least, at_most, below, equal, no, yes, Problem};

pub struct Case {
    pub name: &'static str,
    pub edition: u64,
    pub problem: Problem,
    pub book: Vec<Line>,
    pub short: Vec<Line>,
}

/// A loaded line of piece 0.
fn load(clause: u16) -> Line {
    Line::loaded(clause, 0)
}

/// Without a condition.
fn by(how: u8, which: u8, first: usize, second: usize) -> Line {
    Line {
        how,
        which,
        ..load(0)
    }
    .with_parents([first, second])
}

/// x < 5; -x ≤ -5; a; not a.
fn twice() -> Problem {
    Problem::new(1, 1)
        .clause([below(&[1], 5)])
        .clause([at_most(&[-1], -5)])
        .clause([yes(0)])
        .clause([no(0)])
}

fn upper() -> Line {
    load(0).condition(2, &[1], 5)
}

fn lower() -> Line {
    load(1).condition(1, &[-1], -5)
}

fn a() -> Line {
    load(2).marks(1, 0)
}

fn not_a() -> Line {
    load(3).marks(0, 1)
}

pub fn cases() -> Vec<Case> {
    [
        of_ends(),
        of_loaded(),
        of_repeats(),
        of_parents(),
        of_pieces(),
    ]
    .into_iter()
    .flatten()
    .collect()
}

fn case(name: &'static str, problem: Problem, book: Vec<Line>, short: Vec<Line>) -> Case {
    Case {
        name,
        edition: 1,
        problem,
        book,
        short,
    }
}

/// Which empty line counts.
fn of_ends() -> Vec<Case> {
    let by_figure = [upper(), lower(), by(1, 0, 0, 1)];
    let by_mark = [a(), not_a(), by(2, 0, 0, 1)];
    let all = |end: Line| vec![upper(), lower(), by(1, 0, 0, 1), a(), not_a(), end];
    vec![
        case(
            "an end by a figure",
            twice(),
            by_figure.to_vec(),
            by_figure.to_vec(),
        ),
        case(
            "an end by a mark",
            twice(),
            by_mark.to_vec(),
            by_mark.to_vec(),
        ),
        case(
            "the second end, by a mark",
            twice(),
            all(by(2, 0, 3, 4)),
            by_mark.to_vec(),
        ),
        case(
            "the first end once more",
            twice(),
            all(by(1, 0, 0, 1)),
            by_figure.to_vec(),
        ),
        case(
            "three ends, the first by a mark",
            twice(),
            vec![
                a(),
                not_a(),
                by(2, 0, 0, 1),
                upper(),
                lower(),
                by(1, 0, 3, 4),
                by(1, 0, 3, 4),
            ],
            by_figure.to_vec(),
        ),
        case(
            "an end at once, and once more",
            Problem::new(0, 0).clause([]),
            vec![load(0), load(0)],
            vec![load(0)],
        ),
        // of an empty clause 0 a line of zeros is the piece, so a whole buffer of them is a book
        case(
            "zeros to the last byte",
            Problem::new(0, 0).clause([]),
            vec![load(0); 1_024],
            vec![load(0)],
        ),
    ]
}

/// What a loaded line's numbers are: clause and piece, and neither a line's nor to be changed.
fn of_loaded() -> Vec<Case> {
    // x ≤ 5; y ≤ 5; nothing
    let empty = |clauses: usize| {
        let mut problem = Problem::new(0, 2);
        problem.clauses = vec![
            vec![at_most(&[1], 5)],
            vec![at_most(&[0, 1], 5)],
            vec![],
            vec![],
        ];
        problem.clauses.truncate(clauses);
        problem
    };
    let x = load(0).condition(1, &[1], 5);
    let y = load(1).condition(1, &[0, 1], 5);
    // x ≤ 5 four times; x < 5; -x ≤ -5
    let late = (0..4).fold(Problem::new(0, 1), |problem, _| {
        problem.clause([at_most(&[1], 5)])
    });
    let late = late.clause([below(&[1], 5)]).clause([at_most(&[-1], -5)]);
    let weak = |clause| load(clause).condition(1, &[1], 5);
    let (fourth, fifth) = (
        load(4).condition(2, &[1], 5),
        load(5).condition(1, &[-1], -5),
    );
    // a false constant beside others: piece 0, and the clause is 1
    let constant = Problem::new(0, 1)
        .clause([at_most(&[1], 5)])
        .clause([at_most(&[], -1)]);
    vec![
        case(
            "a loaded end, clause 2",
            empty(3),
            vec![x.clone(), y.clone(), y.clone(), load(2)],
            vec![load(2)],
        ),
        case(
            "a loaded end, clause 3 of line 0",
            empty(4),
            vec![load(3)],
            vec![load(3)],
        ),
        case(
            "loaded ends, the last is clause 2",
            empty(4),
            vec![load(3), x.clone(), load(3), load(2)],
            vec![load(2)],
        ),
        case(
            "a constant that is false",
            constant,
            vec![x.clone(), load(1)],
            vec![load(1)],
        ),
        case(
            "clauses 4 and 5, from lines 0 and 1",
            late.clone(),
            vec![fourth.clone(), fifth.clone(), by(1, 0, 0, 1)],
            vec![fourth.clone(), fifth.clone(), by(1, 0, 0, 1)],
        ),
        case(
            "clauses 4 and 5, from lines 4 and 5",
            late.clone(),
            vec![
                weak(0),
                weak(1),
                weak(2),
                weak(3),
                fourth.clone(),
                fifth.clone(),
                by(1, 0, 4, 5),
            ],
            vec![fourth.clone(), fifth.clone(), by(1, 0, 0, 1)],
        ),
        case(
            "clauses 5 and 4, from lines 1 and 3",
            late,
            vec![
                weak(3),
                fifth.clone(),
                weak(2),
                fourth.clone(),
                weak(1),
                by(1, 0, 3, 1),
            ],
            vec![fifth, fourth, by(1, 0, 1, 0)],
        ),
        Case {
            edition: 2,
            ..case(
                "a clause of edition 2",
                Problem::new(0, 2).clause([at_most(&[0, 1], -1)]),
                vec![
                    load(1).condition(1, &[-1], 0),
                    load(0).condition(1, &[0, 1], -1),
                    load(2).condition(1, &[0, -1], 0),
                    load(1).condition(1, &[-1], 0),
                    by(1, 1, 1, 2),
                ],
                vec![
                    load(0).condition(1, &[0, 1], -1),
                    load(2).condition(1, &[0, -1], 0),
                    by(1, 1, 0, 1),
                ],
            )
        },
    ]
}

/// A line that stands twice: the one that is named stays.
fn of_repeats() -> Vec<Case> {
    let short = vec![upper(), lower(), by(1, 0, 0, 1)];
    let turned = vec![lower(), upper(), by(1, 0, 1, 0)];
    vec![
        case(
            "the first of two",
            twice(),
            vec![upper(), upper(), lower(), by(1, 0, 0, 2)],
            short.clone(),
        ),
        case(
            "the second of two",
            twice(),
            vec![upper(), upper(), lower(), by(1, 0, 1, 2)],
            short.clone(),
        ),
        case(
            "the second of two, behind the other parent",
            twice(),
            vec![upper(), lower(), upper(), by(1, 0, 2, 1)],
            turned.clone(),
        ),
        case(
            "the first of three and the last of two",
            twice(),
            vec![upper(), upper(), lower(), upper(), lower(), by(1, 0, 0, 4)],
            short,
        ),
        // a or x ≤ 0; -x ≤ -1; not a or x ≤ 0: both copies of a clause are needed, and one of a result
        case(
            "two copies, both needed",
            Problem::new(1, 1)
                .clause([yes(0), at_most(&[1], 0)])
                .clause([at_most(&[-1], -1)])
                .clause([no(0), at_most(&[1], 0)]),
            vec![
                load(1).condition(1, &[-1], -1),
                load(0).condition(1, &[1], 0).marks(1, 0),
                load(1).condition(1, &[-1], -1),
                load(2).condition(1, &[1], 0).marks(0, 1),
                by(1, 0, 1, 2).marks(1, 0),
                by(1, 0, 1, 0).marks(1, 0),
                by(1, 0, 3, 0).marks(0, 1),
                by(2, 0, 4, 6),
            ],
            vec![
                load(1).condition(1, &[-1], -1),
                load(0).condition(1, &[1], 0).marks(1, 0),
                load(1).condition(1, &[-1], -1),
                load(2).condition(1, &[1], 0).marks(0, 1),
                by(1, 0, 1, 2).marks(1, 0),
                by(1, 0, 3, 0).marks(0, 1),
                by(2, 0, 4, 5),
            ],
        ),
    ]
}

/// Both parents, and theirs; a parent of two lines once.
fn of_parents() -> Vec<Case> {
    // x + y ≤ 10; -x ≤ -7; -y ≤ -4: example 7
    let seven = Problem::new(0, 2)
        .clause([at_most(&[1, 1], 10)])
        .clause([at_most(&[-1], -7)])
        .clause([at_most(&[0, -1], -4)]);
    let sum = load(0).condition(1, &[1, 1], 10);
    let x = load(1).condition(1, &[-1], -7);
    let y = load(2).condition(1, &[0, -1], -4);
    let rest = |x: usize, y: usize| by(1, 0, x, y).condition(1, &[0, 1], 3);
    let of_x = |x: usize, y: usize| by(1, 1, x, y).condition(1, &[1], 6);
    let example = vec![
        sum.clone(),
        x.clone(),
        y.clone(),
        rest(0, 1),
        by(1, 1, 3, 2),
    ];
    // a or b; a or not b; not a or b; not a or not b
    let square = Problem::new(2, 0)
        .clause([yes(0), yes(1)])
        .clause([yes(0), no(1)])
        .clause([no(0), yes(1)])
        .clause([no(0), no(1)]);
    let corner = |i: u16| {
        let (a, b) = (u32::from(i / 2), u32::from(i % 2));
        load(i).marks((1 - a) | (1 - b) << 1, a | b << 1)
    };
    let corners: Vec<Line> = (0..4).map(corner).collect();
    let (a, not_a) = (by(2, 1, 0, 1).marks(1, 0), by(2, 1, 2, 3).marks(0, 1));
    let (b, not_b) = (by(2, 0, 0, 2).marks(2, 0), by(2, 0, 1, 3).marks(0, 2));
    let marks = |end: Line, more: &[Line]| [&corners[..], more, &[end]].concat();
    vec![
        case("example 7", seven.clone(), example.clone(), example.clone()),
        case(
            "example 7, with y first, too",
            seven.clone(),
            vec![
                sum.clone(),
                x.clone(),
                y.clone(),
                of_x(0, 2),
                rest(0, 1),
                by(1, 1, 4, 2),
            ],
            example,
        ),
        case(
            "example 7, by the other result",
            seven,
            vec![
                y.clone(),
                sum.clone(),
                x.clone(),
                of_x(1, 0),
                rest(1, 2),
                by(1, 0, 3, 2),
            ],
            vec![y, sum, x, of_x(1, 0), by(1, 0, 3, 2)],
        ),
        case(
            "both parents are results",
            square.clone(),
            marks(by(2, 0, 4, 5), &[a.clone(), not_a.clone()]),
            marks(by(2, 0, 4, 5), &[a.clone(), not_a.clone()]),
        ),
        case(
            "all four corners, by b",
            square.clone(),
            marks(
                by(2, 1, 6, 7),
                &[a.clone(), not_a.clone(), b.clone(), not_b.clone()],
            ),
            marks(by(2, 1, 4, 5), &[b.clone(), not_b.clone()]),
        ),
        case(
            "all four corners, by a",
            square,
            marks(by(2, 0, 5, 7), &[b, a.clone(), not_b, not_a.clone()]),
            marks(by(2, 0, 4, 5), &[a, not_a]),
        ),
    ]
}

/// Pieces of a clause, by = and by links.
fn of_pieces() -> Vec<Case> {
    // x = 5; x ≥ 6; x ≤ 4: each needs one piece of the =
    let equality = Problem::new(0, 1)
        .clause([equal(&[1], 5)])
        .clause([at_least(&[1], 6)])
        .clause([at_most(&[1], 4)]);
    let at_most_5 = load(0).condition(1, &[1], 5);
    let at_least_5 = Line::loaded(0, 1).condition(1, &[-1], -5);
    let at_least_6 = load(1).condition(1, &[-1], -6);
    let at_most_4 = load(2).condition(1, &[1], 4);
    let all = |end: Line| {
        vec![
            at_most_5.clone(),
            at_least_5.clone(),
            at_least_6.clone(),
            at_most_4.clone(),
            end,
        ]
    };
    // y ≤ 0 or y ≤ 1, of link 1; x ≤ 0 or x ≤ 1, of link 2; -x ≤ -5; a is mark 0
    let links = Problem::new(1, 2)
        .clause([at_most(&[0, 1], 0), at_most(&[0, 1], 1)])
        .clause([at_most(&[1], 0), at_most(&[1], 1)])
        .clause([at_most(&[-1], -5)]);
    let pieces = [
        load(0).condition(1, &[0, 1], 0).marks(2, 0),
        Line::loaded(0, 1).condition(1, &[0, 1], 1).marks(0, 2),
        load(1).condition(1, &[1], 0).marks(4, 0),
        Line::loaded(1, 1).condition(1, &[1], 1).marks(0, 4),
        load(2).condition(1, &[-1], -5),
    ];
    let results = |x: usize, by_first: usize| {
        [
            by(1, 0, x, x + 2).marks(4, 0),
            by(1, 0, x + 1, x + 2).marks(0, 4),
            by(2, 2, by_first, by_first + 1),
        ]
    };
    vec![
        case(
            "the first reading of an =",
            equality.clone(),
            all(by(1, 0, 0, 2)),
            vec![at_most_5.clone(), at_least_6.clone(), by(1, 0, 0, 1)],
        ),
        case(
            "the second reading of an =",
            equality,
            all(by(1, 0, 3, 1)),
            vec![at_least_5.clone(), at_most_4.clone(), by(1, 0, 1, 0)],
        ),
        case(
            "pieces with a link",
            links,
            [&pieces[..], &results(2, 5)].concat(),
            [&pieces[2..], &results(0, 3)].concat(),
        ),
    ]
}
