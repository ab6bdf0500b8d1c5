//! Questions with their conversions and sheets with what they are carried back to, written out by hand.

use questions::problem::{at_least, at_most, below, equal as equals, no, yes, Problem, Term};

const MOST: i32 = 1_000_000_000;

/// A question, what it becomes, and figures of the new one, over some denominator, with those of the old.
pub struct Case {
    pub name: &'static str,
    pub old: Problem,
    pub new: Problem,
    pub sheets: Vec<(Vec<i32>, Vec<i32>)>,
}

impl Case {
    fn new(name: &'static str, old: Problem, new: Problem) -> Case {
        Case {
            name,
            old,
            new,
            sheets: Vec::new(),
        }
    }

    fn back<const M: usize, const N: usize>(mut self, new: [i32; M], old: [i32; N]) -> Case {
        self.sheets.push((new.to_vec(), old.to_vec()));
        self
    }
}

/// A question of figures, with these conditions alone.
fn of<const N: usize>(rationals: u8, conditions: [Term; N]) -> Problem {
    let problem = Problem::new(0, rationals);
    conditions
        .into_iter()
        .fold(problem, |problem, condition| problem.clause([condition]))
}

pub fn cases() -> impl Iterator<Item = Case> {
    one_clause()
        .into_iter()
        .chain(not_kept())
        .chain(several())
        .chain(counts())
}

/// One figure that the clause keeps: the question stays as it is.
fn one_clause() -> Vec<Case> {
    let kept = |name, condition: Term| {
        let problem = of(1, [condition]);
        Case::new(name, problem.clone(), problem)
            .back([7], [7])
            .back([-3], [-3])
            .back([MOST], [MOST])
            .back([-MOST], [-MOST])
    };
    vec![
        kept("-x <= 0", at_most(&[-1], 0)),
        kept("-x < 0", below(&[-1], 0)),
        kept("-x <= -1", at_most(&[-1], -1)),
        kept("-x < -1", below(&[-1], -1)),
        kept("-7x <= 0", at_most(&[-7], 0)),
        kept("-7x < -3", below(&[-7], -3)),
        kept("-10^9 x <= -10^9", at_most(&[-MOST], -MOST)),
        kept("-256x <= 0", at_most(&[-256], 0)),
    ]
}

/// One figure that it does not keep, for one reason each.
fn not_kept() -> Vec<Case> {
    let one = |name, old: Term, new: Term| {
        Case::new(name, of(1, [old]), of(2, [new]))
            .back([7, 0], [7])
            .back([0, 7], [-7])
            .back([9, 4], [5])
            .back([MOST, MOST], [0])
            .back([0, MOST], [-MOST])
            .back([-MOST, 0], [-MOST])
            .back([1, 1 - MOST], [MOST])
    };
    // mark 0 and figure 0
    let with = |name, old: &[Term], new: &[Term]| {
        let problem = |rationals, clause: &[Term]| Problem {
            clauses: vec![clause.to_vec()],
            ..Problem::new(1, rationals)
        };
        Case::new(name, problem(1, old), problem(2, new)).back([2, 5], [-3])
    };
    let (own, split) = (at_most(&[-1], 0), at_most(&[-1, 1], 0));
    let (own_lower, split_lower) = (at_most(&[-1], -1), at_most(&[-1, 1], -1));
    let (wrong, right) = (at_most(&[], -1), at_most(&[], 0));
    vec![
        one("-x <= 1", at_most(&[-1], 1), at_most(&[-1, 1], 1)),
        one("-x < 1", below(&[-1], 1), below(&[-1, 1], 1)),
        one("-x <= 10^9", at_most(&[-1], MOST), at_most(&[-1, 1], MOST)),
        one("x <= 0", at_most(&[1], 0), at_most(&[1, -1], 0)),
        one("x < -1", below(&[1], -1), below(&[1, -1], -1)),
        one("x >= 0", at_least(&[1], 0), at_least(&[1, -1], 0)),
        one("x >= 1", at_least(&[1], 1), at_least(&[1, -1], 1)),
        one("-x >= 0", at_least(&[-1], 0), at_least(&[-1, 1], 0)),
        one("-x >= -1", at_least(&[-1], -1), at_least(&[-1, 1], -1)),
        one("-x = 0", equals(&[-1], 0), equals(&[-1, 1], 0)),
        one("-x = -1", equals(&[-1], -1), equals(&[-1, 1], -1)),
        one("0x <= 0", at_most(&[0], 0), at_most(&[0, 0], 0)),
        one("0x < -1", below(&[0], -1), below(&[0, 0], -1)),
        one(
            "10^9 x <= -10^9",
            at_most(&[MOST], -MOST),
            at_most(&[MOST, -MOST], -MOST),
        ),
        one(
            "-10^9 x <= 10^9",
            at_most(&[-MOST], MOST),
            at_most(&[-MOST, MOST], MOST),
        ),
        with(
            "a or -x <= 0",
            &[yes(0), own.clone()],
            &[yes(0), split.clone()],
        ),
        with(
            "not a or -x <= 0",
            &[no(0), own.clone()],
            &[no(0), split.clone()],
        ),
        // always true, and dropped in tidying
        with(
            "a or not a or -x <= 0",
            &[yes(0), no(0), own.clone()],
            &[yes(0), no(0), split.clone()],
        ),
        with(
            "-x <= 0 twice",
            &[own.clone(), own.clone()],
            &[split.clone(), split.clone()],
        ),
        with(
            "-x <= 0 or -x <= -1",
            &[own.clone(), own_lower.clone()],
            &[split.clone(), split_lower.clone()],
        ),
        // 0 <= -1 is struck out in tidying, and -x <= 0 stays alone
        with(
            "-x <= 0 or 0 <= -1",
            &[own.clone(), wrong.clone()],
            &[split.clone(), wrong.clone()],
        ),
        with(
            "0 <= -1 or -x <= 0",
            &[wrong.clone(), own.clone()],
            &[wrong, split.clone()],
        ),
        with(
            "-x <= 0 or 0 <= 0",
            &[own.clone(), right.clone()],
            &[split.clone(), right],
        ),
        with("an empty clause", &[], &[]),
        with("a", &[yes(0)], &[yes(0)]),
        with(
            "-x <= -1 or -x = 0",
            &[own_lower, equals(&[-1], 0)],
            &[split_lower, equals(&[-1, 1], 0)],
        ),
    ]
}

/// Several figures and clauses.
fn several() -> Vec<Case> {
    vec![
        // 34 bytes become 42
        Case::new(
            "x + y <= -5; -x <= 0",
            of(2, [at_most(&[1, 1], -5), at_most(&[-1], 0)]),
            of(3, [at_most(&[1, 1, -1], -5), at_most(&[-1], 0)]),
        )
        .back([0, 0, 5], [0, -5])
        .back([2, 9, 9], [2, 0])
        .back([-2, 1, -9], [-2, 10]),
        Case::new(
            "x + y <= -5; -y <= 0",
            of(2, [at_most(&[1, 1], -5), at_most(&[0, -1], 0)]),
            of(3, [at_most(&[1, -1, 1], -5), at_most(&[0, 0, -1], 0)]),
        )
        .back([0, 5, 0], [-5, 0])
        .back([9, 9, 2], [0, 2]),
        // neither alone
        Case::new(
            "-x - y <= 0",
            of(2, [at_most(&[-1, -1], 0)]),
            of(4, [at_most(&[-1, 1, -1, 1], 0)]),
        )
        .back([1, 2, 3, 5], [-1, -2]),
        Case::new(
            "-x + y <= 0",
            of(2, [at_most(&[-1, 1], 0)]),
            of(4, [at_most(&[-1, 1, 1, -1], 0)]),
        )
        .back([7, 1, 1, 7], [6, -6]),
        // the second in the middle: its coefficient stands between two pairs
        Case::new(
            "2x + 3y + 5z < 7; -y < -2",
            of(3, [below(&[2, 3, 5], 7), below(&[0, -1], -2)]),
            of(
                5,
                [below(&[2, -2, 3, 5, -5], 7), below(&[0, 0, -1, 0, 0], -2)],
            ),
        )
        .back([1, 2, 4, 8, 16], [-1, 4, -8]),
        Case::new(
            "-x <= 0; 2x + 3y + 5z = 7; -z <= 0",
            of(
                3,
                [
                    at_most(&[-1], 0),
                    equals(&[2, 3, 5], 7),
                    at_most(&[0, 0, -1], 0),
                ],
            ),
            of(
                4,
                [
                    at_most(&[-1], 0),
                    equals(&[2, 3, -3, 5], 7),
                    at_most(&[0, 0, 0, -1], 0),
                ],
            ),
        )
        .back([1, 2, 4, 8], [1, -2, 8]),
        // clauses that do not keep it, and one that does, wherever it stands
        Case::new(
            "x <= 9; x >= 0; -x <= -2",
            of(1, [at_most(&[1], 9), at_least(&[1], 0), at_most(&[-1], -2)]),
            of(1, [at_most(&[1], 9), at_least(&[1], 0), at_most(&[-1], -2)]),
        )
        .back([5], [5]),
        Case::new(
            "-x < 0; x >= 0; -x = -2",
            of(1, [below(&[-1], 0), at_least(&[1], 0), equals(&[-1], -2)]),
            of(1, [below(&[-1], 0), at_least(&[1], 0), equals(&[-1], -2)]),
        )
        .back([5], [5]),
        Case::new(
            "-x <= 0; -x <= 0; -x <= 1",
            of(1, [at_most(&[-1], 0), at_most(&[-1], 0), at_most(&[-1], 1)]),
            of(1, [at_most(&[-1], 0), at_most(&[-1], 0), at_most(&[-1], 1)]),
        )
        .back([-5], [-5]),
        // no clause for both together
        Case::new(
            "a or -x <= 0; not a or -x <= 0",
            Problem::new(1, 1)
                .clause([yes(0), at_most(&[-1], 0)])
                .clause([no(0), at_most(&[-1], 0)]),
            Problem::new(1, 2)
                .clause([yes(0), at_most(&[-1, 1], 0)])
                .clause([no(0), at_most(&[-1, 1], 0)]),
        )
        .back([3, 3], [0]),
        // literals stay as they are written, in their order, repeated ones too; mark 1 is open
        Case::new(
            "c or not a or c or 3x - 4y <= 5 or z < 0; -z <= -1",
            Problem::new(3, 3)
                .clause([
                    yes(2),
                    no(0),
                    yes(2),
                    at_most(&[3, -4], 5),
                    below(&[0, 0, 1], 0),
                ])
                .clause([at_most(&[0, 0, -1], -1)]),
            Problem::new(3, 5)
                .clause([
                    yes(2),
                    no(0),
                    yes(2),
                    at_most(&[3, -3, -4, 4], 5),
                    below(&[0, 0, 0, 0, 1], 0),
                ])
                .clause([at_most(&[0, 0, 0, 0, -1], -1)]),
        )
        .back([1, 2, 5, 3, 9], [-1, 2, 9]),
    ]
}

/// The fewest figures and the most.
fn counts() -> Vec<Case> {
    let nothing = |name, booleans, old, new| {
        Case::new(
            name,
            Problem::new(booleans, old),
            Problem::new(booleans, new),
        )
    };
    let kept = |rationals, last: usize| {
        let problem = Problem::new(0, rationals);
        (0..last).fold(problem, |problem, figure| {
            let mut row = [0; 8];
            row[figure] = -1;
            problem.clause([at_most(&row[..usize::from(rationals)], 0)])
        })
    };
    let eight = kept(8, 8);
    vec![
        nothing("no figure, no clause", 0, 0, 0).back([], []),
        nothing("16 marks", 16, 0, 0).back([], []),
        Case::new(
            "no figure: 0 <= 0 or 0 = -1",
            Problem::new(0, 0).clause([at_most(&[], 0), equals(&[], -1)]),
            Problem::new(0, 0).clause([at_most(&[], 0), equals(&[], -1)]),
        )
        .back([], []),
        nothing("one figure, no clause", 0, 1, 2).back([4, 9], [-5]),
        nothing("four figures, no clause", 0, 4, 8)
            .back([8, 1, 7, 2, 6, 3, 5, 4], [7, 5, 3, 1])
            .back([0, 1, 0, 2, 0, 3, 0, 4], [-1, -2, -3, -4]),
        nothing("16 marks, four figures", 16, 4, 8).back([8, 1, 7, 2, 6, 3, 5, 4], [7, 5, 3, 1]),
        // 2 + 3 × 2
        Case::new("two of five kept", kept(5, 2), {
            let problem = Problem::new(0, 8);
            problem
                .clause([at_most(&[-1], 0)])
                .clause([at_most(&[0, -1], 0)])
        })
        .back([1, 2, 9, 3, 9, 4, 9, 5], [1, 2, 6, 5, 4]),
        Case::new("six of seven kept", kept(7, 6), kept(8, 6))
            .back([1, 2, 3, 4, 5, 6, 8, 15], [1, 2, 3, 4, 5, 6, -7]),
        Case::new("eight of eight kept", eight.clone(), eight)
            .back([1, 2, 3, 4, 5, 6, 7, 8], [1, 2, 3, 4, 5, 6, 7, 8]),
    ]
}
