//! Problems written by hand or drawn at random: clauses of literals and constraints, their bytes
//! by 01's "The question", and whether an assignment satisfies them. Nothing here uses the
//! solver.

/// A relation by its byte: 01's ≤ and <, and = and ≥ of 02's (i).
#[derive(Clone, Copy, Debug, PartialEq, Eq)]
pub enum Relation {
    AtMost = 1,
    Below,
    Equal,
    AtLeast,
}

/// One alternative of a clause: 01's literal or condition.
#[derive(Clone, Debug, PartialEq, Eq)]
pub enum Term {
    Literal {
        boolean: u8,
        negated: bool,
    },
    Constraint {
        relation: Relation,
        coefficients: Vec<i32>,
        bound: i32,
    },
}

/// The mark is yes.
pub fn yes(boolean: u8) -> Term {
    Term::Literal {
        boolean,
        negated: false,
    }
}

/// The mark is no.
pub fn no(boolean: u8) -> Term {
    Term::Literal {
        boolean,
        negated: true,
    }
}

/// Sum of coefficient × figure ≤ bound; coefficients left out are 0.
pub fn at_most(coefficients: &[i32], bound: i32) -> Term {
    constraint(Relation::AtMost, coefficients, bound)
}

/// The same with <.
pub fn below(coefficients: &[i32], bound: i32) -> Term {
    constraint(Relation::Below, coefficients, bound)
}

/// The same with =.
pub fn equal(coefficients: &[i32], bound: i32) -> Term {
    constraint(Relation::Equal, coefficients, bound)
}

/// The same with ≥.
pub fn at_least(coefficients: &[i32], bound: i32) -> Term {
    constraint(Relation::AtLeast, coefficients, bound)
}

/// The same with any relation.
pub fn constraint(relation: Relation, coefficients: &[i32], bound: i32) -> Term {
    Term::Constraint {
        relation,
        coefficients: coefficients.to_vec(),
        bound,
    }
}

/// A problem of so many marks, figures and clauses.
#[derive(Clone, Debug, PartialEq, Eq)]
pub struct Problem {
    pub booleans: u8,
    pub rationals: u8,
    pub clauses: Vec<Vec<Term>>,
}

/// An assignment: bit i of `booleans` is mark i, figure i is numerator i by the denominator.
pub struct Assignment<'a> {
    pub booleans: u32,
    pub denominator: i64,
    pub numerators: &'a [i64],
}

impl Problem {
    pub fn new(booleans: u8, rationals: u8) -> Problem {
        Problem {
            booleans,
            rationals,
            clauses: Vec::new(),
        }
    }

    pub fn clause<const N: usize>(mut self, terms: [Term; N]) -> Problem {
        self.clauses.push(terms.to_vec());
        self
    }

    /// The question's bytes.
    pub fn encode(&self) -> Vec<u8> {
        let mut bytes = vec![self.booleans, self.rationals];
        bytes.extend((self.clauses.len() as u16).to_le_bytes());
        for clause in &self.clauses {
            let is_literal = |term: &&Term| matches!(term, Term::Literal { .. });
            let (literals, constraints): (Vec<_>, Vec<_>) = clause.iter().partition(is_literal);
            for terms in [literals, constraints] {
                bytes.push(terms.len() as u8);
                for term in terms {
                    self.encode_term(term, &mut bytes);
                }
            }
        }
        bytes
    }

    /// The problem that these bytes are, if they are a question without fault.
    pub fn decode(question: &[u8]) -> Problem {
        let mut bytes = question.iter().copied();
        let mut byte = move || bytes.next().expect("a question without fault");
        let mut problem = Problem::new(byte(), byte());
        let clauses = u16::from_le_bytes([byte(), byte()]);
        for _ in 0..clauses {
            let mut terms: Vec<Term> = Vec::new();
            for _ in 0..byte() {
                terms.push(match byte() {
                    mark @ 0..=127 => yes(mark),
                    negated => no(negated - 128),
                });
            }
            for _ in 0..byte() {
                let relation = match byte() {
                    1 => Relation::AtMost,
                    2 => Relation::Below,
                    3 => Relation::Equal,
                    _ => Relation::AtLeast,
                };
                let mut amount = || i32::from_le_bytes([byte(), byte(), byte(), byte()]);
                let row: Vec<i32> = (0..problem.rationals).map(|_| amount()).collect();
                terms.push(constraint(relation, &row, amount()));
            }
            problem.clauses.push(terms);
        }
        problem
    }

    fn encode_term(&self, term: &Term, bytes: &mut Vec<u8>) {
        match term {
            Term::Literal { boolean, negated } => bytes.push(boolean + 128 * u8::from(*negated)),
            Term::Constraint {
                relation,
                coefficients,
                bound,
            } => {
                bytes.push(*relation as u8);
                for i in 0..usize::from(self.rationals) {
                    bytes.extend(coefficients.get(i).unwrap_or(&0).to_le_bytes());
                }
                bytes.extend(bound.to_le_bytes());
            }
        }
    }

    /// 02's (iv): the open marks, which stand in no clause as written; bit i is mark i.
    pub fn open(&self) -> u32 {
        let all = (1 << self.booleans) - 1;
        let terms = self.clauses.iter().flatten();
        terms.fold(all, |open, term| match term {
            Term::Literal { boolean, .. } => open & !(1 << boolean),
            Term::Constraint { .. } => open,
        })
    }

    /// The first clause that does not hold.
    pub fn first_failing(&self, assignment: &Assignment) -> Option<usize> {
        let fails = |clause: &Vec<Term>| !clause.iter().any(|term| assignment.satisfies(term));
        self.clauses.iter().position(fails)
    }
}

impl Assignment<'_> {
    fn satisfies(&self, term: &Term) -> bool {
        match term {
            Term::Literal { boolean, negated } => (self.booleans >> boolean & 1 == 0) == *negated,
            Term::Constraint {
                relation,
                coefficients,
                bound,
            } => {
                let terms = coefficients.iter().zip(self.numerators);
                let sum: i64 = terms.map(|(&c, n)| i64::from(c) * n).sum();
                let bound = i64::from(*bound) * self.denominator;
                match relation {
                    Relation::AtMost => sum <= bound,
                    Relation::Below => sum < bound,
                    Relation::Equal => sum == bound,
                    Relation::AtLeast => sum >= bound,
                }
            }
        }
    }
}
