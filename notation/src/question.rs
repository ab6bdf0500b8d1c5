//! A question as it is written, and its limits.

pub const MARKS: usize = 16;
pub const FIGURES: usize = 8;
pub const CLAUSES: usize = 256;
pub const LITERALS: usize = 32;
pub const CONDITIONS: usize = 8;
pub const LINKS: usize = 16;
pub const BYTES: usize = 32_768;
pub const AMOUNT: i32 = 1_000_000_000;
/// The bytes before the first clause.
pub const HEAD: usize = 4;

#[derive(Clone, Copy, Debug, PartialEq, Eq)]
pub enum Relation {
    AtMost,
    Below,
    Equal,
    AtLeast,
}

impl Relation {
    pub fn from_byte(byte: u8) -> Option<Relation> {
        match byte {
            1 => Some(Relation::AtMost),
            2 => Some(Relation::Below),
            3 => Some(Relation::Equal),
            4 => Some(Relation::AtLeast),
            _ => None,
        }
    }

    pub fn byte(self) -> u8 {
        match self {
            Relation::AtMost => 1,
            Relation::Below => 2,
            Relation::Equal => 3,
            Relation::AtLeast => 4,
        }
    }
}

#[derive(Clone, Copy, Debug, PartialEq, Eq)]
pub struct Literal {
    pub mark: usize,
    pub negated: bool,
}

/// The sum of coefficient × figure, relation, bound.
#[derive(Clone, Debug, PartialEq, Eq)]
pub struct Condition {
    pub relation: Relation,
    pub coefficients: Vec<i32>,
    pub bound: i32,
}

#[derive(Clone, Debug, Default, PartialEq, Eq)]
pub struct Clause {
    pub literals: Vec<Literal>,
    pub conditions: Vec<Condition>,
}

impl Clause {
    /// Its length in bytes, in a question with so many figures.
    pub fn length(&self, figures: usize) -> usize {
        2 + self.literals.len() + self.conditions.len() * (1 + 4 * figures + 4)
    }

    pub fn has_equality(&self) -> bool {
        let is_equality = |c: &Condition| c.relation == Relation::Equal;
        self.conditions.iter().any(is_equality)
    }

    /// Whether a mark is in it with both signs.
    pub fn has_both_signs(&self) -> bool {
        let against = |l: &Literal| Literal {
            mark: l.mark,
            negated: !l.negated,
        };
        self.literals
            .iter()
            .any(|literal| self.literals.contains(&against(literal)))
    }
}

/// Which clauses must hold: those of the question as it is written, or in the second edition also
/// that no figure is negative.
#[derive(Clone, Copy, Debug, PartialEq, Eq)]
pub enum Edition {
    First,
    Second,
}

#[derive(Clone, Debug, Default, PartialEq, Eq)]
pub struct Question {
    pub marks: usize,
    pub figures: usize,
    pub clauses: Vec<Clause>,
}

impl Question {
    /// The clauses of an edition, in the order of their numbers: in the second, behind those that are
    /// written, one for each figure.
    pub fn clauses_in(&self, edition: Edition) -> Vec<Clause> {
        let mut clauses = self.clauses.clone();
        if edition == Edition::Second {
            clauses.extend((0..self.figures).map(|figure| self.at_least_0(figure)));
        }
        clauses
    }

    /// That a figure is not negative.
    fn at_least_0(&self, figure: usize) -> Clause {
        let coefficients = (0..self.figures).map(|other| i32::from(other == figure));
        Clause {
            literals: Vec::new(),
            conditions: vec![Condition {
                relation: Relation::AtLeast,
                coefficients: coefficients.collect(),
                bound: 0,
            }],
        }
    }

    /// A clause by its number, with its edition if it is not written.
    pub fn clause_name(&self, number: usize) -> String {
        format!("clause {}", self.clause_number(number))
    }

    /// The same without the word.
    pub fn clause_number(&self, number: usize) -> String {
        let edition = match number < self.clauses.len() {
            true => "",
            false => " (edition 2)",
        };
        format!("{number}{edition}")
    }

    /// Whether a mark stands in no literal as written, so that nothing decides it.
    pub fn is_open(&self, mark: usize) -> bool {
        let mut literals = self.clauses.iter().flat_map(|clause| &clause.literals);
        literals.all(|literal| literal.mark != mark)
    }
}
