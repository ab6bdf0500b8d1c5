//! Reading a question, field by field, to a problem or to its first fault with number and place:
//! 01's "The question" and the faults 3 to 13 of "What each call says", with the relations and the
//! fault 18 of 02's (i), "Equal and at least".

use crate::normalize::normalize;
use crate::readings::readings;

pub const MAX_QUESTION: usize = 32_768;
pub const MAX_BOOLEANS: u8 = 16;
pub const MAX_RATIONALS: usize = 8;
pub const MAX_CLAUSES: u16 = 256;
pub const MAX_LITERALS: u8 = 32;
pub const MAX_CONSTRAINTS: u8 = 8;
pub const MAX_SPLITTING: usize = 16;
pub const MAX_AMOUNT: i64 = 1_000_000_000;

/// Why a question is refused: a number of 01's table and the place returned with it.
#[derive(Clone, Copy, Debug, PartialEq, Eq)]
pub struct Fault {
    pub number: u8,
    pub place: usize,
}

/// A relation as written: 01's ≤ (byte 1) and < (2), and (i)'s = (3) and ≥ (4).
#[derive(Clone, Copy, Debug, PartialEq, Eq)]
pub enum Relation {
    AtMost,
    Below,
    Equal,
    AtLeast,
}

/// 01's condition, as written: sum of coefficient × figure, relation, bound. Coefficients from r on
/// are 0.
#[derive(Clone, Copy, Debug, PartialEq, Eq)]
pub struct Constraint {
    pub relation: Relation,
    pub coefficients: [i64; MAX_RATIONALS],
    pub bound: i64,
}

/// Whether an = is among these conditions.
pub fn has_equal(constraints: &[Constraint]) -> bool {
    let is_equal = |constraint: &Constraint| constraint.relation == Relation::Equal;
    constraints.iter().any(is_equal)
}

/// A set of literals: bit i of `positive` and of `negative` is mark i.
#[derive(Clone, Copy, Debug, Default, PartialEq, Eq)]
pub struct Literals {
    pub positive: u32,
    pub negative: u32,
}

/// A clause as written, and the place of its first byte.
#[derive(Clone, Debug)]
pub struct Clause {
    pub place: usize,
    pub literals: Literals,
    pub constraints: Vec<Constraint>,
}

/// 01's question: b marks, r figures and the clauses, all of which must hold.
#[derive(Clone, Debug)]
pub struct Problem {
    pub(crate) booleans: u8,
    pub(crate) rationals: usize,
    pub(crate) clauses: Vec<Clause>,
}

impl Problem {
    /// b, r and n.
    pub fn counts(&self) -> [usize; 3] {
        [
            usize::from(self.booleans),
            self.rationals,
            self.clauses.len(),
        ]
    }

    /// 02's (iv): the open marks, which stand in no clause as written, in neither sign; bit i is
    /// mark i.
    pub fn open(&self) -> u32 {
        let clauses = self.clauses.iter();
        let standing = clauses.fold(0, |standing, Clause { literals, .. }| {
            standing | literals.positive | literals.negative
        });
        let all = (1 << self.booleans) - 1;
        all & !standing
    }
}

/// Reads a question, or names its first fault.
pub fn read(question: &[u8]) -> Result<Problem, Fault> {
    if question.len() > MAX_QUESTION {
        return Err(Fault {
            number: 3,
            place: MAX_QUESTION,
        });
    }
    let mut reader = Reader {
        bytes: question,
        place: 0,
    };
    let problem = reader.problem()?;
    if reader.place < question.len() {
        return Err(reader.fault(12));
    }
    count_splitting(&problem.clauses)?;
    Ok(problem)
}

/// Fault 13: the clause with which the links of all tidied readings pass their limit.
fn count_splitting(clauses: &[Clause]) -> Result<(), Fault> {
    let mut count = 0;
    for clause in clauses {
        for constraints in readings(clause) {
            let normal = normalize(clause.literals, &constraints);
            count += normal.map_or(0, |kept| kept.links());
        }
        if count > MAX_SPLITTING {
            return Err(Fault {
                number: 13,
                place: clause.place,
            });
        }
    }
    Ok(())
}

/// The question's bytes and the place of the field to be read next.
struct Reader<'a> {
    bytes: &'a [u8],
    place: usize,
}

impl Reader<'_> {
    /// The fault at the field about to be read.
    fn fault(&self, number: u8) -> Fault {
        Fault {
            number,
            place: self.place,
        }
    }

    /// The next field's bytes, not yet passed over.
    fn peek<const N: usize>(&self) -> Result<[u8; N], Fault> {
        let rest = self.bytes.get(self.place..).unwrap_or_default();
        let field = rest.get(..N).and_then(|field| field.try_into().ok());
        field.ok_or(Fault {
            number: 4,
            place: self.bytes.len(),
        })
    }

    /// A count of one byte, or the fault with this number if it is over the limit.
    fn count(&mut self, limit: u8, number: u8) -> Result<u8, Fault> {
        let [count] = self.peek()?;
        if count > limit {
            return Err(self.fault(number));
        }
        self.place += 1;
        Ok(count)
    }

    fn problem(&mut self) -> Result<Problem, Fault> {
        let booleans = self.count(MAX_BOOLEANS, 5)?;
        let rationals = usize::from(self.count(MAX_RATIONALS as u8, 6)?);
        let clauses = u16::from_le_bytes(self.peek()?);
        if clauses > MAX_CLAUSES {
            return Err(self.fault(7));
        }
        self.place += 2;
        let clauses = (0..clauses)
            .map(|_| self.clause(booleans, rationals))
            .collect::<Result<_, _>>()?;
        Ok(Problem {
            booleans,
            rationals,
            clauses,
        })
    }

    fn clause(&mut self, booleans: u8, rationals: usize) -> Result<Clause, Fault> {
        let place = self.place;
        let mut literals = Literals::default();
        for _ in 0..self.count(MAX_LITERALS, 8)? {
            self.literal(booleans, &mut literals)?;
        }
        let mut constraints: Vec<Constraint> = Vec::new();
        for _ in 0..self.count(MAX_CONSTRAINTS, 9)? {
            constraints.push(self.constraint(rationals, has_equal(&constraints))?);
        }
        Ok(Clause {
            place,
            literals,
            constraints,
        })
    }

    fn literal(&mut self, booleans: u8, literals: &mut Literals) -> Result<(), Fault> {
        let [byte] = self.peek()?;
        let variable = byte % 128;
        if variable >= booleans {
            return Err(self.fault(8));
        }
        self.place += 1;
        match byte < 128 {
            true => literals.positive |= 1 << variable,
            false => literals.negative |= 1 << variable,
        }
        Ok(())
    }

    /// A condition; where the clause has an = already, another is fault 18, before its amounts are
    /// read.
    fn constraint(&mut self, rationals: usize, has_equal: bool) -> Result<Constraint, Fault> {
        let relation = match self.peek()? {
            [1] => Relation::AtMost,
            [2] => Relation::Below,
            [3] => Relation::Equal,
            [4] => Relation::AtLeast,
            [_] => return Err(self.fault(10)),
        };
        if relation == Relation::Equal && has_equal {
            return Err(self.fault(18));
        }
        self.place += 1;
        let mut coefficients = [0; MAX_RATIONALS];
        for coefficient in &mut coefficients[..rationals] {
            *coefficient = self.amount()?;
        }
        Ok(Constraint {
            relation,
            coefficients,
            bound: self.amount()?,
        })
    }

    fn amount(&mut self) -> Result<i64, Fault> {
        let amount = i64::from(i32::from_le_bytes(self.peek()?));
        if amount.abs() > MAX_AMOUNT {
            return Err(self.fault(11));
        }
        self.place += 4;
        Ok(amount)
    }
}
