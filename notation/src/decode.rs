//! A question from its bytes, or the first fault with document 01's place for it.

use crate::question::{
    Clause, Condition, Literal, Question, Relation, AMOUNT, BYTES, CLAUSES, CONDITIONS, FIGURES,
    LITERALS, MARKS,
};

/// Reads a question; a fault is said as `byte 12: ...`. Links are not counted.
pub fn decode(bytes: &[u8]) -> Result<Question, String> {
    if bytes.len() > BYTES {
        return Err(fault(BYTES, "expected at most 32,768 bytes"));
    }
    let mut reader = Reader { bytes, at: 0 };
    let question = reader.question()?;
    if reader.at < bytes.len() {
        return Err(fault(reader.at, "expected the end after the last clause"));
    }
    Ok(question)
}

/// A fault's place and what was expected there.
pub fn fault(place: usize, message: &str) -> String {
    format!("byte {place}: {message}")
}

/// Bytes read from the front.
pub struct Reader<'a> {
    pub bytes: &'a [u8],
    pub at: usize,
}

impl Reader<'_> {
    fn question(&mut self) -> Result<Question, String> {
        let marks = self.count(MARKS, "marks")?;
        let figures = self.count(FIGURES, "figures")?;
        let place = self.at;
        let clauses = usize::from(u16::from_le_bytes(self.take()?));
        if clauses > CLAUSES {
            return Err(fault(place, "expected at most 256 clauses"));
        }
        Ok(Question {
            marks,
            figures,
            clauses: self.many(clauses, |reader| reader.clause(marks, figures))?,
        })
    }

    fn clause(&mut self, marks: usize, figures: usize) -> Result<Clause, String> {
        let literals = self.count(LITERALS, "literals")?;
        let literals = self.many(literals, |reader| reader.literal(marks))?;
        let conditions = self.count(CONDITIONS, "conditions")?;
        let mut clause = Clause {
            literals,
            conditions: Vec::new(),
        };
        for _ in 0..conditions {
            let condition = self.condition(figures, clause.has_equality())?;
            clause.conditions.push(condition);
        }
        Ok(clause)
    }

    fn literal(&mut self, marks: usize) -> Result<Literal, String> {
        let place = self.at;
        let [byte] = self.take()?;
        let mark = usize::from(byte & 127);
        if mark >= marks {
            return Err(fault(place, &format!("expected a mark below {marks}")));
        }
        Ok(Literal {
            mark,
            negated: byte >= 128,
        })
    }

    /// `equated` says that an = stands before it in the clause.
    fn condition(&mut self, figures: usize, equated: bool) -> Result<Condition, String> {
        let place = self.at;
        let [byte] = self.take()?;
        let relation =
            Relation::from_byte(byte).ok_or_else(|| fault(place, "expected a relation, 1 to 4"))?;
        if equated && relation == Relation::Equal {
            return Err(fault(place, "expected at most one relation 3 in a clause"));
        }
        Ok(Condition {
            relation,
            coefficients: self.many(figures, Reader::amount)?,
            bound: self.amount()?,
        })
    }

    /// So many of the same, in order.
    fn many<T>(
        &mut self,
        count: usize,
        one: impl Fn(&mut Self) -> Result<T, String>,
    ) -> Result<Vec<T>, String> {
        (0..count).map(|_| one(self)).collect()
    }

    /// A signed amount of four bytes within the range.
    pub fn amount(&mut self) -> Result<i32, String> {
        let place = self.at;
        let amount = i32::from_le_bytes(self.take()?);
        if (-AMOUNT..=AMOUNT).contains(&amount) {
            return Ok(amount);
        }
        Err(fault(
            place,
            "expected an amount within -1,000,000,000 to 1,000,000,000",
        ))
    }

    /// A byte that counts something, up to its limit.
    fn count(&mut self, limit: usize, what: &str) -> Result<usize, String> {
        let place = self.at;
        let [count] = self.take()?;
        if usize::from(count) <= limit {
            return Ok(usize::from(count));
        }
        Err(fault(place, &format!("expected at most {limit} {what}")))
    }

    /// The next `N` bytes.
    pub fn take<const N: usize>(&mut self) -> Result<[u8; N], String> {
        let rest = &self.bytes[self.at..];
        let taken = rest
            .get(..N)
            .and_then(|taken| taken.try_into().ok())
            .ok_or_else(|| fault(self.bytes.len(), "expected more bytes"))?;
        self.at += N;
        Ok(taken)
    }
}
