//! A book's lines, read and written by 01's "The book", and the result of two of them by 01's "The
//! course", in arithmetic of the suite's own.

use crate::buffers::LINE_LENGTH;

/// A line: how it came, and what it states. Without a condition the relation and the amounts, eight
/// coefficients and the bound, are 0.
#[derive(Clone, Debug, PartialEq, Eq)]
pub struct Line {
    pub how: u8,
    pub which: u8,
    pub first: u16,
    pub second: u16,
    pub relation: u8,
    pub positive: u32,
    pub negative: u32,
    pub amounts: [i32; 9],
}

/// All lines of a book.
pub fn read(book: &[u8]) -> Vec<Line> {
    book.chunks_exact(LINE_LENGTH).map(Line::read).collect()
}

pub fn write(lines: &[Line]) -> Vec<u8> {
    lines.iter().flat_map(Line::write).collect()
}

impl Line {
    fn read(bytes: &[u8]) -> Line {
        let two = |place: usize| u16::from_le_bytes(std::array::from_fn(|i| bytes[place + i]));
        let four = |place: usize| u32::from_le_bytes(std::array::from_fn(|i| bytes[place + i]));
        Line {
            how: bytes[0],
            which: bytes[1],
            first: two(2),
            second: two(4),
            relation: bytes[6],
            positive: four(8),
            negative: four(12),
            amounts: std::array::from_fn(|i| four(16 + 4 * i) as i32),
        }
    }

    fn write(&self) -> Vec<u8> {
        let mut bytes = vec![self.how, self.which];
        bytes.extend(self.first.to_le_bytes());
        bytes.extend(self.second.to_le_bytes());
        bytes.extend([self.relation, 0]);
        bytes.extend(self.positive.to_le_bytes());
        bytes.extend(self.negative.to_le_bytes());
        bytes.extend(self.amounts.iter().flat_map(|amount| amount.to_le_bytes()));
        bytes.resize(LINE_LENGTH, 0);
        bytes
    }

    /// A loaded line that states nothing yet.
    pub fn loaded(clause: u16, piece: u16) -> Line {
        Line {
            how: 0,
            which: 0,
            first: clause,
            second: piece,
            relation: 0,
            positive: 0,
            negative: 0,
            amounts: [0; 9],
        }
    }

    /// The same with these literals besides.
    pub fn marks(self, positive: u32, negative: u32) -> Line {
        Line {
            positive,
            negative,
            ..self
        }
    }

    /// The same with this condition.
    pub fn condition(self, relation: u8, coefficients: &[i32], bound: i32) -> Line {
        let mut amounts = [0; 9];
        amounts[..coefficients.len()].copy_from_slice(coefficients);
        amounts[8] = bound;
        Line {
            relation,
            amounts,
            ..self
        }
    }

    /// The lines from which it comes; a loaded one comes from none.
    pub fn parents(&self) -> Option<[usize; 2]> {
        (self.how != 0).then(|| [usize::from(self.first), usize::from(self.second)])
    }

    /// The same from other lines.
    pub fn with_parents(&self, [first, second]: [usize; 2]) -> Line {
        Line {
            first: first as u16,
            second: second as u16,
            ..self.clone()
        }
    }

    pub fn is_empty(&self) -> bool {
        self.relation == 0 && self.positive == 0 && self.negative == 0
    }

    /// Whether it states what another does.
    pub fn states(&self, other: &Line) -> bool {
        let statement = |line: &Line| (line.relation, line.positive, line.negative, line.amounts);
        statement(self) == statement(other)
    }
}

/// The result by a figure (how is 1) or a mark (2), with these lines' numbers; none if it does not follow.
pub fn result(how: u8, which: u8, lines: &[Line], parents: [usize; 2]) -> Option<Line> {
    let [upper, lower] = parents.map(|parent| &lines[parent]);
    let mut line = Line {
        how,
        which,
        positive: upper.positive | lower.positive,
        negative: upper.negative | lower.negative,
        ..Line::loaded(0, 0).with_parents(parents)
    };
    let mut amounts = [0; 9];
    match how {
        1 => {
            let [a, c] = [upper, lower].map(|line| i64::from(line.amounts[usize::from(which)]));
            if a <= 0 || c >= 0 {
                return None;
            }
            line.relation = upper.relation.max(lower.relation);
            for (i, amount) in amounts.iter_mut().enumerate() {
                let [upper, lower] = [upper, lower].map(|line| i64::from(line.amounts[i]));
                *amount = -c * upper + a * lower;
            }
        }
        _ => {
            let mark = 1 << which;
            let one = upper.positive & lower.negative & mark != 0;
            if !one || upper.relation > 0 && lower.relation > 0 {
                return None;
            }
            line.positive &= !mark;
            line.negative &= !mark;
            line.relation = upper.relation.max(lower.relation);
            for (i, amount) in amounts.iter_mut().enumerate() {
                *amount = i64::from(upper.amounts[i]) + i64::from(lower.amounts[i]);
            }
        }
    }
    line.tidied(amounts)
}

impl Line {
    /// With these amounts, divided; none if it is dropped or wide.
    fn tidied(mut self, amounts: [i64; 9]) -> Option<Line> {
        if self.positive & self.negative != 0 {
            return None;
        }
        let bound = amounts[8];
        if self.relation > 0 && amounts[..8].iter().all(|&amount| amount == 0) {
            let holds = bound >= i64::from(self.relation) - 1;
            self.relation = 0;
            return (!holds).then_some(self);
        }
        let divisor = amounts
            .iter()
            .fold(0, |divisor, &amount| gcd(divisor, amount));
        for (to, amount) in self.amounts.iter_mut().zip(amounts) {
            let amount = amount / divisor.max(1);
            if amount.abs() > 1_000_000_000 {
                return None;
            }
            *to = amount as i32;
        }
        Some(self)
    }
}

fn gcd(a: i64, b: i64) -> i64 {
    match b {
        0 => a.abs(),
        b => gcd(b, a % b),
    }
}
