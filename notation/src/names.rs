//! The names of marks and figures.

use crate::question::Question;

#[derive(Clone, Debug, Default, PartialEq, Eq)]
pub struct Names {
    pub marks: Vec<String>,
    pub figures: Vec<String>,
}

/// What a name stands for, with its number.
#[derive(Clone, Copy, Debug, PartialEq, Eq)]
pub enum Meaning {
    Mark(usize),
    Figure(usize),
}

impl Names {
    /// m0, m1, .. and x0, x1, ..
    pub fn numbered(question: &Question) -> Names {
        let list = |letter: &str, count| (0..count).map(|i| format!("{letter}{i}")).collect();
        Names {
            marks: list("m", question.marks),
            figures: list("x", question.figures),
        }
    }

    pub fn meaning(&self, name: &str) -> Option<Meaning> {
        let find = |list: &[String]| list.iter().position(|known| known == name);
        let mark = find(&self.marks).map(Meaning::Mark);
        mark.or_else(|| find(&self.figures).map(Meaning::Figure))
    }

    /// Whether they name every mark and figure of a question and no more.
    pub fn fit(&self, question: &Question) -> bool {
        self.marks.len() == question.marks && self.figures.len() == question.figures
    }

    /// A mark's name; marks beyond the question's are links.
    pub fn mark(&self, mark: usize) -> String {
        match self.marks.get(mark) {
            Some(name) => name.clone(),
            None => format!("link {}", mark - self.marks.len()),
        }
    }
}
