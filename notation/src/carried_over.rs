//! A question that was carried over from the first edition to the second: the names of its figures,
//! and its text. Which figures were kept is for the library to say.

use crate::names::Names;
use crate::question::Question;
use crate::show::show;

/// What became of an old figure: it was kept, or is the first of two figures less the second.
#[derive(Clone, Debug, PartialEq, Eq)]
enum Became {
    Kept,
    Halves(String, String),
}

/// The old names, and what became of each figure.
#[derive(Clone, Debug, PartialEq, Eq)]
pub struct CarriedOver {
    old: Names,
    became: Vec<Became>,
}

impl CarriedOver {
    /// The halves of x are x_plus and x_minus, or x_plus2 and x_minus2 and so on where one of the two
    /// is a name already, of the old question or of another half.
    pub fn new(old: Names, kept: &[bool]) -> CarriedOver {
        let mut taken: Vec<String> = old.marks.iter().chain(&old.figures).cloned().collect();
        let fates = old.figures.iter().zip(kept);
        let became = fates.map(|(name, &kept)| match kept {
            true => Became::Kept,
            false => {
                let (plus, minus) = halves(name, &taken);
                taken.extend([plus.clone(), minus.clone()]);
                Became::Halves(plus, minus)
            }
        });
        CarriedOver {
            became: became.collect(),
            old,
        }
    }

    /// The names of the new question: marks as they were, halves side by side.
    pub fn names(&self) -> Names {
        let figures = self.figures().flat_map(|(name, became)| match became {
            Became::Kept => vec![name.clone()],
            Became::Halves(plus, minus) => vec![plus.clone(), minus.clone()],
        });
        Names {
            marks: self.old.marks.clone(),
            figures: figures.collect(),
        }
    }

    /// The names of the figures that were kept.
    pub fn kept(&self) -> Vec<&str> {
        let kept = self
            .figures()
            .filter(|(_, became)| **became == Became::Kept);
        kept.map(|(name, _)| name.as_str()).collect()
    }

    /// `x = x_plus - x_minus` for each of the others.
    pub fn differences(&self) -> Vec<String> {
        let difference = |(name, became): (&String, &Became)| match became {
            Became::Kept => None,
            Became::Halves(plus, minus) => Some(format!("{name} = {plus} - {minus}")),
        };
        self.figures().filter_map(difference).collect()
    }

    /// The new question as a notation file, with comments that say what became of the old figures;
    /// written again it gives the same bytes.
    pub fn show(&self, question: &Question) -> String {
        let mut text = "# carried over from edition 1: a question for edition 2\n".to_string();
        let kept = self.kept();
        if !kept.is_empty() {
            text += &format!("# kept: {}\n", kept.join(", "));
        }
        for difference in self.differences() {
            text += &format!("# {difference}\n");
        }
        text + &show(question, &self.names())
    }

    fn figures(&self) -> impl Iterator<Item = (&String, &Became)> {
        self.old.figures.iter().zip(&self.became)
    }
}

/// The first pair of names of which neither is taken.
fn halves(name: &str, taken: &[String]) -> (String, String) {
    let mut number = 1;
    loop {
        let end = match number {
            1 => String::new(),
            _ => number.to_string(),
        };
        let (plus, minus) = (format!("{name}_plus{end}"), format!("{name}_minus{end}"));
        if !taken.contains(&plus) && !taken.contains(&minus) {
            return (plus, minus);
        }
        number += 1;
    }
}
