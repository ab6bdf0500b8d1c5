//! The order in which a run took its figures, worked out from the lines that it left: at each turn
//! the cheapest of those not yet taken.

use crate::book::{word, LINE};
use crate::names::Names;
use crate::question::{Question, FIGURES};

/// The figures that a run took, in its order and on one line; nothing if it took none. The book is
/// the used lines of that run.
pub fn explain_order(question: &Question, book: &[u8], names: &Names) -> String {
    let taken = order_taken(question.figures, book);
    if taken.is_empty() {
        return String::new();
    }
    let named: Vec<&str> = taken.iter().map(|&f| names.figures[f].as_str()).collect();
    format!("figures in the order taken: {}\n", named.join(", "))
}

/// The numbers of the figures that a run took, in its order: all of them, unless a line with
/// nothing in it ended the run before.
pub fn order_taken(figures: usize, book: &[u8]) -> Vec<usize> {
    let steps: Vec<Step> = book.chunks_exact(LINE).map(Step::read).collect();
    let mut taken = Vec::new();
    for _ in 0..figures {
        let held: Vec<&Step> = steps.iter().filter(|step| step.is_held(&taken)).collect();
        if held.iter().any(|step| step.is_empty) {
            break;
        }
        let left = (0..figures).filter(|figure| !taken.contains(figure));
        // the first of the least: ties go to the lower number
        let cheapest = left.min_by_key(|&figure| cost(figure, &held, &taken));
        taken.extend(cheapest);
    }
    taken
}

/// What the turn of a figure may add to the book less what it is done with: uppers × lowers, less
/// the uppers and the lowers, which may be below 0. Lines with a figure already taken do not count.
fn cost(figure: usize, held: &[&Step], taken: &[usize]) -> i64 {
    let open = held.iter().filter(|step| !step.contains_any(taken));
    let signs: Vec<i32> = open
        .map(|step| step.coefficients[figure].signum())
        .collect();
    let count = |sign| signs.iter().filter(|&&other| other == sign).count() as i64;
    let (uppers, lowers) = (count(1), count(-1));
    uppers * lowers - uppers - lowers
}

/// A line of the book, as much of it as the order depends on.
struct Step {
    origin: Origin,
    is_empty: bool,
    coefficients: [i32; FIGURES],
}

enum Origin {
    Clause,
    Figure(usize),
    Mark,
}

impl Step {
    fn read(bytes: &[u8]) -> Step {
        Step {
            origin: match bytes[0] {
                0 => Origin::Clause,
                1 => Origin::Figure(usize::from(bytes[1])),
                _ => Origin::Mark,
            },
            // neither a condition nor a mark
            is_empty: bytes[6..16].iter().all(|&byte| byte == 0),
            coefficients: std::array::from_fn(|figure| word(bytes, 16 + 4 * figure)),
        }
    }

    /// Whether the book held it once these figures were taken, before the next is.
    fn is_held(&self, taken: &[usize]) -> bool {
        match self.origin {
            Origin::Clause => true,
            Origin::Figure(figure) => taken.contains(&figure),
            Origin::Mark => false,
        }
    }

    fn contains_any(&self, figures: &[usize]) -> bool {
        figures.iter().any(|&figure| self.coefficients[figure] != 0)
    }
}
