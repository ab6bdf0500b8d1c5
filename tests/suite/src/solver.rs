//! The two implementations under test, with the same calls and the same answers, each with a limit
//! of lines, and by the calls that name an edition or by those that name none.

use crate::report::Group;
use questions::problem::Problem;
use reference::{Answer, Carried, Checked, Converted, Limit, Part, Shortened};
use reference::{FIRST_EDITION, SECOND_EDITION};

#[derive(Clone, Copy)]
enum Code {
    Second,
    Proved,
}

/// One of the two, by its calls with this limit, which name this edition, if one.
#[derive(Clone, Copy)]
pub struct Solver {
    code: Code,
    pub limit: Limit,
    edition: Option<u64>,
}

/// Both with 1,024 lines, and both with 256.
pub const BOTH: [Solver; 2] = [Solver::SECOND, Solver::PROVED];
pub const PREVIEWS: [Solver; 2] = both(Limit::PREVIEW);
/// The same in edition 2.
pub const BOTH_IN_2: [Solver; 2] = naming(SECOND_EDITION, Limit::STANDARD);
pub const PREVIEWS_IN_2: [Solver; 2] = naming(SECOND_EDITION, Limit::PREVIEW);

/// Both with this limit.
pub const fn both(limit: Limit) -> [Solver; 2] {
    [Solver::second(limit), Solver::proved(limit)]
}

/// Both with this limit, by the calls that name an edition, and with this one.
pub const fn naming(edition: u64, limit: Limit) -> [Solver; 2] {
    let [second, proved] = both(limit);
    [second.naming(edition), proved.naming(edition)]
}

impl Solver {
    pub const SECOND: Solver = Solver::second(Limit::STANDARD);
    pub const PROVED: Solver = Solver::proved(Limit::STANDARD);

    pub const fn second(limit: Limit) -> Solver {
        Solver {
            code: Code::Second,
            limit,
            edition: None,
        }
    }

    /// The proved code, which has calls with 1,024 and 256 lines.
    pub const fn proved(limit: Limit) -> Solver {
        Solver {
            code: Code::Proved,
            limit,
            edition: None,
        }
    }

    /// The same by the calls that name an edition.
    pub const fn naming(self, edition: u64) -> Solver {
        Solver {
            edition: Some(edition),
            ..self
        }
    }

    /// The same with another limit.
    pub const fn within(self, limit: Limit) -> Solver {
        Solver { limit, ..self }
    }

    pub fn is_preview(self) -> bool {
        self.limit == Limit::PREVIEW
    }

    pub fn is_in_2(self) -> bool {
        self.edition == Some(SECOND_EDITION)
    }

    /// The problem with all clauses that it has in the edition, those of edition 2 written out.
    pub fn stated(self, problem: &Problem) -> Problem {
        match self.is_in_2() {
            true => problem.with_shares(),
            false => problem.clone(),
        }
    }

    /// A group of cases that this one runs.
    pub fn group(self, name: &str) -> Group {
        let code = match self.code {
            Code::Second => "second solver",
            Code::Proved => "proved code",
        };
        let preview = if self.is_preview() { ", preview" } else { "" };
        let edition = self.edition.map(|edition| format!(", edition {edition}"));
        let edition = edition.unwrap_or_default();
        Group::new(format!("{name}, {code}{preview}{edition}"))
    }

    pub fn solve(self, question: &[u8], book: &mut [u8], sheet: &mut [u8]) -> Answer {
        let Solver { limit, edition, .. } = self;
        match (self.code, edition) {
            (Code::Second, None) => reference::solve_within(limit, question, book, sheet),
            (Code::Second, Some(edition)) => {
                reference::solve_in(edition, limit, question, book, sheet)
            }
            (Code::Proved, None) => proved::solve_within(limit, question, book, sheet),
            (Code::Proved, Some(edition)) => {
                proved::solve_in(edition, limit, question, book, sheet)
            }
        }
    }

    pub fn check_book(self, question: &[u8], book: &[u8]) -> Checked {
        let Solver { limit, edition, .. } = self;
        match (self.code, edition) {
            (Code::Second, None) => reference::check_book_within(limit, question, book),
            (Code::Second, Some(edition)) => {
                reference::check_book_in(edition, limit, question, book)
            }
            (Code::Proved, None) => proved::check_book_within(limit, question, book),
            (Code::Proved, Some(edition)) => proved::check_book_in(edition, limit, question, book),
        }
    }

    pub fn check_sheet(self, question: &[u8], sheet: &[u8]) -> Checked {
        match (self.code, self.edition) {
            (Code::Second, None) => reference::check_sheet(question, sheet),
            (Code::Second, Some(edition)) => reference::check_sheet_in(edition, question, sheet),
            (Code::Proved, None) => proved::check_sheet(question, sheet),
            (Code::Proved, Some(edition)) => proved::check_sheet_in(edition, question, sheet),
        }
    }

    /// Handing back names no edition.
    pub fn hand_back<'a>(self, answer: &Answer, book: &'a [u8], sheet: &'a [u8]) -> Part<'a> {
        match self.code {
            Code::Second => reference::hand_back_within(self.limit, answer, book, sheet),
            Code::Proved => proved::hand_back_within(self.limit, answer, book, sheet),
        }
    }

    /// Converting and carrying back name no edition, and have no limit of lines.
    pub fn convert(self, question: &[u8], target: &mut [u8]) -> Converted {
        match self.code {
            Code::Second => reference::convert(question, target),
            Code::Proved => proved::convert(question, target),
        }
    }

    pub fn carry_back(self, question: &[u8], sheet: &[u8], target: &mut [u8]) -> Carried {
        match self.code {
            Code::Second => reference::carry_back(question, sheet, target),
            Code::Proved => proved::carry_back(question, sheet, target),
        }
    }

    /// Shortening names an edition, the first if none is, and has 1,024 lines.
    pub fn shorten_book(self, question: &[u8], book: &[u8], target: &mut [u8]) -> Shortened {
        let edition = self.edition.unwrap_or(FIRST_EDITION);
        match self.code {
            Code::Second => reference::shorten_book_in(edition, question, book, target),
            Code::Proved => proved::shorten_book_in(edition, question, book, target),
        }
    }
}
