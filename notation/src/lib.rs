//! A readable notation for Jemuling's questions, and its sheets and books in words.
//!
//! One clause stands on a line, `#` begins a comment:
//!
//! ```text
//! marks a b            # names in order, at most 16; may be left out
//! figures x y rent     # at most 8; may be left out
//! x + y <= 10 or not a
//! 3x - 2 rent > -5 or a or b
//! x = y + 7 or b       # at most one = in a clause
//! false                # the empty clause
//! ```

mod book;
mod carried_over;
mod clause;
mod command;
mod decode;
mod encode;
mod failure;
mod line;
mod loading;
mod names;
mod order;
mod parse;
mod question;
mod reading;
mod sheet;
mod show;
mod sum;
mod token;

pub use book::explain_book;
pub use carried_over::CarriedOver;
pub use command::{names_for, question_bytes, run, text, words};
pub use decode::decode;
pub use encode::encode;
pub use failure::{Failure, Mistake};
pub use loading::explain_loading;
pub use names::Names;
pub use order::{explain_order, order_taken};
pub use parse::{parse, Text};
pub use question::{Clause, Condition, Edition, Literal, Question, Relation};
pub use reading::{Half, Reading};
pub use sheet::explain_sheet;
pub use show::{show, show_clause};
