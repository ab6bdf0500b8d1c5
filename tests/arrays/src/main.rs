//! Reads off the sources that solving is lent question, book and sheet alone and holds no array over
//! 1,024 bytes (document 02, (ii)), and shows on changed copies that one would be found. `arrays
//! ROOT` takes the repository's root; the last line is 'N passed, M failed'.

mod arrays;
mod items;
mod judge;
mod lent;
mod planted;
mod sizes;
mod sources;
mod words;

use std::path::Path;
use std::process::ExitCode;

/// What cannot be read, and where.
pub struct Trouble {
    file: String,
    line: usize,
    what: String,
}

impl Trouble {
    pub fn at(line: usize, what: &str) -> Trouble {
        Trouble {
            file: String::new(),
            line,
            what: what.to_string(),
        }
    }

    pub fn of(self, file: &str) -> Trouble {
        Trouble {
            file: file.to_string(),
            ..self
        }
    }
}

impl std::fmt::Display for Trouble {
    fn fmt(&self, f: &mut std::fmt::Formatter) -> std::fmt::Result {
        write!(f, "{}:{}: {}", self.file, self.line, self.what)
    }
}

fn main() -> ExitCode {
    let root = match std::env::args().nth(1) {
        Some(root) => root,
        None => {
            eprintln!("usage: arrays ROOT");
            return ExitCode::from(2);
        }
    };
    let root = Path::new(&root);
    let (mut passed, mut failed) = (0, 0);
    let mut count = |held: bool| match held {
        true => passed += 1,
        false => failed += 1,
    };
    let judged = judge::judged(root);
    println!("{judged}");
    count(judged.faults.is_empty());
    for (said, held) in planted::tried(root, &judged.with_code) {
        println!("{said}");
        count(held);
    }
    println!("{passed} passed, {failed} failed");
    ExitCode::from(u8::from(failed > 0))
}
