//! Puts an earlier archive beside today's: `beside EARLIER TODAY`, two shared libraries made of
//! them. It prints a table, and judges nothing.

mod compare;
mod families;
mod library;
mod solved;
mod table;

use compare::{compare, Compared, Effort};
use families::{FAMILIES, SEED};
use library::Library;
use questions::random::Random;
use std::process::ExitCode;

/// The questions of a family.
const COUNT: usize = 1_000;

const ALONE: Effort = Effort {
    rounds: 16,
    round: 20_000_000,
    enough: u64::MAX,
};
const OF_MANY: Effort = Effort {
    rounds: 4,
    round: 200_000,
    enough: 4_000_000,
};

fn main() -> ExitCode {
    let arguments: Vec<String> = std::env::args().skip(1).collect();
    match libraries(&arguments) {
        Ok(mut libraries) => {
            print(&mut libraries);
            ExitCode::SUCCESS
        }
        Err(message) => {
            eprintln!("{message}");
            ExitCode::FAILURE
        }
    }
}

fn libraries(arguments: &[String]) -> Result<[Library; 2], String> {
    match arguments {
        [earlier, today] => Ok([Library::load(earlier)?, Library::load(today)?]),
        _ => Err("usage: beside EARLIER TODAY (shared libraries)".into()),
    }
}

fn print(libraries: &mut [Library; 2]) {
    println!("{}", table::HEAD);
    for (name, problem) in solved::questions() {
        let compared = compare(libraries, &problem.encode(), &ALONE);
        println!("{}", table::question(name, &compared));
    }
    let mut contradictions = 0;
    for (name, draw) in FAMILIES {
        let mut random = Random::new(SEED);
        let family: Vec<Compared> = (0..COUNT)
            .map(|_| compare(libraries, &draw(&mut random).encode(), &OF_MANY))
            .collect();
        println!("{}", table::family(name, &family));
        contradictions += family.iter().filter(|one| one.contradicts()).count();
    }
    println!(
        "\nEarlier → today; lines, pairs and time are the means of the questions that both decide, \
         and the most lines those of one that is decided."
    );
    println!("Questions that can agree by one and cannot by the other: {contradictions}.");
}
