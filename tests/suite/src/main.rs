//! The test program: runs the second solver and the proved code on the examples of document 01, on
//! the vectors, on random problems and on damaged parts, with both limits of lines and in both
//! editions, compares the two, and what the program prints with the second solver. One line for each
//! group; the last line is the sum.

mod arbitrary;
mod batches;
mod buffers;
mod checks;
mod consistency;
mod conversion;
mod conversion_cases;
mod conversion_laws;
mod conversion_random;
mod damage;
mod earlier;
mod edition_cases;
mod edition_largest;
mod edition_laws;
mod editions;
mod examples;
mod integers;
mod lengths;
mod lines;
mod open;
mod open_cases;
mod preview;
mod program;
mod reading;
mod relations;
mod report;
mod shortening;
mod shortening_books;
mod shortening_cases;
mod shortening_laws;
mod shortening_random;
mod solver;
mod solving;
mod vectors;
mod weaker;

use report::Sums;
use solver::{BOTH, BOTH_IN_2, PREVIEWS, PREVIEWS_IN_2};
use std::process::ExitCode;

fn main() -> ExitCode {
    let mut sums = Sums::default();
    integers::run(&mut sums);
    examples::run_printed(&mut sums);
    for solver in BOTH.into_iter().chain(PREVIEWS) {
        examples::run(solver, &mut sums);
    }
    for solver in [BOTH, PREVIEWS, BOTH_IN_2, PREVIEWS_IN_2].concat() {
        vectors::run(solver, &mut sums);
        consistency::run(solver, &mut sums);
        damage::run(solver, &mut sums);
        lengths::run(solver, &mut sums);
    }
    arbitrary::run(&mut sums);
    reading::run(&mut sums);
    checks::run(&mut sums);
    solving::run(&mut sums);
    preview::run(&mut sums);
    weaker::run(&mut sums);
    relations::run(&mut sums);
    open::run(&mut sums);
    editions::run(&mut sums);
    conversion::run(&mut sums);
    shortening::run(&mut sums);
    earlier::run(&mut sums);
    batches::run(&mut sums);
    program::run(&mut sums);
    println!("{} passed, {} failed", sums.passed, sums.failed);
    match sums.failed {
        0 => ExitCode::SUCCESS,
        _ => ExitCode::FAILURE,
    }
}
