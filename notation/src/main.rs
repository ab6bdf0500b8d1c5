//! The program `notation`: see the library.

use notation::{run, words, Failure};
use std::io::Write;
use std::process::ExitCode;

fn main() -> ExitCode {
    let output = words(std::env::args_os()).and_then(|words| run(&words));
    match output.and_then(|bytes| print(&bytes)) {
        Ok(()) => ExitCode::SUCCESS,
        Err(failure) => {
            eprintln!("{failure}");
            ExitCode::from(failure.status())
        }
    }
}

/// Writes everything to standard output.
fn print(bytes: &[u8]) -> Result<(), Failure> {
    let mut output = std::io::stdout().lock();
    output
        .write_all(bytes)
        .and_then(|()| output.flush())
        .map_err(|error| Failure::Said(format!("standard output: {error}")))
}
