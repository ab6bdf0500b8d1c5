//! The program: for every question of the vectors it prints what the second solver prints.

use crate::report::{demand, equal, Group, Sums};
use crate::vectors;
use std::io::{ErrorKind, Write};
use std::path::Path;
use std::process::{Command, Stdio};

/// Far more than any question takes: after them the program is ended, and has failed.
const SECONDS: &str = "60";

pub fn run(sums: &mut Sums) {
    let mut group = Group::new("the program: the vectors' questions");
    let questions = vectors::questions();
    for (number, question) in questions.iter().enumerate() {
        group.case(&format!("number {number}"), || {
            let question = question.as_ref()?;
            equal("printed", &reference::print(question), &printed(question)?)
        });
    }
    group.case("some", || demand(!questions.is_empty(), "no question"));
    group.finish(sums);
}

/// What the program writes to standard output with the question on standard input. It reads one
/// byte more than a question may have, and leaves the rest.
fn printed(question: &[u8]) -> Result<String, String> {
    let folder = Path::new(env!("CARGO_MANIFEST_DIR"));
    let mut program = Command::new("timeout")
        .arg(SECONDS)
        .arg(folder.join("../../target/bin/jemuling_solve"))
        .stdin(Stdio::piped())
        .stdout(Stdio::piped())
        .spawn()
        .map_err(|error| error.to_string())?;
    let mut input = program.stdin.take().ok_or("no standard input")?;
    match input.write_all(question) {
        Err(error) if error.kind() != ErrorKind::BrokenPipe => return Err(error.to_string()),
        _ => drop(input),
    }
    let output = program
        .wait_with_output()
        .map_err(|error| error.to_string())?;
    demand(
        output.status.success(),
        &format!("the program ended with {}", output.status),
    )?;
    String::from_utf8(output.stdout).map_err(|error| error.to_string())
}
