//! Solves standard input and prints as 01 says.

use std::io::{self, Read, Write};

/// One byte more than a question may have is enough to see that it is too long.
const ENOUGH: u64 = 32_769;

fn main() -> io::Result<()> {
    let mut question = Vec::new();
    io::stdin().take(ENOUGH).read_to_end(&mut question)?;
    io::stdout().write_all(reference::print(&question).as_bytes())
}
