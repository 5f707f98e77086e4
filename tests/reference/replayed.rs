//! What the program `replay` writes by the reference: reads the program's input and writes the output that is wanted.

use std::io::{self, Read, Write};

fn main() -> io::Result<()> {
    let mut input = Vec::new();
    io::stdin().read_to_end(&mut input)?;
    io::stdout().write_all(&reference::log::replayed(&input))
}
