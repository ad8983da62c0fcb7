//! Reads a joined read-out from standard input and prints the line.

use std::io::{self, Read, Write};

fn main() -> io::Result<()> {
    let mut bytes = Vec::new();
    io::stdin().read_to_end(&mut bytes)?;
    io::stdout().write_all(second::restart::line_text(&bytes).as_bytes())
}
