//! The line of a joined read-out on standard input.

use std::io::{self, Read, Write};

fn main() -> io::Result<()> {
    let mut bytes = Vec::new();
    io::stdin().read_to_end(&mut bytes)?;
    io::stdout().write_all(port::text::line_text(&bytes).as_bytes())
}
