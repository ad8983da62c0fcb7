//! The answers of the port to a list of calls on standard input.

use std::io::{self, Read, Write};

fn main() -> io::Result<()> {
    let mut text = Vec::new();
    io::stdin().read_to_end(&mut text)?;
    io::stdout().write_all(port::text::replay(&text).as_bytes())
}
