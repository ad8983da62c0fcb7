//! Reads a list of calls from standard input and writes their answers.

use std::io::{self, Read, Write};

fn main() -> io::Result<()> {
    let mut text = Vec::new();
    io::stdin().read_to_end(&mut text)?;
    io::stdout().write_all(second::replay::replay(&text).as_bytes())
}
