//! Writes the data of the gate's programs, with this package's answers:
//! `stdin` and `stdout` of replay, line and check_sheets, `stdout` of check_forged.

use second::data::{calls, forged, sheets, worked_line, Data};
use std::path::{Path, PathBuf};
use std::{fs, io};

/// A file of a crate of the engine.
fn file(name: &str, of: &str) -> PathBuf {
    Path::new(env!("CARGO_MANIFEST_DIR")).join("../crates").join(name).join(of)
}

fn write(name: &str, data: Data) -> io::Result<()> {
    fs::write(file(name, "stdin"), data.stdin)?;
    fs::write(file(name, "stdout"), data.stdout)
}

fn main() -> io::Result<()> {
    write("replay", calls())?;
    write("line", worked_line())?;
    write("check_sheets", sheets())?;
    fs::write(file("check_forged", "stdout"), forged())
}
