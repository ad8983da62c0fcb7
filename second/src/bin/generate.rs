//! Random call lists and read-outs from a seed.

use second::lists::{joined, list, summit_list};
use second::readouts::{largest, readout};
use std::io::{self, Write};
use std::path::Path;
use std::{env, fs};

const USE: &str = "generate lists SEED COUNT         lists, one after the other
generate summit                   the long list that brings a card to 60,000
generate readout SEED             one read-out
generate readouts SEED COUNT DIR  a file for each read-out
generate largest                  the largest read-out
";

fn main() -> io::Result<()> {
    let words: Vec<String> = env::args().skip(1).collect();
    let words: Vec<&str> = words.iter().map(String::as_str).collect();
    let number = |word: &str| word.parse::<u64>().unwrap_or(0);
    match words[..] {
        ["lists", seed, count] => {
            (0..number(count)).try_for_each(|next| print(&joined(&list(number(seed) + next))))
        }
        ["summit"] => print(&joined(&summit_list())),
        ["readout", seed] => print(&readout(number(seed))),
        ["readouts", seed, count, dir] => write_readouts(number(seed), number(count), Path::new(dir)),
        ["largest"] => print(&largest()),
        _ => print(USE.as_bytes()),
    }
}

fn print(bytes: &[u8]) -> io::Result<()> {
    io::stdout().write_all(bytes)
}

fn write_readouts(seed: u64, count: u64, dir: &Path) -> io::Result<()> {
    fs::create_dir_all(dir)?;
    (seed..seed + count).try_for_each(|seed| fs::write(dir.join(format!("{seed}.txt")), readout(seed)))
}
