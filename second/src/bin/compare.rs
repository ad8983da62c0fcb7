//! Runs two programs over random lists or read-outs and reports the first
//! difference, shrunk.

use second::compare::*;
use second::lists::{joined, list, summit_list};
use second::readouts::readout;
use std::process::exit;
use std::{env, io};

const USE: &str = "compare lists FIRST SECOND SEED COUNT
compare readouts FIRST SECOND SEED COUNT
compare summit FIRST SECOND
FIRST and SECOND are commands with their arguments, or `own` for this package's program run in place.
";

/// Lists that one run of a program gets together.
const BATCH: u64 = 40;

fn main() -> io::Result<()> {
    let words: Vec<String> = env::args().skip(1).collect();
    let words: Vec<&str> = words.iter().map(String::as_str).collect();
    let (seed, count) = match words[..] {
        [_, _, _, seed, count] => (seed.parse().unwrap_or(0), count.parse().unwrap_or(0)),
        _ => (0, 0),
    };
    match words[..] {
        ["lists", first, second, _, _] => {
            compare_lists(&Program::of_lists(first), &Program::of_lists(second), seed, count)
        }
        ["readouts", first, second, _, _] => {
            compare_readouts(&Program::of_readouts(first), &Program::of_readouts(second), seed, count)
        }
        ["summit", first, second] => compare_summit(&Program::of_lists(first), &Program::of_lists(second)),
        _ => {
            eprint!("{USE}");
            exit(2)
        }
    }
}

fn compare_lists(first: &Program, second: &Program, seed: u64, count: u64) -> io::Result<()> {
    let mut calls = 0;
    let mut at = seed;
    while at < seed + count {
        let seeds = at..(at + BATCH).min(seed + count);
        let lines: Vec<Vec<u8>> = seeds.clone().flat_map(list).collect();
        calls += lines.len();
        if list_difference(first, second, &lines)?.is_some() {
            report_list(first, second, seeds.clone(), lines)?;
        }
        at = seeds.end;
    }
    println!("{count} lists, {calls} calls, no difference");
    Ok(())
}

/// The one long list that brings a card to state 60,000.
fn compare_summit(first: &Program, second: &Program) -> io::Result<()> {
    let lines = summit_list();
    if let Some(difference) = list_difference(first, second, &lines)? {
        println!(
            "the summit differs at call {}: {}",
            difference.place + 1,
            String::from_utf8_lossy(&lines[difference.place])
        );
        println!("first:\n{}second:\n{}", difference.first, difference.second);
        exit(1);
    }
    println!("{} calls, no difference", lines.len());
    Ok(())
}

/// Finds the list of a batch that differs, shrinks it and stops.
fn report_list(
    first: &Program,
    second: &Program,
    seeds: std::ops::Range<u64>,
    batch: Vec<Vec<u8>>,
) -> io::Result<()> {
    let mut found = (format!("seeds {} to {}", seeds.start, seeds.end - 1), batch);
    for seed in seeds {
        let lines = list(seed);
        if list_difference(first, second, &lines)?.is_some() {
            found = (format!("seed {seed}"), lines);
            break;
        }
    }
    let (name, lines) = found;
    let short = shrink_list(first, second, lines);
    println!("{name} differs; shrunk to {} calls:", short.len());
    print!("{}", String::from_utf8_lossy(&joined(&short)));
    if let Some(difference) = list_difference(first, second, &short)? {
        println!(
            "call {} answers, first:\n{}second:\n{}",
            difference.place + 1,
            difference.first,
            difference.second
        );
    }
    exit(1)
}

fn compare_readouts(first: &Program, second: &Program, seed: u64, count: u64) -> io::Result<()> {
    for seed in seed..seed + count {
        let bytes = readout(seed);
        if first.run(&bytes)? != second.run(&bytes)? {
            report_readout(first, second, seed, &bytes)?;
        }
    }
    println!("{count} read-outs, no difference");
    Ok(())
}

fn report_readout(first: &Program, second: &Program, seed: u64, bytes: &[u8]) -> io::Result<()> {
    let short = shrink_readout(first, second, bytes);
    println!("seed {seed} differs; shrunk to {} bytes:", short.len());
    println!("{}", String::from_utf8_lossy(&short));
    println!("as bytes: {short:?}");
    for (name, program) in [("first", first), ("second", second)] {
        println!("{name}:\n{}", String::from_utf8_lossy(&program.run(&short)?));
    }
    exit(1)
}
