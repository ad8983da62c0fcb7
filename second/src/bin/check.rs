//! Runs random lists or read-outs through the property checks.

use second::check::{check_list, check_readout, Counts};
use second::lists::{list, styled_list, Style};
use second::random::Random;
use second::readouts::readout;
use std::env;
use std::process::exit;

const USE: &str = "check lists SEED COUNT, check small SEED COUNT, or check readouts SEED COUNT";

fn main() {
    let words: Vec<String> = env::args().skip(1).collect();
    let numbers: Vec<u64> = words.iter().skip(1).filter_map(|word| word.parse().ok()).collect();
    let (Some(kind), &[seed, count]) = (words.first(), &numbers[..]) else {
        eprintln!("{USE}");
        exit(2);
    };
    let mut counts = Counts::default();
    for seed in seed..seed + count {
        let outcome = match kind.as_str() {
            "lists" => check_list(&list(seed), &mut counts),
            "small" => check_list(&styled_list(seed, Style::Small), &mut counts),
            "readouts" => check_readout(&readout(seed), &mut Random::new(seed), &mut counts),
            _ => Err(USE.to_string()),
        };
        if let Err(error) = outcome {
            println!("seed {seed}: {error}");
            exit(1);
        }
    }
    for (name, number) in &counts.numbers {
        println!("{name}: {number}");
    }
    println!("{count} seeds, nothing found");
}
