//! Comparing two programs with the same text interface, and shrinking what
//! differs.

use crate::answer::Answer;
use crate::call::{read_call, write_call, Call};
use crate::cards::{members, CardSet};
use crate::lists::joined;
use crate::replay::{replay, Place};
use crate::restart::line_text;
use std::io::{self, Write};
use std::process::{ChildStdin, Command, Stdio};
use std::thread;

/// A program under comparison: a command, or this package itself.
pub enum Program {
    Own(fn(&[u8]) -> String),
    Command(Vec<String>),
}

/// The word that stands for this package's own program, run in place.
pub const OWN: &str = "own";

impl Program {
    pub fn of_lists(words: &str) -> Program {
        Program::named(words, replay)
    }

    pub fn of_readouts(words: &str) -> Program {
        Program::named(words, line_text)
    }

    fn named(words: &str, own: fn(&[u8]) -> String) -> Program {
        if words == OWN {
            Program::Own(own)
        } else {
            Program::Command(words.split_whitespace().map(String::from).collect())
        }
    }

    /// What the program writes for an input.
    pub fn run(&self, input: &[u8]) -> io::Result<Vec<u8>> {
        match self {
            Program::Own(own) => Ok(own(input).into_bytes()),
            Program::Command(words) => run_command(words, input),
        }
    }
}

fn run_command(words: &[String], input: &[u8]) -> io::Result<Vec<u8>> {
    let mut child =
        Command::new(&words[0]).args(&words[1..]).stdin(Stdio::piped()).stdout(Stdio::piped()).spawn()?;
    let stdin = child.stdin.take();
    if input.len() <= PIPE_BYTES {
        feed(stdin, input);
        return Ok(child.wait_with_output()?.stdout);
    }
    let input = input.to_vec();
    let writer = thread::spawn(move || feed(stdin, &input));
    let output = child.wait_with_output()?;
    let _ = writer.join();
    Ok(output.stdout)
}

/// An input up to this length is taken in by the pipe at once.
const PIPE_BYTES: usize = 60_000;

/// Writes the input and closes it. That a program stops reading early shows in
/// its answers.
fn feed(stdin: Option<ChildStdin>, input: &[u8]) {
    if let Some(mut stdin) = stdin {
        let _ = stdin.write_all(input);
    }
}

/// Where two programs differ: the line's place in the list, and both answers.
pub struct Difference {
    pub place: usize,
    pub first: String,
    pub second: String,
}

/// The answers of a program, taken apart call by call.
struct Answers<'a>(&'a [u8]);

impl<'a> Answers<'a> {
    fn line(&mut self) -> &'a [u8] {
        let end = self.0.iter().position(|byte| *byte == 10).map_or(self.0.len(), |end| end + 1);
        let (line, rest) = self.0.split_at(end);
        self.0 = rest;
        line
    }

    /// The next answer: its first line says how much belongs to it.
    fn next(&mut self) -> Vec<u8> {
        let mut answer = self.line().to_vec();
        let text = String::from_utf8_lossy(&answer).into_owned();
        let words: Vec<&str> = text.split_whitespace().collect();
        let number = |place: usize| words.get(place).and_then(|word| word.parse::<usize>().ok()).unwrap_or(0);
        let lines = match words.first() {
            Some(&"fixed") => number(1) + 1,
            Some(&"session") => number(4),
            Some(&"frames") => number(1),
            _ => 0,
        };
        for _ in 0..lines {
            answer.extend(self.line());
        }
        if words.first() == Some(&"sheet") {
            let bytes = number(1).min(self.0.len());
            let (sheet, rest) = self.0.split_at(bytes);
            answer.extend(sheet);
            self.0 = rest;
        }
        answer
    }
}

/// The first call whose answers differ.
pub fn difference(lines: &[Vec<u8>], first: &[u8], second: &[u8]) -> Option<Difference> {
    let (mut first, mut second) = (Answers(first), Answers(second));
    for number in 0..lines.len() {
        let (a, b) = (first.next(), second.next());
        if a != b {
            return Some(different(number, &a, &b));
        }
    }
    let same_end = first.0 == second.0;
    (!same_end).then(|| different(lines.len(), first.0, second.0))
}

fn different(place: usize, first: &[u8], second: &[u8]) -> Difference {
    let text = |bytes: &[u8]| String::from_utf8_lossy(bytes).into_owned();
    Difference { place, first: text(first), second: text(second) }
}

/// How many tries a shrinking makes at most.
const MOST_TRIES: usize = 4000;

/// Shrinks a list while the programs still differ on it.
pub fn shrink_list(first: &Program, second: &Program, lines: Vec<Vec<u8>>) -> Vec<Vec<u8>> {
    let mut tries = 0;
    let mut differs = |lines: &[Vec<u8>]| {
        tries += 1;
        tries <= MOST_TRIES && list_difference(first, second, lines).ok().flatten().is_some()
    };
    let mut lines = lines;
    loop {
        let before = lines.clone();
        lines = without_changes(lines, &mut differs);
        lines = without_parts(lines, &mut differs);
        if lines == before {
            return lines;
        }
    }
}

/// The text of a list; every other one goes without its last byte 10.
fn list_text(lines: &[Vec<u8>]) -> Vec<u8> {
    let mut text = joined(lines);
    if lines.len() % 2 == 1 && lines.last().is_some_and(|line| !line.is_empty()) {
        text.pop();
    }
    text
}

/// Runs both programs over a list.
pub fn list_difference(
    first: &Program,
    second: &Program,
    lines: &[Vec<u8>],
) -> io::Result<Option<Difference>> {
    let text = list_text(lines);
    Ok(difference(lines, &first.run(&text)?, &second.run(&text)?))
}

/// Takes out parts, long ones first, while what is left still differs.
pub fn without_parts<T: Clone>(mut list: Vec<T>, differs: &mut impl FnMut(&[T]) -> bool) -> Vec<T> {
    let mut length = list.len().div_ceil(2);
    while length > 0 {
        let mut from = 0;
        while from < list.len() {
            let mut shorter = list.clone();
            shorter.drain(from..(from + length).min(list.len()));
            if differs(&shorter) {
                list = shorter;
            } else {
                from += length;
            }
        }
        length /= 2;
    }
    list
}

/// Takes out whole changes, the later ones of the session numbered anew, or
/// else single cards of a change.
fn without_changes(mut lines: Vec<Vec<u8>>, differs: &mut impl FnMut(&[Vec<u8>]) -> bool) -> Vec<Vec<u8>> {
    let mut place = lines.len();
    while place > 0 {
        place -= 1;
        for shorter in smaller_at(&lines, place) {
            if differs(&shorter) {
                lines = shorter;
                place = place.min(lines.len());
                break;
            }
        }
    }
    lines
}

/// The list without the change opened at a line, and with each card taken out
/// of that change.
fn smaller_at(lines: &[Vec<u8>], opening: usize) -> Vec<Vec<Vec<u8>>> {
    let Some(Call::Open { reads, writes }) = read_call(&lines[opening]) else {
        return Vec::new();
    };
    let mut place = Place::default();
    lines[..opening].iter().for_each(|line| {
        place.answer_line(line);
    });
    let Answer::Change(number) = place.answer_line(&lines[opening]) else {
        return Vec::new();
    };
    let mut smaller = vec![rewritten(lines, opening, &place, None, &|call| renumbered(call, number))];
    for card in members((reads | writes) as CardSet) {
        let left = Call::Open { reads: reads & !(1 << card), writes: writes & !(1 << card) };
        smaller.push(rewritten(lines, opening, &place, Some(left), &|call| without_card(call, number, card)));
    }
    smaller
}

/// The list with its opening replaced and each later call of that session
/// changed or left out; `place` is the cabinet after the opening.
fn rewritten(
    lines: &[Vec<u8>],
    opening: usize,
    place: &Place,
    instead: Option<Call>,
    change: &dyn Fn(Call) -> Option<Call>,
) -> Vec<Vec<u8>> {
    let mut place = Place { cabinet: place.cabinet.clone() };
    let session = |place: &Place| place.cabinet.as_ref().map(|cabinet| cabinet.session);
    let own = session(&place);
    let mut shorter = lines[..opening].to_vec();
    shorter.extend(instead.map(|call| write_call(&call).into_bytes()));
    for line in &lines[opening + 1..] {
        let same_session = session(&place) == own;
        place.answer_line(line);
        match read_call(line).filter(|_| same_session) {
            Some(call) => shorter.extend(change(call).map(|call| write_call(&call).into_bytes())),
            None => shorter.push(line.clone()),
        }
    }
    shorter
}

/// A call, unless it is a vote or take of this card on this change.
fn without_card(call: Call, number: u32, gone: usize) -> Option<Call> {
    match call {
        Call::Vote { change, card, .. } | Call::Take { change, card }
            if change == number && card as usize == gone =>
        {
            None
        }
        other => Some(other),
    }
}

/// A call with the change `gone` left out of the numbers; none if it is of
/// that change.
fn renumbered(call: Call, gone: u32) -> Option<Call> {
    let lower = |change: u32| match change {
        change if change == gone => None,
        change if change > gone => Some(change - 1),
        change => Some(change),
    };
    Some(match call {
        Call::Vote { change, card, yes } => Call::Vote { change: lower(change)?, card, yes },
        Call::Take { change, card } => Call::Take { change: lower(change)?, card },
        Call::Withdraw { change } => Call::Withdraw { change: lower(change)? },
        Call::Safe { change } => Call::Safe { change: lower(change)? },
        other => other,
    })
}

/// Shrinks a read-out while the programs still differ on it: by lines, then by
/// bytes.
pub fn shrink_readout(first: &Program, second: &Program, bytes: &[u8]) -> Vec<u8> {
    let mut tries = 0;
    let mut differs = |bytes: &[u8]| {
        tries += 1;
        tries <= MOST_TRIES && matches!((first.run(bytes), second.run(bytes)), (Ok(a), Ok(b)) if a != b)
    };
    let lines: Vec<Vec<u8>> = bytes.split_inclusive(|byte| *byte == 10).map(<[u8]>::to_vec).collect();
    let lines = without_parts(lines, &mut |lines: &[Vec<u8>]| differs(&lines.concat()));
    without_parts(lines.concat(), &mut differs)
}
