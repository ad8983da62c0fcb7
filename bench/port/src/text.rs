//! Lists of calls as text, so that the port's answers can be compared.

use crate::recovery::Fixed;
use crate::restart::restart;
use crate::{place_in_ring, Answer, Cabinet, Phase, Refusal};
use std::fmt::Write;

fn number(word: &str) -> Option<u32> {
    let digits = !word.is_empty() && word.bytes().all(|byte| byte.is_ascii_digit());
    if digits {
        word.parse().ok()
    } else {
        None
    }
}

/// A line's word and numbers.
fn read(line: &[u8]) -> Option<(&str, Vec<u32>)> {
    let text = std::str::from_utf8(line).ok().filter(|_| line.len() <= 128)?;
    let mut words = text.split(' ');
    let name = words.next()?;
    let numbers = words.map(number).collect::<Option<Vec<u32>>>()?;
    let count = match name {
        "trim" | "restart" | "show" => 0,
        "fresh" | "withdraw" | "safe" | "lose" | "roll" | "frames" => 1,
        "open" | "take" | "store" | "begin" | "end" | "fix" | "sheet" => 2,
        "vote" => 3,
        _ => return None,
    };
    let fits = match (name, &numbers[..]) {
        ("vote", [_, _, yes]) => *yes < 2,
        ("fix", [records, numbers]) => *records <= 16 && *numbers <= 776,
        ("sheet", [_, bytes]) => *bytes <= 65_536,
        _ => true,
    };
    (numbers.len() == count && fits).then_some((name, numbers))
}

fn refused(refusal: Refusal) -> String {
    match refusal & 0xFFFF {
        21 => format!("refused 21 {}\n", refusal >> 16),
        number => format!("refused {number}\n"),
    }
}

fn told<T>(answer: Answer<T>, tell: impl FnOnce(T) -> String) -> (Cabinet, String) {
    (answer.cabinet, answer.reply.map_or_else(refused, tell))
}

fn fixed_text(cards: usize, fixed: &Fixed, list: &[u32]) -> String {
    let mut text = format!("fixed {cards} {}\n", fixed.lost);
    for card in 0..cards {
        let _ = writeln!(text, "{card} {} {}", fixed.stored[card], fixed.line[card]);
    }
    text += "lost";
    list[..fixed.lost].iter().for_each(|change| text += &format!(" {change}"));
    text + "\n"
}

fn show(cabinet: &Cabinet) -> String {
    let phase = match cabinet.head.phase {
        Phase::Up => "up",
        Phase::Down => "down",
        Phase::Rolling => "rolling",
    };
    let mut text = format!("session {} {phase} cards {}\n", cabinet.head.session, cabinet.head.cards);
    for c in 0..cabinet.head.cards as usize {
        let (base, stored) = (cabinet.base[c], cabinet.stored[c]);
        let _ = write!(text, "{c} {base} {stored} {} {}", cabinet.held[c], cabinet.reached[c]);
        if let Some(state) = cabinet.writing[c].checked_sub(1) {
            let _ = write!(text, " writing {state}");
        }
        text.push('\n');
    }
    text
}

/// What the states in hand of a card hang on.
fn frames(cabinet: &Cabinet, card: u32) -> String {
    if !cabinet.there(card) {
        return refused(2);
    }
    let (base, reached) = (cabinet.base[card as usize], cabinet.reached[card as usize]);
    let mut text = format!("frames {}\n", reached - base);
    for state in base + 1..=reached {
        let place = place_in_ring(card as usize, state);
        text += &format!("{state} {}", cabinet.makers[place]);
        for entry in &cabinet.vector_at(place)[..cabinet.head.cards as usize] {
            text += &entry.checked_sub(1).map_or(" -".to_string(), |state| format!(" {state}"));
        }
        text.push('\n');
    }
    text
}

/// The sheets of all cards, joined, restart.
fn restart_from_own(cabinet: Cabinet) -> (Cabinet, String) {
    let mut bytes = Vec::new();
    let mut buffer = [0u8; 4096];
    for card in 0..cabinet.head.cards {
        let length = cabinet.sheet_on(card, &mut buffer).unwrap_or(0);
        bytes.extend(&buffer[..length]);
    }
    let answer = restart(&bytes);
    match answer.reply {
        Ok(()) => (answer.cabinet, "ok\n".to_string()),
        Err(refusal) => (cabinet, refused(refusal)),
    }
}

fn ask(cabinet: Cabinet, name: &str, n: &[u32]) -> (Cabinet, String) {
    let ok = |()| "ok\n".to_string();
    let set = |number: u32| u16::try_from(number).ok();
    match name {
        "open" => match (set(n[0]), set(n[1])) {
            (Some(reads), Some(writes)) => told(cabinet.open(reads, writes), |k| format!("change {k}\n")),
            _ => (cabinet, refused(2)),
        },
        "vote" => told(cabinet.vote(n[0], n[1], n[2] == 1), ok),
        "take" => told(cabinet.take(n[0], n[1]), ok),
        "withdraw" => told(cabinet.withdraw(n[0]), ok),
        "store" => told(cabinet.store(n[0], n[1]), ok),
        "begin" => told(cabinet.begin(n[0], n[1]), ok),
        "end" => told(cabinet.end(n[0], n[1]), ok),
        "trim" => told(cabinet.trim(), ok),
        "safe" => told(cabinet.safe(n[0]), |safe| (if safe { "safe\n" } else { "unsafe\n" }).to_string()),
        "lose" => match set(n[0]) {
            Some(cards) => told(cabinet.lose(cards), ok),
            None => (cabinet, refused(2)),
        },
        "fix" => {
            let mut list = vec![0; n[1] as usize];
            let cards = cabinet.head.cards as usize;
            let answer = cabinet.fix(n[0] as usize, &mut list);
            told(answer, |fixed| fixed_text(cards, &fixed, &list))
        }
        "roll" => told(cabinet.roll(n[0]), ok),
        "sheet" => {
            let mut buffer = vec![0; n[1] as usize];
            let answer = cabinet.sheet(n[0], &mut buffer);
            told(answer, |length| format!("sheet {length}\n{}", String::from_utf8_lossy(&buffer[..length])))
        }
        "restart" => restart_from_own(cabinet),
        "frames" => (cabinet, frames(&cabinet, n[0])),
        _ => (cabinet, show(&cabinet)),
    }
}

/// The answers to a whole list.
pub fn replay(text: &[u8]) -> String {
    let mut lines: Vec<&[u8]> = text.split(|byte| *byte == 10).collect();
    if lines.last().is_some_and(|line| line.is_empty()) {
        lines.pop();
    }
    let mut present = None;
    let mut answers = String::new();
    for line in lines {
        answers += &match (read(line), present) {
            (None, _) => "unreadable\n".to_string(),
            (Some(("fresh", n)), _) => {
                let answer = Cabinet::fresh(n[0]);
                answer.reply.map_or_else(refused, |()| {
                    present = Some(answer.cabinet);
                    "ok\n".to_string()
                })
            }
            (_, None) => "none\n".to_string(),
            (Some((name, n)), Some(cabinet)) => {
                let (next, text) = ask(cabinet, name, &n);
                present = Some(next);
                text
            }
        };
    }
    answers
}

/// The line program's text.
pub fn line_text(bytes: &[u8]) -> String {
    let answer = restart(bytes);
    let cabinet = answer.cabinet;
    answer.reply.map_or_else(refused, |()| {
        let mut text = String::new();
        for card in 0..cabinet.head.cards as usize {
            let _ = writeln!(text, "{card} {} {}", cabinet.stored[card], cabinet.line[card]);
        }
        text + &format!("session {}\n", cabinet.head.session + 1)
    })
}
