//! The answers of calls, and their text in the trace.

use crate::cabinet::{Cabinet, Phase, Record};
use crate::history::Vector;
use crate::refusal::Refusal;
use crate::sheet::Frame;

#[derive(Clone, PartialEq, Eq, Debug)]
pub enum Answer {
    Ok,
    Change(u32),
    Safe(bool),
    Fixed {
        records: Vec<Record>,
        lost: Vec<u32>,
    },
    Sheet(Vec<u8>),
    /// The states in hand of a card.
    Frames(Vec<Frame>),
    /// What the cabinet is, as text.
    Shown(String),
    Refused(Refusal),
    /// There is no cabinet yet.
    NoCabinet,
    Unreadable,
}

impl Answer {
    /// The answer's lines.
    pub fn text(&self) -> String {
        match self {
            Answer::Ok => "ok\n".to_string(),
            Answer::Change(number) => format!("change {number}\n"),
            Answer::Safe(true) => "safe\n".to_string(),
            Answer::Safe(false) => "unsafe\n".to_string(),
            Answer::Fixed { records, lost } => fixed_text(records, lost),
            Answer::Sheet(bytes) => format!("sheet {}\n{}", bytes.len(), String::from_utf8_lossy(bytes)),
            Answer::Frames(frames) => frames_text(frames),
            Answer::Shown(text) => text.clone(),
            Answer::Refused(Refusal::Barred(card)) => format!("refused 21 {card}\n"),
            Answer::Refused(refusal) => format!("refused {}\n", refusal.number()),
            Answer::NoCabinet => "none\n".to_string(),
            Answer::Unreadable => "unreadable\n".to_string(),
        }
    }
}

fn fixed_text(records: &[Record], lost: &[u32]) -> String {
    let mut text = format!("fixed {} {}\n", records.len(), lost.len());
    for record in records {
        text += &format!("{} {} {}\n", record.card, record.stored, record.line);
    }
    text += "lost";
    for number in lost {
        text += &format!(" {number}");
    }
    text + "\n"
}

/// The entries of a vector, each after a space.
pub fn vector_text(vector: &Vector) -> String {
    vector.iter().map(|entry| entry.map_or(" -".to_string(), |state| format!(" {state}"))).collect()
}

/// The lines of `frames`.
fn frames_text(frames: &[Frame]) -> String {
    let mut text = format!("frames {}\n", frames.len());
    for frame in frames {
        text += &format!("{} {}{}\n", frame.state, frame.change, vector_text(&frame.vector));
    }
    text
}

/// The lines of `show`.
pub fn show(cabinet: &Cabinet) -> String {
    let phase = match cabinet.phase {
        Phase::Up => "up",
        Phase::Down => "down",
        Phase::Rolling => "rolling",
    };
    let mut text = format!("session {} {} cards {}\n", cabinet.session, phase, cabinet.cards.len());
    for (number, card) in cabinet.cards.iter().enumerate() {
        text += &format!("{} {} {} {} {}", number, card.base, card.stored, card.held, card.reached);
        text += &card.writing.map_or(String::new(), |up_to| format!(" writing {up_to}"));
        text += "\n";
    }
    text
}
