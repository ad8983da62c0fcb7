//! The replay of a call list: text in, answers out.

use crate::answer::{show, Answer};
use crate::cabinet::Cabinet;
use crate::call::{read_call, Call};
use crate::refusal::Refusal;
use crate::restart::restart;

/// The lines of a text, without their byte 10. A last line with no byte 10
/// counts as a line.
pub fn lines_of(text: &[u8]) -> Vec<&[u8]> {
    let mut lines: Vec<&[u8]> = text.split(|byte| *byte == 10).collect();
    if lines.last().is_some_and(|line| line.is_empty()) {
        lines.pop();
    }
    lines
}

/// The place of the present cabinet.
#[derive(Default)]
pub struct Place {
    pub cabinet: Option<Cabinet>,
}

impl Place {
    /// The answer to a line.
    pub fn answer_line(&mut self, line: &[u8]) -> Answer {
        match read_call(line) {
            Some(call) => self.answer(call),
            None => Answer::Unreadable,
        }
    }

    /// The answer to a call. A refused one leaves the cabinet as it was.
    pub fn answer(&mut self, call: Call) -> Answer {
        let answer = match (call, &mut self.cabinet) {
            (Call::Fresh { cards }, _) => Cabinet::fresh(cards).map(|cabinet| self.put(cabinet)),
            (_, None) => Ok(Answer::NoCabinet),
            (Call::Restart, Some(cabinet)) => {
                restart(&cabinet.joined_sheets()).map(|cabinet| self.put(cabinet))
            }
            (call, Some(cabinet)) => run(cabinet, call),
        };
        answer.unwrap_or_else(Answer::Refused)
    }

    fn put(&mut self, cabinet: Cabinet) -> Answer {
        self.cabinet = Some(cabinet);
        Answer::Ok
    }
}

/// A call on a cabinet; `fresh` and `restart` are the place's.
fn run(cabinet: &mut Cabinet, call: Call) -> Result<Answer, Refusal> {
    let done = |()| Answer::Ok;
    match call {
        Call::Open { reads, writes } => cabinet.open(reads, writes).map(Answer::Change),
        Call::Vote { change, card, yes } => cabinet.vote(change, card, yes).map(done),
        Call::Take { change, card } => cabinet.take(change, card).map(done),
        Call::Withdraw { change } => cabinet.withdraw(change).map(done),
        Call::Store { card, state } => cabinet.store(card, state).map(done),
        Call::Begin { card, state } => cabinet.begin(card, state).map(done),
        Call::End { card, state } => cabinet.end(card, state).map(done),
        Call::Trim => cabinet.trim().map(done),
        Call::Safe { change } => cabinet.safe(change).map(Answer::Safe),
        Call::Lose { set } => cabinet.lose(set).map(done),
        Call::Fix { records, numbers } => cabinet
            .fix(records as usize, numbers as usize)
            .map(|(records, lost)| Answer::Fixed { records, lost }),
        Call::Roll { card } => cabinet.roll(card).map(done),
        Call::Sheet { card, room } => cabinet.sheet(card, room as usize).map(Answer::Sheet),
        Call::Frames { card } => cabinet.in_hand(card).map(Answer::Frames),
        Call::Show | Call::Fresh { .. } | Call::Restart => Ok(Answer::Shown(show(cabinet))),
    }
}

/// The answers to a whole list.
pub fn replay(text: &[u8]) -> String {
    let mut place = Place::default();
    lines_of(text).into_iter().map(|line| place.answer_line(line).text()).collect()
}
