//! The setter's book of document 01, and what it demands at a fix.
//!
//! The book is fed the calls' arguments and answers, nothing from the cabinet,
//! and shares no code with the history that the cabinet keeps.

use crate::answer::Answer;
use crate::cabinet::Record;
use crate::call::Call;
use crate::cards::{all, has, members, one, CardSet};

/// A change of the book: its number, its sets, and who voted yes.
#[derive(Clone, Debug)]
pub struct Entered {
    pub number: u32,
    pub reads: CardSet,
    pub writes: CardSet,
    yes: CardSet,
}

impl Entered {
    fn touched(&self) -> CardSet {
        self.reads | self.writes
    }
}

/// The line noted at a fix, and the cards rolled since.
#[derive(Clone, Debug)]
pub struct Noted {
    pub line: Vec<u32>,
    pub rolled: CardSet,
}

#[derive(Clone, Debug, Default)]
pub struct Journal {
    pub start: Vec<u32>,
    pub stored: Vec<u32>,
    undecided: Vec<Entered>,
    pub history: Vec<Entered>,
    pub noted: Option<Noted>,
}

/// `order[a][b]`: the change at place a of the history precedes that at b.
pub type Order = Vec<Vec<bool>>;

/// Up to this many changes, all sets of a history are tried.
pub const TRIED_IN_FULL: usize = 11;

impl Journal {
    pub fn new(cards: usize) -> Journal {
        Journal { start: vec![0; cards], stored: vec![0; cards], ..Journal::default() }
    }

    fn cards(&self) -> usize {
        self.start.len()
    }

    /// Notes an accepted call. Of a write its beginning notes nothing, its end
    /// what a store would.
    pub fn note(&mut self, call: &Call, answer: &Answer) {
        match (*call, answer) {
            (_, Answer::Refused(_)) => {}
            (Call::Open { reads, writes }, Answer::Change(number)) => {
                let writes = writes as CardSet;
                let reads = reads as CardSet & !writes;
                self.undecided.push(Entered { number: *number, reads, writes, yes: 0 });
            }
            (Call::Vote { change, card, yes: true }, _) => self.note_yes(change, card as usize),
            (Call::Vote { change, .. } | Call::Withdraw { change }, _) => {
                self.undecided.retain(|entered| entered.number != change);
            }
            (Call::Store { card, state } | Call::End { card, state }, _) => {
                self.stored[card as usize] = state;
            }
            (Call::Lose { .. }, _) => self.undecided.clear(),
            (Call::Fix { .. }, Answer::Fixed { records, .. }) => {
                self.note_line(records.iter().map(|record| record.line).collect());
            }
            (Call::Roll { card }, _) => self.note_roll(card as usize),
            _ => {}
        }
    }

    fn note_yes(&mut self, change: u32, card: usize) {
        let Some(place) = self.undecided.iter().position(|entered| entered.number == change) else {
            return;
        };
        self.undecided[place].yes |= one(card);
        if self.undecided[place].yes == self.undecided[place].touched() {
            let entered = self.undecided.remove(place);
            self.history.push(entered);
        }
    }

    /// Notes a line with no card rolled.
    pub fn note_line(&mut self, line: Vec<u32>) {
        self.undecided.clear();
        self.noted = Some(Noted { line, rolled: 0 });
    }

    fn note_roll(&mut self, card: usize) {
        let cards = self.cards();
        let Some(noted) = &mut self.noted else {
            return;
        };
        noted.rolled |= one(card);
        if noted.rolled == all(cards) {
            self.start = noted.line.clone();
            self.stored = noted.line.clone();
            self.history.clear();
            self.noted = None;
        }
    }

    /// Precedence by the book: both touch a card that at least one wrote, or a
    /// chain of such pairs.
    pub fn order(&self) -> Order {
        let mut order = vec![vec![false; self.history.len()]; self.history.len()];
        for (b, later) in self.history.iter().enumerate() {
            for (a, earlier) in self.history[..b].iter().enumerate() {
                let common = earlier.touched() & later.touched();
                order[a][b] = members(common).any(|card| has(earlier.writes | later.writes, card));
            }
        }
        chained(order)
    }

    /// Precedence by Definition 1 of the report, over the states that each
    /// change reads and writes.
    pub fn order_by_states(&self) -> Order {
        let found = self.found();
        let mut order = vec![vec![false; self.history.len()]; self.history.len()];
        for (b, second) in self.history.iter().enumerate() {
            for (a, first) in self.history.iter().enumerate() {
                if a == b {
                    continue;
                }
                order[a][b] = members(first.touched() & second.touched()).any(|card| {
                    let made_then_used = has(first.writes, card) && found[b][card] == found[a][card] + 1;
                    let read_then_written = has(first.reads, card)
                        && has(second.writes, card)
                        && found[b][card] == found[a][card];
                    made_then_used || read_then_written
                });
            }
        }
        chained(order)
    }

    /// For each change and card, the state the change finds there.
    pub fn found(&self) -> Vec<Vec<u32>> {
        let mut states = self.start.clone();
        let mut found = Vec::new();
        for change in &self.history {
            found.push(states.clone());
            members(change.writes).for_each(|card| states[card] += 1);
        }
        found
    }

    /// Whether a change is on every card it wrote, at these states; none if the
    /// change is not in the history.
    pub fn is_on(&self, number: u32, states: &[u32]) -> Option<bool> {
        let place = self.history.iter().position(|change| change.number == number)?;
        let found = &self.found()[place];
        Some(members(self.history[place].writes).all(|card| found[card] < states[card]))
    }

    /// The choice a set of places leaves: start plus writers.
    fn left_by(&self, set: &[bool]) -> Vec<u32> {
        let mut left = self.start.clone();
        for (change, _) in self.history.iter().zip(set).filter(|(_, is_in)| **is_in) {
            members(change.writes).for_each(|card| left[card] += 1);
        }
        left
    }

    fn above_stored(&self, choice: &[u32]) -> bool {
        choice.iter().zip(&self.stored).any(|(state, stored)| state > stored)
    }

    /// The place of the change that made a state.
    fn maker(&self, card: usize, state: u32) -> Option<usize> {
        let nth = state.checked_sub(self.start[card] + 1)? as usize;
        let mut writers = (0..self.history.len()).filter(|place| has(self.history[*place].writes, card));
        writers.nth(nth)
    }

    /// The smallest set of changes with these that holds all that precede.
    fn closed(&self, order: &Order, places: &[usize]) -> Vec<bool> {
        (0..self.history.len()).map(|a| places.iter().any(|b| a == *b || order[a][*b])).collect()
    }

    /// The demands at an accepted fix; an error says which one fails.
    pub fn demand_at_fix(&self, records: &[Record], lost: &[u32]) -> Result<(), String> {
        let line: Vec<u32> = records.iter().map(|record| record.line).collect();
        let stored: Vec<u32> = records.iter().map(|record| record.stored).collect();
        if records.iter().enumerate().any(|(place, record)| place != record.card) || stored != self.stored {
            return Err(format!("stored answered {stored:?}, the book has {:?}", self.stored));
        }
        let order = self.order();
        if order != self.order_by_states() {
            return Err("the book's precedence is not Definition 1's".to_string());
        }
        self.demand_line(&order, &line)?;
        self.demand_whole(&line, lost)?;
        self.demand_builds_on(&order, lost)
    }

    /// The line is a choice, and no other choice is above it on any card.
    pub fn demand_line(&self, order: &Order, line: &[u32]) -> Result<(), String> {
        let makers: Vec<usize> = (0..self.cards()).filter_map(|card| self.maker(card, line[card])).collect();
        let needed = self.left_by(&self.closed(order, &makers));
        if needed != line || self.above_stored(line) {
            return Err(format!("line {line:?} is no choice: it needs {needed:?}"));
        }
        for (card, state) in line.iter().enumerate() {
            self.demand_no_higher(order, card, *state)?;
        }
        if self.history.len() <= TRIED_IN_FULL {
            self.try_all_sets(order, line)?;
        }
        Ok(())
    }

    /// Every state above the line needs some card above stored.
    fn demand_no_higher(&self, order: &Order, card: usize, line: u32) -> Result<(), String> {
        for state in line + 1..=self.stored[card] {
            let Some(maker) = self.maker(card, state) else {
                return Err(format!("no change made stored state {state} of card {card}"));
            };
            if !self.above_stored(&self.left_by(&self.closed(order, &[maker]))) {
                return Err(format!("card {card} could stay at {state}"));
            }
        }
        Ok(())
    }

    /// All sets of the history, one by one, each as bits.
    fn try_all_sets(&self, order: &Order, line: &[u32]) -> Result<(), String> {
        let length = self.history.len();
        let preceding: Vec<u32> = (0..length)
            .map(|b| (0..length).filter(|a| order[*a][b]).fold(0, |bits, a| bits | 1 << a))
            .collect();
        let written: Vec<Vec<usize>> =
            self.history.iter().map(|change| members(change.writes).collect()).collect();
        let mut choice = self.start.clone();
        let mut line_found = false;
        for bits in 0..1u32 << length {
            let is_in = |place: &usize| bits >> place & 1 == 1;
            if (0..length).filter(is_in).any(|place| preceding[place] & !bits != 0) {
                continue;
            }
            choice.copy_from_slice(&self.start);
            (0..length).filter(is_in).flat_map(|place| &written[place]).for_each(|card| choice[*card] += 1);
            if self.above_stored(&choice) {
                continue;
            }
            line_found |= choice == line;
            if choice.iter().zip(line).any(|(state, line)| state > line) {
                return Err(format!("choice {choice:?} is above line {line:?}"));
            }
        }
        if line_found {
            Ok(())
        } else {
            Err(format!("no set leaves line {line:?}"))
        }
    }

    /// A change is on every card it wrote or on none; lost are those on none,
    /// listed in rising number.
    fn demand_whole(&self, line: &[u32], lost: &[u32]) -> Result<(), String> {
        let found = self.found();
        let mut expected = Vec::new();
        for (place, change) in self.history.iter().enumerate().filter(|(_, change)| change.writes != 0) {
            let on: Vec<bool> = members(change.writes).map(|card| found[place][card] < line[card]).collect();
            if on.iter().any(|one| *one != on[0]) {
                return Err(format!("change {} is on some of its cards only", change.number));
            }
            if !on[0] {
                expected.push(change.number);
            }
        }
        expected.sort();
        if expected != lost {
            return Err(format!("lost {lost:?}, the book says {expected:?}"));
        }
        Ok(())
    }

    /// The pairs of lost changes of which the first precedes the second, by
    /// their places in the list.
    pub fn builds_on(&self, order: &Order, lost: &[u32]) -> Vec<(usize, usize)> {
        let places: Vec<Option<usize>> = self
            .history
            .iter()
            .map(|change| lost.iter().position(|number| *number == change.number))
            .collect();
        let mut pairs = Vec::new();
        for (a, first) in places.iter().enumerate() {
            for (b, second) in places.iter().enumerate() {
                if let (true, Some(first), Some(second)) = (order[a][b], first, second) {
                    pairs.push((*first, *second));
                }
            }
        }
        pairs
    }

    /// Of two lost changes the one that precedes the other stands first.
    fn demand_builds_on(&self, order: &Order, lost: &[u32]) -> Result<(), String> {
        match self.builds_on(order, lost).iter().find(|(first, second)| first >= second) {
            None => Ok(()),
            Some((first, second)) => Err(format!(
                "lost {lost:?}: {} stands before {}, which it builds on",
                lost[*second], lost[*first]
            )),
        }
    }
}

/// The closure of an order under chains.
fn chained(mut order: Order) -> Order {
    for middle in 0..order.len() {
        let beyond = order[middle].clone();
        for row in order.iter_mut().filter(|row| row[middle]) {
            row.iter_mut().zip(&beyond).for_each(|(is_before, reached)| *is_before |= reached);
        }
    }
    order
}
