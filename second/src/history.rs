//! The history of decided changes, and what the definitions say of it.
//!
//! Vectors follow Definitions 1 and 2 of EPFL report IC/2005/017, the line is
//! the greatest choice of document 01's setter's book.

use crate::cards::{has, members, CardSet};

/// A vector: for every card its last state that precedes, or none.
pub type Vector = Vec<Option<u32>>;

/// A set of places in the history.
#[derive(Clone, PartialEq, Eq, Debug, Default)]
struct Places(Vec<u64>);

impl Places {
    fn has(&self, place: usize) -> bool {
        self.0.get(place / 64).is_some_and(|word| word >> (place % 64) & 1 == 1)
    }

    fn add(&mut self, place: usize) {
        while self.0.len() <= place / 64 {
            self.0.push(0);
        }
        self.0[place / 64] |= 1 << (place % 64);
    }

    fn add_all(&mut self, others: &Places) {
        for (place, word) in others.0.iter().enumerate() {
            if place == self.0.len() {
                self.0.push(0);
            }
            self.0[place] |= word;
        }
    }

    fn within(&self, others: &Places) -> bool {
        self.0.iter().enumerate().all(|(place, word)| word & !others.0.get(place).unwrap_or(&0) == 0)
    }
}

/// A decided change. A card in both sets stands in `writes` alone.
#[derive(Clone, PartialEq, Eq, Debug)]
pub struct Decided {
    pub number: u32,
    pub reads: CardSet,
    pub writes: CardSet,
    /// The state it makes on each written card, `made[card]`; 0 elsewhere.
    made: Vec<u32>,
    /// The places of all changes that precede it.
    before: Places,
}

impl Decided {
    /// The state this change makes on a card it writes.
    pub fn made(&self, card: usize) -> u32 {
        self.made[card]
    }
}

/// The changes decided since the last recovery, in the order of decision.
#[derive(Clone, PartialEq, Eq, Debug)]
pub struct History {
    /// Each card's number at the start of the session.
    start: Vec<u32>,
    decided: Vec<Decided>,
}

/// Both touch a card that at least one wrote.
fn conflict(a: &Decided, reads: CardSet, writes: CardSet) -> bool {
    a.writes & (reads | writes) != 0 || a.reads & writes != 0
}

impl History {
    pub fn new(start: Vec<u32>) -> History {
        History { start, decided: Vec::new() }
    }

    pub fn decided(&self) -> &[Decided] {
        &self.decided
    }

    /// A change joins the end of the history.
    pub fn decide(&mut self, number: u32, reads: CardSet, writes: CardSet) {
        let before = self.preceding(reads, writes);
        let made = (0..self.start.len())
            .map(|card| if has(writes, card) { self.end(card) + 1 } else { 0 })
            .collect();
        self.decided.push(Decided { number, reads, writes, made, before });
    }

    /// The places of all changes that precede one with these sets that comes
    /// now: those in conflict with it, and by chains all that precede those.
    fn preceding(&self, reads: CardSet, writes: CardSet) -> Places {
        let mut before = Places::default();
        for (place, earlier) in self.decided.iter().enumerate().rev() {
            if !before.has(place) && conflict(earlier, reads, writes) {
                before.add(place);
                before.add_all(&earlier.before);
            }
        }
        before
    }

    /// The state of a card after the whole history: start plus writers.
    fn end(&self, card: usize) -> u32 {
        match self.decided.iter().rev().find(|change| has(change.writes, card)) {
            Some(change) => change.made(card),
            None => self.start[card],
        }
    }

    /// The place of the change that made a state.
    fn maker(&self, card: usize, state: u32) -> Option<usize> {
        self.decided.iter().position(|change| has(change.writes, card) && change.made(card) == state)
    }

    /// The number of the change that made a state.
    pub fn change_of(&self, card: usize, state: u32) -> Option<u32> {
        self.maker(card, state).map(|place| self.decided[place].number)
    }

    /// The decided change with this number.
    pub fn find(&self, number: u32) -> Option<&Decided> {
        self.decided.iter().find(|change| change.number == number)
    }

    /// The vector of a state. State s of a card precedes the state when the
    /// change that overwrote s made the state or precedes its maker.
    pub fn vector(&self, card: usize, state: u32) -> Vector {
        let cards = self.start.len();
        let Some(maker) = self.maker(card, state) else {
            return vec![None; cards];
        };
        (0..cards).map(|other| self.last_overwritten(other, maker)).collect()
    }

    /// The last state of a card that the change at `maker`, or one that
    /// precedes it, overwrote.
    fn last_overwritten(&self, card: usize, maker: usize) -> Option<u32> {
        let before = &self.decided[maker].before;
        (0..=maker)
            .rev()
            .filter(|place| *place == maker || before.has(*place))
            .map(|place| &self.decided[place])
            .find(|change| has(change.writes, card))
            .map(|change| change.made(card) - 1)
    }

    /// For each change of the history, whether it is in the greatest choice:
    /// it puts no card above stored, and all that precede it are in it.
    pub fn kept(&self, stored: &[u32]) -> Vec<bool> {
        let mut kept = Places::default();
        let mut answer = Vec::with_capacity(self.decided.len());
        for (place, change) in self.decided.iter().enumerate() {
            let fits = members(change.writes).all(|card| change.made(card) <= stored[card]);
            let keep = fits && change.before.within(&kept);
            if keep {
                kept.add(place);
            }
            answer.push(keep);
        }
        answer
    }

    /// The recovery line for these stored numbers: start plus the writers in
    /// the greatest choice.
    pub fn line(&self, stored: &[u32]) -> Vec<u32> {
        let mut line = self.start.clone();
        for (change, kept) in self.decided.iter().zip(self.kept(stored)) {
            if kept {
                members(change.writes).for_each(|card| line[card] += 1);
            }
        }
        line
    }

    /// The numbers of the changes that wrote a card and are not in the line:
    /// "The list of lost changes comes in rising change number."
    pub fn lost(&self, stored: &[u32]) -> Vec<u32> {
        let mut lost: Vec<u32> = self
            .decided
            .iter()
            .zip(self.kept(stored))
            .filter(|(change, kept)| change.writes != 0 && !kept)
            .map(|(change, _)| change.number)
            .collect();
        lost.sort();
        lost
    }
}
