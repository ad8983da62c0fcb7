//! The cabinet and the calls of document 01, with the long writes of wish 5.

use crate::cards::{all, has, members, one, CardSet};
use crate::history::{Decided, History};
use crate::limits::*;
use crate::refusal::Refusal;
use crate::sheet::{write_sheet, Frame, Sheet};

/// The four state numbers of a card, and its running write.
#[derive(Clone, Copy, PartialEq, Eq, Debug)]
pub struct Card {
    pub base: u32,
    pub stored: u32,
    pub held: u32,
    pub reached: u32,
    /// While a write runs: the state s that it goes up to.
    pub writing: Option<u32>,
}

impl Card {
    /// A card whose four numbers are the same; no write runs.
    pub fn at(state: u32) -> Card {
        Card { base: state, stored: state, held: state, reached: state, writing: None }
    }
}

/// An open change. A card in both sets stands in `writes` alone.
#[derive(Clone, PartialEq, Eq, Debug)]
pub struct Open {
    pub number: u32,
    pub reads: CardSet,
    pub writes: CardSet,
    /// The cards that voted yes.
    pub yes: CardSet,
    /// The cards that took their share.
    pub taken: CardSet,
}

impl Open {
    pub fn touched(&self) -> CardSet {
        self.reads | self.writes
    }

    pub fn decided(&self) -> bool {
        self.yes == self.touched()
    }

    /// Whether it keeps others from writing (`write`) or reading a card.
    pub fn bars(&self, card: usize, write: bool) -> bool {
        has(self.touched() & !self.taken, card) && (write || has(self.writes, card))
    }
}

#[derive(Clone, Copy, PartialEq, Eq, Debug)]
pub enum Phase {
    Up,
    Down,
    Rolling,
}

/// Where the frames come from: the history, or after a restart the sheets.
#[derive(Clone, PartialEq, Eq, Debug)]
pub enum Past {
    Decided(History),
    Read(Vec<Vec<Frame>>),
}

/// A card record of the fix: card, stored, line.
#[derive(Clone, Copy, PartialEq, Eq, Debug)]
pub struct Record {
    pub card: usize,
    pub stored: u32,
    pub line: u32,
}

#[derive(Clone, PartialEq, Eq, Debug)]
pub struct Cabinet {
    pub session: u32,
    pub phase: Phase,
    pub cards: Vec<Card>,
    pub last_change: u32,
    pub open: Vec<Open>,
    pub past: Past,
    /// While rolling: the line fixed and the cards already rolled.
    pub line: Vec<u32>,
    pub rolled: CardSet,
}

/// A set handed in as a number, if all its cards are in the cabinet.
fn set_of(number: u32, cards: usize) -> Result<CardSet, Refusal> {
    if number & !u32::from(all(cards)) != 0 {
        return Err(Refusal::NoSuchCard);
    }
    Ok(number as CardSet)
}

impl Cabinet {
    /// A fresh cabinet: session 1, phase up, all state numbers 0.
    pub fn fresh(cards: u32) -> Result<Cabinet, Refusal> {
        if !(1..=MOST_CARDS as u32).contains(&cards) {
            return Err(Refusal::CardCount);
        }
        Ok(Cabinet::session_start(1, vec![0; cards as usize]))
    }

    /// A session's beginning: phase up, history empty, no write running.
    fn session_start(session: u32, start: Vec<u32>) -> Cabinet {
        Cabinet {
            session,
            phase: Phase::Up,
            cards: start.iter().map(|state| Card::at(*state)).collect(),
            last_change: 0,
            open: Vec::new(),
            past: Past::Decided(History::new(start)),
            line: Vec::new(),
            rolled: 0,
        }
    }

    pub fn stored(&self) -> Vec<u32> {
        self.cards.iter().map(|card| card.stored).collect()
    }

    /// The history. Phases up and down always have one.
    pub fn history(&self) -> &History {
        match &self.past {
            Past::Decided(history) => history,
            Past::Read(_) => unreachable!("a cabinet read from sheets is rolling"),
        }
    }

    /// A card handed in as a number.
    fn card_of(&self, card: u32) -> Result<usize, Refusal> {
        if card as usize >= self.cards.len() {
            return Err(Refusal::NoSuchCard);
        }
        Ok(card as usize)
    }

    fn in_phase(&self, phases: &[Phase]) -> Result<(), Refusal> {
        if phases.contains(&self.phase) {
            Ok(())
        } else {
            Err(Refusal::WrongPhase)
        }
    }

    /// The place of an open change.
    fn place_of(&self, change: u32) -> Result<usize, Refusal> {
        self.open.iter().position(|open| open.number == change).ok_or(Refusal::NotAwaited)
    }

    /// The touched cards that open changes bar.
    pub fn barred(&self, reads: CardSet, writes: CardSet) -> CardSet {
        members(reads | writes)
            .filter(|card| self.open.iter().any(|open| open.bars(*card, has(writes, *card))))
            .fold(0, |set, card| set | one(card))
    }

    /// Call 1.
    pub fn open(&mut self, reads: u32, writes: u32) -> Result<u32, Refusal> {
        let writes = set_of(writes, self.cards.len())?;
        let reads = set_of(reads, self.cards.len())? & !writes;
        if reads | writes == 0 {
            return Err(Refusal::EmptySets);
        }
        self.in_phase(&[Phase::Up])?;
        if let Some(card) = members(self.barred(reads, writes)).next() {
            return Err(Refusal::Barred(card));
        }
        if self.open.len() >= MOST_OPEN {
            return Err(Refusal::EightOpen);
        }
        if members(writes).any(|card| self.cards[card].reached >= self.cards[card].base + MOST_IN_HAND) {
            return Err(Refusal::HandFull);
        }
        if members(writes).any(|card| self.cards[card].reached >= HIGHEST_STATE)
            || self.last_change == LAST_NUMBER
        {
            return Err(Refusal::NumbersUsedUp);
        }
        self.last_change += 1;
        self.open.push(Open { number: self.last_change, reads, writes, yes: 0, taken: 0 });
        Ok(self.last_change)
    }

    /// Call 2.
    pub fn vote(&mut self, change: u32, card: u32, yes: bool) -> Result<(), Refusal> {
        let card = self.card_of(card)?;
        self.in_phase(&[Phase::Up])?;
        let place = self.place_of(change)?;
        let open = &mut self.open[place];
        if open.decided() {
            return Err(Refusal::AlreadyDecided);
        }
        if !has(open.touched() & !open.yes, card) {
            return Err(Refusal::NotAwaited);
        }
        if !yes {
            self.open.remove(place);
            return Ok(());
        }
        open.yes |= one(card);
        if open.decided() {
            let (reads, writes) = (open.reads, open.writes);
            if let Past::Decided(history) = &mut self.past {
                history.decide(change, reads, writes);
            }
        }
        Ok(())
    }

    /// Call 3. The vector of the new state is in the history already.
    pub fn take(&mut self, change: u32, card: u32) -> Result<(), Refusal> {
        let card = self.card_of(card)?;
        self.in_phase(&[Phase::Up])?;
        let place = self.place_of(change)?;
        let open = &mut self.open[place];
        if !open.decided() {
            return Err(Refusal::NotDecided);
        }
        if !has(open.touched() & !open.taken, card) {
            return Err(Refusal::NotAwaited);
        }
        open.taken |= one(card);
        if has(open.writes, card) {
            self.cards[card].reached += 1;
            self.cards[card].held = self.cards[card].reached;
        }
        if open.taken == open.touched() {
            self.open.remove(place);
        }
        Ok(())
    }

    /// Call 4.
    pub fn withdraw(&mut self, change: u32) -> Result<(), Refusal> {
        self.in_phase(&[Phase::Up])?;
        let place = self.place_of(change)?;
        if self.open[place].decided() {
            return Err(Refusal::AlreadyDecided);
        }
        self.open.remove(place);
        Ok(())
    }

    /// The card of a store, a beginning or an end: all three are of the phases
    /// of call 5.
    fn stored_card(&mut self, card: u32) -> Result<&mut Card, Refusal> {
        let card = self.card_of(card)?;
        self.in_phase(&[Phase::Up, Phase::Down])?;
        Ok(&mut self.cards[card])
    }

    /// The card that a store or a beginning may have this number for.
    fn card_to_store(&mut self, card: u32, state: u32) -> Result<&mut Card, Refusal> {
        let card = self.stored_card(card)?;
        if !(card.stored..=card.held).contains(&state) {
            return Err(Refusal::StoreOutside);
        }
        if card.writing.is_some() {
            return Err(Refusal::WriteRunning);
        }
        Ok(card)
    }

    /// Call 5.
    pub fn store(&mut self, card: u32, state: u32) -> Result<(), Refusal> {
        self.card_to_store(card, state)?.stored = state;
        Ok(())
    }

    /// Wish 5, the beginning: a write of the card up to a state runs from now.
    pub fn begin(&mut self, card: u32, state: u32) -> Result<(), Refusal> {
        self.card_to_store(card, state)?.writing = Some(state);
        Ok(())
    }

    /// Wish 5, the end: the state is the number that the running write reached.
    pub fn end(&mut self, card: u32, state: u32) -> Result<(), Refusal> {
        let card = self.stored_card(card)?;
        let Some(up_to) = card.writing else {
            return Err(Refusal::NoSuchEnd);
        };
        if !(card.stored..=up_to).contains(&state) {
            return Err(Refusal::NoSuchEnd);
        }
        card.stored = state;
        card.held = card.held.max(state);
        card.writing = None;
        Ok(())
    }

    /// Call 6.
    pub fn trim(&mut self) -> Result<(), Refusal> {
        self.in_phase(&[Phase::Up])?;
        let line = self.line_now();
        for (card, base) in self.cards.iter_mut().zip(line) {
            card.base = base;
        }
        Ok(())
    }

    /// Call 7, by wish 1: a change is safe when it would be in the line if every
    /// card were lost at this moment with the present stored numbers.
    pub fn safe(&self, change: u32) -> Result<bool, Refusal> {
        self.in_phase(&[Phase::Up])?;
        let Some(decided) = self.history().find(change) else {
            return Err(Refusal::NotAwaited);
        };
        if !self.known(decided) {
            return Err(Refusal::NotAwaited);
        }
        Ok(!self.lost_now().contains(&change))
    }

    /// Known are changes with a frame above base.
    fn known(&self, change: &Decided) -> bool {
        members(change.writes).any(|card| {
            let Card { base, reached, .. } = self.cards[card];
            (base + 1..=reached).contains(&change.made(card))
        })
    }

    /// Call 8. A running write goes on: its end tells what it reached.
    pub fn lose(&mut self, set: u32) -> Result<(), Refusal> {
        let set = set_of(set, self.cards.len())?;
        for card in members(set) {
            self.cards[card].held = self.cards[card].stored;
        }
        if self.phase == Phase::Up {
            self.open.clear();
            self.phase = Phase::Down;
        }
        Ok(())
    }

    /// The changes that a fix would name lost with the present stored numbers,
    /// rising.
    pub fn lost_now(&self) -> Vec<u32> {
        self.history().lost(&self.stored())
    }

    /// Call 9, lent so many places for card records and for change numbers.
    pub fn fix(&mut self, records: usize, numbers: usize) -> Result<(Vec<Record>, Vec<u32>), Refusal> {
        self.in_phase(&[Phase::Down])?;
        if self.session == LAST_NUMBER {
            return Err(Refusal::NumbersUsedUp);
        }
        if self.cards.iter().any(|card| card.writing.is_some()) {
            return Err(Refusal::WriteUnreported);
        }
        let lost = self.lost_now();
        if records < self.cards.len() || numbers < lost.len() {
            return Err(Refusal::TooShort);
        }
        self.line = self.line_now();
        self.rolled = 0;
        self.phase = Phase::Rolling;
        Ok((self.records(), lost))
    }

    /// The card records of a fixed line.
    pub fn records(&self) -> Vec<Record> {
        (0..self.cards.len())
            .map(|card| Record { card, stored: self.cards[card].stored, line: self.line[card] })
            .collect()
    }

    /// Call 10.
    pub fn roll(&mut self, card: u32) -> Result<(), Refusal> {
        let card = self.card_of(card)?;
        self.in_phase(&[Phase::Rolling])?;
        if has(self.rolled, card) {
            return Err(Refusal::AlreadyRolled);
        }
        self.cards[card] = Card::at(self.line[card]);
        self.rolled |= one(card);
        if self.rolled == all(self.cards.len()) {
            *self = Cabinet::session_start(self.session + 1, self.line.clone());
        }
        Ok(())
    }

    /// The frames of a card from base + 1 to a state.
    pub fn frames(&self, card: usize, last: u32) -> Vec<Frame> {
        let states = self.cards[card].base + 1..=last;
        match &self.past {
            Past::Read(frames) => {
                frames[card].iter().filter(|frame| states.contains(&frame.state)).cloned().collect()
            }
            Past::Decided(history) => states.filter_map(|state| frame_of(history, card, state)).collect(),
        }
    }

    /// What the states in hand of a card hang on.
    pub fn in_hand(&self, card: u32) -> Result<Vec<Frame>, Refusal> {
        let card = self.card_of(card)?;
        Ok(self.frames(card, self.cards[card].reached))
    }

    /// The sheet of a card; one already rolled writes the next session.
    pub fn sheet_of(&self, card: usize) -> Sheet {
        Sheet {
            session: self.session + u32::from(has(self.rolled, card)),
            card,
            cards: self.cards.len(),
            base: self.cards[card].base,
            frames: self.frames(card, self.cards[card].stored),
        }
    }

    /// The sheet of a card into a lent buffer of so many bytes.
    pub fn sheet(&self, card: u32, room: usize) -> Result<Vec<u8>, Refusal> {
        let card = self.card_of(card)?;
        let bytes = write_sheet(&self.sheet_of(card));
        if bytes.len() > room {
            return Err(Refusal::TooShort);
        }
        Ok(bytes)
    }

    /// The sheets of all cards, joined in card order.
    pub fn joined_sheets(&self) -> Vec<u8> {
        (0..self.cards.len()).flat_map(|card| write_sheet(&self.sheet_of(card))).collect()
    }

    /// The recovery line that the present stored numbers give, by the history.
    fn line_now(&self) -> Vec<u32> {
        let line = self.history().line(&self.stored());
        debug_assert_eq!(line, self.line_by_hits());
        line
    }

    /// The line by call 9's rule of hits over the frames from base to reached.
    pub fn line_by_hits(&self) -> Vec<u32> {
        let stored = self.stored();
        (0..self.cards.len())
            .map(|card| {
                let frames = self.frames(card, self.cards[card].reached);
                line_of_card(self.cards[card].base, &frames, &stored)
            })
            .collect()
    }
}

fn frame_of(history: &History, card: usize, state: u32) -> Option<Frame> {
    let change = history.change_of(card, state)?;
    Some(Frame { state, change, vector: history.vector(card, state) })
}

/// A state is hit when some entry of its vector, for card j, is at or above
/// stored of j.
fn hit(frame: &Frame, stored: &[u32]) -> bool {
    frame.vector.iter().zip(stored).any(|(entry, stored)| entry.is_some_and(|entry| entry >= *stored))
}

/// The greatest state of a card with no hit from base + 1 up to it.
pub fn line_of_card(base: u32, frames: &[Frame], stored: &[u32]) -> u32 {
    base + frames.iter().take_while(|frame| !hit(frame, stored)).count() as u32
}
