//! Random call lists. The cabinet is followed while the list is made, so that
//! most calls mean something.

mod style;
mod wild;

pub use style::Style;

use crate::answer::Answer;
use crate::cabinet::{Cabinet, Phase};
use crate::call::{write_call, Call, LONGEST_LINE};
use crate::cards::{all, has, members, CardSet};
use crate::limits::*;
use crate::random::Random;
use crate::replay::Place;
use crate::sheet::{frame_digits, HEADER_DIGITS};
use style::{cards_for, length_for, style_of, weights};

struct Maker {
    random: Random,
    style: Style,
    place: Place,
    lines: Vec<Vec<u8>>,
}

/// The list of a seed, as lines without their byte 10.
pub fn list(seed: u64) -> Vec<Vec<u8>> {
    let mut random = Random::new(seed);
    let style = style_of(&mut random);
    list_of(random, style)
}

/// The list of a seed in a chosen style.
pub fn styled_list(seed: u64, style: Style) -> Vec<Vec<u8>> {
    list_of(Random::new(seed), style)
}

/// The same in about so many calls, on a cabinet of so many cards.
pub fn sized_list(seed: u64, style: Style, length: usize, cards: u32) -> Vec<Vec<u8>> {
    let mut maker = Maker { random: Random::new(seed), style, place: Place::default(), lines: Vec::new() };
    maker.before_fresh();
    maker.call(Call::Fresh { cards });
    while maker.lines.len() < length {
        maker.step();
    }
    maker.end();
    maker.lines
}

fn list_of(random: Random, style: Style) -> Vec<Vec<u8>> {
    let mut maker = Maker { random, style, place: Place::default(), lines: Vec::new() };
    maker.begin();
    let length = length_for(style, &mut maker.random);
    while maker.lines.len() < length {
        maker.step();
    }
    maker.end();
    maker.lines
}

/// Lines joined to a text, each ended by byte 10.
pub fn joined(lines: &[Vec<u8>]) -> Vec<u8> {
    let mut text = Vec::new();
    for line in lines {
        text.extend_from_slice(line);
        text.push(10);
    }
    text
}

impl Maker {
    fn cabinet(&self) -> &Cabinet {
        self.place.cabinet.as_ref().expect("a list begins with a fresh cabinet")
    }

    fn cards(&self) -> usize {
        self.cabinet().cards.len()
    }

    /// Adds a call and follows it.
    fn call(&mut self, call: Call) -> Answer {
        let line = self.spelled(write_call(&call));
        self.lines.push(line);
        self.place.answer(call)
    }

    /// Now and then a number gets leading zeros, up to the longest line.
    fn spelled(&mut self, line: String) -> Vec<u8> {
        if !self.random.chance(4) {
            return line.into_bytes();
        }
        let count = if self.random.chance(200) { LONGEST_LINE - line.len() } else { 2 };
        let zeros = "0".repeat(count);
        match line.split_once(' ') {
            Some((word, rest)) => format!("{word} {zeros}{rest}").into_bytes(),
            None => line.into_bytes(),
        }
    }

    fn before_fresh(&mut self) {
        while self.random.chance(30) {
            self.wild_before_fresh();
        }
    }

    fn begin(&mut self) {
        self.before_fresh();
        let cards = cards_for(self.style, &mut self.random);
        self.call(Call::Fresh { cards });
    }

    /// A call while there is perhaps no cabinet.
    fn wild_before_fresh(&mut self) {
        let call = self.random.pick(&[
            Call::Show,
            Call::Fresh { cards: 0 },
            Call::Fresh { cards: 17 },
            Call::Open { reads: 0, writes: 1 },
            Call::Restart,
            Call::Trim,
            Call::Begin { card: 0, state: 0 },
            Call::End { card: 0, state: 0 },
            Call::Fix { records: 16, numbers: 776 },
        ]);
        self.call(call);
    }

    /// At the end all frames and sheets, mostly with all that the cards hold
    /// stored, and often a recovery.
    fn end(&mut self) {
        let store = self.style != Style::Full && self.cabinet().phase == Phase::Up && self.random.chance(700);
        for card in 0..self.cards() {
            if store && self.random.chance(850) {
                self.store_all(card);
            }
            self.call(Call::Frames { card: card as u32 });
            self.call(Call::Sheet { card: card as u32, room: MOST_BYTES as u32 });
        }
        if self.style == Style::Full || self.random.chance(700) {
            self.recover();
        }
        self.call(Call::Show);
    }

    fn step(&mut self) {
        let wild = match self.style {
            Style::Full => 0,
            Style::Deep => 15,
            _ => 60,
        };
        if self.random.chance(wild) {
            return self.wild();
        }
        match self.cabinet().phase {
            Phase::Up => self.step_up(),
            Phase::Down => self.step_down(),
            Phase::Rolling => self.step_rolling(),
        }
    }

    fn step_up(&mut self) {
        if matches!(self.style, Style::Deep | Style::Full) && self.hand_full() && self.random.chance(120) {
            return self.empty_hand();
        }
        let w = weights(self.style);
        let changes = [w.open, w.vote, w.take, w.withdraw, w.safe];
        let numbers = [w.store, w.begin, w.end, w.trim, w.lose, w.look, w.restart];
        match self.random.weighted(&[&changes[..], &numbers[..]].concat()) {
            0 => self.open(),
            1 => self.vote(),
            2 => self.take(),
            3 => self.withdraw(),
            4 => self.safe(),
            5 => self.store(),
            6 => self.begin_write(),
            7 => self.end_write(),
            8 => {
                self.call(Call::Trim);
                self.show_at(200);
            }
            9 => self.lose(),
            10 => self.look(),
            _ => {
                self.call(Call::Restart);
                self.show_at(350);
            }
        }
    }

    fn step_down(&mut self) {
        let ends = if self.running().is_empty() { 1 } else { 5 };
        match self.random.weighted(&[4, 2, 8, 2, 1, 2, ends, 1]) {
            0 => self.store(),
            1 => self.lose(),
            2 => self.fix(),
            3 => self.look(),
            4 => {
                self.call(Call::Restart);
                self.show_at(350);
            }
            5 => self.begin_write(),
            6 => self.end_write(),
            _ => self.out_of_phase(),
        }
    }

    fn step_rolling(&mut self) {
        let restarts = if self.style == Style::Roll { 4 } else { 1 };
        match self.random.weighted(&[9, 2, restarts, 2, 1]) {
            0 => self.roll(),
            1 => self.lose(),
            2 => {
                self.call(Call::Restart);
                self.show_at(200);
            }
            3 => self.look(),
            _ => self.out_of_phase(),
        }
    }

    fn show_at(&mut self, thousandths: u64) {
        if self.random.chance(thousandths) {
            self.call(Call::Show);
        }
    }

    fn any_card(&mut self) -> u32 {
        let cards = self.cards();
        self.random.place(cards) as u32
    }

    /// A set of about so many cards out of those given.
    fn some_of(&mut self, free: CardSet, count: u32) -> CardSet {
        let mut set = 0;
        for _ in 0..count {
            let cards: Vec<usize> = members(free & !set).collect();
            if !cards.is_empty() {
                set |= 1 << self.random.pick(&cards);
            }
        }
        set
    }

    /// The cards that no open change keeps from being written (read).
    fn free(&self, write: bool) -> CardSet {
        let cards = all(self.cards());
        let barred = if write { self.cabinet().barred(0, cards) } else { self.cabinet().barred(cards, 0) };
        cards & !barred
    }

    /// For a full cabinet, the cards that have not reached base + 48.
    fn roomy(&self, set: CardSet) -> CardSet {
        let full = |card: &usize| {
            let numbers = self.cabinet().cards[*card];
            self.style == Style::Full && numbers.reached == numbers.base + MOST_IN_HAND
        };
        members(set).filter(|card| !full(card)).fold(0, |set, card| set | 1 << card)
    }

    fn open(&mut self) {
        let careful = !self.random.chance(80);
        let everything = all(self.cards());
        let (may_write, may_read) =
            if careful { (self.roomy(self.free(true)), self.free(false)) } else { (everything, everything) };
        let (written, read) = match self.style {
            Style::Full => (1, 0),
            Style::Deep => (self.random.pick(&[1, 1, 2]), self.random.pick(&[0, 0, 0, 1])),
            Style::Wide => (self.random.pick(&[0, 1, 1]), self.random.pick(&[0, 0, 1, 1, 2])),
            _ => (self.random.pick(&[0, 1, 1, 1, 2, 2, 3, 5]), self.random.pick(&[0, 0, 0, 1, 1, 2, 4])),
        };
        let writes = self.some_of(may_write, written);
        let mut reads = self.some_of(may_read, read);
        if !self.random.chance(60) {
            reads &= !writes;
        }
        if reads | writes == 0 && self.random.chance(900) {
            return self.vote();
        }
        self.call(Call::Open { reads: reads.into(), writes: writes.into() });
    }

    fn vote(&mut self) {
        let undecided: Vec<usize> = self.places(false);
        if undecided.is_empty() {
            return self.take();
        }
        let place = self.random.pick(&undecided);
        let open = &self.cabinet().open[place];
        let (change, awaited) = (open.number, open.touched() & !open.yes);
        let cards: Vec<usize> = members(awaited).collect();
        let card = self.random.pick(&cards) as u32;
        let yes = !self.random.chance(12);
        self.call(Call::Vote { change, card, yes });
    }

    /// The open changes that are decided, or that are not.
    fn places(&self, decided: bool) -> Vec<usize> {
        let open = &self.cabinet().open;
        (0..open.len()).filter(|place| open[*place].decided() == decided).collect()
    }

    fn take(&mut self) {
        let decided = self.places(true);
        if decided.is_empty() {
            if self.random.chance(60) {
                self.any_vote_or_take();
            }
            return;
        }
        let place = self.random.pick(&decided);
        let open = &self.cabinet().open[place];
        let (change, writes, awaited) = (open.number, open.writes, open.touched() & !open.taken);
        let cards: Vec<usize> = members(awaited).collect();
        let card = self.random.pick(&cards);
        self.call(Call::Take { change, card: card as u32 });
        let soon = match self.style {
            Style::Half => 600,
            Style::Full => 0,
            Style::Long => 20,
            _ => 100,
        };
        if has(writes, card) && self.random.chance(soon) {
            self.store_soon(card);
        }
    }

    /// Stores all that a card holds, or begins to.
    fn store_soon(&mut self, card: usize) {
        if self.random.chance(250) {
            let state = self.cabinet().cards[card].held;
            self.call(Call::Begin { card: card as u32, state });
        } else {
            self.store_all(card);
        }
    }

    /// Stores all that a card holds, mostly with its running write ended before.
    fn store_all(&mut self, card: usize) {
        if self.cabinet().cards[card].writing.is_some() && self.random.chance(900) {
            self.report(card);
        }
        let state = self.cabinet().cards[card].held;
        self.call(Call::Store { card: card as u32, state });
    }

    fn store(&mut self) {
        let card = self.any_card();
        let state = self.number_to_store(card);
        self.call(Call::Store { card, state });
    }

    /// For a store or a beginning, mostly from stored to held.
    fn number_to_store(&mut self, card: u32) -> u32 {
        let numbers = self.cabinet().cards[card as usize];
        match self.random.below(10) {
            0 => numbers.held + 1,
            1 => numbers.stored.saturating_sub(1),
            2..=5 => numbers.held,
            _ => self.random.from_to(numbers.stored, numbers.held),
        }
    }

    /// The cards whose write is running.
    fn running(&self) -> Vec<usize> {
        let cards = &self.cabinet().cards;
        (0..cards.len()).filter(|card| cards[*card].writing.is_some()).collect()
    }

    /// How many states a card has to store, no write running; 0 with one.
    fn to_store(&self, card: usize) -> u32 {
        let numbers = self.cabinet().cards[card];
        numbers.writing.map_or(numbers.held - numbers.stored, |_| 0)
    }

    /// A beginning, mostly on a card with something to store and no write, often
    /// on the one with most.
    fn begin_write(&mut self) {
        let cards = 0..self.cards();
        let least = if self.style == Style::Long { 2 } else { 1 };
        let fitting: Vec<usize> = cards.filter(|card| self.to_store(*card) >= least).collect();
        if fitting.is_empty() && self.cabinet().phase != Phase::Rolling && self.random.chance(850) {
            return self.instead_of_a_write();
        }
        let most = fitting.iter().copied().max_by_key(|card| self.to_store(*card));
        let card = match (most, self.random.below(8)) {
            (None, _) | (_, 0) => self.any_card(),
            (Some(most), 1..=4) => most as u32,
            _ => self.random.pick(&fitting) as u32,
        };
        let state = self.number_to_store(card);
        self.call(Call::Begin { card, state });
        self.show_at(80);
    }

    /// What brings something to store, or the roll-back.
    fn instead_of_a_write(&mut self) {
        match self.cabinet().phase {
            Phase::Up => self.vote(),
            _ => self.fix(),
        }
    }

    /// An end, mostly of a running write.
    fn end_write(&mut self) {
        let running = self.running();
        if running.is_empty() && self.random.chance(850) {
            return self.begin_write();
        }
        let card = if running.is_empty() || self.random.chance(60) {
            self.any_card()
        } else {
            self.random.pick(&running) as u32
        };
        let state = self.number_to_report(card);
        self.call(Call::End { card, state });
        self.show_at(150);
    }

    /// For an end, mostly from stored to the state that the write goes up to.
    fn number_to_report(&mut self, card: u32) -> u32 {
        let numbers = self.cabinet().cards[card as usize];
        let up_to = numbers.writing.unwrap_or(numbers.held);
        match self.random.below(12) {
            0 => up_to + 1,
            1 => numbers.stored.saturating_sub(1),
            2 => numbers.reached,
            3 | 4 => numbers.stored,
            5..=7 => up_to,
            _ => self.random.from_to(numbers.stored, up_to),
        }
    }

    /// Ends a running write with a number that it may have reached; for a full
    /// cabinet with the old one, so that all is lost.
    fn report(&mut self, card: usize) {
        let numbers = self.cabinet().cards[card];
        let up_to = if self.style == Style::Full { None } else { numbers.writing };
        let up_to = up_to.unwrap_or(numbers.stored);
        let state = match self.random.below(4) {
            0 => numbers.stored,
            1 => up_to,
            _ => self.random.from_to(numbers.stored, up_to),
        };
        self.call(Call::End { card: card as u32, state });
    }

    /// Ends all running writes.
    fn report_all(&mut self) {
        for card in self.running() {
            self.report(card);
        }
    }

    /// Asks of a number near the last one given, or of the change that made
    /// some state in hand.
    fn safe(&mut self) {
        let last = self.cabinet().last_change;
        let near = self.random.from_to(last.saturating_sub(8), last + 1);
        let card = self.any_card();
        let in_hand = self.cabinet().in_hand(card).unwrap_or_default();
        let change = if in_hand.is_empty() || self.random.chance(400) {
            near
        } else {
            let place = self.random.place(in_hand.len());
            in_hand[place].change
        };
        self.call(Call::Safe { change });
    }

    fn withdraw(&mut self) {
        let open = self.cabinet().open.len();
        let last = self.cabinet().last_change;
        let change = if open > 0 && self.random.chance(800) {
            let place = self.random.place(open);
            self.cabinet().open[place].number
        } else {
            self.random.from_to(0, last + 1)
        };
        self.call(Call::Withdraw { change });
    }

    fn lose(&mut self) {
        let cards = all(self.cards());
        let bits = self.random.bits() as CardSet;
        let set = match self.random.below(6) {
            0 => 0,
            1 => cards,
            2 => self.some_of(cards, 1),
            _ => bits & cards,
        };
        self.call(Call::Lose { set: set.into() });
        self.show_at(100);
    }

    /// A fix, mostly with all writes reported before, now and then with one.
    fn fix(&mut self) {
        let running = self.running();
        if self.cabinet().phase == Phase::Down && !running.is_empty() {
            match self.random.below(10) {
                0 | 1 => {}
                2 => self.report(running[0]),
                _ => self.report_all(),
            }
        }
        let cards = self.cards() as u32;
        let lost = match self.cabinet().phase {
            Phase::Down => self.cabinet().lost_now().len() as u32,
            _ => 0,
        };
        let records = self.random.pick(&[16, 16, 16, 16, cards, cards, cards, cards, cards - 1, 0]);
        let numbers =
            self.random.pick(&[776, 776, 776, 776, lost, lost, lost, lost, lost.saturating_sub(1), 0]);
        self.call(Call::Fix { records, numbers });
        self.show_at(100);
    }

    fn roll(&mut self) {
        let left = all(self.cards()) & !self.cabinet().rolled;
        let cards: Vec<usize> = members(left).collect();
        let card = if self.random.chance(930) { self.random.pick(&cards) as u32 } else { self.any_card() };
        self.call(Call::Roll { card });
        self.show_at(120);
    }

    /// A look at the cabinet or at the frames of a card, or a sheet into a buffer
    /// that mostly is long enough.
    fn look(&mut self) {
        if self.random.chance(350) {
            self.call(Call::Show);
            return;
        }
        let card = self.any_card();
        if self.random.chance(400) {
            self.call(Call::Frames { card });
            return;
        }
        let count = self.cabinet().sheet_of(card as usize).frames.len();
        let bytes = (HEADER_DIGITS + 1 + count * (frame_digits(self.cards()) + 1)) as u32;
        let room = match self.random.below(10) {
            0 => bytes,
            1 => bytes - 1,
            2 => self.random.from_to(0, bytes),
            _ => MOST_BYTES as u32,
        };
        self.call(Call::Sheet { card, room });
    }

    fn any_vote_or_take(&mut self) {
        let last = self.cabinet().last_change;
        let change = self.random.from_to(last.saturating_sub(6), last + 1);
        let card = self.any_card();
        let yes = self.random.chance(900);
        let call = if self.random.chance(500) {
            Call::Vote { change, card, yes }
        } else {
            Call::Take { change, card }
        };
        self.call(call);
    }

    fn out_of_phase(&mut self) {
        match self.random.below(11) {
            0 => self.open(),
            1 | 2 => self.any_vote_or_take(),
            3 => self.store(),
            4 => self.safe(),
            5 => {
                self.call(Call::Trim);
            }
            6 => self.fix(),
            7 => self.withdraw(),
            8 => self.begin_write(),
            9 => self.end_write(),
            _ => {
                let card = self.any_card();
                self.call(Call::Roll { card });
            }
        }
    }

    /// Some card is at base + 48; for a full cabinet, all of them.
    fn hand_full(&self) -> bool {
        let full = |card: &crate::cabinet::Card| card.reached == card.base + MOST_IN_HAND;
        if self.style == Style::Full {
            self.cabinet().cards.iter().all(full)
        } else {
            self.cabinet().cards.iter().any(full)
        }
    }

    /// Tries the 49th state, then stores and trims, or loses it all.
    fn empty_hand(&mut self) {
        let cards = all(self.cards());
        let full = members(cards).find(|card| {
            let numbers = self.cabinet().cards[*card];
            numbers.reached == numbers.base + MOST_IN_HAND
        });
        if let Some(card) = full {
            self.call(Call::Open { reads: 0, writes: 1 << card });
        }
        if self.style == Style::Full || self.random.chance(300) {
            let set = if self.random.chance(500) { u32::from(cards) } else { 0 };
            self.call(Call::Lose { set });
            return self.recover();
        }
        for card in 0..self.cards() {
            if self.random.chance(800) {
                self.store_all(card);
            }
        }
        self.call(Call::Trim);
        self.call(Call::Show);
        self.look();
    }

    /// From any phase by loss, ends, fix and rolls to phase up.
    fn recover(&mut self) {
        if self.cabinet().phase == Phase::Up {
            let set = all(self.cards()).into();
            self.call(Call::Lose { set });
        }
        if self.cabinet().phase == Phase::Down {
            self.report_all();
            self.call(Call::Fix { records: 16, numbers: 776 });
        }
        while self.cabinet().phase == Phase::Rolling {
            self.roll();
        }
    }
}

/// The one long list that brings a card to state 60,000, in sessions of 600
/// changes, and what is asked there.
pub fn summit() -> (Vec<String>, Vec<String>) {
    let mut climb = vec!["fresh 2".to_string()];
    for state in 1..=HIGHEST_STATE {
        let change = (state - 1) % 600 + 1;
        climb.extend(["open 0 1".to_string(), format!("vote {change} 0 1"), format!("take {change} 0")]);
        climb.extend([format!("store 0 {state}"), "trim".to_string()]);
        if change == 600 {
            climb.extend(["lose 0", "fix 2 0", "roll 0", "roll 1"].map(String::from));
        }
    }
    let end = "show\nopen 0 1\nopen 0 3\nopen 1 2\nvote 1 0 1\nvote 1 1 1\ntake 1 0\ntake 1 1\nopen 3 1\n\
               sheet 0 65536\nlose 2\nfix 2 1\nrestart\nroll 1\nroll 0\nshow";
    (climb, end.lines().map(String::from).collect())
}

/// The same as lines.
pub fn summit_list() -> Vec<Vec<u8>> {
    let (climb, end) = summit();
    climb.into_iter().chain(end).map(String::into_bytes).collect()
}
