//! The check for 28.

use crate::{has, place_in_ring, within, Cabinet, Phase, Place, GREATEST_STATE, IN_HAND, WIDTH};

fn entries_sound(vector: &[u32], cards: usize) -> bool {
    let top = |card: usize| if card < cards { GREATEST_STATE } else { 0 };
    vector.iter().enumerate().fold(true, |ok, (j, entry)| ok & (*entry <= top(j)))
}

pub fn room(base: u32, reached: u32) -> bool {
    reached < base + IN_HAND as u32 && reached < GREATEST_STATE
}

impl Cabinet {
    pub fn sound(&self) -> bool {
        let head = &self.head;
        let rolling = head.phase == Phase::Rolling;
        head.session != 0
            && !(rolling && head.session == u32::MAX)
            && (1..=WIDTH as u32).contains(&head.cards)
            && (0..WIDTH).all(|card| self.card_sound(card))
            && self.places.iter().all(|place| self.place_sound(place))
    }

    fn card_sound(&self, card: usize) -> bool {
        let cards = self.head.cards as usize;
        let seen = if card < cards { cards } else { 0 };
        entries_sound(&self.last[card], seen)
            && entries_sound(&self.pending[card], seen)
            && (card >= cards || self.present_sound(card))
    }

    fn present_sound(&self, card: usize) -> bool {
        let (base, stored) = (self.base[card], self.stored[card]);
        let (held, reached, line) = (self.held[card], self.reached[card], self.line[card]);
        base <= stored
            && stored <= held
            && held <= reached
            && u64::from(reached) <= u64::from(base) + IN_HAND as u64
            && reached <= GREATEST_STATE
            && (self.head.phase != Phase::Rolling || (base <= line && line <= stored))
            && self.writing_sound(card)
            && (base..reached).all(|state| self.frame_sound(card, state + 1, state == base))
    }

    /// A running write is within stored to reached, and none runs in phase rolling.
    fn writing_sound(&self, card: usize) -> bool {
        let writing = self.writing[card];
        writing == 0
            || (self.head.phase != Phase::Rolling
                && self.stored[card] < writing
                && writing - 1 <= self.reached[card])
    }

    fn frame_sound(&self, card: usize, state: u32, first: bool) -> bool {
        let place = place_in_ring(card, state);
        let vector = self.vector_at(place);
        self.makers[place] != 0
            && vector[card] == state
            && entries_sound(vector, self.head.cards as usize)
            && (first || self.rises(place_in_ring(card, state - 1), place))
    }

    fn rises(&self, before: usize, after: usize) -> bool {
        let pairs = self.vector_at(before).iter().zip(self.vector_at(after));
        self.makers[before] < self.makers[after] && pairs.fold(true, |ok, (a, b)| ok & (a <= b))
    }

    fn place_sound(&self, open: &Place) -> bool {
        let fits = |card: usize| {
            !has(open.writes & !open.taken, card as u32) || room(self.base[card], self.reached[card])
        };
        open.number == 0
            || (within(open.reads | open.writes, self.head.cards)
                && (0..WIDTH).all(fits)
                && entries_sound(&open.vector, self.head.cards as usize))
    }
}
