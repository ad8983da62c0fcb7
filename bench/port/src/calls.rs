//! Calls 1 to 5, 7 and 8, and the long writes of wish 5, by value.

use crate::{all_below, has, place_in_ring, within};
use crate::{Answer, Cabinet, Phase, Place, Refusal, Vector, FREE, GREATEST_STATE, IN_HAND, WIDTH};

/// The check fails: its refusal.
pub fn refuse(fails: bool, refusal: Refusal) -> Result<(), Refusal> {
    if fails {
        Err(refusal)
    } else {
        Ok(())
    }
}

pub fn join(a: &mut Vector, b: &Vector) {
    a.iter_mut().zip(b).for_each(|(x, y)| *x = (*x).max(*y));
}

impl Cabinet {
    fn barred(&self, reads: u16, writes: u16) -> u16 {
        let bars = |o: &Place| (o.reads | o.writes) & !o.taken & (writes | (reads & o.writes));
        self.places.iter().filter(|o| o.number != 0).fold(0, |set, o| set | bars(o))
    }

    fn written(&self, writes: u16) -> impl Iterator<Item = usize> + '_ {
        (0..WIDTH).filter(move |card| has(writes, *card as u32))
    }

    fn open_verdict(&self, reads: u16, writes: u16) -> Result<usize, Refusal> {
        refuse(!self.sound(), 28)?;
        refuse(!within(reads | writes, self.head.cards), 2)?;
        refuse(reads | writes == 0, 3)?;
        refuse(self.head.phase != Phase::Up, 20)?;
        refuse(self.barred(reads, writes) != 0, 21)?;
        let place = self.places.iter().position(|o| o.number == 0).ok_or(22u32)?;
        refuse(self.written(writes).any(|c| self.reached[c] >= self.base[c] + IN_HAND as u32), 23)?;
        refuse(self.written(writes).any(|c| self.reached[c] >= GREATEST_STATE), 24)?;
        refuse(self.head.count == u32::MAX, 24)?;
        Ok(place)
    }

    /// 21 stands with the card in its upper half.
    #[inline(never)]
    pub fn open(mut self, reads: u16, writes: u16) -> Answer<u32> {
        let reply = self.open_on(reads, writes);
        Answer { cabinet: self, reply }
    }

    pub fn open_on(&mut self, reads: u16, writes: u16) -> Result<u32, Refusal> {
        let place = self.open_verdict(reads, writes).map_err(|refusal| match refusal {
            21 => 21 | self.barred(reads, writes).trailing_zeros() << 16,
            other => other,
        })?;
        self.head.count += 1;
        self.places[place] = Place { number: self.head.count, reads, writes, ..FREE };
        Ok(self.head.count)
    }

    fn vote_verdict(&self, change: u32, card: u32) -> Result<usize, Refusal> {
        refuse(!self.sound(), 28)?;
        refuse(!self.there(card), 2)?;
        refuse(self.head.phase != Phase::Up, 20)?;
        let place = self.place_of(change).ok_or(25u32)?;
        let open = &self.places[place];
        refuse(open.decided(), 26)?;
        refuse(!open.awaits(open.yes, card), 25)?;
        Ok(place)
    }

    /// The greatest over all touched cards as they stand.
    fn decision(&self, open: &Place) -> Vector {
        let mut vector = [0; WIDTH];
        for card in 0..WIDTH {
            if has(open.writes, card as u32) {
                let mut own = self.pending[card];
                own[card] = self.reached[card] + 1;
                join(&mut vector, &own);
            } else if has(open.reads, card as u32) {
                join(&mut vector, &self.last[card]);
            }
        }
        vector
    }

    #[inline(never)]
    pub fn vote(mut self, change: u32, card: u32, agrees: bool) -> Answer<()> {
        let reply = self.vote_on(change, card, agrees);
        Answer { cabinet: self, reply }
    }

    pub fn vote_on(&mut self, change: u32, card: u32, agrees: bool) -> Result<(), Refusal> {
        let place = self.vote_verdict(change, card)?;
        if !agrees {
            self.places[place] = FREE;
            return Ok(());
        }
        self.places[place].yes |= 1 << card;
        if self.places[place].decided() {
            self.places[place].vector = self.decision(&self.places[place]);
        }
        Ok(())
    }

    fn take_verdict(&self, change: u32, card: u32) -> Result<usize, Refusal> {
        refuse(!self.sound(), 28)?;
        refuse(!self.there(card), 2)?;
        refuse(self.head.phase != Phase::Up, 20)?;
        let place = self.place_of(change).ok_or(25u32)?;
        let open = &self.places[place];
        refuse(!open.decided(), 29)?;
        refuse(!open.awaits(open.taken, card), 25)?;
        Ok(place)
    }

    #[inline(never)]
    pub fn take(mut self, change: u32, card: u32) -> Answer<()> {
        let reply = self.take_on(change, card);
        Answer { cabinet: self, reply }
    }

    pub fn take_on(&mut self, change: u32, card: u32) -> Result<(), Refusal> {
        let at = self.take_verdict(change, card)?;
        let mut open = self.places[at];
        let c = card as usize;
        if has(open.writes, card) {
            let state = self.reached[c] + 1;
            let place = place_in_ring(c, state);
            self.makers[place] = open.number;
            self.entries[place * WIDTH..][..WIDTH].copy_from_slice(&open.vector);
            self.last[c] = open.vector;
            self.pending[c] = open.vector;
            self.held[c] = state;
            self.reached[c] = state;
        } else {
            join(&mut self.pending[c], &open.vector);
        }
        open.taken |= 1 << card;
        let left = (open.reads | open.writes) & !open.taken;
        self.places[at] = if left.count_ones() == 0 { FREE } else { open };
        Ok(())
    }

    fn withdraw_verdict(&self, change: u32) -> Result<usize, Refusal> {
        refuse(!self.sound(), 28)?;
        refuse(self.head.phase != Phase::Up, 20)?;
        let place = self.place_of(change).ok_or(25u32)?;
        refuse(self.places[place].decided(), 26)?;
        Ok(place)
    }

    #[inline(never)]
    pub fn withdraw(mut self, change: u32) -> Answer<()> {
        let reply = self.withdraw_on(change);
        Answer { cabinet: self, reply }
    }

    pub fn withdraw_on(&mut self, change: u32) -> Result<(), Refusal> {
        let place = self.withdraw_verdict(change)?;
        self.places[place] = FREE;
        Ok(())
    }

    #[inline(never)]
    pub fn store(mut self, card: u32, state: u32) -> Answer<()> {
        let reply = self.store_on(card, state);
        Answer { cabinet: self, reply }
    }

    /// Store and beginning are refused alike.
    fn store_verdict(&self, card: u32, state: u32) -> Result<usize, Refusal> {
        refuse(!self.sound(), 28)?;
        refuse(!self.there(card), 2)?;
        refuse(self.head.phase == Phase::Rolling, 20)?;
        let c = card as usize;
        refuse(state < self.stored[c] || self.held[c] < state, 27)?;
        refuse(self.writing[c] != 0, 31)?;
        Ok(c)
    }

    pub fn store_on(&mut self, card: u32, state: u32) -> Result<(), Refusal> {
        let c = self.store_verdict(card, state)?;
        self.stored[c] = state;
        Ok(())
    }

    #[inline(never)]
    pub fn begin(mut self, card: u32, state: u32) -> Answer<()> {
        let reply = self.begin_on(card, state);
        Answer { cabinet: self, reply }
    }

    pub fn begin_on(&mut self, card: u32, state: u32) -> Result<(), Refusal> {
        let c = self.store_verdict(card, state)?;
        self.writing[c] = state + 1;
        Ok(())
    }

    #[inline(never)]
    pub fn end(mut self, card: u32, state: u32) -> Answer<()> {
        let reply = self.end_on(card, state);
        Answer { cabinet: self, reply }
    }

    pub fn end_on(&mut self, card: u32, state: u32) -> Result<(), Refusal> {
        refuse(!self.sound(), 28)?;
        refuse(!self.there(card), 2)?;
        refuse(self.head.phase == Phase::Rolling, 20)?;
        let c = card as usize;
        refuse(state < self.stored[c] || self.writing[c] <= state, 32)?;
        self.stored[c] = state;
        self.held[c] = self.held[c].max(state);
        self.writing[c] = 0;
        Ok(())
    }

    #[inline(never)]
    pub fn lose(mut self, cards: u16) -> Answer<()> {
        let reply = self.lose_on(cards);
        Answer { cabinet: self, reply }
    }

    pub fn lose_on(&mut self, cards: u16) -> Result<(), Refusal> {
        refuse(!self.sound(), 28)?;
        refuse(!within(cards, self.head.cards), 2)?;
        for card in 0..WIDTH {
            if has(cards, card as u32) {
                self.held[card] = self.stored[card];
            }
        }
        if self.head.phase == Phase::Up {
            self.ended = std::array::from_fn(|place| self.places[place].remembered());
            self.places = [FREE; 8];
            self.head.phase = Phase::Down;
        }
        Ok(())
    }

    fn frame_above(&self, card: usize, state: u32, change: u32) -> bool {
        (state..self.reached[card])
            .fold(false, |found, x| found | (self.makers[place_in_ring(card, x + 1)] == change))
    }

    fn some_above(&self, numbers: &[u32; WIDTH], change: u32) -> bool {
        (0..self.head.cards as usize).fold(false, |found, c| found | self.frame_above(c, numbers[c], change))
    }

    #[inline(never)]
    pub fn safe(self, change: u32) -> Answer<bool> {
        let reply = self.safe_on(change);
        Answer { cabinet: self, reply }
    }

    pub fn safe_on(&self, change: u32) -> Result<bool, Refusal> {
        refuse(!self.sound(), 28)?;
        refuse(self.head.phase != Phase::Up, 20)?;
        refuse(change == 0 || !self.some_above(&self.base, change), 25)?;
        let ends = self.places.iter().any(|place| place.remembered() == change);
        Ok(!self.some_above(&self.lines(), change) && !ends)
    }

    pub fn all_cards(&self) -> u16 {
        all_below(self.head.cards)
    }
}
