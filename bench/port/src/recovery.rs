//! Calls 6, 9 and 10: the line, the changes lost, roll.

use crate::calls::refuse;
use crate::{has, place_in_ring, Answer, Cabinet, Phase, Refusal, PLACES, WIDTH};

/// The lesser of two numbers of which 0 is none.
pub fn lesser(a: u32, b: u32) -> u32 {
    match (a, b) {
        (0, b) => b,
        (a, 0) => a,
        (a, b) => a.min(b),
    }
}

/// The line of each of so many cards, from what is in the ring.
pub fn lines(
    entries: &[u32],
    cards: u32,
    base: &[u32; WIDTH],
    stored: &[u32; WIDTH],
    reached: &[u32; WIDTH],
) -> [u32; WIDTH] {
    let hit = |card: usize, state: u32| {
        let vector = &entries[place_in_ring(card, state) * WIDTH..][..WIDTH];
        vector.iter().zip(stored).fold(false, |hit, (entry, stored)| hit | (entry > stored))
    };
    let mut line = *base;
    for card in 0..WIDTH.min(cards as usize) {
        while line[card] < reached[card] && !hit(card, line[card] + 1) {
            line[card] += 1;
        }
    }
    line
}

/// One merge over the cards' frames, whose change numbers rise.
pub struct Merge<'a> {
    pub makers: &'a [u32],
    pub passed: [u32; WIDTH],
    pub ends: [u32; WIDTH],
    pub heads: [u32; WIDTH],
}

impl<'a> Merge<'a> {
    pub fn new(makers: &'a [u32], passed: [u32; WIDTH], reached: &[u32; WIDTH], cards: u32) -> Merge<'a> {
        let ends = std::array::from_fn(|c| if c < cards as usize { reached[c] } else { 0 });
        let mut merge = Merge { makers, passed, ends, heads: [0; WIDTH] };
        merge.set_heads();
        merge
    }

    fn set_heads(&mut self) {
        for card in 0..WIDTH {
            let passed = self.passed[card];
            let more = passed < self.ends[card];
            self.heads[card] = if more { self.makers[place_in_ring(card, passed + 1)] } else { 0 };
        }
    }

    pub fn least(&self) -> u32 {
        self.heads.iter().fold(0, |best, head| lesser(best, *head))
    }

    pub fn pass(&mut self, change: u32) {
        for card in 0..WIDTH {
            if self.passed[card] < self.ends[card] && self.heads[card] == change {
                self.passed[card] += 1;
            }
        }
        self.set_heads();
    }
}

fn next_ended(ended: &[u32; PLACES], above: u32) -> u32 {
    ended.iter().fold(0, |best, x| lesser(best, if above < *x { *x } else { 0 }))
}

/// Goes through the changes lost, rising: twice, for the count and for the list.
fn each_lost(cabinet: &Cabinet, line: &[u32; WIDTH], mut tell: impl FnMut(usize, u32)) -> usize {
    let mut merge = Merge::new(&cabinet.makers, *line, &cabinet.reached, cabinet.head.cards);
    let (mut count, mut change) = (0, 0);
    loop {
        let next = lesser(merge.least(), next_ended(&cabinet.ended, change));
        if next <= change {
            return count;
        }
        tell(count, next);
        count += 1;
        change = next;
        merge.pass(change);
    }
}

/// What fix answers: stored numbers and lines by card, and the count of lost changes.
pub struct Fixed {
    pub stored: [u32; WIDTH],
    pub line: [u32; WIDTH],
    pub lost: usize,
}

impl Cabinet {
    pub fn lines(&self) -> [u32; WIDTH] {
        lines(&self.entries, self.head.cards, &self.base, &self.stored, &self.reached)
    }

    /// Some card's write is running.
    fn unreported(&self) -> bool {
        self.writing[..self.head.cards as usize].iter().any(|writing| *writing != 0)
    }

    #[inline(never)]
    pub fn trim(mut self) -> Answer<()> {
        let reply = self.trim_on();
        Answer { cabinet: self, reply }
    }

    pub fn trim_on(&mut self) -> Result<(), Refusal> {
        refuse(!self.sound(), 28)?;
        refuse(self.head.phase != Phase::Up, 20)?;
        self.base = self.lines();
        Ok(())
    }

    #[inline(never)]
    pub fn fix(mut self, places: usize, list: &mut [u32]) -> Answer<Fixed> {
        let reply = self.fix_on(places, list);
        Answer { cabinet: self, reply }
    }

    pub fn fix_on(&mut self, places: usize, list: &mut [u32]) -> Result<Fixed, Refusal> {
        refuse(!self.sound(), 28)?;
        refuse(self.head.phase != Phase::Down, 20)?;
        refuse(self.head.session == u32::MAX, 24)?;
        refuse(self.unreported(), 33)?;
        let line = self.lines();
        let lost = each_lost(self, &line, |_, _| ());
        refuse(places < self.head.cards as usize || list.len() < lost, 4)?;
        each_lost(self, &line, |at, change| list[at] = change);
        self.line = line;
        self.ended = [0; PLACES];
        self.rolled = 0;
        self.head.phase = Phase::Rolling;
        Ok(Fixed { stored: self.stored, line, lost })
    }

    #[inline(never)]
    pub fn roll(mut self, card: u32) -> Answer<()> {
        let reply = self.roll_on(card);
        Answer { cabinet: self, reply }
    }

    pub fn roll_on(&mut self, card: u32) -> Result<(), Refusal> {
        refuse(!self.sound(), 28)?;
        refuse(!self.there(card), 2)?;
        refuse(self.head.phase != Phase::Rolling, 20)?;
        refuse(has(self.rolled, card), 30)?;
        let c = card as usize;
        let line = self.line[c];
        self.base[c] = line;
        self.stored[c] = line;
        self.held[c] = line;
        self.reached[c] = line;
        self.rolled |= 1 << card;
        if self.all_cards() & !self.rolled == 0 {
            self.last = [[0; WIDTH]; WIDTH];
            self.pending = [[0; WIDTH]; WIDTH];
            self.rolled = 0;
            self.head.session += 1;
            self.head.count = 0;
            self.head.phase = Phase::Up;
        }
        Ok(())
    }
}
