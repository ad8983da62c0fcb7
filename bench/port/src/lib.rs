//! The engine's method in plain Rust, for comparison of its cost: the same
//! arrays, the same checks in the same order with 28 first, the cabinet passed
//! by value and handed back. Ported from the crates; it proves nothing.

pub mod bench;
pub mod calls;
pub mod recovery;
pub mod restart;
pub mod sheet;
pub mod sound;
pub mod text;

pub const WIDTH: usize = 16;
pub const IN_HAND: usize = 48;
pub const PLACES: usize = 8;
pub const GREATEST_STATE: u32 = 60_000;

/// A dependency for each card: 0 for none, a state's number plus one otherwise.
pub type Vector = [u32; WIDTH];

/// A refusal's number of document 01.
pub type Refusal = u32;

#[derive(Clone, Copy, PartialEq, Eq)]
pub enum Phase {
    Up,
    Down,
    Rolling,
}

#[derive(Clone, Copy)]
pub struct Head {
    pub session: u32,
    pub cards: u32,
    pub count: u32,
    pub phase: Phase,
}

/// One of the eight places for open changes. Number 0: free.
#[derive(Clone, Copy)]
pub struct Place {
    pub vector: Vector,
    pub number: u32,
    pub reads: u16,
    pub writes: u16,
    pub yes: u16,
    pub taken: u16,
}

pub const FREE: Place = Place { vector: [0; WIDTH], number: 0, reads: 0, writes: 0, yes: 0, taken: 0 };

impl Place {
    pub fn decided(&self) -> bool {
        ((self.reads | self.writes) & !self.yes).count_ones() == 0
    }

    /// Touched by the change and not in the set.
    pub fn awaits(&self, have: u16, card: u32) -> bool {
        has((self.reads | self.writes) & !have, card)
    }

    pub fn awaits_write(&self) -> bool {
        self.writes & !self.taken != 0
    }

    /// The number that a loss remembers: of a decided change with a written
    /// share untaken its own, else 0.
    pub fn remembered(&self) -> u32 {
        if self.decided() && self.awaits_write() {
            self.number
        } else {
            0
        }
    }
}

/// Frames stand in a ring: state x of card c has the place c * 48 + x % 48.
#[derive(Clone, Copy)]
pub struct Cabinet {
    pub entries: [u32; WIDTH * IN_HAND * WIDTH],
    pub makers: [u32; WIDTH * IN_HAND],
    pub last: [Vector; WIDTH],
    pub pending: [Vector; WIDTH],
    pub places: [Place; PLACES],
    pub base: [u32; WIDTH],
    pub stored: [u32; WIDTH],
    pub held: [u32; WIDTH],
    pub reached: [u32; WIDTH],
    pub line: [u32; WIDTH],
    /// Of a running write the state that it goes up to, plus one; 0: none runs.
    pub writing: [u32; WIDTH],
    pub ended: [u32; PLACES],
    pub rolled: u16,
    pub head: Head,
}

/// What a call hands back.
pub struct Answer<T> {
    pub cabinet: Cabinet,
    pub reply: Result<T, Refusal>,
}

pub fn has(set: u16, card: u32) -> bool {
    card < 16 && (set >> card) & 1 == 1
}

pub fn within(set: u16, cards: u32) -> bool {
    cards >= 16 || set >> cards == 0
}

pub fn all_below(cards: u32) -> u16 {
    if cards < 16 {
        (1 << cards) - 1
    } else {
        u16::MAX
    }
}

/// Where the frame of a card's state stands.
pub fn place_in_ring(card: usize, state: u32) -> usize {
    card * IN_HAND + state as usize % IN_HAND
}

impl Cabinet {
    pub fn zeros(head: Head) -> Cabinet {
        Cabinet {
            entries: [0; WIDTH * IN_HAND * WIDTH],
            makers: [0; WIDTH * IN_HAND],
            last: [[0; WIDTH]; WIDTH],
            pending: [[0; WIDTH]; WIDTH],
            places: [FREE; PLACES],
            base: [0; WIDTH],
            stored: [0; WIDTH],
            held: [0; WIDTH],
            reached: [0; WIDTH],
            line: [0; WIDTH],
            writing: [0; WIDTH],
            ended: [0; PLACES],
            rolled: 0,
            head,
        }
    }

    pub fn fresh(cards: u32) -> Answer<()> {
        if (1..=WIDTH as u32).contains(&cards) {
            let head = Head { session: 1, cards, count: 0, phase: Phase::Up };
            return Answer { cabinet: Cabinet::zeros(head), reply: Ok(()) };
        }
        let head = Head { session: 0, cards: 0, count: 0, phase: Phase::Up };
        Answer { cabinet: Cabinet::zeros(head), reply: Err(1) }
    }

    pub fn vector_at(&self, place: usize) -> &[u32] {
        &self.entries[place * WIDTH..][..WIDTH]
    }

    pub fn there(&self, card: u32) -> bool {
        card < 16 && card < self.head.cards
    }

    pub fn place_of(&self, change: u32) -> Option<usize> {
        self.places.iter().position(|o| o.number != 0 && o.number == change)
    }
}
