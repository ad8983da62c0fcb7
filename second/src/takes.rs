//! Vectors by document 01's call 3, for the checks only: the last and the
//! pending vector of every card, carried from take to take. They must come out
//! as the definitions give them over the history.

use crate::cards::{all, has, members, one, CardSet};
use crate::history::Vector;
use std::collections::BTreeMap;

struct Followed {
    reads: CardSet,
    writes: CardSet,
    yes: CardSet,
    taken: CardSet,
    vector: Vector,
}

/// The vectors of one session.
pub struct Takes {
    reached: Vec<u32>,
    last: Vec<Vector>,
    pending: Vec<Vector>,
    open: BTreeMap<u32, Followed>,
}

/// Entry by entry the greatest.
fn raise(vector: &mut Vector, other: &Vector) {
    for (entry, with) in vector.iter_mut().zip(other) {
        *entry = (*entry).max(*with);
    }
}

impl Takes {
    pub fn new(start: Vec<u32>) -> Takes {
        let none = vec![vec![None; start.len()]; start.len()];
        Takes { reached: start, last: none.clone(), pending: none, open: BTreeMap::new() }
    }

    pub fn open(&mut self, number: u32, reads: CardSet, writes: CardSet) {
        let known = all(self.reached.len());
        let (reads, writes) = (reads & !writes & known, writes & known);
        self.open.insert(number, Followed { reads, writes, yes: 0, taken: 0, vector: Vec::new() });
    }

    pub fn end(&mut self, number: u32) {
        self.open.remove(&number);
    }

    pub fn end_all(&mut self) {
        self.open.clear();
    }

    /// A yes; with the last one the vector is worked out.
    pub fn yes(&mut self, number: u32, card: usize) {
        let mut vector = vec![None; self.reached.len()];
        let Some(open) = self.open.get_mut(&number) else {
            return;
        };
        open.yes |= one(card);
        if open.yes != open.reads | open.writes {
            return;
        }
        for card in members(open.reads) {
            raise(&mut vector, &self.last[card]);
        }
        for card in members(open.writes) {
            let mut own = self.pending[card].clone();
            own[card] = Some(self.reached[card]);
            raise(&mut vector, &own);
        }
        open.vector = vector;
    }

    /// A take; a written card's new state and its vector come back.
    pub fn take(&mut self, number: u32, card: usize) -> Option<(u32, Vector)> {
        let open = self.open.get_mut(&number)?;
        open.taken |= one(card);
        let vector = open.vector.clone();
        let written = has(open.writes, card);
        if open.taken == open.reads | open.writes {
            self.open.remove(&number);
        }
        if !written {
            raise(&mut self.pending[card], &vector);
            return None;
        }
        self.reached[card] += 1;
        self.last[card] = vector.clone();
        self.pending[card] = vector.clone();
        Some((self.reached[card], vector))
    }
}
