//! Sets of cards: 16 bits, card 0 the lowest.

use crate::limits::MOST_CARDS;

pub type CardSet = u16;

/// The set of one card.
pub fn one(card: usize) -> CardSet {
    1 << card
}

pub fn has(set: CardSet, card: usize) -> bool {
    set & one(card) != 0
}

/// The set of the first `count` cards, all that a cabinet of that size has.
pub fn all(count: usize) -> CardSet {
    (0..count).fold(0, |set, card| set | one(card))
}

/// The cards of a set in rising order.
pub fn members(set: CardSet) -> impl Iterator<Item = usize> {
    (0..MOST_CARDS).filter(move |card| has(set, *card))
}
