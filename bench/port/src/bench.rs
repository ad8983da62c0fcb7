//! What bench/run.sh measures of the port: each call once, on a cabinet forged
//! for it, as crates/bench_calls does it. `port_..` by value, `lent_..` by `&mut`.

use crate::{all_below, restart, Answer, Cabinet, Head, Phase, Place, FREE, IN_HAND, PLACES, WIDTH};

#[inline(never)]
fn forged(cards: u32, states: u32, stored: u32, first: Place, phase: Phase) -> Cabinet {
    let mut c = Cabinet::fresh(cards).cabinet;
    for card in 0..cards as usize {
        for state in 1..=states as usize {
            let place = card * IN_HAND + state % IN_HAND;
            c.makers[place] = (state * WIDTH + card) as u32;
            c.entries[place * WIDTH + card] = state as u32;
        }
    }
    for card in 0..cards as usize {
        c.held[card] = states;
        c.reached[card] = states;
        c.stored[card] = stored;
    }
    c.places[0] = first;
    c.head = Head { session: 1, cards, count: 1000, phase };
    c.rolled = all_below(cards) & !1;
    c
}

fn change(number: u32, cards: u32, reads: bool, yes: u16) -> Place {
    let (all, none) = (all_below(cards), 0);
    let (reads, writes) = if reads { (all, none) } else { (none, all) };
    Place { number, reads, writes, yes, ..FREE }
}

/// A number out of every part of a cabinet, so that all that a call wrote is
/// looked at.
fn entry(cabinet: &Cabinet, at: u32, refused: bool) -> u32 {
    if refused {
        return 1_000_000;
    }
    let (at, card) = (at as usize, at as usize % WIDTH);
    let place = &cabinet.places[at % PLACES];
    let frames = cabinet.entries[at % cabinet.entries.len()] ^ cabinet.makers[at % cabinet.makers.len()];
    let vectors = cabinet.last[card][card] ^ cabinet.pending[card][card] ^ place.vector[card];
    let sets = place.reads ^ place.writes ^ place.yes ^ place.taken ^ cabinet.rolled;
    let numbers =
        [cabinet.base, cabinet.stored, cabinet.held, cabinet.reached, cabinet.line, cabinet.writing];
    let numbers = numbers.iter().fold(cabinet.ended[at % PLACES], |sum, list| sum ^ list[card]);
    let head = cabinet.head.session ^ cabinet.head.cards ^ cabinet.head.count ^ cabinet.head.phase as u32;
    frames ^ vectors ^ u32::from(sets) ^ numbers ^ place.number ^ head
}

#[inline(always)]
fn seen<T>(answer: Answer<T>, at: u32) -> u32 {
    entry(&answer.cabinet, at, answer.reply.is_err())
}

#[inline(never)]
pub fn port_nothing(cards: u32, states: u32, _: bool, at: u32) -> u32 {
    let c = forged(cards, states, states, FREE, Phase::Up);
    entry(&c, at, false)
}

#[inline(never)]
pub fn port_fresh(cards: u32, at: u32) -> u32 {
    seen(Cabinet::fresh(cards), at)
}

#[inline(never)]
pub fn port_open(cards: u32, states: u32, reads: bool, at: u32) -> u32 {
    let c = forged(cards, states, states, FREE, Phase::Up);
    let o = change(0, cards, reads, 0);
    seen(c.open(o.reads, o.writes), at)
}

#[inline(never)]
pub fn lent_open(cards: u32, states: u32, reads: bool, at: u32) -> u32 {
    let mut c = forged(cards, states, states, FREE, Phase::Up);
    let o = change(0, cards, reads, 0);
    let refused = c.open_on(o.reads, o.writes).is_err();
    entry(&c, at, refused)
}

#[inline(never)]
pub fn port_vote(cards: u32, states: u32, reads: bool, at: u32) -> u32 {
    let c = forged(cards, states, states, change(1000, cards, reads, all_below(cards) & !1), Phase::Up);
    seen(c.vote(1000, 0, true), at)
}

#[inline(never)]
pub fn lent_vote(cards: u32, states: u32, reads: bool, at: u32) -> u32 {
    let mut c = forged(cards, states, states, change(1000, cards, reads, all_below(cards) & !1), Phase::Up);
    let refused = c.vote_on(1000, 0, true).is_err();
    entry(&c, at, refused)
}

#[inline(never)]
pub fn port_take(cards: u32, states: u32, reads: bool, at: u32) -> u32 {
    let c = forged(cards, states, states, change(1000, cards, reads, all_below(cards)), Phase::Up);
    seen(c.take(1000, 0), at)
}

#[inline(never)]
pub fn lent_take(cards: u32, states: u32, reads: bool, at: u32) -> u32 {
    let mut c = forged(cards, states, states, change(1000, cards, reads, all_below(cards)), Phase::Up);
    let refused = c.take_on(1000, 0).is_err();
    entry(&c, at, refused)
}

#[inline(never)]
pub fn port_withdraw(cards: u32, states: u32, reads: bool, at: u32) -> u32 {
    let c = forged(cards, states, states, change(1000, cards, reads, 0), Phase::Up);
    seen(c.withdraw(1000), at)
}

#[inline(never)]
pub fn lent_withdraw(cards: u32, states: u32, reads: bool, at: u32) -> u32 {
    let mut c = forged(cards, states, states, change(1000, cards, reads, 0), Phase::Up);
    let refused = c.withdraw_on(1000).is_err();
    entry(&c, at, refused)
}

#[inline(never)]
pub fn port_store(cards: u32, states: u32, _: bool, at: u32) -> u32 {
    let c = forged(cards, states, 0, FREE, Phase::Up);
    seen(c.store(0, 0), at)
}

#[inline(never)]
pub fn lent_store(cards: u32, states: u32, _: bool, at: u32) -> u32 {
    let mut c = forged(cards, states, 0, FREE, Phase::Up);
    let refused = c.store_on(0, 0).is_err();
    entry(&c, at, refused)
}

#[inline(never)]
pub fn port_begin(cards: u32, states: u32, _: bool, at: u32) -> u32 {
    let c = forged(cards, states, 0, FREE, Phase::Up);
    seen(c.begin(0, states), at)
}

#[inline(never)]
pub fn lent_begin(cards: u32, states: u32, _: bool, at: u32) -> u32 {
    let mut c = forged(cards, states, 0, FREE, Phase::Up);
    let refused = c.begin_on(0, states).is_err();
    entry(&c, at, refused)
}

#[inline(never)]
pub fn port_end(cards: u32, states: u32, _: bool, at: u32) -> u32 {
    let mut c = forged(cards, states, 0, FREE, Phase::Up);
    c.writing[0] = states + 1;
    seen(c.end(0, states), at)
}

#[inline(never)]
pub fn lent_end(cards: u32, states: u32, _: bool, at: u32) -> u32 {
    let mut c = forged(cards, states, 0, FREE, Phase::Up);
    c.writing[0] = states + 1;
    let refused = c.end_on(0, states).is_err();
    entry(&c, at, refused)
}

#[inline(never)]
pub fn port_trim(cards: u32, states: u32, _: bool, at: u32) -> u32 {
    let c = forged(cards, states, states, FREE, Phase::Up);
    seen(c.trim(), at)
}

#[inline(never)]
pub fn lent_trim(cards: u32, states: u32, _: bool, at: u32) -> u32 {
    let mut c = forged(cards, states, states, FREE, Phase::Up);
    let refused = c.trim_on().is_err();
    entry(&c, at, refused)
}

#[inline(never)]
pub fn port_lose(cards: u32, states: u32, reads: bool, at: u32) -> u32 {
    let c = forged(cards, states, states, change(1000, cards, reads, all_below(cards)), Phase::Up);
    seen(c.lose(all_below(cards)), at)
}

#[inline(never)]
pub fn lent_lose(cards: u32, states: u32, reads: bool, at: u32) -> u32 {
    let mut c = forged(cards, states, states, change(1000, cards, reads, all_below(cards)), Phase::Up);
    let refused = c.lose_on(all_below(cards)).is_err();
    entry(&c, at, refused)
}

#[inline(never)]
pub fn port_roll(cards: u32, states: u32, _: bool, at: u32) -> u32 {
    let c = forged(cards, states, states, FREE, Phase::Rolling);
    seen(c.roll(0), at)
}

#[inline(never)]
pub fn lent_roll(cards: u32, states: u32, _: bool, at: u32) -> u32 {
    let mut c = forged(cards, states, states, FREE, Phase::Rolling);
    let refused = c.roll_on(0).is_err();
    entry(&c, at, refused)
}

#[inline(never)]
pub fn port_safe(cards: u32, states: u32, change: u32, at: u32) -> u32 {
    let c = forged(cards, states, states, FREE, Phase::Up);
    seen(c.safe(change), at)
}

#[inline(never)]
pub fn lent_safe(cards: u32, states: u32, change: u32, at: u32) -> u32 {
    let c = forged(cards, states, states, FREE, Phase::Up);
    let refused = c.safe_on(change).is_err();
    entry(&c, at, refused)
}

#[inline(never)]
pub fn port_fix(cards: u32, states: u32, stored: u32, at: u32, list: &mut [u32]) -> u32 {
    let c = forged(cards, states, stored, FREE, Phase::Down);
    seen(c.fix(16, list), at)
}

#[inline(never)]
pub fn lent_fix(cards: u32, states: u32, stored: u32, at: u32, list: &mut [u32]) -> u32 {
    let mut c = forged(cards, states, stored, FREE, Phase::Down);
    let refused = c.fix_on(16, list).is_err();
    entry(&c, at, refused)
}

#[inline(never)]
pub fn port_sheet(cards: u32, states: u32, at: u32, buffer: &mut [u8]) -> u32 {
    let c = forged(cards, states, states, FREE, Phase::Up);
    seen(c.sheet(0, buffer), at)
}

#[inline(never)]
pub fn lent_sheet(cards: u32, states: u32, at: u32, buffer: &mut [u8]) -> u32 {
    let c = forged(cards, states, states, FREE, Phase::Up);
    let refused = c.sheet_on(0, buffer).is_err();
    entry(&c, at, refused)
}

#[inline(never)]
pub fn port_restart(bytes: &[u8], at: u32) -> u32 {
    seen(restart::restart(bytes), at)
}

/// A forged cabinet whose ring of frames is lent.
pub fn ring(cards: u32, states: u32) -> Cabinet {
    forged(cards, states, states, FREE, Phase::Up)
}

/// The sheets of all cards of a forged cabinet, joined.
pub fn readout(cards: u32, states: u32) -> Vec<u8> {
    let c = forged(cards, states, states, FREE, Phase::Up);
    let mut buffer = [0u8; 4096];
    let mut bytes = Vec::new();
    for card in 0..cards {
        let length = c.sheet_on(card, &mut buffer).unwrap_or(0);
        bytes.extend(&buffer[..length]);
    }
    bytes
}
