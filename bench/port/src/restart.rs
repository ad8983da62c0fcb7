//! Reading joined sheets, and restart from them.

use crate::calls::refuse;
use crate::recovery::{lines, Merge};
use crate::sheet::{check_of, NONE};
use crate::{place_in_ring, Answer, Cabinet, Head, Phase, Refusal, Vector};
use crate::{FREE, GREATEST_STATE, IN_HAND, PLACES, WIDTH};

fn value_of(byte: u8) -> u32 {
    match byte {
        b'0'..=b'9' => u32::from(byte) - 48,
        b'A'..=b'F' => u32::from(byte) - 55,
        _ => 0,
    }
}

fn number(bytes: &[u8]) -> u32 {
    bytes.iter().fold(0, |n, byte| n * 16 + value_of(*byte))
}

/// The line of so many digits before its check that is due at a place.
fn line_at(bytes: &[u8], at: usize, length: usize) -> Result<&[u8], Refusal> {
    refuse(bytes.len() <= at, 8)?;
    refuse(bytes.len() - at < length + 5, 5)?;
    let line = &bytes[at..at + length + 5];
    let digit = |byte: &u8| byte.is_ascii_digit() || (b'A'..=b'F').contains(byte);
    refuse(!line[..length + 4].iter().all(digit), 5)?;
    refuse(line[length + 4] != 10, 5)?;
    Ok(line)
}

fn check_line(session: u32, card: u32, line: &[u8], length: usize) -> Result<(), Refusal> {
    refuse(check_of(session, card, &line[..length]) != number(&line[length..length + 4]), 6)
}

pub struct Readout {
    pub changes: [u32; WIDTH * IN_HAND],
    pub entries: [u32; WIDTH * IN_HAND * WIDTH],
    pub sessions: [u32; WIDTH],
    pub bases: [u32; WIDTH],
    pub counts: [u32; WIDTH],
    pub cards: u32,
}

struct Header {
    session: u32,
    cards: u32,
    base: u32,
    count: u32,
}

fn header_at(bytes: &[u8], at: usize, due: u32, first: u32) -> Result<Header, Refusal> {
    let line = line_at(bytes, at, 20)?;
    let (session, card, cards) = (number(&line[..8]), number(&line[8..10]), number(&line[10..12]));
    let (base, count) = (number(&line[12..16]), number(&line[16..20]));
    check_line(session, card, line, 20)?;
    let allowed = session != 0
        && card == due
        && card < cards
        && cards <= WIDTH as u32
        && (first == 0 || cards == first)
        && count <= IN_HAND as u32
        && base <= GREATEST_STATE
        && count <= GREATEST_STATE - base;
    refuse(!allowed, 7)?;
    Ok(Header { session, cards, base, count })
}

struct Frame {
    change: u32,
    entries: Vector,
}

fn frame_at(
    bytes: &[u8],
    at: usize,
    card: usize,
    header: &Header,
    state: u32,
    last: &Frame,
) -> Result<Frame, Refusal> {
    let cards = header.cards as usize;
    let length = 12 + cards * 4;
    let line = line_at(bytes, at, length)?;
    check_line(header.session, card as u32, line, length)?;
    let told = number(&line[..4]);
    let change = number(&line[4..12]);
    let mut entries = [0; WIDTH];
    for (entry, digits) in entries.iter_mut().zip(line[12..length].chunks_exact(4)) {
        let told = number(digits);
        *entry = if told == NONE { 0 } else { told + 1 };
    }
    let entry_allowed = |j: usize| {
        last.entries[j] <= entries[j] && entries[j] <= GREATEST_STATE && (j != card || entries[j] == state)
    };
    refuse(told != state || change <= last.change || !(0..cards).all(entry_allowed), 9)?;
    Ok(Frame { change, entries })
}

fn read_card(
    bytes: &[u8],
    at: usize,
    card: usize,
    header: &Header,
    readout: &mut Readout,
) -> Result<usize, Refusal> {
    let cards = header.cards as usize;
    let mut last = Frame { change: 0, entries: [0; WIDTH] };
    let mut at = at;
    for state in header.base + 1..=header.base + header.count {
        last = frame_at(bytes, at, card, header, state, &last)?;
        let place = place_in_ring(card, state);
        readout.changes[place] = last.change;
        readout.entries[place * WIDTH..][..WIDTH].copy_from_slice(&last.entries);
        at += 17 + cards * 4;
    }
    Ok(at)
}

fn read_sheets(bytes: &[u8]) -> Result<Readout, Refusal> {
    let mut readout = Readout {
        changes: [0; WIDTH * IN_HAND],
        entries: [0; WIDTH * IN_HAND * WIDTH],
        sessions: [0; WIDTH],
        bases: [0; WIDTH],
        counts: [0; WIDTH],
        cards: 0,
    };
    let (mut at, mut card) = (0, 0);
    while card == 0 || card < readout.cards {
        let header = header_at(bytes, at, card, readout.cards)?;
        let c = card as usize;
        readout.cards = header.cards;
        readout.sessions[c] = header.session;
        readout.bases[c] = header.base;
        readout.counts[c] = header.count;
        at = read_card(bytes, at + 25, c, &header, &mut readout)?;
        card += 1;
    }
    refuse(at < bytes.len(), 8)?;
    Ok(readout)
}

impl Readout {
    fn stored(&self) -> [u32; WIDTH] {
        std::array::from_fn(|c| self.bases[c] + self.counts[c])
    }

    fn lowest(&self) -> u32 {
        self.sessions[..self.cards as usize].iter().copied().min().unwrap_or(0)
    }

    fn two_vectors(&self) -> bool {
        let cards = self.cards as usize;
        let mut merge = Merge::new(&self.changes, self.bases, &self.stored(), self.cards);
        let mut passed = 0;
        loop {
            let change = merge.least();
            if change <= passed {
                return false;
            }
            let vector =
                |card: usize| &self.entries[place_in_ring(card, merge.passed[card] + 1) * WIDTH..][..cards];
            let mut with = (0..WIDTH).filter(|card| merge.heads[*card] == change);
            let first = with.next();
            if first.is_some_and(|first| with.any(|other| vector(other) != vector(first))) {
                return true;
            }
            passed = change;
            merge.pass(change);
        }
    }

    fn judge(&self) -> Result<(), Refusal> {
        let low = self.lowest();
        let apart = |c: usize| {
            let ahead = self.sessions[c] - low;
            ahead > 1 || (ahead == 1 && self.counts[c] > 0)
        };
        refuse((0..self.cards as usize).any(apart), 11)?;
        refuse(low == u32::MAX, 24)?;
        refuse(self.two_vectors(), 10)
    }
}

fn read_readout(bytes: &[u8]) -> Result<Readout, Refusal> {
    refuse(65_536 < bytes.len(), 12)?;
    let readout = read_sheets(bytes)?;
    readout.judge()?;
    Ok(readout)
}

fn restarted(readout: Readout) -> Cabinet {
    let (stored, bases, low) = (readout.stored(), readout.bases, readout.lowest());
    let last = std::array::from_fn(|c| {
        let mut vector = [0; WIDTH];
        if bases[c] < stored[c] {
            let place = place_in_ring(c, stored[c]);
            vector.copy_from_slice(&readout.entries[place * WIDTH..][..WIDTH]);
        }
        vector
    });
    let rolled = (0..WIDTH).filter(|c| low < readout.sessions[*c]).fold(0, |set, c| set | 1 << c);
    Cabinet {
        line: lines(&readout.entries, readout.cards, &bases, &stored, &stored),
        entries: readout.entries,
        makers: readout.changes,
        last,
        pending: last,
        places: [FREE; PLACES],
        base: bases,
        stored,
        held: stored,
        reached: stored,
        writing: [0; WIDTH],
        ended: [0; PLACES],
        rolled,
        head: Head { session: low, cards: readout.cards, count: 0, phase: Phase::Rolling },
    }
}

#[inline(never)]
pub fn restart(bytes: &[u8]) -> Answer<()> {
    match read_readout(bytes) {
        Ok(readout) => Answer { cabinet: restarted(readout), reply: Ok(()) },
        Err(refusal) => {
            let head = Head { session: 0, cards: 0, count: 0, phase: Phase::Up };
            Answer { cabinet: Cabinet::zeros(head), reply: Err(refusal) }
        }
    }
}
