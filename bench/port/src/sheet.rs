//! Card sheets: written from the cabinet.

use crate::calls::refuse;
use crate::{has, place_in_ring, Answer, Cabinet, Phase, Refusal, WIDTH};

pub const NONE: u32 = 0xFFFF;

pub fn put_number(bytes: &mut [u8], width: usize, number: u32) {
    let mut rest = number;
    for byte in bytes[..width].iter_mut().rev() {
        *byte = b"0123456789ABCDEF"[rest as usize % 16];
        rest /= 16;
    }
}

/// The two running sums of a line of this session and card, as a number.
pub fn check_of(session: u32, card: u32, bytes: &[u8]) -> u32 {
    let (mut first, mut second) = ((card as u8).wrapping_add(1), session as u8);
    for byte in bytes {
        first = first.wrapping_add(*byte);
        second = second.wrapping_add(first);
    }
    u32::from(second) * 256 + u32::from(first)
}

fn end_line(session: u32, card: u32, line: &mut [u8], length: usize) {
    let check = check_of(session, card, &line[..length]);
    put_number(&mut line[length..], 4, check);
    line[length + 4] = 10;
}

impl Cabinet {
    #[inline(never)]
    pub fn sheet(self, card: u32, buffer: &mut [u8]) -> Answer<usize> {
        let reply = self.sheet_on(card, buffer);
        Answer { cabinet: self, reply }
    }

    pub fn sheet_on(&self, card: u32, buffer: &mut [u8]) -> Result<usize, Refusal> {
        refuse(!self.sound(), 28)?;
        refuse(!self.there(card), 2)?;
        let (base, stored) = (self.base[card as usize], self.stored[card as usize]);
        let cards = self.head.cards as usize;
        let width = 17 + cards * 4;
        let length = 25 + (stored - base) as usize * width;
        refuse(buffer.len() < length, 4)?;
        let ahead = self.head.phase == Phase::Rolling && has(self.rolled, card);
        let session = self.head.session + u32::from(ahead);
        self.put_header(session, card, &mut buffer[..25]);
        let frames = buffer[25..length].chunks_exact_mut(width);
        frames.zip(base + 1..).for_each(|(line, state)| self.put_frame(session, card, state, line));
        Ok(length)
    }

    fn put_header(&self, session: u32, card: u32, line: &mut [u8]) {
        let (base, stored) = (self.base[card as usize], self.stored[card as usize]);
        put_number(line, 8, session);
        put_number(&mut line[8..], 2, card);
        put_number(&mut line[10..], 2, self.head.cards);
        put_number(&mut line[12..], 4, base);
        put_number(&mut line[16..], 4, stored - base);
        end_line(session, card, line, 20);
    }

    fn put_frame(&self, session: u32, card: u32, state: u32, line: &mut [u8]) {
        let place = place_in_ring(card as usize, state);
        let cards = self.head.cards as usize;
        put_number(line, 4, state);
        put_number(&mut line[4..], 8, self.makers[place]);
        for (j, entry) in self.vector_at(place)[..WIDTH.min(cards)].iter().enumerate() {
            let told = if *entry == 0 { NONE } else { *entry - 1 };
            put_number(&mut line[12 + j * 4..], 4, told);
        }
        end_line(session, card, line, 12 + cards * 4);
    }
}
