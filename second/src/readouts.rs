//! Random read-outs, valid and damaged.

mod damage;

use crate::carried::{joined, Line};
use crate::lists;
use crate::random::Random;
use crate::replay::Place;
use crate::sheet::{digits, finish_line, header_line, Frame, Sheet};
use damage::damaged;

/// A frame with any fields, within their digits.
#[derive(Clone)]
struct LooseFrame {
    state: u32,
    change: u32,
    entries: Vec<u32>,
}

/// A sheet with any fields, within their digits.
#[derive(Clone)]
struct LooseSheet {
    session: u32,
    card: u32,
    cards: u32,
    base: u32,
    count: u32,
    frames: Vec<LooseFrame>,
}

const NONE: u32 = 0xFFFF;

fn loose_frame(frame: Frame) -> LooseFrame {
    let entries = frame.vector.iter().map(|entry| entry.unwrap_or(NONE)).collect();
    LooseFrame { state: frame.state, change: frame.change, entries }
}

fn loose_sheet(sheet: Sheet) -> LooseSheet {
    LooseSheet {
        session: sheet.session,
        card: sheet.card as u32,
        cards: sheet.cards as u32,
        base: sheet.base,
        count: sheet.frames.len() as u32,
        frames: sheet.frames.into_iter().map(loose_frame).collect(),
    }
}

/// A sheet's lines with right checks, whatever the fields.
fn loose_lines(sheet: &LooseSheet) -> Vec<Line> {
    let LooseSheet { session, card, cards, base, count, .. } = *sheet;
    let line = |is_header, bytes| Line { session, card, is_header, bytes };
    let header = header_line(session, card & 0xFF, cards & 0xFF, base & NONE, count & NONE);
    let frames = sheet.frames.iter().map(|frame| {
        let mut text = digits(frame.state & NONE, 4) + &digits(frame.change, 8);
        frame.entries.iter().for_each(|entry| text += &digits(entry & NONE, 4));
        line(false, finish_line(session, card, text.as_bytes()))
    });
    [line(true, header)].into_iter().chain(frames).collect()
}

fn write(sheets: &[LooseSheet]) -> Vec<u8> {
    joined(&all_lines(sheets))
}

fn all_lines(sheets: &[LooseSheet]) -> Vec<Line> {
    sheets.iter().flat_map(loose_lines).collect()
}

/// How large the read-outs get.
#[derive(Clone, Copy, PartialEq, Eq)]
pub enum Size {
    Any,
    Short,
}

/// The read-out of a seed.
pub fn readout(seed: u64) -> Vec<u8> {
    let mut random = Random::new(seed ^ 0xD15C);
    if random.chance(10) {
        return noise(&mut random);
    }
    let sheets = sound_sheets(&mut random, Size::Any);
    if random.chance(250) {
        return write(&sheets);
    }
    damaged(sheets, &mut random)
}

/// No read-out at all, or lines that but for their checks can be headers and
/// frames both.
fn noise(random: &mut Random) -> Vec<u8> {
    let length = random.place(120);
    match random.below(4) {
        0 => (0..length).map(|_| random.bits() as u8).collect(),
        1 => (0..length).map(|_| random.pick(b"0123456789ABCDEF\n")).collect(),
        2 => (0..length / 24).flat_map(|_| header_line(random.bits() as u32, 0, 1, 0, 0)).collect(),
        _ => lines_of_two_kinds(random.chance(500)),
    }
}

/// Two cards, where header and frame have one length: but for their checks the
/// header and the first frame of card 1 can also be a frame of card 0 and the
/// header of card 1. With the last frame of card 0 gone (`cut`) they stand where
/// those are due.
pub fn lines_of_two_kinds(cut: bool) -> Vec<u8> {
    let session = 0x0030_0005;
    let frame = |card: u32, state: u32, change: u32, other: u32| {
        let entries = if card == 0 { vec![state - 1, other] } else { vec![other, state - 1] };
        LooseFrame { state, change, entries }
    };
    let first = (1..=48).map(|state| frame(0, state, state, NONE));
    let second = (48..=95).map(|state| frame(1, state, 0x0005_0102 + state - 48, 48));
    let sheet =
        |card, base, frames: Vec<LooseFrame>| LooseSheet { session, card, cards: 2, base, count: 48, frames };
    let mut sheets = [sheet(0, 0, first.collect()), sheet(1, 47, second.collect())];
    if cut {
        sheets[0].frames.pop();
    }
    write(&sheets)
}

/// A read-out without damage, and so many damaged ones made of it.
pub fn family(seed: u64, size: Size, count: usize) -> (Vec<u8>, Vec<Vec<u8>>) {
    let mut random = Random::new(seed ^ 0xFA31);
    let sheets = sound_sheets(&mut random, size);
    let damaged = (0..count).map(|_| damaged(sheets.clone(), &mut random)).collect();
    (write(&sheets), damaged)
}

/// The largest read-out there is: 16 cards with 48 frames each.
pub fn largest() -> Vec<u8> {
    write(&made_up(&mut Random::new(1), 16, 48, true))
}

/// A read-out padded to a length with byte 10.
pub fn padded(mut bytes: Vec<u8>, length: usize) -> Vec<u8> {
    bytes.resize(length.max(bytes.len()), 10);
    bytes
}

fn sound_sheets(random: &mut Random, size: Size) -> Vec<LooseSheet> {
    if size == Size::Any && random.chance(3) {
        return made_up(random, 16, 48, true);
    }
    if random.chance(350) {
        return from_list(random, size);
    }
    let cards = match size {
        Size::Any => random.pick(&[1, 1, 2, 2, 2, 3, 3, 4, 4, 5, 7, 9, 16]),
        Size::Short => random.pick(&[1, 1, 2, 2, 2, 3, 3, 4]),
    };
    let most = match size {
        Size::Any => random.pick(&[0, 2, 3, 4, 6, 9, 48]),
        Size::Short => random.pick(&[1, 2, 3, 4]),
    };
    made_up(random, cards, most, false)
}

/// The sheets of a cabinet somewhere in a random list.
fn from_list(random: &mut Random, size: Size) -> Vec<LooseSheet> {
    let style =
        random.pick(&[lists::Style::Roll, lists::Style::Half, lists::Style::Mixed, lists::Style::Small]);
    let style = if size == Size::Short { lists::Style::Small } else { style };
    let cards = if size == Size::Short { random.from_to(1, 3) } else { random.pick(&[1, 2, 3, 4, 6, 16]) };
    let length = random.from_to(5, 140) as usize;
    let lines = lists::sized_list(random.bits(), style, length, cards);
    let mut place = Place::default();
    for line in &lines[..length] {
        place.answer_line(line);
    }
    match place.cabinet {
        Some(cabinet) => (0..cabinet.cards.len()).map(|card| loose_sheet(cabinet.sheet_of(card))).collect(),
        None => made_up(random, 1, 0, false),
    }
}

/// Sheets that break no rule of a sheet, though no list may ever give them.
fn made_up(random: &mut Random, cards: u32, most: u32, full: bool) -> Vec<LooseSheet> {
    let session = match random.below(8) {
        0 => random.bits() as u32,
        1 => random.pick(&[4_294_967_294, 4_294_967_293, 1]),
        2 => random.pick(&[0xFF, 0x100, 0x1FF, 0xFFFF_FEFF, 0xFFFF_FF00]),
        _ => random.from_to(1, 9),
    }
    .max(1);
    let ahead = if random.chance(300) { random.bits() as u32 } else { 0 };
    (0..cards)
        .map(|card| {
            let is_ahead = !full && ahead >> card & 1 == 1 && card != 0 && session < u32::MAX;
            let count = if full {
                most
            } else if is_ahead {
                0
            } else {
                random.from_to(0, most)
            };
            let highest = 60_000 - count;
            let base = match random.below(6) {
                0 => highest,
                1 => random.from_to(0, highest),
                _ => random.from_to(0, 5),
            };
            made_up_sheet(random, session + u32::from(is_ahead), card, cards, base, count)
        })
        .collect()
}

fn made_up_sheet(
    random: &mut Random,
    session: u32,
    card: u32,
    cards: u32,
    base: u32,
    count: u32,
) -> LooseSheet {
    let mut sheet = LooseSheet { session, card, cards, base, count, frames: Vec::new() };
    let mut change = card;
    let mut entries = vec![NONE; cards as usize];
    for state in base + 1..=base + count {
        change += cards * random.from_to(1, 3);
        for entry in entries.iter_mut() {
            *entry = grown(random, *entry);
        }
        entries[card as usize] = state - 1;
        sheet.frames.push(LooseFrame { state, change, entries: entries.clone() });
    }
    sheet
}

/// An entry of the next frame: the same or greater.
fn grown(random: &mut Random, entry: u32) -> u32 {
    let least = if entry == NONE { 0 } else { entry };
    match random.below(24) {
        0 => random.from_to(least, 59_999),
        1..=4 => (least + random.from_to(0, 2)).min(59_999),
        _ => entry,
    }
}
