//! Card sheets: their lines, the writer and the reader.

use crate::history::Vector;
use crate::limits::*;
use crate::refusal::Refusal;

/// A frame: a state, the change that made it, and its vector.
#[derive(Clone, PartialEq, Eq, Debug)]
pub struct Frame {
    pub state: u32,
    pub change: u32,
    pub vector: Vector,
}

/// A sheet of one card. Its frames run from base + 1.
#[derive(Clone, PartialEq, Eq, Debug)]
pub struct Sheet {
    pub session: u32,
    pub card: usize,
    pub cards: usize,
    pub base: u32,
    pub frames: Vec<Frame>,
}

impl Sheet {
    pub fn stored(&self) -> u32 {
        self.base + self.frames.len() as u32
    }
}

/// The digits of a header, its check among them.
pub const HEADER_DIGITS: usize = 24;

/// The digits of a frame of this many cards, its check among them.
pub fn frame_digits(cards: usize) -> usize {
    16 + 4 * cards
}

/// None is written FFFF.
const NONE: u32 = 0xFFFF;

/// The two running sums over the bytes before the check: second, first. The
/// first starts at the card number plus one, the second at the session's
/// lowest eight bits.
fn check_of(session: u32, card: u32, bytes: &[u8]) -> u32 {
    let mut first = (card as u8).wrapping_add(1);
    let mut second = session as u8;
    for byte in bytes {
        first = first.wrapping_add(*byte);
        second = second.wrapping_add(first);
    }
    u32::from(second) * 256 + u32::from(first)
}

/// A number in so many upper-case digits.
pub fn digits(number: u32, count: usize) -> String {
    format!("{number:0count$X}")
}

/// A line of this session and card: its digits, their check and byte 10.
pub fn finish_line(session: u32, card: u32, text: &[u8]) -> Vec<u8> {
    let check = check_of(session, card, text);
    [text, digits(check, 4).as_bytes(), b"\n"].concat()
}

/// A header line from its fields, whatever they are.
pub fn header_line(session: u32, card: u32, cards: u32, base: u32, count: u32) -> Vec<u8> {
    let text =
        digits(session, 8) + &digits(card, 2) + &digits(cards, 2) + &digits(base, 4) + &digits(count, 4);
    finish_line(session, card, text.as_bytes())
}

/// A frame line in a sheet of this session and card.
pub fn frame_line(session: u32, card: u32, frame: &Frame) -> Vec<u8> {
    let mut text = digits(frame.state, 4) + &digits(frame.change, 8);
    for entry in &frame.vector {
        text += &digits(entry.unwrap_or(NONE), 4);
    }
    finish_line(session, card, text.as_bytes())
}

/// The writer of a sheet.
pub fn write_sheet(sheet: &Sheet) -> Vec<u8> {
    let (card, count) = (sheet.card as u32, sheet.frames.len() as u32);
    let mut bytes = header_line(sheet.session, card, sheet.cards as u32, sheet.base, count);
    for frame in &sheet.frames {
        bytes.extend(frame_line(sheet.session, card, frame));
    }
    bytes
}

/// The input of a reader, and how far it is read.
struct Input<'a> {
    bytes: &'a [u8],
    at: usize,
}

impl<'a> Input<'a> {
    /// The digits of the next line, so many with its check.
    fn line(&mut self, count: usize) -> Result<&'a [u8], Refusal> {
        let rest = &self.bytes[self.at..];
        if rest.is_empty() {
            return Err(Refusal::WrongEnd);
        }
        if rest.len() <= count || rest[count] != 10 || !rest[..count].iter().all(is_digit) {
            return Err(Refusal::WrongLine);
        }
        self.at += count + 1;
        Ok(&rest[..count])
    }

    fn at_end(&self) -> bool {
        self.at == self.bytes.len()
    }
}

fn is_digit(byte: &u8) -> bool {
    matches!(byte, b'0'..=b'9' | b'A'..=b'F')
}

/// The number that up to eight digits stand for.
fn value(digits: &[u8]) -> u32 {
    digits.iter().fold(0, |sum, digit| {
        let digit = if *digit <= b'9' { digit - b'0' } else { digit - b'A' + 10 };
        sum * 16 + u32::from(digit)
    })
}

/// What stands before the check of a line of this session and card.
fn checked(line: &[u8], session: u32, card: u32) -> Result<&[u8], Refusal> {
    let (text, check) = line.split_at(line.len() - 4);
    if value(check) != check_of(session, card, text) {
        return Err(Refusal::WrongCheck);
    }
    Ok(text)
}

/// A header read: the sheet still without frames, and its frame count. Its
/// check goes by the session and card that it names.
fn read_header(input: &mut Input, due: usize, first: Option<usize>) -> Result<(Sheet, u32), Refusal> {
    let line = input.line(HEADER_DIGITS)?;
    let session = value(&line[0..8]);
    let card = value(&line[8..10]) as usize;
    let text = checked(line, session, card as u32)?;
    let cards = value(&text[10..12]) as usize;
    let base = value(&text[12..16]);
    let count = value(&text[16..20]);
    let fault = session == 0
        || card != due
        || card >= cards
        || !(1..=MOST_CARDS).contains(&cards)
        || first.is_some_and(|first| first != cards)
        || count > MOST_IN_HAND
        || base + count > HIGHEST_STATE;
    if fault {
        return Err(Refusal::WrongHeader);
    }
    Ok((Sheet { session, card, cards, base, frames: Vec::new() }, count))
}

/// The next frame of a sheet. Its check goes by the header's session and card.
fn read_frame(input: &mut Input, sheet: &Sheet) -> Result<Frame, Refusal> {
    let text = checked(input.line(frame_digits(sheet.cards))?, sheet.session, sheet.card as u32)?;
    let entries: Vec<u32> = text[12..].chunks(4).map(value).collect();
    let frame = Frame {
        state: value(&text[0..4]),
        change: value(&text[4..12]),
        vector: entries.iter().map(|entry| (*entry != NONE).then_some(*entry)).collect(),
    };
    let fault = frame.state != sheet.stored() + 1
        || frame.change == 0
        || frame.vector[sheet.card] != Some(frame.state - 1)
        || frame.vector.iter().flatten().any(|entry| *entry >= HIGHEST_STATE)
        || sheet.frames.last().is_some_and(|last| !follows(&frame, last));
    if fault {
        return Err(Refusal::WrongFrame);
    }
    Ok(frame)
}

/// The change rises and no entry falls; none is below every number.
fn follows(frame: &Frame, last: &Frame) -> bool {
    frame.change > last.change && frame.vector.iter().zip(&last.vector).all(|(now, then)| now >= then)
}

fn read_next(input: &mut Input, due: usize, first: Option<usize>) -> Result<Sheet, Refusal> {
    let (mut sheet, count) = read_header(input, due, first)?;
    for _ in 0..count {
        let frame = read_frame(input, &sheet)?;
        sheet.frames.push(frame);
    }
    Ok(sheet)
}

/// The reader of one sheet; it is told the card.
pub fn read_sheet(bytes: &[u8], card: usize) -> Result<Sheet, Refusal> {
    if bytes.len() > MOST_BYTES {
        return Err(Refusal::TooLong);
    }
    let mut input = Input { bytes, at: 0 };
    let sheet = read_next(&mut input, card, None)?;
    if !input.at_end() {
        return Err(Refusal::WrongEnd);
    }
    Ok(sheet)
}

/// The sheets of all cards, joined in card order.
pub fn read_sheets(bytes: &[u8]) -> Result<Vec<Sheet>, Refusal> {
    if bytes.len() > MOST_BYTES {
        return Err(Refusal::TooLong);
    }
    let mut input = Input { bytes, at: 0 };
    let mut sheets = vec![read_next(&mut input, 0, None)?];
    let cards = sheets[0].cards;
    for card in 1..cards {
        sheets.push(read_next(&mut input, card, Some(cards))?);
    }
    if !input.at_end() {
        return Err(Refusal::WrongEnd);
    }
    Ok(sheets)
}
