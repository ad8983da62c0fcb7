//! The lines of sheets one by one, and lines where they do not belong: carried
//! from another sheet, or with a check that starts elsewhere.

use crate::random::Random;
use crate::sheet::{digits, finish_line, write_sheet, Sheet};

/// A line as it stands, with the session and card of its sheet.
#[derive(Clone)]
pub struct Line {
    pub session: u32,
    pub card: u32,
    pub is_header: bool,
    pub bytes: Vec<u8>,
}

/// The lines that the writer makes of sheets.
pub fn lines_of(sheets: &[Sheet]) -> Vec<Line> {
    let lines = |sheet: &Sheet| -> Vec<Line> {
        let (session, card) = (sheet.session, sheet.card as u32);
        let bytes = write_sheet(sheet);
        let lines = bytes.split_inclusive(|byte| *byte == 10).enumerate();
        lines
            .map(|(place, line)| Line { session, card, is_header: place == 0, bytes: line.to_vec() })
            .collect()
    };
    sheets.iter().flat_map(lines).collect()
}

pub fn joined(lines: &[Line]) -> Vec<u8> {
    lines.iter().flat_map(|line| line.bytes.clone()).collect()
}

/// A line carried to the place of another one, unaltered.
pub fn in_place_of(lines: &[Line], from: usize, to: usize) -> Vec<u8> {
    let mut lines = lines.to_vec();
    lines[to] = lines[from].clone();
    joined(&lines)
}

/// A line carried to the place before another one, unaltered.
pub fn in_front_of(lines: &[Line], from: usize, to: usize) -> Vec<u8> {
    let mut lines = lines.to_vec();
    lines.insert(to, lines[from].clone());
    joined(&lines)
}

/// Whether a line is carried to the place of another one, or before it.
pub type Carry = fn(&[Line], usize, usize) -> Vec<u8>;

/// Which line is carried, and to which other one.
pub type Pair = fn(&Line, &Line) -> bool;

/// A frame to a frame of another card.
pub fn frame_to_frame(from: &Line, to: &Line) -> bool {
    !from.is_header && !to.is_header && from.card != to.card
}

/// A header to a frame of another card.
pub fn header_to_frame(from: &Line, to: &Line) -> bool {
    from.is_header && !to.is_header && from.card != to.card
}

/// A frame to the header of the next card.
pub fn frame_to_header(from: &Line, to: &Line) -> bool {
    !from.is_header && to.is_header && from.card + 1 == to.card
}

/// All such pairs of lines.
pub fn all_pairs(lines: &[Line], pair: Pair) -> Vec<(usize, usize)> {
    let with = |to: usize| partners(lines, to, pair).into_iter().map(move |from| (from, to));
    (0..lines.len()).flat_map(with).collect()
}

/// One such pair of lines, if there is any.
pub fn any_pair(lines: &[Line], pair: Pair, random: &mut Random) -> Option<(usize, usize)> {
    let first = random.place(lines.len());
    (first..lines.len()).chain(0..first).find_map(|to| {
        let partners = partners(lines, to, pair);
        (!partners.is_empty()).then(|| (random.pick(&partners), to))
    })
}

fn partners(lines: &[Line], to: usize, pair: Pair) -> Vec<usize> {
    (0..lines.len()).filter(|from| pair(&lines[*from], &lines[to])).collect()
}

/// A line with the check of another session and card.
pub fn checked_as(line: &[u8], session: u32, card: u32) -> Vec<u8> {
    finish_line(session, card, &line[..line.len() - 5])
}

/// A line with document 01's check: both sums from 0, as for session 0 and
/// card 255.
pub fn by_older_rule(line: &[u8]) -> Vec<u8> {
    checked_as(line, 0, 255)
}

/// A header that names another card, with the check of its own.
pub fn naming(header: &Line, card: u32) -> Vec<u8> {
    let mut bytes = header.bytes.clone();
    bytes[8..10].copy_from_slice(digits(card, 2).as_bytes());
    checked_as(&bytes, header.session, header.card)
}
