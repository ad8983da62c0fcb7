//! Damage to read-outs: to fields with the checks kept right, to bytes, and to
//! lines, which stand in the wrong sheet or have a check that starts elsewhere.

use super::{all_lines, padded, write, LooseSheet, NONE};
use crate::carried::*;
use crate::random::Random;

/// A read-out made of damaged sheets.
pub fn damaged(mut sheets: Vec<LooseSheet>, random: &mut Random) -> Vec<u8> {
    let times = random.pick(&[1, 1, 1, 2, 3]);
    let kind = random.below(12);
    if kind >= 10 {
        return damage_lines(all_lines(&sheets), random);
    }
    if kind < 6 {
        for _ in 0..times {
            damage_fields(&mut sheets, random);
        }
    }
    let mut bytes = write(&sheets);
    if kind >= 5 {
        for _ in 0..times {
            damage_bytes(&mut bytes, random);
        }
    }
    bytes
}

/// Damage that keeps every check right.
fn damage_fields(sheets: &mut Vec<LooseSheet>, random: &mut Random) {
    let which = random.place(sheets.len());
    match random.below(12) {
        0..=2 => damage_header(&mut sheets[which], random),
        3 | 4 => damage_sessions(sheets, which, random),
        5..=8 => damage_frame(&mut sheets[which], random),
        9 => two_vectors(sheets, random),
        10 => damage_frame_list(&mut sheets[which], random),
        _ => damage_sheet_list(sheets, which, random),
    }
    if sheets.is_empty() {
        sheets.push(LooseSheet { session: 1, card: 0, cards: 1, base: 0, count: 0, frames: Vec::new() });
    }
}

fn damage_header(sheet: &mut LooseSheet, random: &mut Random) {
    match random.below(9) {
        0 => sheet.session = 0,
        1 => sheet.card = random.pick(&[sheet.card.wrapping_add(1), sheet.card.wrapping_sub(1), 16, 255]),
        2 => {
            sheet.cards = random.pick(&[0, 17, 255, sheet.cards.wrapping_add(1), sheet.cards.wrapping_sub(1)])
        }
        3 => sheet.count = sheet.count.wrapping_add(1),
        4 => sheet.count = sheet.count.saturating_sub(1),
        5 => sheet.count = random.pick(&[48, 49, 65_535]),
        6 => {
            sheet.base = random.pick(&[
                60_000u32.wrapping_sub(sheet.count),
                60_001u32.wrapping_sub(sheet.count),
                60_000,
                60_001,
                65_535,
            ])
        }
        7 => sheet.base = sheet.base.saturating_sub(1),
        _ => move_states(sheet, random.pick(&[1, 3, 59_000])),
    }
}

/// Moves base and states together; over the limit it is the header's fault.
fn move_states(sheet: &mut LooseSheet, by: u32) {
    sheet.base = sheet.base.wrapping_add(by);
    for frame in &mut sheet.frames {
        frame.state = frame.state.wrapping_add(by);
        if let Some(own) = frame.entries.get_mut(sheet.card as usize) {
            *own = frame.state.wrapping_sub(1);
        }
    }
}

fn damage_sessions(sheets: &mut [LooseSheet], which: usize, random: &mut Random) {
    match random.below(5) {
        0 => sheets[which].session = sheets[which].session.wrapping_add(1),
        1 => sheets[which].session = sheets[which].session.wrapping_add(2),
        2 => {
            sheets[which].session = sheets[which].session.wrapping_add(1);
            sheets[which].frames.clear();
            sheets[which].count = 0;
        }
        3 => sheets.iter_mut().for_each(|sheet| sheet.session = u32::MAX),
        _ => {
            let session = random.pick(&[u32::MAX - 1, u32::MAX]);
            sheets.iter_mut().for_each(|sheet| sheet.session = session);
            sheets[which].session = u32::MAX;
        }
    }
}

fn damage_frame(sheet: &mut LooseSheet, random: &mut Random) {
    if sheet.frames.is_empty() {
        return damage_header(sheet, random);
    }
    let place = random.place(sheet.frames.len());
    let earlier = place.checked_sub(1).map(|place| sheet.frames[place].clone());
    let card = sheet.card as usize;
    let frame = &mut sheet.frames[place];
    let entry = random.place(frame.entries.len());
    match random.below(9) {
        0 => frame.state = random.pick(&[frame.state.wrapping_add(1), frame.state.wrapping_sub(1), 0]),
        1 => frame.change = 0,
        2 => frame.change = earlier.map_or(0, |earlier| earlier.change),
        3 => frame.change = random.pick(&[1, u32::MAX, frame.change.wrapping_add(1)]),
        4 => {
            if let Some(own) = frame.entries.get_mut(card) {
                *own = random.pick(&[own.wrapping_add(1), own.wrapping_sub(1), NONE]);
            }
        }
        5 => frame.entries[entry] = random.pick(&[59_999, 60_000, 60_001, 65_534]),
        6 => frame.entries[entry] = NONE,
        7 => frame.entries[entry] = frame.entries[entry].wrapping_sub(1),
        _ => frame.entries[entry] = random.from_to(0, 59_999),
    }
}

/// The change number of one sheet's frame goes onto a frame of another.
fn two_vectors(sheets: &mut [LooseSheet], random: &mut Random) {
    let (from, to) = (random.place(sheets.len()), random.place(sheets.len()));
    if from == to || sheets[from].frames.is_empty() || sheets[to].frames.is_empty() {
        return;
    }
    let source = random.place(sheets[from].frames.len());
    let frame = sheets[from].frames[source].clone();
    let rising: Vec<usize> = (0..sheets[to].frames.len())
        .filter(|place| {
            let frames = &sheets[to].frames;
            (*place == 0 || frames[place - 1].change < frame.change)
                && (*place + 1 == frames.len() || frames[place + 1].change > frame.change)
        })
        .collect();
    if rising.is_empty() {
        return;
    }
    let place = random.pick(&rising);
    sheets[to].frames[place].change = frame.change;
}

fn damage_frame_list(sheet: &mut LooseSheet, random: &mut Random) {
    if sheet.frames.is_empty() {
        return;
    }
    let (place, other) = (random.place(sheet.frames.len()), random.place(sheet.frames.len()));
    match random.below(5) {
        0 => {
            sheet.frames.remove(place);
        }
        1 => {
            sheet.frames.pop();
        }
        2 => {
            sheet.frames.pop();
            sheet.count = sheet.frames.len() as u32;
        }
        3 => sheet.frames.insert(place, sheet.frames[other].clone()),
        _ => sheet.frames.swap(place, other),
    }
}

fn damage_sheet_list(sheets: &mut Vec<LooseSheet>, which: usize, random: &mut Random) {
    let other = random.place(sheets.len());
    match random.below(4) {
        0 => sheets.swap(which, other),
        1 => {
            sheets.remove(which);
        }
        2 => sheets.push(sheets[which].clone()),
        _ => {
            let frames = sheets[other].frames.clone();
            sheets[which].count = frames.len() as u32;
            sheets[which].frames = frames;
        }
    }
}

/// A line carried to another sheet, or checks that start elsewhere.
fn damage_lines(mut lines: Vec<Line>, random: &mut Random) -> Vec<u8> {
    let pairs: [Pair; 4] = [frame_to_frame, frame_to_frame, header_to_frame, frame_to_header];
    let pair = any_pair(&lines, random.pick(&pairs), random);
    if let Some((from, to)) = pair.filter(|_| random.chance(700)) {
        let carry: Carry = random.pick(&[in_place_of as Carry, in_front_of]);
        return carry(&lines, from, to);
    }
    if random.chance(250) {
        lines.iter_mut().for_each(|line| line.bytes = by_older_rule(&line.bytes));
    } else {
        let place = random.place(lines.len());
        lines[place].bytes = with_another_start(&lines[place], random);
    }
    joined(&lines)
}

/// A line with the check of another session or card, now and then of one that
/// has the same start; or a header that names another card than its check is of.
fn with_another_start(line: &Line, random: &mut Random) -> Vec<u8> {
    let Line { session, card, bytes, .. } = line;
    match random.below(6) {
        0 => by_older_rule(bytes),
        1 => checked_as(bytes, session.wrapping_add(random.pick(&[1, 255, 256])), *card),
        2 => checked_as(bytes, random.bits() as u32, *card),
        3 => checked_as(bytes, *session, card ^ 1),
        4 if line.is_header => naming(line, random.pick(&[card ^ 1, 15, 16, 255])),
        _ => checked_as(bytes, *session, random.from_to(0, 255)),
    }
}

/// Damage to the bytes themselves.
fn damage_bytes(bytes: &mut Vec<u8>, random: &mut Random) {
    if bytes.is_empty() {
        return bytes.push(10);
    }
    let place = random.place(bytes.len());
    let digit = random.pick(b"0123456789ABCDEF");
    match random.below(40) {
        0..=9 => bytes[place] = digit,
        10..=13 => bytes[place] = random.bits() as u8,
        14..=17 => bytes.truncate(place),
        18 | 19 => {
            let end = bytes[..place].iter().rposition(|byte| *byte == 10).map_or(0, |end| end + 1);
            bytes.truncate(end);
        }
        20 | 21 => {
            bytes.pop();
        }
        22..=24 => bytes.insert(place, digit),
        25..=27 => {
            bytes.remove(place);
        }
        28 | 29 => bytes.push(random.pick(&[10, b'0', b'F', 0, 255])),
        30 | 31 => bytes[place] = bytes[place].to_ascii_lowercase(),
        32 => bytes.insert(place, 13),
        33 | 34 => drop_line(bytes, place),
        35 => bytes.truncate(bytes.len().min(25)),
        36 => bytes[place] = 10,
        37 if random.chance(100) => bytes.clear(),
        38 if random.chance(60) => *bytes = padded(bytes.clone(), random.from_to(65_535, 65_538) as usize),
        39 => bytes[place] = bytes[place].wrapping_add(128),
        _ => {
            let next = (place + 1).min(bytes.len() - 1);
            bytes.swap(place, next);
        }
    }
}

/// Takes out the line around a place.
fn drop_line(bytes: &mut Vec<u8>, place: usize) {
    let from = bytes[..place].iter().rposition(|byte| *byte == 10).map_or(0, |end| end + 1);
    let to = bytes[place..].iter().position(|byte| *byte == 10).map_or(bytes.len(), |end| place + end + 1);
    bytes.drain(from..to);
}
