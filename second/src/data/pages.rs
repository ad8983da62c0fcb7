//! Single sheets, told their card: read, and written again from what was read.

use super::spoiled::{alike, altered, frame, header, of_header, over_two_frames, worked, HEADERS};
use super::Record;
use crate::answer::vector_text;
use crate::carried::{by_older_rule, joined, naming, Line};
use crate::random::Random;
use crate::readouts::{family, largest, Size};
use crate::sheet::{read_sheet, read_sheets, write_sheet, Sheet};

/// The buffer of the writer.
const ROOM: usize = 4_096;

/// What is read: its numbers and frames, and how many numbers of the read-out
/// handed back are not 0; then the sheet written into the room.
pub fn page_answer(bytes: &[u8], card: usize, room: usize) -> String {
    match read_sheet(bytes, card) {
        Err(refusal) => format!("refused {}\nheld 0 0 0 0 0\n", refusal.number()),
        Ok(sheet) => read_text(&sheet) + &held_text(&sheet) + &written_text(&sheet, room),
    }
}

fn read_text(sheet: &Sheet) -> String {
    let count = sheet.frames.len();
    let mut text = format!("read {} {} {} {count}\n", sheet.session, sheet.cards, sheet.base);
    for frame in &sheet.frames {
        text += &format!(" {}{}\n", frame.change, vector_text(&frame.vector));
    }
    text
}

/// Sessions, bases, counts, changes, entries.
fn held_text(sheet: &Sheet) -> String {
    let (bases, counts) = (usize::from(sheet.base > 0), usize::from(!sheet.frames.is_empty()));
    let entries = sheet.frames.iter().flat_map(|frame| &frame.vector).flatten().count();
    format!("held 1 {bases} {counts} {} {entries}\n", sheet.frames.len())
}

fn written_text(sheet: &Sheet, room: usize) -> String {
    let bytes = write_sheet(sheet);
    if bytes.len() > room {
        return "refused 4\naltered 0\n".to_string();
    }
    format!("wrote\n{}altered 0\n", String::from_utf8_lossy(&bytes))
}

/// The sheets of an accepted read-out, each into a buffer that is just long
/// enough and into one that is a byte short.
fn sheets_of(readout: &[u8]) -> Vec<Record> {
    let mut all = Vec::new();
    for sheet in read_sheets(readout).unwrap_or_default() {
        let bytes = write_sheet(&sheet);
        let length = bytes.len();
        all.extend([length, length - 1].map(|room| Record::page(bytes.clone(), sheet.card, room)));
    }
    all
}

pub fn records() -> Vec<Record> {
    let (first, second) = (worked()[..75].to_vec(), worked()[75..].to_vec());
    let mut all = Vec::new();
    for bytes in [&first, &second, &worked(), &Vec::new()] {
        all.extend([0, 1, 16, 99].map(|card| Record::page(bytes.clone(), card, ROOM)));
    }
    for total in [65_536, 65_537, 65_540] {
        all.extend([&first, &Vec::new()].map(|bytes| Record::page(bytes.clone(), 0, ROOM).filled_to(total)));
    }
    all.extend(one_frame_short());
    all.extend(with_a_line_of_another());
    let mut random = Random::new(40);
    let places = (0..first.len()).map(|place| altered(&first, place, &mut random, place % 2 == 0));
    all.extend(places.map(|bytes| Record::page(bytes, 0, ROOM)));
    let due = |header: [u32; 5]| Record::page(of_header(header), header[1] as usize, ROOM);
    all.extend(HEADERS.map(due));
    all.push(due([1, 15, 16, 0, 0]));
    all.extend([75, 74, ROOM, 0].map(|room| Record::page(first.clone(), 0, room)));
    all.extend([25, 24].map(|room| Record::page(second.clone(), 1, room)));
    for seed in 0..12 {
        all.extend(sheets_of(&family(seed, Size::Short, 0).0));
    }
    all.extend(sheets_of(&largest()).into_iter().skip(14).take(2));
    all
}

/// Three frames declared over two: 8 where the input ends, else 5, 6 or 9.
fn one_frame_short() -> Vec<Record> {
    let third = frame(3, 3, &[Some(2)]);
    let mut wrong = third.clone();
    wrong[19] = b'X';
    let more = [Vec::new(), b"0".to_vec(), frame(4, 3, &[Some(3)]), wrong, altered_check(&third), third];
    let all = more.map(|more| Record::page([over_two_frames(3), more].concat(), 0, ROOM));
    all.into_iter()
        .chain([Record::page([header(1, 0, 1, 0, 1), header(1, 0, 1, 0, 0)].concat(), 0, ROOM)])
        .collect()
}

/// A sheet with each of its lines by the older rule, or the same line of the
/// other card in its place; with a header that names the other card, or 255.
fn with_a_line_of_another() -> Vec<Record> {
    let lines = alike(1, 2, 2);
    let (first, second) = lines.split_at(3);
    let mut all = Vec::new();
    for (own, other) in [(first, second), (second, first)] {
        let with = |place: usize, bytes: Vec<u8>| {
            let mut lines: Vec<Line> = own.to_vec();
            lines[place].bytes = bytes;
            [0, 1].map(|card| Record::page(joined(&lines), card, ROOM))
        };
        for place in 0..3 {
            all.extend(with(place, other[place].bytes.clone()));
            all.extend(with(place, by_older_rule(&own[place].bytes)));
        }
        all.extend(with(0, naming(&own[0], other[0].card)));
        all.extend(with(0, header(1, 255, 2, 0, 2)));
    }
    all
}

/// A line with a digit of its check altered.
fn altered_check(line: &[u8]) -> Vec<u8> {
    let mut line = line.to_vec();
    let last = line.len() - 2;
    line[last] = if line[last] == b'0' { b'1' } else { b'0' };
    line
}
