//! The data of the gate's programs: what each is given, and what it must write.

mod pages;
mod spoiled;

use crate::lists::{joined, sized_list, styled_list, summit, Style};
use crate::readouts::{family, largest, lines_of_two_kinds, Size};
use crate::replay::{lines_of, replay, Place};
use crate::restart::line_text;
use pages::page_answer;

/// The input of a program and its output.
pub struct Data {
    pub stdin: Vec<u8>,
    pub stdout: Vec<u8>,
}

/// Lists by hand, one call a line; a line that begins with `#` is a comment.
const BY_HAND: [&str; 4] = [
    include_str!("../lists/calls.txt"),
    include_str!("../lists/samples.txt"),
    include_str!("../lists/refusals.txt"),
    include_str!("../lists/writes.txt"),
];

/// The random lists, in turn: style, calls, and the cards of the cabinet.
const KINDS: [(Style, usize, u32); 16] = [
    (Style::Mixed, 180, 2),
    (Style::Half, 180, 3),
    (Style::Wide, 150, 8),
    (Style::Roll, 180, 3),
    (Style::Small, 120, 1),
    (Style::Long, 200, 3),
    (Style::Roll, 200, 5),
    (Style::Mixed, 220, 4),
    (Style::Deep, 200, 1),
    (Style::Long, 200, 2),
    (Style::Half, 200, 4),
    (Style::Wide, 150, 5),
    (Style::Small, 120, 3),
    (Style::Mixed, 240, 6),
    (Style::Half, 220, 16),
    (Style::Deep, 320, 2),
];

/// How many random lists there are, besides a full cabinet's.
const LISTS: u64 = 208;

/// How many read-outs are damaged, each in eight ways.
const FAMILIES: u64 = 264;

/// The lists of `replay`, one after the other; the last line has no byte 10.
pub fn calls() -> Data {
    let by_hand = BY_HAND.iter().flat_map(|text| lines_of(text.as_bytes()));
    let mut lines: Vec<Vec<u8>> =
        by_hand.filter(|line| !line.starts_with(b"#")).map(<[u8]>::to_vec).collect();
    for seed in 0..LISTS {
        let (style, length, cards) = KINDS[seed as usize % KINDS.len()];
        lines.extend(sized_list(seed, style, length, cards));
    }
    lines.extend(styled_list(LISTS, Style::Full));
    let mut stdin = joined(&lines);
    stdin.pop();
    Data { stdout: replay(&stdin).into_bytes(), stdin }
}

/// "Input" and "Output" of document 01's worked read-out, for `line`.
pub fn worked_line() -> Data {
    let stdin = spoiled::worked();
    Data { stdout: line_text(&stdin).into_bytes(), stdin }
}

/// What `check_forged` writes: on forged cabinets as kept by hand, then the
/// answers to the end of its climb.
pub fn forged() -> Vec<u8> {
    let (climb, end) = summit();
    let mut place = Place::default();
    for line in climb {
        place.answer_line(line.as_bytes());
    }
    let by_hand = include_str!("../answers/forged.txt").to_string();
    let answers = end.iter().map(|line| place.answer_line(line.as_bytes()).text());
    (by_hand + &answers.collect::<String>()).into_bytes()
}

/// A record of `check_sheets`: a word, a card, the room of the writer's
/// buffer, and bytes, filled up to a total with digits 0.
struct Record {
    word: &'static str,
    card: usize,
    room: usize,
    total: usize,
    bytes: Vec<u8>,
}

impl Record {
    fn readout(bytes: Vec<u8>) -> Record {
        Record { word: "line", card: 0, room: 0, total: bytes.len(), bytes }
    }

    fn page(bytes: Vec<u8>, card: usize, room: usize) -> Record {
        Record { word: "page", card, room, total: bytes.len(), bytes }
    }

    fn filled_to(self, total: usize) -> Record {
        Record { total, ..self }
    }

    fn text(&self) -> Vec<u8> {
        let Record { word, card, room, total, bytes } = self;
        let head = format!("{word} {card:02} {room:05} {total:05} {:05}\n", bytes.len());
        [head.into_bytes(), bytes.clone()].concat()
    }

    fn answer(&self) -> String {
        let mut bytes = self.bytes.clone();
        bytes.resize(self.total, b'0');
        match self.word {
            "line" => line_text(&bytes),
            _ => page_answer(&bytes, self.card, self.room),
        }
    }
}

/// The read-outs and sheets of `check_sheets`.
pub fn sheets() -> Data {
    let mut records: Vec<Record> = spoiled::readouts().into_iter().map(Record::readout).collect();
    for seed in 0..FAMILIES {
        let size = if seed % 16 == 0 { Size::Any } else { Size::Short };
        let (whole, damaged) = family(seed, size, 8);
        records.push(Record::readout(whole));
        records.extend(damaged.into_iter().map(Record::readout));
    }
    records.extend([false, true].map(|cut| Record::readout(lines_of_two_kinds(cut))));
    records.push(Record::readout(largest()));
    for total in [65_536, 65_537] {
        records
            .extend([largest(), spoiled::worked(), Vec::new()].map(|b| Record::readout(b).filled_to(total)));
    }
    records.extend(pages::records());
    Data {
        stdin: records.iter().flat_map(Record::text).collect(),
        stdout: records.iter().map(Record::answer).collect::<String>().into_bytes(),
    }
}
