//! Read-outs by hand: the worked one, whole, altered and cut at each byte, one
//! that each limit of a line lets pass or refuses, and lines of another sheet.

use crate::carried::*;
use crate::history::Vector;
use crate::limits::LAST_NUMBER;
use crate::random::Random;
use crate::sheet::{frame_line, header_line, Frame, Sheet};

pub fn header(session: u32, card: u32, cards: u32, base: u32, count: u32) -> Vec<u8> {
    header_line(session, card, cards, base, count)
}

pub fn frame_of(session: u32, card: u32, state: u32, change: u32, vector: &[Option<u32>]) -> Vec<u8> {
    frame_line(session, card, &Frame { state, change, vector: Vector::from(vector) })
}

/// A frame of card 0 in session 1.
pub fn frame(state: u32, change: u32, vector: &[Option<u32>]) -> Vec<u8> {
    frame_of(1, 0, state, change, vector)
}

/// Document 01's worked read-out, with the checks of wish 4.
pub fn worked() -> Vec<u8> {
    [
        header(1, 0, 2, 0, 2),
        frame(1, 1, &[Some(0), None]),
        frame(2, 3, &[Some(1), Some(0)]),
        header(1, 1, 2, 0, 0),
    ]
    .concat()
}

/// A byte of a read-out altered, to one that a line may have or to any other.
pub fn altered(bytes: &[u8], place: usize, random: &mut Random, any: bool) -> Vec<u8> {
    let mut altered = bytes.to_vec();
    while altered[place] == bytes[place] {
        let near = random.pick(b"0123456789ABCDEF\nag /:@G");
        altered[place] = if any { random.bits() as u8 } else { near };
    }
    altered
}

/// A header of one card that declares so many frames over two.
pub fn over_two_frames(count: u32) -> Vec<u8> {
    [header(1, 0, 1, 0, count), frame(1, 1, &[Some(0)]), frame(2, 2, &[Some(1)])].concat()
}

/// Session, card, number of cards, base and count, at their limits.
pub const HEADERS: [[u32; 5]; 15] = [
    [0, 0, 1, 0, 0],
    [1, 1, 1, 0, 0],
    [1, 1, 2, 0, 0],
    [1, 0, 0, 0, 0],
    [1, 0, 17, 0, 0],
    [1, 0, 1, 0, 49],
    [1, 0, 1, 60_000, 0],
    [1, 0, 1, 60_001, 0],
    [1, 0, 1, 59_999, 1],
    [1, 0, 1, 60_000, 1],
    [1, 0, 1, 65_535, 0],
    [LAST_NUMBER, 0, 1, 0, 0],
    [LAST_NUMBER - 1, 0, 1, 0, 0],
    [1, 0, 255, 0, 0],
    [1, 16, 16, 0, 0],
];

pub fn of_header([session, card, cards, base, count]: [u32; 5]) -> Vec<u8> {
    header(session, card, cards, base, count)
}

/// Two cards, of which the first has these frames.
fn on_card_0(frames: &[Vec<u8>]) -> Vec<u8> {
    [header(1, 0, 2, 0, frames.len() as u32), frames.concat(), header(1, 1, 2, 0, 0)].concat()
}

pub fn readouts() -> Vec<Vec<u8>> {
    let mut all = around_the_worked();
    all.extend((1..=3).map(over_two_frames));
    for more in [b"0".to_vec(), frame(4, 3, &[Some(3)])] {
        all.push([over_two_frames(3), more].concat());
    }
    all.extend(HEADERS.map(of_header));
    all.push([header(1, 0, 1, 59_999, 1), frame(60_000, 1, &[Some(59_999)])].concat());
    all.push([header(1, 0, 2, 0, 0), header(1, 1, 3, 0, 0)].concat());
    all.push([header(1, 0, 2, 0, 0), header(1, 0, 2, 0, 0)].concat());
    all.extend(frames_at_limits());
    all.extend(sessions());
    all.extend(one_change_on_four_cards());
    all.extend(older_and_pasted());
    all.extend(carried());
    all.extend(other_starts());
    all.extend(sessions_of_many_bits());
    all
}

/// Each byte altered, each cut, and each way of going on after the last sheet.
fn around_the_worked() -> Vec<Vec<u8>> {
    let whole = worked();
    let mut random = Random::new(2_005_017);
    let mut all = vec![whole.clone()];
    for place in 0..whole.len() {
        all.push(altered(&whole, place, &mut random, false));
        all.push(altered(&whole, place, &mut random, true));
        all.push(whole[..place].to_vec());
    }
    for more in [b"\n".to_vec(), b"0".to_vec(), worked(), header(1, 1, 2, 0, 0)] {
        all.push([whole.clone(), more].concat());
    }
    all
}

/// 9 in each of its ways, and what is just not 9.
fn frames_at_limits() -> Vec<Vec<u8>> {
    let mut all = Vec::new();
    for other in [Some(59_999), Some(60_000), Some(65_534), None] {
        all.push(on_card_0(&[frame(1, 1, &[Some(0), other])]));
    }
    for own in [Some(1), None] {
        all.push(on_card_0(&[frame(1, 1, &[own, None])]));
    }
    for (state, change, own) in [(1, 0, 0), (2, 1, 1), (0, 1, 0)] {
        all.push(on_card_0(&[frame(state, change, &[Some(own), None])]));
    }
    for (first, change, second) in [
        (Some(7), 6, Some(7)),
        (Some(7), 5, Some(7)),
        (Some(7), 6, Some(6)),
        (Some(7), 6, None),
        (None, 6, Some(6)),
        (Some(7), 4, Some(7)),
    ] {
        all.push(on_card_0(&[frame(1, 5, &[Some(0), first]), frame(2, change, &[Some(1), second])]));
    }
    all
}

/// 11 and 24, and what is just not.
fn sessions() -> Vec<Vec<u8>> {
    let pairs = [(1, 2), (2, 1), (1, 3), (3, 1), (LAST_NUMBER, LAST_NUMBER), (LAST_NUMBER - 1, LAST_NUMBER)];
    let mut all = Vec::from(
        pairs.map(|(first, second)| [header(first, 0, 2, 0, 0), header(second, 1, 2, 0, 0)].concat()),
    );
    all.push([header(1, 0, 2, 0, 0), header(2, 1, 2, 0, 1), frame_of(2, 1, 1, 1, &[None, Some(0)])].concat());
    all
}

/// Three changes that each wrote four cards, with one vector; and with another
/// one in each place of each frame: 10.
fn one_change_on_four_cards() -> Vec<Vec<u8>> {
    let with = |altered: Option<(u32, u32, u32)>| -> Vec<u8> {
        let entry = |card, state, other| state - 1 + u32::from(altered == Some((card, state, other)));
        let vector = |card, state| (0..4).map(|other| Some(entry(card, state, other))).collect::<Vector>();
        let frames =
            |card| (1..=3).flat_map(move |state| frame_of(1, card, state, state, &vector(card, state)));
        (0..4).flat_map(|card| header(1, card, 4, 0, 3).into_iter().chain(frames(card))).collect()
    };
    let mut all = vec![with(None)];
    for card in 0..4 {
        for state in 1..=3 {
            all.extend((0..4).map(|other| with(Some((card, state, other)))));
        }
    }
    all
}

/// Document 01's worked read-out as it was; and a frame of card 0 pasted beneath
/// card 1's header.
fn older_and_pasted() -> Vec<Vec<u8>> {
    let older = worked().split_inclusive(|byte| *byte == 10).flat_map(by_older_rule).collect();
    let frame = frame(1, 1, &[Some(0), None]);
    let pasted = [header(1, 0, 2, 0, 1), frame.clone(), header(1, 1, 2, 0, 1), frame].concat();
    vec![older, pasted]
}

/// The sheets of changes that each wrote all cards: but for their checks they
/// have the same frames.
pub fn alike(session: u32, cards: u32, states: u32) -> Vec<Line> {
    let vector = |state: u32| vec![Some(state - 1); cards as usize];
    let frame = |state: u32| Frame { state, change: state, vector: vector(state) };
    let frames: Vec<Frame> = (1..=states).map(frame).collect();
    let sheet = |card: usize| Sheet { session, card, cards: cards as usize, base: 0, frames: frames.clone() };
    lines_of(&(0..cards as usize).map(sheet).collect::<Vec<Sheet>>())
}

/// Of two and of three cards each line carried to each place where it does not
/// belong; of 16 cards a frame of each carried to the next.
fn carried() -> Vec<Vec<u8>> {
    let mut all = Vec::new();
    for cards in 2..=3 {
        let lines = alike(1, cards, 2);
        for pair in [frame_to_frame as Pair, header_to_frame, frame_to_header] {
            for (from, to) in all_pairs(&lines, pair) {
                all.extend([in_place_of(&lines, from, to), in_front_of(&lines, from, to)]);
            }
        }
    }
    let lines = alike(1, 16, 1);
    all.extend((0..16).map(|card| in_place_of(&lines, 2 * card + 1, 2 * ((card + 1) % 16) + 1)));
    all
}

/// Checks that start elsewhere: by the older rule, for another card or session.
fn other_starts() -> Vec<Vec<u8>> {
    let lines = alike(1, 2, 1);
    let with = |place: usize, bytes: Vec<u8>| {
        let mut lines = lines.clone();
        lines[place].bytes = bytes;
        joined(&lines)
    };
    let older: Vec<Vec<u8>> = lines.iter().map(|line| by_older_rule(&line.bytes)).collect();
    let mut all = vec![older.concat(), header(1, 255, 2, 0, 0), header(0, 255, 255, 0, 0)];
    for (place, line) in lines.iter().enumerate() {
        all.push(with(place, older[place].clone()));
        for (session, card) in
            [(1, 1 - line.card), (0, line.card), (2, line.card), (257, line.card), (1, 255)]
        {
            all.push(with(place, checked_as(&line.bytes, session, card)));
        }
        if line.is_header {
            all.extend([1 - line.card, 255].map(|card| with(place, naming(line, card))));
            all.push(with(place, header(1, 255, 2, 0, 1)));
        }
    }
    all
}

/// Sessions at the ends of eight bits and above, all cards in one and the last
/// card one ahead; a frame where a header is due, which is 7 if the eight bits
/// are 0; and a frame of the next session.
fn sessions_of_many_bits() -> Vec<Vec<u8>> {
    let mut all = Vec::new();
    for session in [0xFE, 0xFF, 0x100, 0x101, 0x1FF, 0x200, 0xFFFF_FEFF, 0xFFFF_FF00, 0xFFFF_FFFE] {
        let mut lines = alike(session, 2, 1);
        all.extend([joined(&lines), in_place_of(&lines, 1, 2)]);
        lines[1].bytes = checked_as(&lines[1].bytes, session + 1, 0);
        all.push(joined(&lines));
        let frame = frame_of(session, 0, 1, 1, &[Some(0), None]);
        all.push([header(session, 0, 2, 0, 1), frame, header(session + 1, 1, 2, 1, 0)].concat());
    }
    all
}
