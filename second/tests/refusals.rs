//! Each refusal at least once, and the order they come in.

use second::carried::*;
use second::readouts::{largest, lines_of_two_kinds, padded};
use second::refusal::Refusal;
use second::replay::replay;
use second::restart::line_text;
use second::sheet::{finish_line, header_line, read_sheet, read_sheets};

/// The last answer line to some calls.
fn last(calls: &str) -> String {
    replay(calls.as_bytes()).lines().last().unwrap_or("").to_string()
}

fn refused(calls: &str, number: &str) {
    assert_eq!(last(calls), format!("refused {number}"), "{calls}");
}

fn line(parts: &[Vec<u8>]) -> String {
    line_text(&parts.concat()).lines().next().unwrap_or("").to_string()
}

/// A frame of card 0 in session 1.
fn frame(text: &str) -> Vec<u8> {
    finish_line(1, 0, text.as_bytes())
}

#[test]
fn number_of_cards() {
    refused("fresh 0", "1");
    refused("fresh 17", "1");
    refused("fresh 4294967295", "1");
    assert_eq!(last("fresh 2\nfresh 0\nshow"), "1 0 0 0 0");
}

#[test]
fn cards_and_sets() {
    for call in [
        "open 4 0",
        "open 0 4",
        "open 65536 0",
        "vote 1 2 1",
        "take 1 16",
        "store 2 0",
        "lose 4",
        "roll 2",
        "sheet 2 0",
        "frames 2",
    ] {
        refused(&format!("fresh 2\n{call}"), "2");
    }
    refused("fresh 2\nlose 0\nopen 4 0", "2");
    refused("fresh 2\nlose 0\nopen 0 0", "3");
    refused("fresh 2\nopen 0 0", "3");
}

#[test]
fn lent_lists_and_buffers() {
    refused("fresh 2\nlose 0\nfix 1 776", "4");
    refused("fresh 1\nopen 0 1\nvote 1 0 1\nlose 0\nfix 1 0", "4");
    refused("fresh 1\nsheet 0 24", "4");
    refused("fresh 2\nfix 0 0", "20");
}

#[test]
fn phases() {
    for call in ["open 1 0", "vote 1 0 1", "take 1 0", "withdraw 1", "trim", "safe 1", "roll 0"] {
        refused(&format!("fresh 1\nlose 0\n{call}"), "20");
    }
    for call in ["open 1 0", "store 0 0", "fix 16 776", "trim"] {
        refused(&format!("fresh 1\nlose 0\nfix 16 776\n{call}"), "20");
    }
}

#[test]
fn bars() {
    refused("fresh 3\nopen 0 6\nopen 0 7", "21 1");
    refused("fresh 3\nopen 0 6\nopen 4 1", "21 2");
    refused("fresh 3\nopen 1 0\nopen 0 1", "21 0");
    assert_eq!(last("fresh 3\nopen 1 0\nopen 1 2"), "change 2");
    let half = "fresh 2\nopen 0 3\nvote 1 0 1\nvote 1 1 1\ntake 1 0\n";
    assert_eq!(last(&format!("{half}open 0 1")), "change 2");
    refused(&format!("{half}open 2 1"), "21 1");
}

/// Wish 2: of the touched cards that are barred the lowest, and no other.
#[test]
fn lowest_barred() {
    refused("fresh 4\nopen 0 2\nopen 0 8\nopen 0 10", "21 1");
    refused("fresh 4\nopen 0 8\nopen 0 2\nopen 0 10", "21 1");
    refused("fresh 4\nopen 0 5\nopen 0 12", "21 2");
    refused("fresh 4\nopen 0 4\nopen 1 14", "21 2");
    refused("fresh 4\nopen 0 5\nvote 1 0 1\nvote 1 2 1\ntake 1 0\nopen 0 5", "21 2");
    refused("fresh 4\nopen 1 4\nopen 5 0", "21 2");
    refused("fresh 4\nopen 0 10\nopen 2 8", "21 1");
    refused("fresh 16\nopen 0 32768\nopen 65535 0", "21 15");
}

#[test]
fn eight_open() {
    let eight = "fresh 2\n".to_string() + &"open 1 0\n".repeat(8);
    refused(&format!("{eight}open 1 0"), "22");
    refused(&format!("{eight}open 0 1"), "21 0");
    assert_eq!(last(&format!("{eight}withdraw 3\nopen 1 0")), "change 9");
}

#[test]
fn changes() {
    refused("fresh 2\nvote 1 0 1", "25");
    refused("fresh 2\nopen 0 1\nvote 1 1 1", "25");
    refused("fresh 2\nopen 0 3\nvote 1 1 1\nvote 1 1 0", "25");
    refused("fresh 2\nopen 0 1\nvote 1 0 1\nvote 1 1 1", "26");
    refused("fresh 2\nopen 0 1\nvote 1 0 1\nwithdraw 1", "26");
    refused("fresh 2\nopen 0 1\nvote 1 0 1\ntake 1 0\nwithdraw 1", "25");
    refused("fresh 2\nopen 0 1\ntake 1 1", "29");
    refused("fresh 2\nopen 0 1\nvote 1 0 1\ntake 1 1", "25");
    refused("fresh 2\nopen 0 1\nvote 1 0 1\nsafe 1", "25");
    assert_eq!(last("fresh 2\nopen 0 1\nvote 1 0 1\ntake 1 0\nsafe 1"), "unsafe");
    assert_eq!(last("fresh 2\nopen 0 1\nvote 1 0 1\ntake 1 0\nstore 0 1\nsafe 1"), "safe");
    refused("fresh 2\nopen 0 1\nvote 1 0 1\ntake 1 0\nstore 0 1\ntrim\nsafe 1", "25");
}

#[test]
fn store_and_roll() {
    refused("fresh 1\nstore 0 1", "27");
    refused("fresh 1\nopen 0 1\nvote 1 0 1\ntake 1 0\nlose 1\nstore 0 1", "27");
    assert_eq!(last("fresh 1\nopen 0 1\nvote 1 0 1\ntake 1 0\nlose 0\nstore 0 1"), "ok");
    refused("fresh 2\nlose 0\nfix 2 0\nroll 1\nroll 1", "30");
}

#[test]
fn lines_of_a_list() {
    for line in [
        "",
        " show",
        "show ",
        "open 1  2",
        "vote 1 0 2",
        "fix 17 0",
        "fix 16 777",
        "sheet 0 65537",
        "lose 4294967296",
        "trim\r",
        "roll",
    ] {
        assert_eq!(last(&format!("fresh 1\n{line}\n")), "unreadable", "{line}");
    }
    assert_eq!(last("show"), "none");
    assert_eq!(last("shows"), "unreadable");
    assert_eq!(last(&format!("fresh 1\nlose {}", "0".repeat(123))), "ok");
    assert_eq!(last(&format!("fresh 1\nlose {}", "0".repeat(124))), "unreadable");
    assert_eq!(last("fresh 01\nopen 00 01\nvote 1 0 01"), "ok");
}

#[test]
fn lines_of_a_sheet() {
    let header = header_line(1, 0, 1, 0, 1);
    let good = frame("0001000000010000");
    assert_eq!(line(&[header.clone(), good.clone()]), "0 1 1");
    assert_eq!(line(&[vec![]]), "refused 8");
    assert_eq!(line(&[header.clone()]), "refused 8");
    assert_eq!(line(&[header.clone(), good.clone(), vec![10]]), "refused 8");
    assert_eq!(line(&[header.clone(), good[..good.len() - 1].to_vec()]), "refused 5");
    assert_eq!(line(&[header.to_ascii_lowercase(), good.clone()]), "refused 5");
    let mut altered = good.clone();
    altered[3] = b'2';
    assert_eq!(line(&[header, altered]), "refused 6");
}

#[test]
fn headers() {
    let headers = [
        header_line(0, 0, 1, 0, 0),
        header_line(1, 1, 1, 0, 0),
        header_line(1, 1, 2, 0, 0),
        header_line(1, 0, 0, 0, 0),
        header_line(1, 0, 17, 0, 0),
        header_line(1, 0, 1, 0, 49),
        header_line(1, 0, 1, 59_953, 48),
        header_line(1, 0, 1, 60_001, 0),
    ];
    for header in headers {
        assert_eq!(line(&[header]), "refused 7");
    }
    assert_eq!(line(&[header_line(1, 0, 2, 0, 0), header_line(1, 1, 3, 0, 0)]), "refused 7");
    assert_eq!(line(&[header_line(1, 0, 1, 60_000, 0)]), "0 60000 60000");
    assert_eq!(read_sheet(&header_line(1, 1, 2, 0, 0), 0), Err(Refusal::WrongHeader));
    assert!(read_sheet(&header_line(1, 1, 2, 0, 0), 1).is_ok());
}

#[test]
fn frames() {
    let two = header_line(1, 0, 2, 0, 1);
    let other = header_line(1, 1, 2, 0, 0);
    let faults = [
        "0002000000010001FFFF",
        "0001000000000000FFFF",
        "0001000000010001FFFF",
        "000100000001FFFFFFFF",
        "0001000000010000EA60",
        "0001000000010000FFFE",
    ];
    for fault in faults {
        assert_eq!(line(&[two.clone(), frame(fault), other.clone()]), "refused 9", "{fault}");
    }
    assert_eq!(line(&[two, frame("0001000000010000EA5F"), other.clone()]), "0 1 0");
    let twice = header_line(1, 0, 2, 0, 2);
    let first = frame("00010000000100000005");
    for fault in ["00020000000100010005", "00020000000200010004", "0002000000020001FFFF"] {
        assert_eq!(
            line(&[twice.clone(), first.clone(), frame(fault), other.clone()]),
            "refused 9",
            "{fault}"
        );
    }
    assert_eq!(line(&[twice, first, frame("00020000000200010005"), other]), "0 2 0");
}

#[test]
fn after_the_last_line() {
    let shared = |session, card, other: &str| {
        let frame = finish_line(session, card, format!("000100000001{other}").as_bytes());
        [header_line(session, card, 2, 0, 1), frame].concat()
    };
    assert_eq!(line(&[shared(1, 0, "00000000"), shared(1, 1, "00000000")]), "0 1 1");
    assert_eq!(line(&[shared(1, 0, "0000FFFF"), shared(1, 1, "00000000")]), "refused 10");
    assert_eq!(line(&[shared(u32::MAX, 0, "0000FFFF"), shared(u32::MAX, 1, "00000000")]), "refused 24");
    assert_eq!(line(&[shared(u32::MAX - 1, 0, "0000FFFF"), header_line(u32::MAX, 1, 2, 7, 0)]), "0 1 1");
    assert_eq!(line(&[shared(1, 0, "0000FFFF"), shared(2, 1, "FFFF0000")]), "refused 11");
    assert_eq!(line(&[header_line(3, 0, 2, 0, 0), header_line(1, 1, 2, 0, 0)]), "refused 11");
    assert_eq!(line(&[header_line(2, 0, 2, 4, 0), header_line(1, 1, 2, 5, 0)]), "0 4 4");
}

#[test]
fn too_long() {
    assert_eq!(largest().len(), 62_608);
    assert!(line(&[largest()]).starts_with("0 "));
    assert_eq!(line(&[padded(largest(), 65_536)]), "refused 8");
    assert_eq!(line(&[padded(largest(), 65_537)]), "refused 12");
    assert_eq!(read_sheet(&[48; 65_537], 0), Err(Refusal::TooLong));
}

/// What document 01's check could not tell: a header read as a frame. Now the
/// sheet that lost its last frame is refused.
#[test]
fn lines_that_are_header_and_frame() {
    assert_eq!(line_text(&lines_of_two_kinds(false)), "0 48 48\n1 95 47\nsession 3145734\n");
    assert_eq!(line_text(&lines_of_two_kinds(true)), "refused 6\n");
}

/// Changes 1 and 2 wrote all cards: but for their checks the sheets have the
/// same frames.
fn alike(cards: usize) -> Vec<Line> {
    let mut readout = Vec::new();
    for card in 0..cards as u32 {
        readout.extend(header_line(1, card, cards as u32, 0, 2));
        for state in 1..=2u32 {
            let text = format!("{state:04X}{state:08X}") + &format!("{:04X}", state - 1).repeat(cards);
            readout.extend(finish_line(1, card, text.as_bytes()));
        }
    }
    let sheets = read_sheets(&readout).unwrap_or_default();
    assert_eq!(sheets.len(), cards);
    lines_of(&sheets)
}

/// Wish 4: every frame at every place where a frame of another card is due.
#[test]
fn carried_frames() {
    for cards in 2..=16 {
        let lines = alike(cards);
        let pairs = all_pairs(&lines, frame_to_frame);
        assert_eq!(pairs.len(), 4 * cards * (cards - 1));
        for (from, to) in pairs {
            assert_eq!(line_text(&in_place_of(&lines, from, to)), "refused 6\n");
            assert_eq!(line_text(&in_front_of(&lines, from, to)), "refused 6\n");
        }
    }
}

/// Header and frame have one length with two cards only.
#[test]
fn headers_and_frames_carried() {
    for (cards, refused) in [(2, "refused 6\n"), (3, "refused 5\n"), (16, "refused 5\n")] {
        let lines = alike(cards);
        for pair in [header_to_frame as Pair, frame_to_header] {
            for (from, to) in all_pairs(&lines, pair) {
                assert_eq!(line_text(&in_place_of(&lines, from, to)), refused);
                assert_eq!(line_text(&in_front_of(&lines, from, to)), refused);
            }
        }
    }
}

/// A frame of session 256 can be a header of that session and its own card.
#[test]
fn a_frame_that_is_a_header_of_its_own_card() {
    let frame = finish_line(256, 0, b"00010000000200000000");
    let readout = [header_line(256, 0, 2, 0, 1), frame.clone(), header_line(256, 1, 2, 0, 0)];
    assert_eq!(line(&readout), "0 1 0");
    assert_eq!(line(&[header_line(256, 0, 2, 0, 0), frame]), "refused 7");
}

#[test]
fn checks_by_session_and_card() {
    let other = header_line(1, 1, 2, 0, 0);
    let with = |session, card| {
        let frame = finish_line(session, card, b"0001000000010000FFFF");
        line(&[header_line(1, 0, 2, 0, 1), frame, other.clone()])
    };
    assert_eq!(with(1, 0), "0 1 1");
    assert_eq!(with(0x101, 0), "0 1 1");
    for (session, card) in [(0, 0), (2, 0), (1, 1), (1, 255), (0, 255)] {
        assert_eq!(with(session, card), "refused 6", "{session} {card}");
    }
    for session in [0xFF, 0x100, 0x1FF, 0xFFFF_FF00] {
        let frame = finish_line(session, 0, b"0001000000010000FFFF");
        let ahead = header_line(session + 1, 1, 2, 0, 0);
        assert_eq!(line(&[header_line(session, 0, 2, 0, 1), frame, ahead]), "0 1 1", "{session}");
    }
}

/// 6 goes by the card that the header names, and comes before 7.
#[test]
fn headers_of_other_cards() {
    assert_eq!(line(&[header_line(1, 255, 2, 0, 0)]), "refused 7");
    assert_eq!(line(&[header_line(0, 255, 255, 0, 0)]), "refused 7");
    let header = |card| Line { session: 1, card, is_header: true, bytes: header_line(1, card, 2, 0, 0) };
    for name in [1, 2, 255] {
        assert_eq!(line(&[naming(&header(0), name)]), "refused 6", "{name}");
        assert_eq!(read_sheet(&naming(&header(0), name), name as usize), Err(Refusal::WrongCheck));
    }
    assert_eq!(line(&[header_line(1, 0, 2, 0, 0), naming(&header(1), 0)]), "refused 6");
}

/// A digit altered anywhere in a header, its card's digits among them.
#[test]
fn altered_digits_of_a_header() {
    for session in [1, 0xFF, 0x100, 0xFFFF_FFFE] {
        for card in 0..16 {
            let header = header_line(session, card, 16, 0xEA5F, 0);
            assert!(read_sheet(&header, card as usize).is_ok());
            for (place, digit) in (0..24).flat_map(|place| b"0123456789ABCDEF".map(|digit| (place, digit))) {
                let mut altered = header.clone();
                altered[place] = digit;
                let refused = read_sheet(&altered, card as usize) == Err(Refusal::WrongCheck);
                assert_eq!(refused, altered != header, "{}", String::from_utf8_lossy(&altered));
            }
        }
    }
}
