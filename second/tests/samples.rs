//! Document 01's samples A to H, its worked read-out, and the cases it names
//! "by program".

use second::lists::{joined, summit_list};
use second::replay::replay;
use second::restart::line_text;

/// The list of some calls, one a line.
fn answers(calls: &str) -> String {
    replay(calls.as_bytes())
}

/// The calls that open, vote and take a change on all its cards.
fn whole(number: u32, reads: u32, writes: u32) -> String {
    let cards: Vec<u32> = (0..16).filter(|card| (reads | writes) >> card & 1 == 1).collect();
    let mut calls = format!("open {reads} {writes}\n");
    cards.iter().for_each(|card| calls += &format!("vote {number} {card} 1\n"));
    cards.iter().for_each(|card| calls += &format!("take {number} {card}\n"));
    calls
}

/// The three changes of sample A.
fn sample_a() -> String {
    "fresh 2\n".to_string() + &whole(1, 0, 1) + &whole(2, 1, 2) + &whole(3, 0, 1)
}

/// Stored numbers, a loss of all cards, and the fix.
fn fixed(stored: &[u32]) -> String {
    let mut calls = String::new();
    for (card, state) in stored.iter().enumerate() {
        calls += &format!("store {card} {state}\n");
    }
    calls + &format!("lose {}\nfix 16 776\n", (1 << stored.len()) - 1)
}

fn ends(calls: &str, end: &str) {
    let answers = answers(calls);
    assert!(answers.ends_with(end), "{answers}");
}

#[test]
fn a_has_its_vectors() {
    ends(&(sample_a() + "frames 0\nframes 1\n"), "frames 2\n1 1 0 -\n2 3 1 0\nframes 1\n1 2 0 0\n");
    ends(
        &(sample_a() + "store 0 2\nsheet 0 75\nsheet 1 25\n"),
        "sheet 75\n0000000100020000000296C6\n0001000000010000FFFF6B1B\n00020000000300010000B7C7\n\
         sheet 25\n00000001010200000000B3C6\n",
    );
}

#[test]
fn b_loses_2_and_3() {
    ends(&(sample_a() + &fixed(&[2, 0])), "fixed 2 2\n0 2 1\n1 0 0\nlost 2 3\n");
}

#[test]
fn c_loses_3() {
    ends(&(sample_a() + &fixed(&[1, 1])), "fixed 2 1\n0 1 1\n1 1 1\nlost 3\n");
}

#[test]
fn d_loses_all() {
    ends(&(sample_a() + &fixed(&[0, 1])), "fixed 2 3\n0 0 0\n1 1 0\nlost 1 2 3\n");
}

#[test]
fn e_rolls_the_survivor_back() {
    let calls = "fresh 2\nopen 0 3\nvote 1 0 1\nvote 1 1 1\ntake 1 0\nstore 0 1\nlose 2\nfix 2 1\n";
    ends(calls, "fixed 2 1\n0 1 0\n1 0 0\nlost 1\n");
}

#[test]
fn f_keeps_what_hangs_on_nothing() {
    let calls = "fresh 3\n".to_string() + &whole(1, 2, 1) + &whole(2, 2, 4);
    ends(&(calls.clone() + "frames 2\n"), "frames 1\n1 2 - - 0\n");
    ends(&(calls + &fixed(&[0, 0, 1])), "fixed 3 1\n0 0 0\n1 0 0\n2 1 1\nlost 1\n");
}

#[test]
fn g_follows_changes_that_only_read() {
    let calls = "fresh 2\n".to_string() + &whole(1, 0, 1) + &whole(2, 3, 0) + &whole(3, 0, 2);
    ends(&(calls.clone() + "frames 1\n"), "frames 1\n1 3 0 0\n");
    ends(&(calls + &fixed(&[0, 1])), "fixed 2 2\n0 0 0\n1 1 0\nlost 1 3\n");
}

#[test]
fn h_loses_nothing() {
    ends("fresh 4\nlose 15\nfix 4 0\n", "fixed 4 0\n0 0 0\n1 0 0\n2 0 0\n3 0 0\nlost\n");
}

#[test]
fn safe_in_a_with_2_and_0_stored_is_change_1_alone() {
    let calls = sample_a() + "store 0 2\nsafe 1\nsafe 2\nsafe 3\n";
    ends(&calls, "ok\nsafe\nunsafe\nunsafe\n");
    ends(&(calls + "lose 3\nfix 2 8\n"), "fixed 2 2\n0 2 1\n1 0 0\nlost 2 3\n");
}

#[test]
fn safe_in_a_with_1_and_1_stored_are_1_and_2() {
    let calls = sample_a() + "store 0 1\nstore 1 1\nsafe 1\nsafe 2\nsafe 3\n";
    ends(&calls, "ok\nok\nsafe\nsafe\nunsafe\n");
}

#[test]
fn half_taken_is_unsafe_and_a_read_share_left_is_safe() {
    let half = "fresh 2\nopen 0 3\nvote 1 0 1\nvote 1 1 1\ntake 1 0\nstore 0 1\nsafe 1\n";
    ends(half, "ok\nok\nunsafe\n");
    let read = "fresh 2\nopen 2 1\nvote 1 0 1\nvote 1 1 1\ntake 1 0\nstore 0 1\nsafe 1\n";
    ends(read, "ok\nok\nsafe\n");
    ends(&(read.to_string() + "trim\nsafe 1\n"), "safe\nok\nrefused 25\n");
}

#[test]
fn stored_but_hanging_on_an_unstored_state_is_unsafe() {
    let calls = "fresh 2\n".to_string() + &whole(1, 0, 1) + &whole(2, 1, 2) + "store 1 1\nsafe 2\n";
    ends(&calls, "ok\nok\nunsafe\n");
    ends(&(calls + "store 0 1\nsafe 2\n"), "unsafe\nok\nsafe\n");
}

/// Changes 1 and 2 on a card each, decided in the order 2, 1; all cards lost.
const DECIDED_2_1: &str = "fresh 2\nopen 0 1\nopen 0 2\nvote 2 1 1\nvote 1 0 1\ntake 2 1\ntake 1 0\nlose 3\n";

#[test]
fn lost_changes_rise_whatever_the_order_of_decisions() {
    ends(&(DECIDED_2_1.to_string() + "fix 2 8\n"), "fixed 2 2\n0 0 0\n1 0 0\nlost 1 2\n");
    ends(&(DECIDED_2_1.to_string() + "fix 2 1\nfix 2 2\n"), "refused 4\nfixed 2 2\n0 0 0\n1 0 0\nlost 1 2\n");
}

#[test]
fn an_ended_change_stands_between_framed_ones() {
    let calls = "fresh 3\nopen 0 1\nopen 0 2\nopen 0 4\nvote 3 2 1\ntake 3 2\nvote 1 0 1\ntake 1 0\nvote 2 1 1\nlose 2\nfix 3 3\n";
    ends(calls, "fixed 3 3\n0 0 0\n1 0 0\n2 0 0\nlost 1 2 3\n");
}

#[test]
fn the_worked_read_out() {
    let input = "0000000100020000000296C6\n0001000000010000FFFF6B1B\n00020000000300010000B7C7\n00000001010200000000B3C6\n";
    assert_eq!(line_text(input.as_bytes()), "0 2 1\n1 0 0\nsession 2\n");
}

/// Wish 4: "Older sheets no longer read."
#[test]
fn the_worked_read_out_as_it_was() {
    let input = "0000000100020000000281C5\n0001000000010000FFFF561A\n00020000000300010000A2C6\n000000010102000000008AC4\n";
    assert_eq!(line_text(input.as_bytes()), "refused 6\n");
}

/// Wish 4: card 0's frame once more, where card 1's is due.
#[test]
fn a_frame_carried_from_card_0_to_card_1() {
    let input = "0000000100020000000195C5\n0001000000010000FFFF6B1B\n00000001010200000001B4C7\n0001000000010000FFFF6B1B\n";
    assert_eq!(line_text(input.as_bytes()), "refused 6\n");
}

/// A card already rolled has the check of the next session.
#[test]
fn the_sheet_of_a_rolled_card() {
    let calls = sample_a() + &fixed(&[2, 0]) + "roll 0\nsheet 0 25\nsheet 1 25\n";
    ends(&calls, "ok\nsheet 25\n00000002000200010000A7C6\nsheet 25\n00000001010200000000B3C6\n");
}

#[test]
fn a_change_read_only_elsewhere_is_in_the_line() {
    let calls = "fresh 2\nopen 2 1\nvote 1 0 1\nvote 1 1 1\ntake 1 0\nstore 0 1\nlose 0\nfix 16 776\n";
    ends(calls, "fixed 2 0\n0 1 1\n1 0 0\nlost\n");
}

#[test]
fn the_48th_state_is_taken_and_the_49th_is_23() {
    let mut calls = "fresh 1\n".to_string();
    for number in 1..=48 {
        calls += &whole(number, 0, 1);
    }
    calls += "open 0 1\nstore 0 48\ntrim\nopen 0 1\n";
    ends(&calls, "ok\nrefused 23\nok\nok\nchange 49\n");
}

#[test]
fn a_card_at_60000_may_be_read_not_written() {
    let answers = replay(&joined(&summit_list()));
    let end = "session 101 up cards 2\n0 60000 60000 60000 60000\n1 0 0 0 0\nrefused 24\nrefused 24\nchange 1\nok\nok\n\
               ok\nok\nrefused 24\nsheet 25\n";
    assert!(answers.contains(end), "{}", &answers[answers.len() - 600..]);
}

#[test]
fn a_count_of_3_over_two_frames_is_8() {
    let mut calls = "fresh 1\n".to_string();
    calls += &(whole(1, 0, 1) + &whole(2, 0, 1) + "store 0 2\nsheet 0 999\n");
    let answer = answers(&calls);
    let sheet = answer.split_once("sheet 67\n").map_or("", |(_, sheet)| sheet);
    let header = second::sheet::header_line(1, 0, 1, 0, 3);
    let altered = [header, sheet.as_bytes()[25..].to_vec()].concat();
    assert_eq!(line_text(sheet.as_bytes()), "0 2 2\nsession 2\n");
    assert_eq!(line_text(&altered), "refused 8\n");
}
