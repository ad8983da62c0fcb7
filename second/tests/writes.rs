//! Wish 5, long writes: lists with the answers beside, worked out by hand. The
//! same calls stand in `lists/writes.txt`.

use second::replay::Place;

/// Each call has the answer that stands beside it.
fn told(list: &[(&str, &str)]) {
    let mut place = Place::default();
    for (number, (call, answer)) in list.iter().enumerate() {
        let given = place.answer_line(call.as_bytes()).text();
        assert_eq!(given, format!("{answer}\n"), "call {}: {call}", number + 1);
    }
}

/// The list by hand is these lists, one after the other.
#[test]
fn the_list_by_hand() {
    let by_hand = include_str!("../lists/writes.txt").lines().filter(|line| !line.starts_with('#'));
    let calls = LISTS.iter().flat_map(|list| list.iter().map(|(call, _)| *call));
    assert_eq!(by_hand.collect::<Vec<_>>(), calls.collect::<Vec<_>>());
}

/// All of them.
const LISTS: [&[(&str, &str)]; 15] = [
    THE_RUN_OF_THE_ISSUE,
    THE_MACHINE_DOES_NOT_WAIT,
    AN_END_BELOW_S_LEAVES_HELD,
    TWO_CARDS_WRITE,
    TWO_CARDS_WRITE_ALL,
    A_SURVIVOR_WRITES,
    A_WRITE_BEGUN_BY_A_SURVIVOR,
    A_LOST_CARD_BEGINS,
    A_WRITE_LOST_TWICE,
    THE_OLD_NUMBER,
    THE_NUMBER_S,
    A_RESTART_FORGETS_THE_WRITE,
    A_FRESH_CABINET_WRITES_NOTHING,
    CARDS_AND_PHASES,
    LINES_OF_A_WRITE,
];

/// A write is begun, cut by a loss and reported.
const THE_RUN_OF_THE_ISSUE: &[(&str, &str)] = &[
    ("fresh 2", "ok"),
    ("open 0 1", "change 1"),
    ("vote 1 0 1", "ok"),
    ("take 1 0", "ok"),
    ("open 0 1", "change 2"),
    ("vote 2 0 1", "ok"),
    ("take 2 0", "ok"),
    ("begin 0 3", "refused 27"),
    ("begin 0 2", "ok"),
    ("store 0 1", "refused 31"),
    ("store 0 3", "refused 27"),
    ("begin 0 0", "refused 31"),
    ("safe 1", "unsafe"),
    ("trim", "ok"),
    ("lose 1", "ok"),
    ("show", "session 1 down cards 2\n0 0 0 0 2 writing 2\n1 0 0 0 0"),
    ("store 0 0", "refused 31"),
    ("fix 2 8", "refused 33"),
    ("end 0 3", "refused 32"),
    ("end 1 0", "refused 32"),
    ("end 0 1", "ok"),
    ("end 0 1", "refused 32"),
    ("fix 2 8", "fixed 2 1\n0 1 1\n1 0 0\nlost 2"),
    ("begin 0 1", "refused 20"),
];

#[test]
fn the_run_of_the_issue() {
    told(THE_RUN_OF_THE_ISSUE);
}

/// Openings, votes, takes, safe and trim between the two; stored keeps its old number.
const THE_MACHINE_DOES_NOT_WAIT: &[(&str, &str)] = &[
    ("fresh 2", "ok"),
    ("open 0 1", "change 1"),
    ("vote 1 0 1", "ok"),
    ("take 1 0", "ok"),
    ("begin 0 1", "ok"),
    ("open 0 1", "change 2"),
    ("vote 2 0 1", "ok"),
    ("take 2 0", "ok"),
    ("open 1 2", "change 3"),
    ("vote 3 0 1", "ok"),
    ("vote 3 1 1", "ok"),
    ("take 3 0", "ok"),
    ("take 3 1", "ok"),
    ("show", "session 1 up cards 2\n0 0 0 2 2 writing 1\n1 0 0 1 1"),
    ("store 1 1", "ok"),
    ("safe 1", "unsafe"),
    ("trim", "ok"),
    ("show", "session 1 up cards 2\n0 0 0 2 2 writing 1\n1 0 1 1 1"),
    ("open 0 2", "change 4"),
    ("vote 4 1 0", "ok"),
    ("open 0 2", "change 5"),
    ("withdraw 5", "ok"),
    ("store 0 2", "refused 31"),
    ("begin 0 2", "refused 31"),
    ("begin 0 3", "refused 27"),
    ("end 0 2", "refused 32"),
    ("end 0 1", "ok"),
    ("show", "session 1 up cards 2\n0 0 1 2 2\n1 0 1 1 1"),
    ("safe 1", "safe"),
    ("safe 3", "unsafe"),
    ("trim", "ok"),
    ("show", "session 1 up cards 2\n0 1 1 2 2\n1 0 1 1 1"),
    ("begin 0 2", "ok"),
    ("safe 2", "unsafe"),
    ("end 0 2", "ok"),
    ("safe 1", "refused 25"),
    ("safe 2", "safe"),
    ("safe 3", "safe"),
];

#[test]
fn the_machine_does_not_wait() {
    told(THE_MACHINE_DOES_NOT_WAIT);
}

/// An end in phase up below s; then one at s, and a write up to the stored number itself.
const AN_END_BELOW_S_LEAVES_HELD: &[(&str, &str)] = &[
    ("fresh 1", "ok"),
    ("open 0 1", "change 1"),
    ("vote 1 0 1", "ok"),
    ("take 1 0", "ok"),
    ("open 0 1", "change 2"),
    ("vote 2 0 1", "ok"),
    ("take 2 0", "ok"),
    ("open 0 1", "change 3"),
    ("vote 3 0 1", "ok"),
    ("take 3 0", "ok"),
    ("begin 0 3", "ok"),
    ("end 0 4", "refused 32"),
    ("end 0 1", "ok"),
    ("show", "session 1 up cards 1\n0 0 1 3 3"),
    ("begin 0 0", "refused 27"),
    ("begin 0 2", "ok"),
    ("end 0 0", "refused 32"),
    ("end 0 3", "refused 32"),
    ("end 0 2", "ok"),
    ("show", "session 1 up cards 1\n0 0 2 3 3"),
    ("begin 0 2", "ok"),
    ("show", "session 1 up cards 1\n0 0 2 3 3 writing 2"),
    ("end 0 3", "refused 32"),
    ("end 0 1", "refused 32"),
    ("end 0 2", "ok"),
    ("begin 0 3", "ok"),
    ("end 0 2", "ok"),
    ("store 0 3", "ok"),
    ("show", "session 1 up cards 1\n0 0 3 3 3"),
];

#[test]
fn an_end_below_s_leaves_held() {
    told(AN_END_BELOW_S_LEAVES_HELD);
}

/// Two cards write and are lost; 33 while one of the two is unreported, and before 4.
const TWO_CARDS_WRITE: &[(&str, &str)] = &[
    ("fresh 2", "ok"),
    ("open 0 3", "change 1"),
    ("vote 1 0 1", "ok"),
    ("vote 1 1 1", "ok"),
    ("take 1 0", "ok"),
    ("take 1 1", "ok"),
    ("begin 0 1", "ok"),
    ("begin 1 1", "ok"),
    ("lose 3", "ok"),
    ("show", "session 1 down cards 2\n0 0 0 0 1 writing 1\n1 0 0 0 1 writing 1"),
    ("fix 2 8", "refused 33"),
    ("fix 0 0", "refused 33"),
    ("end 0 1", "ok"),
    ("show", "session 1 down cards 2\n0 0 1 1 1\n1 0 0 0 1 writing 1"),
    ("fix 2 8", "refused 33"),
    ("fix 2 0", "refused 33"),
    ("fix 1 8", "refused 33"),
    ("end 1 0", "ok"),
    ("fix 2 0", "refused 4"),
    ("fix 1 8", "refused 4"),
    ("fix 2 1", "fixed 2 1\n0 1 0\n1 0 0\nlost 1"),
];

#[test]
fn two_cards_write() {
    told(TWO_CARDS_WRITE);
}

/// The same, both with all that was written.
const TWO_CARDS_WRITE_ALL: &[(&str, &str)] = &[
    ("fresh 2", "ok"),
    ("open 0 3", "change 1"),
    ("vote 1 0 1", "ok"),
    ("vote 1 1 1", "ok"),
    ("take 1 0", "ok"),
    ("take 1 1", "ok"),
    ("begin 0 1", "ok"),
    ("begin 1 1", "ok"),
    ("lose 3", "ok"),
    ("end 1 1", "ok"),
    ("fix 2 0", "refused 33"),
    ("end 0 1", "ok"),
    ("fix 2 0", "fixed 2 0\n0 1 1\n1 1 1\nlost"),
    ("roll 0", "ok"),
    ("begin 0 1", "refused 20"),
    ("roll 1", "ok"),
    ("show", "session 2 up cards 2\n0 1 1 1 1\n1 1 1 1 1"),
    ("end 0 1", "refused 32"),
    ("begin 0 1", "ok"),
    ("end 0 1", "ok"),
];

#[test]
fn two_cards_write_all() {
    told(TWO_CARDS_WRITE_ALL);
}

/// 33 with a surviving writer, and with one whose write has nothing to store.
const A_SURVIVOR_WRITES: &[(&str, &str)] = &[
    ("fresh 2", "ok"),
    ("open 0 1", "change 1"),
    ("vote 1 0 1", "ok"),
    ("take 1 0", "ok"),
    ("begin 0 1", "ok"),
    ("lose 2", "ok"),
    ("show", "session 1 down cards 2\n0 0 0 1 1 writing 1\n1 0 0 0 0"),
    ("fix 2 8", "refused 33"),
    ("lose 0", "ok"),
    ("begin 1 1", "refused 27"),
    ("begin 1 0", "ok"),
    ("end 0 1", "ok"),
    ("fix 2 8", "refused 33"),
    ("end 1 0", "ok"),
    ("fix 2 8", "fixed 2 0\n0 1 1\n1 0 0\nlost"),
];

#[test]
fn a_survivor_writes() {
    told(A_SURVIVOR_WRITES);
}

/// A survivor begins its write after the loss.
const A_WRITE_BEGUN_BY_A_SURVIVOR: &[(&str, &str)] = &[
    ("fresh 2", "ok"),
    ("open 0 1", "change 1"),
    ("vote 1 0 1", "ok"),
    ("take 1 0", "ok"),
    ("lose 2", "ok"),
    ("begin 0 1", "ok"),
    ("fix 2 8", "refused 33"),
    ("end 0 0", "ok"),
    ("show", "session 1 down cards 2\n0 0 0 1 1\n1 0 0 0 0"),
    ("begin 0 1", "ok"),
    ("end 0 1", "ok"),
    ("store 0 1", "ok"),
    ("fix 2 8", "fixed 2 0\n0 1 1\n1 0 0\nlost"),
];

#[test]
fn a_write_begun_by_a_survivor() {
    told(A_WRITE_BEGUN_BY_A_SURVIVOR);
}

/// On a lost card held is stored, so a write goes up to the stored number only.
const A_LOST_CARD_BEGINS: &[(&str, &str)] = &[
    ("fresh 1", "ok"),
    ("open 0 1", "change 1"),
    ("vote 1 0 1", "ok"),
    ("take 1 0", "ok"),
    ("open 0 1", "change 2"),
    ("vote 2 0 1", "ok"),
    ("take 2 0", "ok"),
    ("store 0 1", "ok"),
    ("lose 1", "ok"),
    ("show", "session 1 down cards 1\n0 0 1 1 2"),
    ("begin 0 2", "refused 27"),
    ("begin 0 0", "refused 27"),
    ("begin 0 1", "ok"),
    ("lose 1", "ok"),
    ("store 0 1", "refused 31"),
    ("store 0 2", "refused 27"),
    ("begin 0 1", "refused 31"),
    ("begin 0 2", "refused 27"),
    ("end 0 2", "refused 32"),
    ("end 0 0", "refused 32"),
    ("end 0 1", "ok"),
    ("fix 1 1", "fixed 1 1\n0 1 1\nlost 2"),
];

#[test]
fn a_lost_card_begins() {
    told(A_LOST_CARD_BEGINS);
}

/// A write goes on through further losses; its number is then held, and no more.
const A_WRITE_LOST_TWICE: &[(&str, &str)] = &[
    ("fresh 1", "ok"),
    ("open 0 1", "change 1"),
    ("vote 1 0 1", "ok"),
    ("take 1 0", "ok"),
    ("open 0 1", "change 2"),
    ("vote 2 0 1", "ok"),
    ("take 2 0", "ok"),
    ("open 0 1", "change 3"),
    ("vote 3 0 1", "ok"),
    ("take 3 0", "ok"),
    ("begin 0 3", "ok"),
    ("lose 1", "ok"),
    ("lose 1", "ok"),
    ("show", "session 1 down cards 1\n0 0 0 0 3 writing 3"),
    ("end 0 2", "ok"),
    ("show", "session 1 down cards 1\n0 0 2 2 3"),
    ("begin 0 3", "refused 27"),
    ("store 0 3", "refused 27"),
    ("begin 0 2", "ok"),
    ("lose 1", "ok"),
    ("end 0 2", "ok"),
    ("fix 1 1", "fixed 1 1\n0 2 2\nlost 3"),
];

#[test]
fn a_write_lost_twice() {
    told(A_WRITE_LOST_TWICE);
}

/// A cut leaves any state from the old number to s: here the old number.
const THE_OLD_NUMBER: &[(&str, &str)] = &[
    ("fresh 2", "ok"),
    ("open 0 1", "change 1"),
    ("vote 1 0 1", "ok"),
    ("take 1 0", "ok"),
    ("store 0 1", "ok"),
    ("open 1 2", "change 2"),
    ("vote 2 0 1", "ok"),
    ("vote 2 1 1", "ok"),
    ("take 2 0", "ok"),
    ("take 2 1", "ok"),
    ("open 0 1", "change 3"),
    ("vote 3 0 1", "ok"),
    ("take 3 0", "ok"),
    ("store 1 1", "ok"),
    ("begin 0 2", "ok"),
    ("lose 1", "ok"),
    ("end 0 1", "ok"),
    ("fix 2 8", "fixed 2 1\n0 1 1\n1 1 1\nlost 3"),
];

#[test]
fn the_old_number() {
    told(THE_OLD_NUMBER);
}

/// The same, but s is what the cut left.
const THE_NUMBER_S: &[(&str, &str)] = &[
    ("fresh 2", "ok"),
    ("open 0 1", "change 1"),
    ("vote 1 0 1", "ok"),
    ("take 1 0", "ok"),
    ("store 0 1", "ok"),
    ("open 1 2", "change 2"),
    ("vote 2 0 1", "ok"),
    ("vote 2 1 1", "ok"),
    ("take 2 0", "ok"),
    ("take 2 1", "ok"),
    ("open 0 1", "change 3"),
    ("vote 3 0 1", "ok"),
    ("take 3 0", "ok"),
    ("store 1 1", "ok"),
    ("begin 0 2", "ok"),
    ("lose 1", "ok"),
    ("end 0 2", "ok"),
    ("fix 2 8", "fixed 2 0\n0 2 2\n1 1 1\nlost"),
];

#[test]
fn the_number_s() {
    told(THE_NUMBER_S);
}

/// A restart while a write runs, in phase up and in phase down: its sheet has the old stored number, no write runs after it.
const A_RESTART_FORGETS_THE_WRITE: &[(&str, &str)] = &[
    ("fresh 2", "ok"),
    ("open 0 1", "change 1"),
    ("vote 1 0 1", "ok"),
    ("take 1 0", "ok"),
    ("begin 0 1", "ok"),
    ("restart", "ok"),
    ("show", "session 1 rolling cards 2\n0 0 0 0 0\n1 0 0 0 0"),
    ("end 0 1", "refused 20"),
    ("begin 0 0", "refused 20"),
    ("end 2 0", "refused 2"),
    ("roll 0", "ok"),
    ("roll 1", "ok"),
    ("end 0 0", "refused 32"),
    ("show", "session 2 up cards 2\n0 0 0 0 0\n1 0 0 0 0"),
    ("store 0 0", "ok"),
    ("open 0 2", "change 1"),
    ("vote 1 1 1", "ok"),
    ("take 1 1", "ok"),
    ("open 0 2", "change 2"),
    ("vote 2 1 1", "ok"),
    ("take 2 1", "ok"),
    ("store 1 1", "ok"),
    ("begin 1 2", "ok"),
    ("begin 0 0", "ok"),
    ("lose 2", "ok"),
    ("restart", "ok"),
    ("show", "session 2 rolling cards 2\n0 0 0 0 0\n1 0 1 1 1"),
    ("end 1 2", "refused 20"),
    ("roll 1", "ok"),
    ("roll 0", "ok"),
    ("end 1 1", "refused 32"),
    ("begin 1 1", "ok"),
    ("end 1 1", "ok"),
    ("show", "session 3 up cards 2\n0 0 0 0 0\n1 1 1 1 1"),
];

#[test]
fn a_restart_forgets_the_write() {
    told(A_RESTART_FORGETS_THE_WRITE);
}

/// A fresh cabinet in the place of one with a running write.
const A_FRESH_CABINET_WRITES_NOTHING: &[(&str, &str)] = &[
    ("fresh 1", "ok"),
    ("begin 0 0", "ok"),
    ("fresh 1", "ok"),
    ("end 0 0", "refused 32"),
    ("show", "session 1 up cards 1\n0 0 0 0 0"),
];

#[test]
fn a_fresh_cabinet_writes_nothing() {
    told(A_FRESH_CABINET_WRITES_NOTHING);
}

/// 2 before 20, 20 before 27 and 32, 27 before 31.
const CARDS_AND_PHASES: &[(&str, &str)] = &[
    ("fresh 2", "ok"),
    ("begin 2 0", "refused 2"),
    ("end 2 0", "refused 2"),
    ("begin 16 0", "refused 2"),
    ("end 4294967295 0", "refused 2"),
    ("begin 0 1", "refused 27"),
    ("begin 0 60001", "refused 27"),
    ("begin 0 4294967295", "refused 27"),
    ("end 0 0", "refused 32"),
    ("end 0 4294967295", "refused 32"),
    ("begin 0 0", "ok"),
    ("end 0 1", "refused 32"),
    ("end 0 4294967295", "refused 32"),
    ("begin 0 1", "refused 27"),
    ("begin 0 0", "refused 31"),
    ("store 0 0", "refused 31"),
    ("roll 0", "refused 20"),
    ("fix 2 0", "refused 20"),
    ("lose 0", "ok"),
    ("fix 2 0", "refused 33"),
    ("end 0 0", "ok"),
    ("fix 2 0", "fixed 2 0\n0 0 0\n1 0 0\nlost"),
    ("begin 2 0", "refused 2"),
    ("end 2 0", "refused 2"),
    ("begin 0 9", "refused 20"),
    ("end 0 0", "refused 20"),
];

#[test]
fn cards_and_phases() {
    told(CARDS_AND_PHASES);
}

/// Lines that are no beginning and no end.
const LINES_OF_A_WRITE: &[(&str, &str)] = &[
    ("fresh 1", "ok"),
    ("begin", "unreadable"),
    ("begin 0", "unreadable"),
    ("begin 0 0 0", "unreadable"),
    ("begin  0 0", "unreadable"),
    ("begin 0 0 ", "unreadable"),
    ("Begin 0 0", "unreadable"),
    ("begin 0 x", "unreadable"),
    ("begin 0 4294967296", "unreadable"),
    ("begin -1 0", "unreadable"),
    ("end", "unreadable"),
    ("end 0", "unreadable"),
    ("end 0 0 0", "unreadable"),
    ("end 0  0", "unreadable"),
    (" end 0 0", "unreadable"),
    ("END 0 0", "unreadable"),
    ("end 0 +0", "unreadable"),
    ("end 4294967296 0", "unreadable"),
    ("ends 0 0", "unreadable"),
    ("begins 0 0", "unreadable"),
    ("begin 00 000", "ok"),
    ("end 0 00", "ok"),
];

#[test]
fn lines_of_a_write() {
    told(LINES_OF_A_WRITE);
}
