//! The property checks over random lists and read-outs, and the programs'
//! own plumbing.

use second::check::{check_list, check_readout, Counts};
use second::compare::{list_difference, shrink_list, Program};
use second::lists::{joined, list, styled_list, Style};
use second::random::Random;
use second::readouts::readout;
use second::replay::replay;

#[test]
fn random_lists() {
    let mut counts = Counts::default();
    for seed in 0..700 {
        check_list(&list(seed), &mut counts).unwrap_or_else(|error| panic!("seed {seed}: {error}"));
    }
    let numbers =
        ["01", "02", "03", "04", "20", "21", "22", "23", "25", "26", "27", "29", "30", "31", "32", "33"];
    for number in numbers {
        assert!(counts.numbers.contains_key(&format!("refused {number}")), "refusal {number} never came");
    }
    for name in [
        "refused 21 with two barred cards",
        "refused 21 with a lower touched card free",
        "refused 21 with a lower card in the barring change",
        "answered safe",
        "answered unsafe",
        "unsafe though stored",
    ] {
        assert!(counts.numbers.contains_key(name), "{name} never came");
    }
    demand_carried(&counts);
    demand_writes(&counts);
}

/// What wish 5 speaks of came.
fn demand_writes(counts: &Counts) {
    for name in [
        "beginnings in phase Up",
        "beginnings in phase Down",
        "beginnings up to the stored number",
        "ends in phase Up",
        "ends in phase Down",
        "ends at the old number",
        "ends between",
        "ends at s",
        "ends that raise a fallen held",
        "losses of a card whose write runs",
        "refused 27 though the write runs",
        "refused 31 a store",
        "refused 31 a beginning",
        "refused 32 without a beginning",
        "refused 32 below the old number",
        "refused 32 above s",
        "refused 33 before 04",
        "refused 33 for two writes",
        "refused 33 with a writer's held fallen",
        "refused 33 with no writer's held fallen",
        "numbers that a cut may leave, fixed",
    ] {
        assert!(counts.numbers.contains_key(name), "{name} never came");
    }
    for word in ["open", "vote", "take", "withdraw", "trim", "safe", "lose", "sheet", "frames", "restart"] {
        let name = format!("beside a running write: accepted {word}");
        assert!(counts.numbers.contains_key(&name), "{name} never came");
    }
}

/// Each way of carrying a line came.
fn demand_carried(counts: &Counts) {
    for way in ["in place of", "in front of"] {
        for name in [
            format!("frame {way} another card's frame: refused 06"),
            format!("header {way} another card's frame: refused 06"),
            format!("header {way} another card's frame: refused 05"),
            format!("frame {way} the next card's header: refused 06"),
            format!("frame {way} the next card's header: refused 05"),
        ] {
            assert!(counts.numbers.contains_key(&name), "{name} never came");
        }
    }
}

#[test]
fn small_lists() {
    let mut counts = Counts::default();
    for seed in 0..2500 {
        check_list(&styled_list(seed, Style::Small), &mut counts)
            .unwrap_or_else(|error| panic!("seed {seed}: {error}"));
    }
}

#[test]
fn random_readouts() {
    let mut counts = Counts::default();
    for seed in 0..6000 {
        check_readout(&readout(seed), &mut Random::new(seed), &mut counts)
            .unwrap_or_else(|error| panic!("seed {seed}: {error}"));
    }
    for number in ["05", "06", "07", "08", "09", "10", "11", "12", "24"] {
        assert!(
            counts.numbers.contains_key(&format!("read-outs refused {number}")),
            "refusal {number} never came"
        );
    }
    demand_carried(&counts);
    assert!(counts.numbers.contains_key("frame in place of the next card's header: refused 07"));
}

/// A replay that gives change 3 a wrong number.
fn faulty(text: &[u8]) -> String {
    replay(text).replace("change 3\n", "change 4\n")
}

#[test]
fn a_difference_is_found_and_shrunk() {
    let (own, other) = (Program::Own(replay), Program::Own(faulty));
    let seed =
        (0..).find(|seed| matches!(list_difference(&own, &other, &list(*seed)), Ok(Some(_)))).unwrap_or(0);
    let short = shrink_list(&own, &other, list(seed));
    assert!(short.len() <= 10, "{}", String::from_utf8_lossy(&joined(&short)));
}
