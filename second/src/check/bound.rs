//! A line belongs to its sheet: carried to another one it is refused, and so is
//! one whose check starts elsewhere.

use super::{demand, Counts};
use crate::carried::*;
use crate::random::Random;
use crate::restart::restart;
use crate::sheet::read_sheets;

/// The two ways of carrying a line.
const WAYS: [(&str, Carry); 2] = [("in place of", in_place_of), ("in front of", in_front_of)];

/// Of an accepted read-out, each kind tried so many times.
pub fn demand_bound(
    bytes: &[u8],
    times: usize,
    random: &mut Random,
    counts: &mut Counts,
) -> Result<(), String> {
    let sheets = read_sheets(bytes).map_err(|refusal| format!("sheets refused {}", refusal.number()))?;
    let lines = lines_of(&sheets);
    for _ in 0..times {
        demand_carried(&lines, sheets.len(), random, counts)?;
        demand_other_start(&lines, random, counts)?;
        demand_misnamed_refused(&lines, random, counts)?;
    }
    demand_older_refused(&lines, counts)
}

/// A frame carried to a frame of another card is always refused with 6. A
/// header, and a frame where the next card's header is due, have the right
/// length with two cards only; such a frame may then name its own card: 7.
fn demand_carried(
    lines: &[Line],
    cards: usize,
    random: &mut Random,
    counts: &mut Counts,
) -> Result<(), String> {
    let (header, frame): (&[u32], &[u32]) = if cards == 2 { (&[6], &[6, 7]) } else { (&[5], &[5]) };
    let kinds: [(&str, &str, Pair, &[u32]); 3] = [
        ("frame", "another card's frame", frame_to_frame, &[6]),
        ("header", "another card's frame", header_to_frame, header),
        ("frame", "the next card's header", frame_to_header, frame),
    ];
    for (what, place, pair, allowed) in kinds {
        for (way, carry) in WAYS {
            if let Some((from, to)) = any_pair(lines, pair, random) {
                let name = format!("{what} {way} {place}");
                demand_refused(&carry(lines, from, to), allowed, &name, counts)?;
            }
        }
    }
    Ok(())
}

/// A check that starts at other sums is refused with 6.
fn demand_other_start(lines: &[Line], random: &mut Random, counts: &mut Counts) -> Result<(), String> {
    let place = random.place(lines.len());
    let Line { session, card, .. } = lines[place];
    let (other, another) = match random.below(3) {
        0 => (random.bits() as u32, card),
        1 => (session, random.from_to(0, 255)),
        _ => (random.bits() as u32, random.from_to(0, 255)),
    };
    if (other as u8, another) == (session as u8, card) {
        return Ok(());
    }
    let mut lines = lines.to_vec();
    lines[place].bytes = checked_as(&lines[place].bytes, other, another);
    demand_refused(&joined(&lines), &[6], "check from another start", counts)
}

/// A header that names another card than its check is of is refused with 6,
/// whichever card is due.
fn demand_misnamed_refused(lines: &[Line], random: &mut Random, counts: &mut Counts) -> Result<(), String> {
    let headers: Vec<usize> = (0..lines.len()).filter(|place| lines[*place].is_header).collect();
    let (place, card) = (random.pick(&headers), random.from_to(0, 255));
    if card == lines[place].card {
        return Ok(());
    }
    let mut lines = lines.to_vec();
    lines[place].bytes = naming(&lines[place], card);
    demand_refused(&joined(&lines), &[6], "header naming another card", counts)
}

/// All lines by the older rule, where both sums start at 0.
fn demand_older_refused(lines: &[Line], counts: &mut Counts) -> Result<(), String> {
    let older: Vec<u8> = lines.iter().flat_map(|line| by_older_rule(&line.bytes)).collect();
    demand_refused(&older, &[6], "all lines by the older rule", counts)
}

fn demand_refused(bytes: &[u8], allowed: &[u32], name: &str, counts: &mut Counts) -> Result<(), String> {
    let given = restart(bytes).err().map_or(0, |refusal| refusal.number());
    counts.add(&format!("{name}: refused {given:02}"));
    demand(allowed.contains(&given), &format!("{name}: refusal {given} in place of {allowed:?}"))
}
