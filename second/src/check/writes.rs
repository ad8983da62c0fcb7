//! Long writes, for the checks: what wish 5 says of a write from its beginning
//! to its end.

use super::{demand, Counts, Follower};
use crate::answer::Answer;
use crate::cabinet::{Cabinet, Card, Phase};
use crate::call::{write_call, Call};
use crate::journal::Journal;
use crate::refusal::Refusal;
use crate::replay::Place;

/// Up to this many changes, every number that a cut may leave is tried.
const FEW_CHANGES: usize = 6;

/// The running writes: card and the state that each goes up to.
fn running(cabinet: &Cabinet) -> Vec<(usize, u32)> {
    let cards = cabinet.cards.iter().enumerate();
    cards.filter_map(|(card, numbers)| numbers.writing.map(|up_to| (card, up_to))).collect()
}

/// The cabinet with all running writes taken away.
fn without_writes(cabinet: &Cabinet) -> Cabinet {
    let mut cabinet = cabinet.clone();
    cabinet.cards.iter_mut().for_each(|card| card.writing = None);
    cabinet
}

/// The cabinet with one card's numbers replaced.
fn with_card(cabinet: &Cabinet, card: usize, numbers: Card) -> Cabinet {
    let mut cabinet = cabinet.clone();
    cabinet.cards[card] = numbers;
    cabinet
}

/// What an end leaves of a card: its stored number is the one reported, and
/// held rises to it.
fn ended(card: Card, number: u32) -> Card {
    Card { stored: number, held: card.held.max(number), writing: None, ..card }
}

/// The numbers that an end may report: from the old stored number to s.
fn reportable(cabinet: &Cabinet, card: usize, up_to: u32) -> std::ops::RangeInclusive<u32> {
    cabinet.cards[card].stored..=up_to
}

/// The ends that report the present stored numbers.
pub fn ends_at_stored(cabinet: &Cabinet) -> Vec<Call> {
    let end = |(card, _): (usize, u32)| Call::End { card: card as u32, state: cabinet.cards[card].stored };
    running(cabinet).into_iter().map(end).collect()
}

/// Reports on the side; the book is told.
pub fn report(place: &mut Place, journal: &mut Journal, ends: &[Call]) -> Result<(), String> {
    for end in ends {
        let answer = place.answer(*end);
        demand(answer == Answer::Ok, &format!("{} on the side answers {answer:?}", write_call(end)))?;
        journal.note(end, &answer);
    }
    Ok(())
}

/// A running write is within stored to reached, and none runs in phase rolling.
pub fn demand_writes(cabinet: &Cabinet) -> Result<(), String> {
    for (card, up_to) in running(cabinet) {
        let numbers = cabinet.cards[card];
        let within = numbers.stored <= up_to && up_to <= numbers.reached;
        demand(within, &format!("a write of card {card} runs out of its limits: {numbers:?}"))?;
        demand(cabinet.phase != Phase::Rolling, "a write runs in phase rolling")?;
    }
    Ok(())
}

/// Whether a call asks after running writes.
fn asks_after_writes(call: &Call) -> bool {
    matches!(call, Call::Store { .. } | Call::Begin { .. } | Call::End { .. } | Call::Fix { .. } | Call::Show)
}

/// Any other call answers and does beside running writes what it would do
/// without them, and they go on; a restart and a fresh cabinet have none.
pub fn demand_unmoved(
    call: &Call,
    answer: &Answer,
    before: &Cabinet,
    after: &Cabinet,
    counts: &mut Counts,
) -> Result<(), String> {
    if asks_after_writes(call) || running(before).is_empty() {
        return Ok(());
    }
    let mut side = Place { cabinet: Some(without_writes(before)) };
    demand(side.answer(*call) == *answer, "without the running writes the answer is another one")?;
    demand(
        side.cabinet == Some(without_writes(after)),
        "without the running writes the call does something else",
    )?;
    let anew = *answer == Answer::Ok && matches!(call, Call::Restart | Call::Fresh { .. });
    let left = if anew { Vec::new() } else { running(before) };
    demand(running(after) == left, "a running write does not go on")?;
    let word = write_call(call);
    let word = word.split(' ').next().unwrap_or("");
    let outcome = if matches!(answer, Answer::Refused(_)) { "refused" } else { "accepted" };
    counts.add(&format!("beside a running write: {outcome} {word}"));
    Ok(())
}

/// A beginning changed nothing but that the write runs.
pub fn demand_begun(
    card: usize,
    up_to: u32,
    before: Option<&Cabinet>,
    after: &Cabinet,
    counts: &mut Counts,
) -> Result<(), String> {
    let before = before.ok_or("a beginning without a cabinet")?;
    let numbers = Card { writing: Some(up_to), ..before.cards[card] };
    demand(*after == with_card(before, card, numbers), "a beginning changed more than its write")?;
    counts.greatest("most writes running", running(after).len());
    counts.add(&format!("beginnings in phase {:?}", before.phase));
    if up_to == numbers.stored {
        counts.add("beginnings up to the stored number");
    }
    Ok(())
}

/// An end left its number as stored, held no lower, base and reached as they were.
pub fn demand_ended(
    card: usize,
    number: u32,
    before: Option<&Cabinet>,
    after: &Cabinet,
    counts: &mut Counts,
) -> Result<(), String> {
    let before = before.ok_or("an end without a cabinet")?;
    let numbers = before.cards[card];
    demand(*after == with_card(before, card, ended(numbers, number)), "an end did something else")?;
    counts.add(&format!("ends in phase {:?}", before.phase));
    if number == numbers.stored {
        counts.add("ends at the old number");
    }
    if numbers.writing == Some(number) {
        counts.add("ends at s");
    }
    if numbers.stored < number && Some(number) < numbers.writing {
        counts.add("ends between");
    }
    if numbers.held < number {
        counts.add("ends that raise a fallen held");
    }
    Ok(())
}

/// What a refusal about writes came from.
pub fn count_refused(call: &Call, refusal: Refusal, before: Option<&Cabinet>, counts: &mut Counts) {
    let Some(before) = before else {
        return;
    };
    match (*call, refusal) {
        (Call::Store { card, .. } | Call::Begin { card, .. }, Refusal::StoreOutside) => {
            if before.cards[card as usize].writing.is_some() {
                counts.add("refused 27 though the write runs");
            }
        }
        (Call::Store { .. }, Refusal::WriteRunning) => counts.add("refused 31 a store"),
        (Call::Begin { .. }, Refusal::WriteRunning) => counts.add("refused 31 a beginning"),
        (Call::End { card, state }, Refusal::NoSuchEnd) => {
            let numbers = before.cards[card as usize];
            counts.add(match numbers.writing {
                None => "refused 32 without a beginning",
                Some(_) if state < numbers.stored => "refused 32 below the old number",
                Some(_) => "refused 32 above s",
            });
        }
        (Call::Fix { records, numbers }, Refusal::WriteUnreported) => {
            count_unreported(records as usize, numbers as usize, before, counts);
        }
        _ => {}
    }
}

fn count_unreported(records: usize, numbers: usize, before: &Cabinet, counts: &mut Counts) {
    let running = running(before);
    if records < before.cards.len() || numbers < before.lost_now().len() {
        counts.add("refused 33 before 04");
    }
    if running.len() > 1 {
        counts.add("refused 33 for two writes");
    }
    if running.iter().all(|(card, up_to)| before.cards[*card].held >= *up_to) {
        counts.add("refused 33 with no writer's held fallen");
    }
    if running.iter().any(|(card, up_to)| before.cards[*card].held < *up_to) {
        counts.add("refused 33 with a writer's held fallen");
    }
}

impl Follower {
    /// On the side an end is accepted with every number from stored to s, and
    /// with neither neighbour of these.
    pub(super) fn demand_any_end(&self, counts: &mut Counts) -> Result<(), String> {
        let cabinet = self.cabinet()?;
        let running = running(cabinet);
        if running.is_empty() {
            return Ok(());
        }
        let mut side = cabinet.clone();
        for (card, up_to) in running {
            let numbers = cabinet.cards[card];
            for state in numbers.stored.saturating_sub(1)..=up_to + 1 {
                let accepted = side.end(card as u32, state).is_ok();
                let may = reportable(cabinet, card, up_to).contains(&state);
                demand(accepted == may, &format!("an end of card {card} with {state}: {accepted}"))?;
                let left = if may { ended(numbers, state) } else { numbers };
                demand(side.cards[card] == left, "an end left other numbers")?;
                side.cards[card] = numbers;
                counts.add(if may { "ends tried: accepted" } else { "ends tried: refused 32" });
            }
        }
        demand(side == *cabinet, "an end moved another card")
    }

    /// Ends of all running writes, each with some number that it may have reached.
    pub(super) fn some_ends(&mut self) -> Result<Vec<Call>, String> {
        let cabinet = self.cabinet()?;
        let cards: Vec<(usize, u32, u32)> = running(cabinet)
            .into_iter()
            .map(|(card, up_to)| (card, cabinet.cards[card].stored, up_to))
            .collect();
        let random = &mut self.random;
        let end = |(card, stored, up_to): (usize, u32, u32)| Call::End {
            card: card as u32,
            state: random.from_to(stored, up_to),
        };
        Ok(cards.into_iter().map(end).collect())
    }

    /// In short histories: each writer in turn is lost, reports every number that
    /// the cut may have left, and the line fixed is the greatest for that number.
    pub(super) fn demand_any_cut(&self, counts: &mut Counts) -> Result<(), String> {
        let cabinet = self.cabinet()?;
        if self.journal.history.len() > FEW_CHANGES {
            return Ok(());
        }
        for (card, up_to) in running(cabinet) {
            for state in reportable(cabinet, card, up_to) {
                let mut ends = ends_at_stored(cabinet);
                ends.retain(|end| !matches!(end, Call::End { card: other, .. } if *other as usize == card));
                ends.push(Call::End { card: card as u32, state });
                self.demand_cut_at(1 << card, &ends, counts)?;
            }
        }
        Ok(())
    }

    /// Cards lost right here, the writes reported after that, the fix held to the book.
    fn demand_cut_at(&self, lost: u32, ends: &[Call], counts: &mut Counts) -> Result<(), String> {
        let mut side = Place { cabinet: self.place.cabinet.clone() };
        let mut journal = self.journal.clone();
        side.answer(Call::Lose { set: lost });
        report(&mut side, &mut journal, ends)?;
        let Answer::Fixed { records, lost } = side.answer(Call::Fix { records: 16, numbers: 776 }) else {
            return Err("a fix after all writes are reported is refused".to_string());
        };
        counts.add("numbers that a cut may leave, fixed");
        journal.demand_at_fix(&records, &lost)
    }
}
