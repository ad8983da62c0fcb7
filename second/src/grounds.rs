//! The grounds of a refusal, for the checks: whether the cabinet that a call
//! was refused on is one that the tables name, with wish 5's 31 to 33 after 30.

use crate::cabinet::{Cabinet, Card, Open, Phase};
use crate::call::Call;
use crate::cards::{has, CardSet};
use crate::limits::*;
use crate::refusal::Refusal;

/// The sets of an opening, a card in both in the second alone.
fn sets_of(call: &Call) -> Option<(CardSet, CardSet)> {
    match *call {
        Call::Open { reads, writes } => Some(((reads & !writes) as CardSet, writes as CardSet)),
        _ => None,
    }
}

/// The cards that a call names, as bits, whatever they are.
fn named(call: &Call) -> u64 {
    let one = |card: u32| 1u64.checked_shl(card).unwrap_or(1 << 63);
    match *call {
        Call::Open { reads, writes } => u64::from(reads | writes),
        Call::Lose { set } => u64::from(set),
        Call::Vote { card, .. }
        | Call::Take { card, .. }
        | Call::Store { card, .. }
        | Call::Begin { card, .. }
        | Call::End { card, .. }
        | Call::Roll { card }
        | Call::Frames { card }
        | Call::Sheet { card, .. } => one(card),
        _ => 0,
    }
}

/// The phases of a call.
fn phases(call: &Call) -> &'static [Phase] {
    match call {
        Call::Store { .. } | Call::Begin { .. } | Call::End { .. } => &[Phase::Up, Phase::Down],
        Call::Fix { .. } => &[Phase::Down],
        Call::Roll { .. } => &[Phase::Rolling],
        Call::Lose { .. }
        | Call::Sheet { .. }
        | Call::Restart
        | Call::Frames { .. }
        | Call::Show
        | Call::Fresh { .. } => &[Phase::Up, Phase::Down, Phase::Rolling],
        _ => &[Phase::Up],
    }
}

/// The open change that a call names.
fn change_of<'a>(call: &Call, cabinet: &'a Cabinet) -> Option<&'a Open> {
    let number = match *call {
        Call::Vote { change, .. } | Call::Take { change, .. } | Call::Withdraw { change } => change,
        _ => return None,
    };
    cabinet.open.iter().find(|open| open.number == number)
}

fn all_yes(open: &Open) -> bool {
    open.yes == open.reads | open.writes
}

/// Some open change still waits for the card and keeps the opening from it.
fn is_barred(call: &Call, cabinet: &Cabinet, card: usize) -> bool {
    let Some((reads, writes)) = sets_of(call) else {
        return false;
    };
    cabinet.open.iter().any(|open| {
        let waits = has(open.reads | open.writes, card) && !has(open.taken, card);
        waits && (has(writes, card) || (has(reads, card) && has(open.writes, card)))
    })
}

/// A written card of an opening of which something holds.
fn some_written(call: &Call, cabinet: &Cabinet, holds: fn(u32, u32) -> bool) -> bool {
    sets_of(call).is_some_and(|(_, writes)| {
        let mut cards = cabinet.cards.iter().enumerate();
        cards.any(|(card, numbers)| has(writes, card) && holds(numbers.base, numbers.reached))
    })
}

/// No such change, or this card is not awaited by it.
fn not_awaited(call: &Call, cabinet: &Cabinet) -> bool {
    match (*call, change_of(call, cabinet)) {
        (Call::Safe { change }, _) => !has_frame(cabinet, change),
        (Call::Vote { card, .. }, Some(open)) => !has((open.reads | open.writes) & !open.yes, card as usize),
        (Call::Take { card, .. }, Some(open)) => {
            !has((open.reads | open.writes) & !open.taken, card as usize)
        }
        (Call::Withdraw { .. }, Some(_)) => false,
        (_, open) => open.is_none(),
    }
}

/// A change with a frame above base.
fn has_frame(cabinet: &Cabinet, change: u32) -> bool {
    (0..cabinet.cards.len()).any(|card| {
        let frames = cabinet.frames(card, cabinet.cards[card].reached);
        frames.iter().any(|frame| frame.change == change)
    })
}

/// The cards whose write is running.
fn writing(cabinet: &Cabinet) -> CardSet {
    let cards = cabinet.cards.iter().enumerate();
    cards.filter(|(_, numbers)| numbers.writing.is_some()).fold(0, |set, (card, _)| set | 1 << card)
}

/// A write runs on the card, and the number is one from stored to its s.
fn may_end(card: &Card, state: u32) -> bool {
    card.writing.is_some_and(|up_to| card.stored <= state && state <= up_to)
}

/// The lowest card that an opening touches and finds barred: 21 is looked for apart, as it names one.
fn lowest_barred(call: &Call, cabinet: &Cabinet) -> Option<usize> {
    (0..cabinet.cards.len()).find(|card| is_barred(call, cabinet, *card))
}

/// Whether what another refusal says holds of the call and the cabinet.
fn holds(refusal: Refusal, call: &Call, cabinet: &Cabinet) -> bool {
    let cards = cabinet.cards.len();
    match refusal {
        Refusal::CardCount => matches!(call, Call::Fresh { cards } if *cards == 0 || *cards > 16),
        Refusal::NoSuchCard => named(call) >> cards != 0,
        Refusal::EmptySets => matches!(call, Call::Open { reads: 0, writes: 0 }),
        Refusal::TooShort => match *call {
            Call::Fix { records, numbers } => {
                (records as usize) < cards || (numbers as usize) < cabinet.lost_now().len()
            }
            Call::Sheet { card, room } => {
                let frames =
                    (cabinet.cards[card as usize].stored - cabinet.cards[card as usize].base) as usize;
                (room as usize) < 25 + frames * (17 + 4 * cards)
            }
            _ => false,
        },
        Refusal::WrongPhase => !phases(call).contains(&cabinet.phase),
        Refusal::EightOpen => cabinet.open.len() == MOST_OPEN,
        Refusal::HandFull => some_written(call, cabinet, |base, reached| reached == base + MOST_IN_HAND),
        Refusal::NumbersUsedUp => some_written(call, cabinet, |_, reached| reached == HIGHEST_STATE),
        Refusal::NotAwaited => not_awaited(call, cabinet),
        Refusal::AlreadyDecided => change_of(call, cabinet).is_some_and(all_yes),
        Refusal::StoreOutside => match *call {
            Call::Store { card, state } | Call::Begin { card, state } => {
                let numbers = cabinet.cards[card as usize];
                state < numbers.stored || state > numbers.held
            }
            _ => false,
        },
        Refusal::NotDecided => change_of(call, cabinet).is_some_and(|open| !all_yes(open)),
        Refusal::AlreadyRolled => matches!(*call, Call::Roll { card } if has(cabinet.rolled, card as usize)),
        Refusal::WriteRunning => match *call {
            Call::Store { card, .. } | Call::Begin { card, .. } => has(writing(cabinet), card as usize),
            _ => false,
        },
        Refusal::NoSuchEnd => match *call {
            Call::End { card, state } => !may_end(&cabinet.cards[card as usize], state),
            _ => false,
        },
        Refusal::WriteUnreported => matches!(call, Call::Fix { .. }) && writing(cabinet) != 0,
        _ => false,
    }
}

/// The refusals that a call may give, in the order they are looked for.
const IN_ORDER: [Refusal; 17] = [
    Refusal::CardCount,
    Refusal::NoSuchCard,
    Refusal::EmptySets,
    Refusal::WrongPhase,
    Refusal::EightOpen,
    Refusal::HandFull,
    Refusal::NumbersUsedUp,
    Refusal::AlreadyDecided,
    Refusal::NotDecided,
    Refusal::NotAwaited,
    Refusal::StoreOutside,
    Refusal::AlreadyRolled,
    Refusal::WriteRunning,
    Refusal::NoSuchEnd,
    Refusal::WriteUnreported,
    Refusal::TooShort,
    Refusal::TooLong,
];

/// Whether a ground is looked for by a call at all.
fn concerns(refusal: Refusal, call: &Call) -> bool {
    match refusal {
        Refusal::EightOpen => sets_of(call).is_some(),
        Refusal::AlreadyDecided => matches!(call, Call::Vote { .. } | Call::Withdraw { .. }),
        Refusal::NotDecided => matches!(call, Call::Take { .. }),
        Refusal::NotAwaited => {
            matches!(call, Call::Vote { .. } | Call::Take { .. } | Call::Withdraw { .. } | Call::Safe { .. })
        }
        _ => true,
    }
}

/// The refusal due to a call by the tables and their order, or none.
pub fn due(call: &Call, cabinet: &Cabinet) -> Option<Refusal> {
    for refusal in IN_ORDER {
        if refusal == Refusal::EightOpen {
            if let Some(card) = lowest_barred(call, cabinet) {
                return Some(Refusal::Barred(card));
            }
        }
        if concerns(refusal, call) && holds(refusal, call, cabinet) {
            return Some(refusal);
        }
    }
    None
}
