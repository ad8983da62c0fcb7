//! The property checks over random lists and read-outs: the setter's book,
//! vectors by both ways, lines by both ways, sheets, long writes, refusals.

mod bound;
mod writes;

use crate::answer::Answer;
use crate::cabinet::{Cabinet, Past, Phase, Record};
use crate::call::{read_call, write_call, Call};
use crate::cards::{all, has, members, CardSet};
use crate::grounds::due;
use crate::journal::{Journal, TRIED_IN_FULL};
use crate::limits::*;
use crate::random::Random;
use crate::refusal::Refusal;
use crate::replay::Place;
use crate::restart::restart;
use crate::sheet::{read_sheet, read_sheets, write_sheet};
use crate::takes::Takes;
use bound::demand_bound;
use std::collections::{BTreeMap, BTreeSet};
use writes::*;

/// What the checks saw.
#[derive(Default, Debug)]
pub struct Counts {
    pub numbers: BTreeMap<String, u64>,
}

impl Counts {
    pub fn add(&mut self, name: &str) {
        *self.numbers.entry(name.to_string()).or_insert(0) += 1;
    }

    fn greatest(&mut self, name: &str, number: usize) {
        let entry = self.numbers.entry(name.to_string()).or_insert(0);
        *entry = (*entry).max(number as u64);
    }
}

/// Follows a list beside the cabinet.
struct Follower {
    place: Place,
    journal: Journal,
    takes: Takes,
    /// What a cut would leave on each card: its last accepted store, end or roll.
    left: Vec<u32>,
    random: Random,
}

/// Runs a list through all checks.
pub fn check_list(lines: &[Vec<u8>], counts: &mut Counts) -> Result<(), String> {
    let mut follower = Follower {
        place: Place::default(),
        journal: Journal::new(0),
        takes: Takes::new(Vec::new()),
        left: Vec::new(),
        random: Random::new(lines.len() as u64),
    };
    for (number, line) in lines.iter().enumerate() {
        let at = |error| format!("line {}: {}: {error}", number + 1, String::from_utf8_lossy(line));
        counts.add("calls");
        match read_call(line) {
            None => counts.add("unreadable"),
            Some(call) => follower.step(call, counts).map_err(at)?,
        }
    }
    Ok(())
}

fn demand(holds: bool, what: &str) -> Result<(), String> {
    if holds {
        Ok(())
    } else {
        Err(what.to_string())
    }
}

impl Follower {
    fn step(&mut self, call: Call, counts: &mut Counts) -> Result<(), String> {
        let before = self.place.cabinet.clone();
        let answer = self.place.answer(call);
        self.demand_refusal_due(&call, &answer, before.as_ref())?;
        if let (Some(before), Some(after)) = (&before, &self.place.cabinet) {
            demand_unmoved(&call, &answer, before, after, counts)?;
        }
        if let Answer::Refused(refusal) = answer {
            counts.add(&format!("refused {:02}", refusal.number()));
            count_barred(&call, refusal, before.as_ref(), counts);
            count_short(&call, refusal, before.as_ref(), counts);
            count_refused(&call, refusal, before.as_ref(), counts);
            return demand(before == self.place.cabinet, "a refusal changed the cabinet");
        }
        if answer == Answer::NoCabinet {
            return Ok(());
        }
        let word = write_call(&call);
        counts.add(&format!("accepted {}", word.split(' ').next().unwrap_or("")));
        self.follow(call, &answer, before.as_ref(), counts)?;
        self.demand_numbers()?;
        let joined = self.cabinet()?.joined_sheets();
        self.demand_sheets(&joined, counts)?;
        demand_altered_refused(&joined, &mut self.random, counts)?;
        demand_bound(&joined, 1, &mut self.random, counts)?;
        self.demand_any_end(counts)?;
        self.demand_any_cut(counts)?;
        self.demand_cut(counts)
    }

    /// A call is refused exactly for the ground that the tables put first.
    fn demand_refusal_due(
        &self,
        call: &Call,
        answer: &Answer,
        before: Option<&Cabinet>,
    ) -> Result<(), String> {
        let Some(before) = before else {
            return Ok(());
        };
        let given = match answer {
            Answer::Refused(refusal) => Some(*refusal),
            _ => None,
        };
        let due = due(call, before);
        demand(given == due, &format!("refusal {given:?} given, {due:?} due"))
    }

    fn cabinet(&self) -> Result<&Cabinet, String> {
        self.place.cabinet.as_ref().ok_or("no cabinet after an accepted call".to_string())
    }

    /// An accepted call.
    fn follow(
        &mut self,
        call: Call,
        answer: &Answer,
        before: Option<&Cabinet>,
        counts: &mut Counts,
    ) -> Result<(), String> {
        match (call, answer) {
            (Call::Fresh { cards }, _) => self.begin(cards as usize),
            (Call::Open { reads, writes }, Answer::Change(number)) => {
                self.takes.open(*number, reads as CardSet, writes as CardSet);
                self.demand_open(*number, before, counts)?;
            }
            (Call::Vote { change, card, yes: true }, _) => self.takes.yes(change, card as usize),
            (Call::Vote { change, .. } | Call::Withdraw { change }, _) => self.takes.end(change),
            (Call::Take { change, card }, _) => self.follow_take(change, card as usize, counts)?,
            (Call::Store { card, state }, _) => self.left[card as usize] = state,
            (Call::Begin { card, state }, _) => {
                demand_begun(card as usize, state, before, self.cabinet()?, counts)?;
            }
            (Call::End { card, state }, _) => {
                demand_ended(card as usize, state, before, self.cabinet()?, counts)?;
                self.left[card as usize] = state;
            }
            (Call::Lose { set }, _) => self.follow_loss(set as CardSet, before, counts)?,
            (Call::Trim, _) => self.demand_trim(counts)?,
            (Call::Fix { .. }, Answer::Fixed { records, lost }) => {
                self.demand_ways_agree(before)?;
                self.journal.demand_at_fix(records, lost)?;
                if self.journal.history.len() <= TRIED_IN_FULL {
                    counts.add("fixes tried in full");
                }
                count_fix(records, lost, before, counts);
                self.count_lost(&call, lost, before, counts);
                counts.greatest("most changes in a history", self.journal.history.len());
            }
            (Call::Safe { change }, Answer::Safe(safe)) => self.demand_safe(change, *safe, counts)?,
            (Call::Roll { card }, _) => self.follow_roll(card as usize)?,
            (Call::Restart, _) => self.follow_restart(before, counts)?,
            _ => {}
        }
        self.journal.note(&call, answer);
        if matches!(call, Call::Roll { .. }) && self.journal.noted.is_none() {
            self.takes = Takes::new(self.journal.start.clone());
        }
        Ok(())
    }

    fn begin(&mut self, cards: usize) {
        self.journal = Journal::new(cards);
        self.takes = Takes::new(vec![0; cards]);
        self.left = vec![0; cards];
    }

    /// An opening had a free place, room on its cards, and no bar.
    fn demand_open(&self, number: u32, before: Option<&Cabinet>, counts: &mut Counts) -> Result<(), String> {
        let before = before.ok_or("an opening without a cabinet")?;
        let open = self.cabinet()?.open.last().ok_or("the opened change is not open")?;
        demand(open.number == number && number == before.last_change + 1, "a wrong change number")?;
        let others_bar = before.open.iter().any(|other| {
            let waiting = other.touched() & !other.taken;
            waiting & open.writes != 0 || waiting & other.writes & open.reads != 0
        });
        demand(!others_bar, "a barred card was opened")?;
        demand(before.open.len() < MOST_OPEN, "a ninth change was opened")?;
        counts.greatest("most open", before.open.len() + 1);
        Ok(())
    }

    /// The new state has the vector of the definitions.
    fn follow_take(&mut self, change: u32, card: usize, counts: &mut Counts) -> Result<(), String> {
        let taken = self.takes.take(change, card);
        let cabinet = self.cabinet()?;
        counts.greatest("most in hand", (cabinet.cards[card].reached - cabinet.cards[card].base) as usize);
        let Some((state, vector)) = taken else {
            return Ok(());
        };
        demand(cabinet.cards[card].reached == state, "a take did not go up by one state")?;
        counts.add("vectors compared");
        let by_history = cabinet.history().vector(card, state);
        demand(
            by_history == vector,
            &format!("vector {by_history:?} by the definitions, {vector:?} by call 3"),
        )
    }

    fn follow_loss(
        &mut self,
        set: CardSet,
        before: Option<&Cabinet>,
        counts: &mut Counts,
    ) -> Result<(), String> {
        self.takes.end_all();
        let cabinet = self.cabinet()?;
        for card in members(set) {
            demand(
                cabinet.cards[card].stored == self.left[card],
                "a cut left another state than the last store, end or roll",
            )?;
            demand(cabinet.cards[card].held == self.left[card], "a lost card holds more than it stored")?;
        }
        if let Some(before) = before {
            counts.add(&format!("losses in phase {:?}", before.phase));
            let half = |open: &&crate::cabinet::Open| open.decided() && open.taken != 0;
            if before.phase == Phase::Up && before.open.iter().any(|open| half(&open)) {
                counts.add("losses with a half-taken change");
            }
            if members(set).any(|card| before.cards[card].writing.is_some()) {
                counts.add("losses of a card whose write runs");
            }
        }
        Ok(())
    }

    /// Every base is at the line of the present stored numbers.
    fn demand_trim(&self, counts: &mut Counts) -> Result<(), String> {
        let cabinet = self.cabinet()?;
        let bases: Vec<u32> = cabinet.cards.iter().map(|card| card.base).collect();
        counts.add("trims checked");
        self.journal.demand_line(&self.journal.order(), &bases)?;
        demand(cabinet.line_by_hits() == bases, "a second trim would move a base")
    }

    /// Were every card lost right here, with the present stored numbers reported
    /// of running writes, the fix that follows would list the change exactly if
    /// it is not safe; by the book it is then on none of its cards, else on all.
    fn demand_safe(&self, change: u32, safe: bool, counts: &mut Counts) -> Result<(), String> {
        let cabinet = self.cabinet()?.clone();
        let set = u32::from(all(cabinet.cards.len()));
        let ends = ends_at_stored(&cabinet);
        let mut place = Place { cabinet: Some(cabinet) };
        place.answer(Call::Lose { set });
        report(&mut place, &mut self.journal.clone(), &ends)?;
        let Answer::Fixed { records, lost } = place.answer(Call::Fix { records: 16, numbers: 776 }) else {
            return Err("a fix after a loss of all cards is refused".to_string());
        };
        self.journal.demand_at_fix(&records, &lost)?;
        demand(lost.contains(&change) != safe, "a loss of all cards shows another answer of safe")?;
        let line: Vec<u32> = records.iter().map(|record| record.line).collect();
        demand(
            self.journal.is_on(change, &line) == Some(safe),
            "safe is not that the change is in the line",
        )?;
        if !safe && self.journal.is_on(change, &self.journal.stored) == Some(true) {
            counts.add("unsafe though stored");
        }
        counts.add(if safe { "answered safe" } else { "answered unsafe" });
        Ok(())
    }

    /// The greatest choice and the rule of hits give the same line.
    fn demand_ways_agree(&self, before: Option<&Cabinet>) -> Result<(), String> {
        let before = before.ok_or("a fix without a cabinet")?;
        let by_hits = before.line_by_hits();
        let by_history = before.history().line(&before.stored());
        demand(by_hits == by_history, &format!("line {by_hits:?} by hits, {by_history:?} by choices"))
    }

    /// Each roll sets its card's four numbers to the line.
    fn follow_roll(&mut self, card: usize) -> Result<(), String> {
        let noted = self.journal.noted.as_ref().ok_or("a roll without a line")?;
        let line = noted.line[card];
        let numbers = self.cabinet()?.cards[card];
        let four = [numbers.base, numbers.stored, numbers.held, numbers.reached];
        demand(four == [line; 4], "a roll did not set its card to the line")?;
        self.left[card] = line;
        Ok(())
    }

    /// While rolling a restart changes no line; elsewhere it fixes one.
    fn follow_restart(&mut self, before: Option<&Cabinet>, counts: &mut Counts) -> Result<(), String> {
        let before = before.ok_or("a restart without a cabinet")?;
        let cabinet = self.cabinet()?.clone();
        counts.add(&format!("restarts in phase {:?}", before.phase));
        demand(cabinet.phase == Phase::Rolling && cabinet.open.is_empty(), "a restart does not roll")?;
        self.takes.end_all();
        match &self.journal.noted {
            Some(noted) => {
                demand(cabinet.line == noted.line, "a restart changed the line")?;
                demand(cabinet.rolled == noted.rolled, "a restart forgot a roll")
            }
            None => {
                self.journal.demand_line(&self.journal.order(), &cabinet.line)?;
                self.journal.note_line(cabinet.line);
                Ok(())
            }
        }
    }

    /// What the order of the lost changes could be mistaken for, and how many
    /// places were lent.
    fn count_lost(&self, call: &Call, lost: &[u32], before: Option<&Cabinet>, counts: &mut Counts) {
        let decided: Vec<u32> = self
            .journal
            .history
            .iter()
            .map(|change| change.number)
            .filter(|number| lost.contains(number))
            .collect();
        if decided != lost {
            counts.add("fixes with lost changes decided in another order");
        }
        if let Some(before) = before {
            let framed = framed(before, lost);
            let first = framed.iter().position(|is_framed| *is_framed);
            let last = framed.iter().rposition(|is_framed| *is_framed);
            if let (Some(first), Some(last)) = (first, last) {
                if framed[first..=last].contains(&false) {
                    counts.add("fixes with a lost change without a frame between framed ones");
                }
            }
        }
        if !self.journal.builds_on(&self.journal.order(), lost).is_empty() {
            counts.add("fixes with a lost change that builds on another");
        }
        if let Call::Fix { numbers, .. } = call {
            if !lost.is_empty() && *numbers as usize == lost.len() {
                counts.add("fixes with just as many places as lost changes");
            }
        }
    }

    /// Cards lost right here, and running writes reported, some before the loss
    /// and some after it: the fix that follows holds, and so do the rolls after
    /// it, with the engine's memory gone before each.
    fn demand_cut(&mut self, counts: &mut Counts) -> Result<(), String> {
        let cabinet = self.cabinet()?.clone();
        let long = self.journal.history.len() > 30;
        if cabinet.phase == Phase::Rolling || (long && !self.random.chance(40)) {
            return Ok(());
        }
        let cards = cabinet.cards.len();
        let mut place = Place { cabinet: Some(cabinet) };
        let mut journal = self.journal.clone();
        let ends = self.some_ends()?;
        let (early, late) = ends.split_at(self.random.place(ends.len() + 1));
        let set = self.random.bits() as u32 & u32::from(all(cards));
        let fix = Call::Fix { records: 16, numbers: 776 };
        report(&mut place, &mut journal, early)?;
        place.answer(Call::Lose { set });
        if !late.is_empty() {
            counts.add("cuts with a write running tried");
            let refused = Answer::Refused(Refusal::WriteUnreported);
            demand(place.answer(fix) == refused, "a fix with a write unreported is not refused")?;
        }
        report(&mut place, &mut journal, late)?;
        let Answer::Fixed { records, lost } = place.answer(fix) else {
            return Err("a fix after a cut is refused".to_string());
        };
        counts.add("cuts tried");
        journal.demand_at_fix(&records, &lost)?;
        let first = self.random.place(cards);
        for step in 0..cards {
            place.answer(Call::Restart);
            let fixed = place.cabinet.as_ref().map(|cabinet| cabinet.line.clone());
            let line: Vec<u32> = records.iter().map(|record| record.line).collect();
            demand(fixed == Some(line), "after a cut the sheets do not restart to the line")?;
            place.answer(Call::Roll { card: ((first + step) % cards) as u32 });
        }
        let phase = place.cabinet.map(|cabinet| cabinet.phase);
        demand(phase == Some(Phase::Up), "after the last roll the phase is not up")
    }

    /// The limits of the four numbers, and what cuts would leave.
    fn demand_numbers(&self) -> Result<(), String> {
        let cabinet = self.cabinet()?;
        for (number, card) in cabinet.cards.iter().enumerate() {
            let rising = card.base <= card.stored && card.stored <= card.held && card.held <= card.reached;
            let limited = card.reached <= card.base + MOST_IN_HAND && card.reached <= HIGHEST_STATE;
            demand(rising && limited, &format!("card {number} is out of its limits: {card:?}"))?;
            demand(card.stored == self.left[number], "stored is not the last accepted store, end or roll")?;
            let rolled = self.journal.noted.as_ref().is_some_and(|noted| has(noted.rolled, number));
            demand(rolled || card.stored == self.journal.stored[number], "stored is not the book's")?;
            demand(
                cabinet.phase != Phase::Up || card.held == card.reached,
                "in phase up held is not reached",
            )?;
        }
        demand_writes(cabinet)?;
        demand(cabinet.open.len() <= MOST_OPEN, "more than eight changes are open")
    }

    /// The sheets read back, and from a fix to the last roll restart to the
    /// line.
    fn demand_sheets(&self, joined: &[u8], counts: &mut Counts) -> Result<(), String> {
        let cabinet = self.cabinet()?;
        let sheets =
            read_sheets(joined).map_err(|refusal| format!("own sheets refused {}", refusal.number()))?;
        for (card, sheet) in sheets.iter().enumerate() {
            demand(*sheet == cabinet.sheet_of(card), "a sheet does not read back the same")?;
            demand(
                read_sheet(&write_sheet(sheet), card).as_ref() == Ok(sheet),
                "one sheet does not read back the same",
            )?;
        }
        counts.add("sheets of a cabinet read back");
        let again = restart(joined).map_err(|refusal| format!("restart refused {}", refusal.number()))?;
        match &self.journal.noted {
            Some(noted) => {
                counts.add("restarts to the line tried");
                demand(
                    again.line == noted.line && again.rolled == noted.rolled,
                    "the sheets do not restart to the line",
                )?;
                demand(
                    again.session == cabinet.session && again.stored() == cabinet.stored(),
                    "a restart changed the cabinet",
                )
            }
            None => match &cabinet.past {
                Past::Decided(history) => demand(
                    again.line == history.line(&cabinet.stored()),
                    "the sheets give another line than the history",
                ),
                Past::Read(_) => Err("phase up or down without a history".to_string()),
            },
        }
    }
}

/// Which of the changes have a frame in hand.
fn framed(cabinet: &Cabinet, numbers: &[u32]) -> Vec<bool> {
    let mut makers = BTreeSet::new();
    for (card, state) in cabinet.cards.iter().enumerate() {
        makers.extend(cabinet.frames(card, state.reached).iter().map(|frame| frame.change));
    }
    numbers.iter().map(|number| makers.contains(number)).collect()
}

/// What the card named with 21 was the lowest of.
fn count_barred(call: &Call, refusal: Refusal, before: Option<&Cabinet>, counts: &mut Counts) {
    if let (Call::Open { reads, writes }, Refusal::Barred(card), Some(before)) = (call, refusal, before) {
        let (reads, writes) = (*reads as CardSet, *writes as CardSet);
        let lower = |set: CardSet| members(set).next().is_some_and(|lowest| lowest < card);
        if members(before.barred(reads, writes)).nth(1).is_some() {
            counts.add("refused 21 with two barred cards");
        }
        if lower(reads | writes) {
            counts.add("refused 21 with a lower touched card free");
        }
        if before.open.iter().any(|open| open.bars(card, has(writes, card)) && lower(open.touched())) {
            counts.add("refused 21 with a lower card in the barring change");
        }
    }
}

/// A fix refused for one place that the list of lost changes lacks.
fn count_short(call: &Call, refusal: Refusal, before: Option<&Cabinet>, counts: &mut Counts) {
    if let (Call::Fix { records, numbers }, Refusal::TooShort, Some(before)) = (call, refusal, before) {
        if *records as usize >= before.cards.len() && *numbers as usize + 1 == before.lost_now().len() {
            counts.add("refused 04 for one number more");
        }
    }
}

/// How a fix turned out.
fn count_fix(records: &[Record], lost: &[u32], before: Option<&Cabinet>, counts: &mut Counts) {
    counts.greatest("most lost at a fix", lost.len());
    let below = records.iter().any(|record| record.line < record.stored);
    let above = before
        .is_some_and(|before| records.iter().any(|record| record.line > before.cards[record.card].base));
    if below {
        counts.add("fixes with a line below stored");
    }
    if above {
        counts.add("fixes with a line above base");
    }
    if above && below {
        counts.add("fixes with both");
    }
}

/// The checks on one read-out: an accepted one is the very bytes the writer
/// makes of it, with one byte altered it is refused, and its lines belong to
/// their sheets.
pub fn check_readout(bytes: &[u8], random: &mut Random, counts: &mut Counts) -> Result<(), String> {
    counts.add("read-outs");
    let cabinet = match restart(bytes) {
        Err(refusal) => {
            counts.add(&format!("read-outs refused {:02}", refusal.number()));
            return Ok(());
        }
        Ok(cabinet) => cabinet,
    };
    counts.add("read-outs accepted");
    demand(cabinet.joined_sheets() == bytes, "an accepted read-out is not what the writer makes of it")?;
    for (number, card) in cabinet.cards.iter().enumerate() {
        let line = cabinet.line[number];
        demand(card.base <= line && line <= card.stored, "the line leaves base to stored")?;
    }
    for _ in 0..8 {
        demand_altered_refused(bytes, random, counts)?;
    }
    demand_bound(bytes, 4, random, counts)?;
    demand_rolls_keep_line(cabinet, random, counts)
}

fn demand_altered_refused(bytes: &[u8], random: &mut Random, counts: &mut Counts) -> Result<(), String> {
    let mut altered = bytes.to_vec();
    let place = random.place(altered.len());
    let digit = random.pick(b"0123456789ABCDEF\n");
    altered[place] = if random.chance(700) { digit } else { random.bits() as u8 };
    if altered == bytes {
        return Ok(());
    }
    counts.add("altered bytes tried");
    demand(restart(&altered).is_err(), &format!("byte {place} altered to {} is accepted", altered[place]))
}

/// From any accepted read-out that a fix could have left, rolls and restarts
/// give the line found at first. Sheets of no list may contradict themselves;
/// those are left out.
fn demand_rolls_keep_line(cabinet: Cabinet, random: &mut Random, counts: &mut Counts) -> Result<(), String> {
    let line = cabinet.line.clone();
    let session = cabinet.session;
    let sound = (0..line.len()).all(|card| {
        let frames = cabinet.frames(card, line[card]);
        !frames.iter().any(|frame| frame.vector.iter().zip(&line).any(|(entry, line)| *entry >= Some(*line)))
    });
    if !sound {
        counts.add("read-outs of no list");
        return Ok(());
    }
    let mut place = Place { cabinet: Some(cabinet) };
    let cards = line.len();
    let first = random.place(cards);
    for step in 0..cards {
        let card = ((first + step) % cards) as u32;
        place.answer(Call::Roll { card });
        let Some(now) = &place.cabinet else {
            return Err("the cabinet is gone".to_string());
        };
        if now.session == session {
            let again = restart(&now.joined_sheets())
                .map_err(|refusal| format!("restart refused {}", refusal.number()))?;
            demand(again.line == line, "the line changed during the roll-back")?;
            place.cabinet = Some(again);
        }
    }
    counts.add("read-outs rolled to the end");
    let reached: Option<Vec<u32>> =
        place.cabinet.map(|cabinet| cabinet.cards.iter().map(|card| card.reached).collect());
    demand(reached == Some(line), "the rolled cards are not at the line")
}
