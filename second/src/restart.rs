//! Restart from the sheets of all cards, and the text of the line program.

use crate::cabinet::{Cabinet, Card, Past, Phase};
use crate::cards::{one, CardSet};
use crate::limits::LAST_NUMBER;
use crate::refusal::Refusal;
use crate::sheet::{read_sheets, Sheet};

/// Restart: a cabinet in phase rolling with the line fixed.
pub fn restart(bytes: &[u8]) -> Result<Cabinet, Refusal> {
    let sheets = read_sheets(bytes)?;
    let lowest = sheets.iter().map(|sheet| sheet.session).min().unwrap_or(0);
    if sheets.iter().any(|sheet| apart(sheet, lowest)) {
        return Err(Refusal::SessionsApart);
    }
    if lowest == LAST_NUMBER {
        return Err(Refusal::NumbersUsedUp);
    }
    if two_vectors(&sheets) {
        return Err(Refusal::TwoVectors);
    }
    Ok(rolling(sheets, lowest))
}

/// More than one session apart, or one ahead with frames.
fn apart(sheet: &Sheet, lowest: u32) -> bool {
    sheet.session - lowest > 1 || (sheet.session > lowest && !sheet.frames.is_empty())
}

/// One change, two sheets, two vectors.
fn two_vectors(sheets: &[Sheet]) -> bool {
    sheets.iter().enumerate().any(|(place, sheet)| {
        let later = sheets[place + 1..].iter().flat_map(|sheet| &sheet.frames);
        later.into_iter().any(|other| {
            sheet.frames.iter().any(|frame| frame.change == other.change && frame.vector != other.vector)
        })
    })
}

fn card_from(sheet: &Sheet) -> Card {
    Card { base: sheet.base, ..Card::at(sheet.stored()) }
}

/// The cabinet that accepted sheets give. No change is open, no write runs and
/// the last change number is 0.
fn rolling(sheets: Vec<Sheet>, lowest: u32) -> Cabinet {
    let rolled: CardSet =
        sheets.iter().filter(|sheet| sheet.session > lowest).fold(0, |set, sheet| set | one(sheet.card));
    let mut cabinet = Cabinet {
        session: lowest,
        phase: Phase::Rolling,
        cards: sheets.iter().map(card_from).collect(),
        last_change: 0,
        open: Vec::new(),
        past: Past::Read(sheets.into_iter().map(|sheet| sheet.frames).collect()),
        line: Vec::new(),
        rolled,
    };
    cabinet.line = cabinet.line_by_hits();
    cabinet
}

/// What the line program prints for a read-out.
pub fn line_text(bytes: &[u8]) -> String {
    match restart(bytes) {
        Err(refusal) => format!("refused {}\n", refusal.number()),
        Ok(cabinet) => {
            let mut text = String::new();
            for record in cabinet.records() {
                text += &format!("{} {} {}\n", record.card, record.stored, record.line);
            }
            text + &format!("session {}\n", cabinet.session + 1)
        }
    }
}
