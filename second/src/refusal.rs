//! The refusals of document 01 and of wish 5, each with its number.

#[derive(Clone, Copy, PartialEq, Eq, Debug)]
pub enum Refusal {
    /// 1: number of cards not 1 to 16.
    CardCount,
    /// 2: a card is not in the cabinet.
    NoSuchCard,
    /// 3: both sets empty.
    EmptySets,
    /// 4: a lent list or buffer is too short.
    TooShort,
    /// 5: a line has a wrong byte or length, or is cut off.
    WrongLine,
    /// 6: check wrong.
    WrongCheck,
    /// 7: header at fault.
    WrongHeader,
    /// 8: the input ends where a line is due, or goes on after the last sheet.
    WrongEnd,
    /// 9: frame at fault.
    WrongFrame,
    /// 10: one change, two sheets, two vectors.
    TwoVectors,
    /// 11: sessions apart, or a sheet one ahead has frames.
    SessionsApart,
    /// 12: input over 65,536 bytes.
    TooLong,
    /// 20: the call is not of this phase.
    WrongPhase,
    /// 21: a touched card is barred by an open change; the lowest such card.
    Barred(usize),
    /// 22: eight changes open.
    EightOpen,
    /// 23: a written card has reached base + 48.
    HandFull,
    /// 24: a state, change or session number is used up.
    NumbersUsedUp,
    /// 25: no such change, or this card is not awaited by it.
    NotAwaited,
    /// 26: vote on, or withdrawal of, a decided change.
    AlreadyDecided,
    /// 27: store or beginning outside stored to held.
    StoreOutside,
    /// 29: take before the decision.
    NotDecided,
    /// 30: card already rolled.
    AlreadyRolled,
    /// 31: a store or beginning on a card whose write is running.
    WriteRunning,
    /// 32: an end without a beginning, or outside stored to s.
    NoSuchEnd,
    /// 33: a fix while a write is unreported.
    WriteUnreported,
}

impl Refusal {
    /// The documents' number of the refusal.
    pub fn number(self) -> u32 {
        match self {
            Refusal::CardCount => 1,
            Refusal::NoSuchCard => 2,
            Refusal::EmptySets => 3,
            Refusal::TooShort => 4,
            Refusal::WrongLine => 5,
            Refusal::WrongCheck => 6,
            Refusal::WrongHeader => 7,
            Refusal::WrongEnd => 8,
            Refusal::WrongFrame => 9,
            Refusal::TwoVectors => 10,
            Refusal::SessionsApart => 11,
            Refusal::TooLong => 12,
            Refusal::WrongPhase => 20,
            Refusal::Barred(_) => 21,
            Refusal::EightOpen => 22,
            Refusal::HandFull => 23,
            Refusal::NumbersUsedUp => 24,
            Refusal::NotAwaited => 25,
            Refusal::AlreadyDecided => 26,
            Refusal::StoreOutside => 27,
            Refusal::NotDecided => 29,
            Refusal::AlreadyRolled => 30,
            Refusal::WriteRunning => 31,
            Refusal::NoSuchEnd => 32,
            Refusal::WriteUnreported => 33,
        }
    }
}
