//! What a random list goes after, and how often each call comes.

use crate::random::Random;

/// What a list goes after.
#[derive(Clone, Copy, PartialEq, Eq, Debug)]
pub enum Style {
    /// A bit of everything.
    Mixed,
    /// Few changes and small cabinets, with many losses.
    Small,
    /// Losses while changes are half taken and half stored.
    Half,
    /// Many changes open together.
    Wide,
    /// 48 states in hand.
    Deep,
    /// Restarts and losses during the roll-back.
    Roll,
    /// 48 states in hand on each of 16 cards, and all of them lost.
    Full,
    /// Long writes over several states, on more cards than one, cut by losses.
    Long,
}

/// How often each kind of call comes in phase up.
pub struct Weights {
    pub open: u32,
    pub vote: u32,
    pub take: u32,
    pub store: u32,
    pub begin: u32,
    pub end: u32,
    pub trim: u32,
    pub safe: u32,
    pub withdraw: u32,
    pub lose: u32,
    pub look: u32,
    pub restart: u32,
}

pub fn weights(style: Style) -> Weights {
    let mixed = Weights {
        open: 110,
        vote: 200,
        take: 200,
        store: 60,
        begin: 25,
        end: 30,
        trim: 8,
        safe: 20,
        withdraw: 6,
        lose: 3,
        look: 20,
        restart: 1,
    };
    match style {
        Style::Mixed => mixed,
        Style::Small => Weights { begin: 35, end: 35, lose: 22, trim: 12, restart: 3, ..mixed },
        Style::Half => Weights { take: 120, store: 110, lose: 8, ..mixed },
        Style::Wide => Weights { open: 260, take: 80, ..mixed },
        Style::Deep => Weights {
            open: 200,
            vote: 300,
            take: 300,
            store: 8,
            begin: 6,
            end: 4,
            trim: 2,
            withdraw: 2,
            lose: 0,
            restart: 0,
            ..mixed
        },
        Style::Roll => Weights { lose: 25, restart: 5, ..mixed },
        Style::Long => Weights { store: 6, begin: 40, end: 16, trim: 14, lose: 8, restart: 2, ..mixed },
        Style::Full => Weights {
            open: 300,
            vote: 400,
            take: 400,
            store: 1,
            begin: 2,
            end: 0,
            trim: 0,
            safe: 0,
            withdraw: 0,
            lose: 0,
            look: 0,
            restart: 0,
        },
    }
}

pub fn style_of(random: &mut Random) -> Style {
    match random.below(460) {
        0 => Style::Full,
        1..=99 => Style::Mixed,
        100..=169 => Style::Small,
        170..=239 => Style::Half,
        240..=299 => Style::Wide,
        300..=344 => Style::Deep,
        345..=399 => Style::Roll,
        _ => Style::Long,
    }
}

pub fn cards_for(style: Style, random: &mut Random) -> u32 {
    match style {
        Style::Small => random.from_to(1, 3),
        Style::Deep => random.pick(&[1, 1, 2, 2, 3]),
        Style::Wide => random.from_to(6, 16),
        Style::Full => 16,
        Style::Long => random.pick(&[1, 2, 2, 2, 3, 3, 3, 4, 5]),
        _ => random.pick(&[1, 2, 2, 3, 3, 3, 4, 4, 5, 6, 8, 11, 16]),
    }
}

pub fn length_for(style: Style, random: &mut Random) -> usize {
    let length = match style {
        Style::Small => random.from_to(40, 120),
        Style::Deep => random.from_to(350, 600),
        Style::Full => 2700,
        _ => random.from_to(120, 400),
    };
    length as usize
}
