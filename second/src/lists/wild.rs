//! Calls with any numbers, and lines that are no calls.

use super::Maker;
use crate::call::{write_call, Call, LONGEST_LINE};

impl Maker {
    /// Any call with any numbers, or a line that is none.
    pub fn wild(&mut self) {
        if self.random.chance(300) {
            let line = self.unreadable();
            self.lines.push(line);
            return;
        }
        if self.random.chance(250) {
            return self.out_of_phase();
        }
        let call = self.wild_call();
        self.call(call);
    }

    /// Small numbers mostly, now and then any number.
    fn wild_number(&mut self) -> u32 {
        match self.random.below(8) {
            0 => 0,
            1 => self.random.pick(&[15, 16, 17, 65_535, 65_536, 60_000, 60_001, 4_294_967_295]),
            2 => self.random.bits() as u32,
            3 => self.cards() as u32,
            _ => self.random.from_to(0, 9),
        }
    }

    fn wild_call(&mut self) -> Call {
        let (a, b, yes) = (self.wild_number(), self.wild_number(), self.random.chance(500));
        match self.random.below(34) {
            0..=3 => Call::Open { reads: a, writes: b },
            4..=6 => Call::Vote { change: a, card: b, yes },
            7..=9 => Call::Take { change: a, card: b },
            10 | 11 => Call::Withdraw { change: a },
            12..=14 => Call::Store { card: a, state: b },
            15 | 16 => Call::Safe { change: a },
            17..=19 => Call::Lose { set: a },
            20 | 21 => Call::Fix { records: a.min(16), numbers: b.min(776) },
            22 | 23 => Call::Roll { card: a },
            24..=26 => Call::Sheet { card: a, room: b.min(65_536) },
            27 | 28 => Call::Frames { card: a },
            29 | 30 => Call::Begin { card: a, state: b },
            31 | 32 => Call::End { card: a, state: b },
            _ if self.random.chance(800) => {
                Call::Fresh { cards: self.random.pick(&[0, 17, 99, 4_294_967_295]) }
            }
            _ => Call::Fresh { cards: self.random.from_to(1, 16) },
        }
    }

    /// A line that is no call.
    fn unreadable(&mut self) -> Vec<u8> {
        let call = self.wild_call();
        let good = write_call(&call);
        let line = match self.random.below(28) {
            0 => String::new(),
            1 => format!(" {good}"),
            2 => format!("{good} "),
            3 => good.replacen(' ', "  ", 1) + " ",
            4 => format!("{good} 1 1"),
            5 => good.to_uppercase(),
            6 => good.replacen(' ', "\t", 1) + "\t",
            7 => format!("{good}\r"),
            8 => "withdraw 4294967296".to_string(),
            9 => "vote 1 0 2".to_string(),
            10 => "fix 17 776".to_string(),
            11 => "fix 16 777".to_string(),
            12 => "sheet 0 65537".to_string(),
            13 => "roll -1".to_string(),
            14 => "lose +1".to_string(),
            15 => "safe 0x1".to_string(),
            16 => "open 1".to_string(),
            17 => "trim 0".to_string(),
            18 => "opens 1 2".to_string(),
            19 => format!("lose {}", "9".repeat(40)),
            20 => "begin 0".to_string(),
            21 => "end 0 1 1".to_string(),
            22 => "begins 0 1".to_string(),
            23 => "end 0 4294967296".to_string(),
            24 => "begin 0 -1".to_string(),
            25 => "end".to_string(),
            26 => return vec![0, 255, 128, b'o', b'k'],
            _ => return self.long_line(),
        };
        line.into_bytes()
    }

    /// A loss of no card, in a line of 129 bytes.
    fn long_line(&mut self) -> Vec<u8> {
        format!("lose {}", "0".repeat(LONGEST_LINE + 1 - "lose ".len())).into_bytes()
    }
}
