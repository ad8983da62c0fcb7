//! The calls of a list, read from the text of the trace.

/// One call. Cards and sets are the numbers handed in, whatever they are.
#[derive(Clone, Copy, PartialEq, Eq, Debug)]
pub enum Call {
    Fresh { cards: u32 },
    Open { reads: u32, writes: u32 },
    Vote { change: u32, card: u32, yes: bool },
    Take { change: u32, card: u32 },
    Withdraw { change: u32 },
    Store { card: u32, state: u32 },
    Begin { card: u32, state: u32 },
    End { card: u32, state: u32 },
    Trim,
    Safe { change: u32 },
    Lose { set: u32 },
    Fix { records: u32, numbers: u32 },
    Roll { card: u32 },
    Sheet { card: u32, room: u32 },
    Restart,
    Frames { card: u32 },
    Show,
}

/// A line of more bytes than this is unreadable.
pub const LONGEST_LINE: usize = 128;
const MOST_RECORDS: u32 = 16;
const MOST_NUMBERS: u32 = 776;
const MOST_ROOM: u32 = 65_536;

/// A number of decimal digits, at most 4,294,967,295.
fn number(word: &[u8]) -> Option<u32> {
    if word.is_empty() || !word.iter().all(u8::is_ascii_digit) {
        return None;
    }
    word.iter().try_fold(0u32, |sum, digit| sum.checked_mul(10)?.checked_add(u32::from(digit - b'0')))
}

/// The call on a line (without its byte 10), or none if it is unreadable.
pub fn read_call(line: &[u8]) -> Option<Call> {
    if line.len() > LONGEST_LINE {
        return None;
    }
    let mut words = line.split(|byte| *byte == b' ');
    let name = words.next()?;
    let numbers: Vec<u32> = words.map(number).collect::<Option<_>>()?;
    let call = match (name, numbers.as_slice()) {
        (b"fresh", &[cards]) => Call::Fresh { cards },
        (b"open", &[reads, writes]) => Call::Open { reads, writes },
        (b"vote", &[change, card, vote]) if vote <= 1 => Call::Vote { change, card, yes: vote == 1 },
        (b"take", &[change, card]) => Call::Take { change, card },
        (b"withdraw", &[change]) => Call::Withdraw { change },
        (b"store", &[card, state]) => Call::Store { card, state },
        (b"begin", &[card, state]) => Call::Begin { card, state },
        (b"end", &[card, state]) => Call::End { card, state },
        (b"trim", &[]) => Call::Trim,
        (b"safe", &[change]) => Call::Safe { change },
        (b"lose", &[set]) => Call::Lose { set },
        (b"fix", &[records, numbers]) if records <= MOST_RECORDS && numbers <= MOST_NUMBERS => {
            Call::Fix { records, numbers }
        }
        (b"roll", &[card]) => Call::Roll { card },
        (b"sheet", &[card, room]) if room <= MOST_ROOM => Call::Sheet { card, room },
        (b"restart", &[]) => Call::Restart,
        (b"frames", &[card]) => Call::Frames { card },
        (b"show", &[]) => Call::Show,
        _ => return None,
    };
    Some(call)
}

/// The line of a call, without its byte 10.
pub fn write_call(call: &Call) -> String {
    match *call {
        Call::Fresh { cards } => format!("fresh {cards}"),
        Call::Open { reads, writes } => format!("open {reads} {writes}"),
        Call::Vote { change, card, yes } => format!("vote {change} {card} {}", u32::from(yes)),
        Call::Take { change, card } => format!("take {change} {card}"),
        Call::Withdraw { change } => format!("withdraw {change}"),
        Call::Store { card, state } => format!("store {card} {state}"),
        Call::Begin { card, state } => format!("begin {card} {state}"),
        Call::End { card, state } => format!("end {card} {state}"),
        Call::Trim => "trim".to_string(),
        Call::Safe { change } => format!("safe {change}"),
        Call::Lose { set } => format!("lose {set}"),
        Call::Fix { records, numbers } => format!("fix {records} {numbers}"),
        Call::Roll { card } => format!("roll {card}"),
        Call::Sheet { card, room } => format!("sheet {card} {room}"),
        Call::Restart => "restart".to_string(),
        Call::Frames { card } => format!("frames {card}"),
        Call::Show => "show".to_string(),
    }
}
