//! Each call once: the engine, the port by value and the port by `&mut`, over a
//! cabinet of so many cards with so many states in hand. Run under callgrind by
//! bench/run.sh, which reads the instructions of each function.

use port::bench::*;
use std::hint::black_box;

extern "C" {
    fn bench_nothing(cards: u32, states: u32, reads: bool, at: u32) -> u32;
    fn bench_fresh(cards: u32, at: u32) -> u32;
    fn bench_open(cards: u32, states: u32, reads: bool, at: u32) -> u32;
    fn bench_vote(cards: u32, states: u32, reads: bool, at: u32) -> u32;
    fn bench_take(cards: u32, states: u32, reads: bool, at: u32) -> u32;
    fn bench_withdraw(cards: u32, states: u32, reads: bool, at: u32) -> u32;
    fn bench_store(cards: u32, states: u32, reads: bool, at: u32) -> u32;
    fn bench_begin(cards: u32, states: u32, reads: bool, at: u32) -> u32;
    fn bench_end(cards: u32, states: u32, reads: bool, at: u32) -> u32;
    fn bench_trim(cards: u32, states: u32, reads: bool, at: u32) -> u32;
    fn bench_safe(cards: u32, states: u32, change: u32, at: u32) -> u32;
    fn bench_lose(cards: u32, states: u32, reads: bool, at: u32) -> u32;
    fn bench_fix(cards: u32, states: u32, stored: u32, at: u32, list: *mut u32, n: usize) -> u32;
    fn bench_roll(cards: u32, states: u32, reads: bool, at: u32) -> u32;
    fn bench_sheet(cards: u32, states: u32, at: u32, buffer: *mut u8, n: usize) -> u32;
    fn bench_restart(bytes: *const u8, n: usize, at: u32) -> u32;
    fn bench_write_sheet(buffer: *mut u8, n: usize, changes: *const u32, entries: *const u32, cards: u32, count: u32) -> usize;
}

/// The three agree; a refusal is told.
fn same(name: &str, engine: u32, port: u32, lent: u32) {
    if engine != port || port != lent {
        println!("{name} differs: {engine} {port} {lent}");
    }
    if engine >= 1_000_000 {
        println!("{name} was refused");
    }
}

fn main() {
    let words: Vec<String> = std::env::args().collect();
    let number = |at: usize| black_box(words[at].parse::<u32>().unwrap_or(0));
    let (cards, states, reads, at) = (number(1), number(2), black_box(words[3] == "reads"), black_box(15));
    macro_rules! call {
        ($name:literal, $engine:ident, $port:ident, $lent:ident) => {
            let engine = unsafe { $engine(cards, states, reads, at) };
            same($name, engine, $port(cards, states, reads, at), $lent(cards, states, reads, at));
        };
    }
    let made = port_nothing(cards, states, reads, at);
    same("nothing", unsafe { bench_nothing(cards, states, reads, at) }, made, made);
    call!("open", bench_open, port_open, lent_open);
    call!("vote", bench_vote, port_vote, lent_vote);
    call!("take", bench_take, port_take, lent_take);
    call!("withdraw", bench_withdraw, port_withdraw, lent_withdraw);
    call!("store", bench_store, port_store, lent_store);
    call!("begin", bench_begin, port_begin, lent_begin);
    call!("end", bench_end, port_end, lent_end);
    call!("trim", bench_trim, port_trim, lent_trim);
    call!("lose", bench_lose, port_lose, lent_lose);
    call!("roll", bench_roll, port_roll, lent_roll);
    let fresh = port_fresh(cards, at);
    same("fresh", unsafe { bench_fresh(cards, at) }, fresh, fresh);
    if states > 0 {
        let change = states * 16 + cards - 1;
        let engine = unsafe { bench_safe(cards, states, change, at) };
        same("safe", engine, port_safe(cards, states, change, at), lent_safe(cards, states, change, at));
    }
    fix(cards, states, at);
    sheet(cards, states, at);
    let bytes = readout(cards, states);
    let restarted = port_restart(&bytes, at);
    same("restart", unsafe { bench_restart(bytes.as_ptr(), bytes.len(), at) }, restarted, restarted);
    parts(cards, states, &bytes);
}

/// The writer of one sheet by itself; the sheets are the port's.
fn parts(cards: u32, states: u32, bytes: &[u8]) {
    let ring = ring(cards, states);
    let (changes, entries) = (ring.makers.as_ptr(), ring.entries.as_ptr());
    let length = bytes.len() / cards as usize;
    let mut buffer = [0u8; 4096];
    let written = unsafe { bench_write_sheet(buffer.as_mut_ptr(), buffer.len(), changes, entries, cards, states) };
    assert!(written == length && buffer[..length] == bytes[..length]);
}

/// With nothing stored, so that every state is lost.
fn fix(cards: u32, states: u32, at: u32) {
    let mut lists = [[0u32; 776]; 3];
    let [first, second, third] = &mut lists;
    let engine = unsafe { bench_fix(cards, states, 0, at, first.as_mut_ptr(), first.len()) };
    same("fix", engine, port_fix(cards, states, 0, at, second), lent_fix(cards, states, 0, at, third));
    assert!(lists[0] == lists[1] && lists[1] == lists[2]);
    assert!(lists[0].iter().filter(|change| **change != 0).count() as u32 == cards * states);
}

fn sheet(cards: u32, states: u32, at: u32) {
    let mut buffers = [[0u8; 4096]; 3];
    let [first, second, third] = &mut buffers;
    let engine = unsafe { bench_sheet(cards, states, at, first.as_mut_ptr(), first.len()) };
    same("sheet", engine, port_sheet(cards, states, at, second), lent_sheet(cards, states, at, third));
    assert!(buffers[0] == buffers[1] && buffers[1] == buffers[2]);
}
