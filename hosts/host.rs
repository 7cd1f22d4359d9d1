//! host SEED [MEMORY] <TAPE >ANSWERS: feeds the tape to a fresh board in random lumps (of 0 to 40 bytes, now and then of some
//! thousands), writes the answers, and leaves the memory in the file MEMORY. It is `./run feed` with other lumps, in Rust. Before the tape and
//! after it, the board must be in range; copies with dma.selected 4, with slave.stage 5 and with D1 in a channel's mode must not be, and must be
//! refused. A copy whose channel 0 has words on the narrow bus, which no tape leads to, must be taken, and must move a word.
//! host layout: prints where each field of a board lies.
#![forbid(unsafe_code)]

use limbusagin::{ANSWER, Board, Channel, Counter, Fed, Refused, VERSION, version};
use std::error::Error;
use std::io::{Read, Write, stdin, stdout};
use std::mem::offset_of;

struct Random(u64);

impl Random {
    fn below(&mut self, n: u64) -> usize {
        self.0 = self.0.wrapping_mul(6364136223846793005).wrapping_add(1442695040888963407);
        ((self.0 >> 33) % n) as usize
    }
}

/// Whether a board is out of range, and a call on it refused; with no bytes fed, that is for its range alone.
fn is_refused(mut board: Board) -> bool {
    !board.is_in_range() && board.feed(&[], &mut [], &mut []) == Err(Refused)
}

/// A board that the library gave out is in range; with one field out of range it is not.
fn check_range(board: Board) -> Result<(), &'static str> {
    if !board.is_in_range() {
        return Err("a board that the library gave out is not in range");
    }
    let mut other = board;
    other.dma.selected = 4;
    if !is_refused(other) {
        return Err("a board with dma.selected 4 is in range, or is not refused");
    }
    other = board;
    other.slave.stage = 5;
    if !is_refused(other) {
        return Err("a board with slave.stage 5 is in range, or is not refused");
    }
    other = board;
    other.dma.channels[3].mode = 0x02;
    if !is_refused(other) {
        return Err("a board with D1 in dma.channels[3].mode is in range, or is not refused");
    }
    Ok(())
}

/// Words on the narrow bus: the mode alone says how wide a unit is, and register 0 cannot be written with 00H.
fn check_narrow(mut board: Board) -> Result<(), &'static str> {
    let tape = [1, 0x20, 0, 0, 0, 0, 0, 0, 3, 2, 1, 0, 0, 0, 0, 0, 6, 0, 0, 0, 0, 0, 0, 0, 6, 0, 0x55, 0xAA, 0, 0, 0, 0];
    let mut memory = [0; 3];
    let mut answers = [0; 4 * ANSWER];
    let first = &mut board.dma.channels[0];
    first.mode = 0x85; // block, device to memory, words
    first.current.address = 1;
    first.masked = false;
    board.dma.wide = false;
    board.dma.serving = false;
    board.dma.disabled = false;
    board.dma.channel = 0;
    board.dma.first = 0;
    board.kept.length = 0;
    if !board.is_in_range() || board.feed(&tape, &mut memory, &mut answers) != Ok(4) {
        return Err("a board with words on the narrow bus is not in range, or is refused");
    }
    let unit = &answers[3 * ANSWER..];
    let is_word = unit[4] == 2 && unit[2] == 0x55 && unit[13] == 0xAA && unit[8] == 1 && unit[12] == 0;
    if answers[0] != 4 || !is_word || memory != [0x55, 0xAA, 0] || board.dma.channels[0].current.address != 3 {
        return Err("a board with words on the narrow bus does not move a word");
    }
    Ok(())
}

fn main() -> Result<(), Box<dyn Error>> {
    let words: Vec<String> = std::env::args().skip(1).collect();
    if words.len() == 1 && words[0] == "layout" {
        layout();
        return Ok(());
    }
    if words.is_empty() || words.len() > 2 {
        return Err("usage: host SEED [MEMORY] <TAPE >ANSWERS".into());
    }
    if version() != VERSION {
        return Err("the library is of another version than the module".into());
    }
    let mut random = Random(words[0].parse()?);
    let mut memory = match words.get(1) {
        Some(file) => std::fs::read(file)?,
        None => Vec::new(),
    };
    let mut tape = Vec::new();
    stdin().read_to_end(&mut tape)?;
    let mut answers = [0; ANSWER * 1024];
    let mut board = Board::fresh();
    check_range(board)?;
    check_narrow(board)?;
    let mut rest = &tape[..];
    while !rest.is_empty() {
        let most = if random.below(50) == 0 { random.below(8000) } else { random.below(41) };
        let (lump, after) = rest.split_at(most.min(rest.len()));
        let taken = board.feed(lump, &mut memory, &mut answers)?;
        stdout().write_all(&answers[..ANSWER * taken])?;
        rest = after;
    }
    check_range(board)?;
    check_narrow(board)?;
    stdout().flush()?;
    if let Some(file) = words.get(1) {
        std::fs::write(file, memory)?;
    }
    Ok(())
}

fn size<T, U>(_: fn(&T) -> &U) -> usize {
    size_of::<U>()
}

macro_rules! show {
    ($type:ty, $name:expr, $from:expr, $($field:tt)+) => {
        println!("{}{} {} {}", $name, stringify!($($field)+), $from + offset_of!($type, $($field)+), size(|x: &$type| &x.$($field)+))
    };
}

macro_rules! show_all {
    ($type:ty, $name:expr, $from:expr; $($($field:ident).+),+) => { $( show!($type, $name, $from, $($field).+); )+ };
}

fn layout() {
    show_all!(Board, "", 0; icu.stage, icu.iw1, icu.iw2, icu.sfi, icu.vector, icu.rotation, icu.showsisr, icu.edges, icu.isr, icu.imr,
        icu.lowest, intp, slave.stage, slave.iw1, slave.iw2, slave.sfi, slave.vector, slave.rotation, slave.showsisr, slave.edges, slave.isr,
        slave.imr, slave.lowest, slaveintp);
    for i in 0..3 {
        let from = offset_of!(Board, timer.counters) + i * size_of::<Counter>();
        show_all!(Counter, format!("timer.counters[{i}]."), from; mode, format, value, count, full, pending, trigger, half, low, latched,
            latch, second, gate, out, odd);
    }
    for i in 0..4 {
        let from = offset_of!(Board, dma.channels) + i * size_of::<Channel>();
        show_all!(Channel, format!("dma.channels[{i}]."), from; current.address, current.count, base.address, base.count, mode, masked);
    }
    show_all!(Board, "", 0; dma.wide, dma.selected, dma.base, dma.rotate, dma.disabled, dma.first, dma.serving, dma.channel, dma.requests, dma.ends);
    for i in 0..7 {
        println!("kept.bytes[{i}] {} 1", offset_of!(Board, kept.bytes) + i);
    }
    show_all!(Board, "", 0; kept.length);
    println!("board 0 {}", size_of::<Board>());
    show_all!(Fed, "fed.", 0; status, records, board);
    println!("fed 0 {}", size_of::<Fed>());
}
