//! The board for programs in Rust. Take this file in as a module (`mod limbusagin;`) and link `libhost.a`, which `rt lib` in crates/host writes to
//! `crates/host/out/`. The archive is for x86-64 Linux.
//!
//! ```ignore
//! let mut board = limbusagin::Board::fresh();
//! let mut answers = [0u8; 16];
//! let taken = board.feed(&[5, 0, 0, 0, 1, 0, 0, 0], &mut [], &mut answers);
//! assert_eq!(taken, Ok(1));
//! ```
//!
//! A board is plain data: it may be copied, stored and compared. Nothing is kept in the library, so any number of boards may be in use, in
//! any number of threads. What each field may hold is listed in docs/RANGES.md; a number out of its range is met by [`Refused`].
//!
//! What a host must keep, and what keeps it here:
//! - A bool is 0 or 1: Rust's `bool` is. Code that makes a [`Board`] from bytes must do so field by field (or, with `unsafe` of its own,
//!   see to it).
//! - A pointer is valid for the length beside it, also for length 0: a slice's is.
//! - Tape, memory and answers do not overlap, and nobody else uses them during the call: two `&mut` and a `&` never do.
//!
//! So a caller needs no `unsafe`.
#![allow(dead_code)]

use core::fmt;

/// The version of these declarations. [`version`] answers the library's.
pub const VERSION: u32 = 4;
/// Bytes of a record.
pub const RECORD: usize = 8;
/// Bytes of an answer.
pub const ANSWER: usize = 16;

/// An interrupt chip, 71059: the master, or the slave on its line 7.
#[repr(C)]
#[derive(Clone, Copy, Debug, PartialEq, Eq)]
pub struct Icu {
    /// 0 no IW1 yet, 1 awaits IW2, 4 awaits IW3, 2 awaits IW4, 3 ready
    pub stage: u8,
    /// IW1 as written (D4 is set), 0 before the first
    pub iw1: u8,
    pub iw2: u8,
    /// IW4: self-FI
    pub sfi: bool,
    /// IW4: vector mode, not CALL
    pub vector: bool,
    /// rotation in self-FI
    pub rotation: bool,
    /// reads at A0=0 show ISR, not IRR
    pub showsisr: bool,
    /// edge requests: a rise sets the line's bit, its fall or its acknowledge clears it
    pub edges: u8,
    pub isr: u8,
    pub imr: u8,
    /// the lowest-ranked level
    pub lowest: u8,
}

/// One counter of the timer, 71054.
#[repr(C)]
#[derive(Clone, Copy, Debug, PartialEq, Eq)]
pub struct Counter {
    /// 0 to 5, or 255: none yet
    pub mode: u8,
    /// 0 none yet, 1 low byte, 2 high byte, 3 both
    pub format: u8,
    /// the down counter
    pub value: u16,
    /// the last complete count
    pub count: u16,
    /// a count is complete since the mode word
    pub full: bool,
    /// a complete count waits for the pulse that transfers it; in modes 1 and 5 that of the first trigger
    pub pending: bool,
    /// GATE rose: the next pulse of modes 1, 2, 3 and 5 loads the last complete count
    pub trigger: bool,
    /// a count is half written; its low byte is in `low`
    pub half: bool,
    pub low: u8,
    /// `latch` holds what reads show
    pub latched: bool,
    pub latch: u16,
    /// the next read of two is the high byte
    pub second: bool,
    pub gate: bool,
    pub out: bool,
    /// the running count of mode 3 was odd
    pub odd: bool,
}

#[repr(C)]
#[derive(Clone, Copy, Debug, PartialEq, Eq)]
pub struct Timer {
    pub counters: [Counter; 3],
}

/// An address and a count of the DMA chip.
#[repr(C)]
#[derive(Clone, Copy, Debug, PartialEq, Eq)]
pub struct Span {
    /// below 2^24
    pub address: u32,
    pub count: u16,
}

#[repr(C)]
#[derive(Clone, Copy, Debug, PartialEq, Eq)]
pub struct Channel {
    pub current: Span,
    pub base: Span,
    /// register A; D0: its units are words, and else bytes
    pub mode: u8,
    pub masked: bool,
}

/// The DMA chip, 71071.
#[repr(C)]
#[derive(Clone, Copy, Debug, PartialEq, Eq)]
pub struct Dma {
    pub channels: [Channel; 4],
    /// register 0: the bus of 16 bits, on which a mode of words may be written
    pub wide: bool,
    /// register 1: the channel of registers 2 to 6 and A
    pub selected: u8,
    /// register 1: 2 to 6 are the base alone
    pub base: bool,
    /// register 8
    pub rotate: bool,
    /// register 8
    pub disabled: bool,
    /// the first-ranked channel
    pub first: u8,
    /// a channel is in service: `channel`
    pub serving: bool,
    /// 0 while none is served
    pub channel: u8,
    /// a bit for each channel
    pub requests: u8,
    /// a bit for each channel
    pub ends: u8,
}

/// The bytes of a cut record, kept for the next call. Past `length` they are zero after every call that was taken, and ignored where a board
/// is passed.
#[repr(C)]
#[derive(Clone, Copy, Debug, PartialEq, Eq)]
pub struct Kept {
    pub bytes: [u8; 7],
    pub length: u8,
}

/// A board: chips, lines and kept bytes.
#[repr(C)]
#[derive(Clone, Copy, Debug, PartialEq, Eq)]
pub struct Board {
    /// the master, at ports 00H and 01H
    pub icu: Icu,
    /// the levels of INTP1 to INTP7; bit 0 is clear, for INTP0 is OUT0 (line 7 is INTP7 or the slave's INT)
    pub intp: u8,
    /// at ports 30H and 31H
    pub slave: Icu,
    /// the levels of the slave's eight lines
    pub slaveintp: u8,
    pub timer: Timer,
    pub dma: Dma,
    pub kept: Kept,
}

/// What the library's call comes to; [`Board::feed`] turns it into a `Result`.
#[repr(C)]
#[derive(Clone, Copy, Debug, PartialEq, Eq)]
pub struct Fed {
    pub status: u8,
    pub records: usize,
    pub board: Board,
}

/// Status 7: a field of the board is out of its range, or the answers do not fit. Nothing was taken or changed.
#[derive(Clone, Copy, Debug, PartialEq, Eq)]
pub struct Refused;

impl fmt::Display for Refused {
    fn fmt(&self, to: &mut fmt::Formatter<'_>) -> fmt::Result {
        to.write_str("status 7: a board field is out of range, or the answers do not fit")
    }
}

impl core::error::Error for Refused {}

const _: () = {
    assert!(size_of::<Icu>() == 11);
    assert!(size_of::<Counter>() == 18);
    assert!(size_of::<Channel>() == 20);
    assert!(size_of::<Dma>() == 92);
    assert!(size_of::<Board>() == 180);
    assert!(size_of::<Fed>() == 200);
};

mod library {
    #[link(name = "host", kind = "static")]
    unsafe extern "C" {
        pub safe fn limbusagin_version() -> u32;
        pub safe fn limbusagin_fresh() -> super::Board;
        pub safe fn limbusagin_in_range(board: super::Board) -> bool;
        /// Each pointer is valid for the length after it and not null, and the three parts do not overlap.
        pub unsafe fn limbusagin_feed(
            board: super::Board,
            tape: *const u8,
            tape_length: usize,
            memory: *mut u8,
            memory_length: usize,
            answers: *mut u8,
            answers_length: usize,
        ) -> super::Fed;
    }
}

/// The library's version: [`VERSION`], or it and this module are not of one kind.
pub fn version() -> u32 {
    library::limbusagin_version()
}

impl Board {
    /// A board that was just reset, with no bytes kept.
    pub fn fresh() -> Board {
        library::limbusagin_fresh()
    }

    /// Whether every field has a value that some board reached from reset has there (docs/RANGES.md). [`Board::feed`] refuses any other
    /// board, and also a buffer that is too small for the answers: this tells the two apart.
    pub fn is_in_range(&self) -> bool {
        library::limbusagin_in_range(*self)
    }

    /// One call: the bytes of a tape, in any lump, are fed to the board over the lent memory.
    ///
    /// With k the whole records that the kept bytes and the tape come to, this writes `16 * k` bytes to `answers`, leaves the rest of it, and
    /// answers `Ok(k)`; up to 7 bytes of a cut record are kept in the board. Memory byte i is address i; addresses at or past the end,
    /// `memory.len()` itself too, read FFH and lose writes. Byte 12 of a DMA cycle's answer is 1 if it moved a byte to or from such an address, be it
    /// one half of a word alone, else 0; a verify, which uses no memory, has 0. [`Refused`] leaves the board, the memory and the answers as they were.
    ///
    /// The device gives a DMA cycle the bytes 2 and, for the upper half of a word, 3 of its record. A unit that is a word is the byte of an even address,
    /// byte 2 of the answer, and that of the next, byte 13; where bytes 8 to 11 have an odd address, the even one is that below it.
    pub fn feed(&mut self, tape: &[u8], memory: &mut [u8], answers: &mut [u8]) -> Result<usize, Refused> {
        // Safe: the pointers are those of three live slices, of which Rust sees to it that they do not overlap; a `bool` is 0 or 1; and
        // `Fed` has the library's layout (hosts/run compares it).
        let fed = unsafe {
            library::limbusagin_feed(
                *self,
                tape.as_ptr(),
                tape.len(),
                memory.as_mut_ptr(),
                memory.len(),
                answers.as_mut_ptr(),
                answers.len(),
            )
        };
        if fed.status != 0 {
            return Err(Refused);
        }
        *self = fed.board;
        Ok(fed.records)
    }
}
