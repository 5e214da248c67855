//! The plain reading: what documents 01 and 02 say, in Rust that is written to be read, over the original's decoder. Nothing of it
//! is proved. It is no part of what a host calls: the exported functions are held to it, and stored answers are made with it.

pub mod chip;
pub mod flow;
pub mod listing;
pub mod marking;
pub mod missing;
pub mod parts;
pub mod record;
pub mod row_times;
pub mod said;

use crate::answer::Refusal;
use crate::arguments::{CHIP, RUST};
use crate::original::{disas, OpCode};

/// The most bytes that the original takes; it panics on more.
pub const LARGEST_INPUT: usize = 4;

/// By whom bytes are read, as document 02 says in P11: by the original, or by the chip.
#[derive(Debug, PartialEq, Eq, Clone, Copy)]
pub enum Mode {
    Rust = RUST as isize,
    Chip = CHIP as isize,
}

pub const MODES: [Mode; 2] = [Mode::Rust, Mode::Chip];

impl Mode {
    /// The mode of a number; one that is none is refused.
    pub fn numbered(number: u8) -> Result<Mode, Refusal> {
        let mut modes = MODES.into_iter();
        let mode = modes.find(|mode| *mode as u8 == number);
        mode.ok_or(Refusal::BadMode)
    }
}

/// The record in a mode; long input is told apart first because the original panics on it.
pub fn decoded(mode: Mode, ins: &[u8]) -> Result<OpCode, Refusal> {
    if ins.is_empty() {
        return Err(Refusal::Nothing);
    }
    if ins.len() > LARGEST_INPUT {
        return Err(Refusal::Long);
    }
    let record = match mode {
        Mode::Rust => disas(ins),
        Mode::Chip => chip::row(ins),
    };
    record.ok_or(Refusal::Short)
}

#[cfg(test)]
mod tests {
    use super::*;

    #[test]
    fn modes_by_number() {
        assert_eq!(Mode::numbered(0), Ok(Mode::Rust));
        assert_eq!(Mode::numbered(1), Ok(Mode::Chip));
        for number in 2..=255 {
            assert_eq!(Mode::numbered(number), Err(Refusal::BadMode));
        }
    }
}
