//! The exported functions of a row's bytes.

use crate::arguments::{FULL, PLAIN};

/// `z80_record`, or `z80_text` with a choice, which may be one that is refused.
#[derive(Debug, PartialEq, Eq, Clone, Copy)]
pub enum Function {
    Record,
    Text(u8),
}

/// The two texts that the original has itself: its Display and its Debug.
pub const PLAIN_TEXT: Function = Function::Text(PLAIN);
pub const FULL_TEXT: Function = Function::Text(FULL);

impl Function {
    /// The number that it goes by in a request: 0 the record, else one more than the choice of a text.
    pub fn number(self) -> u16 {
        match self {
            Function::Record => 0,
            Function::Text(choice) => 1 + choice as u16,
        }
    }
}
