//! What a function is asked about: the mode, the parts of a text, a place of an image, or a map of it. The exported functions take
//! these, and so does the plain reading that they are held to.

/// The bytes of a whole address space, past whose end no image may reach.
pub const ADDRESSES: usize = 65_536;

/// The most entries, and the bytes of each.
pub const ENTRIES: usize = 256;
pub const PAIR: usize = 2;

/// The marks.
pub const DATA: u8 = 0;
pub const START: u8 = 1;
pub const INSIDE: u8 = 2;

/// The modes: bytes are read as the original reads them, or as the chip does.
pub const RUST: u8 = 0;
pub const CHIP: u8 = 1;

/// The parts of a text, which a choice adds up: the row's bytes, its instruction with the operands, its T-states.
pub const BYTES: u8 = 1;
pub const INSTRUCTION: u8 = 2;
pub const TIMES: u8 = 4;

/// The choices of the plain text, which is without the bytes, and of the full one, which has all parts and is the largest choice.
pub const PLAIN: u8 = INSTRUCTION + TIMES;
pub const FULL: u8 = BYTES + PLAIN;

/// An image that begins at an origin, and the address where a row is asked for.
#[derive(Debug, Clone, Copy)]
pub struct Place<'a> {
    pub image: &'a [u8],
    pub origin: u16,
    pub address: u16,
}

/// An image that begins at an origin, its marks, and its entries as byte pairs, low byte first.
#[derive(Debug, Clone, Copy, PartialEq, Eq)]
pub struct Map<'a> {
    pub image: &'a [u8],
    pub origin: u16,
    pub marks: &'a [u8],
    pub entries: &'a [u8],
}
