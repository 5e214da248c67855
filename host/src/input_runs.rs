//! The inputs that are compared, in runs under a name.

use crate::calls::Inputs;
use crate::function::Function::{self, Record};
use crate::mixed::Mixed;
use crate::pages::edged;

const RANDOM_INPUTS: usize = 1_000_000;

/// Inputs whose records are asked for, in every room or in one that is enough.
pub struct InputRun {
    pub name: &'static str,
    pub every_room: bool,
    pub inputs: Vec<Inputs>,
}

/// Every choice of so many free bytes behind each row of fixed ones.
pub fn behind(function: Function, free: u8, rows: Vec<Vec<u8>>) -> Vec<Inputs> {
    let of_row = |fixed| Inputs {
        function,
        free,
        fixed,
    };
    rows.into_iter().map(of_row).collect()
}

pub fn up_to_two(function: Function) -> Vec<Inputs> {
    let of_count = |free| behind(function, free, vec![vec![]]);
    (0..=2).flat_map(of_count).collect()
}

pub fn random_rows() -> Vec<Vec<u8>> {
    let mut mixed = Mixed::new(0x5A80_2026);
    (0..RANDOM_INPUTS).map(|_| mixed.bytes(4)).collect()
}

pub fn random(function: Function) -> Vec<Inputs> {
    behind(function, 0, random_rows())
}

/// Every first byte with five bytes and more: Long, which the original is not asked for because it panics.
pub fn long(lengths: &[usize]) -> Vec<Vec<u8>> {
    let mut mixed = Mixed::new(0x5A80_0005);
    let mut rows = vec![];
    for length in lengths {
        for first in 0..=0xFF {
            rows.push([vec![first], mixed.bytes(length - 1)].concat());
        }
    }
    rows
}

fn in_every_room(name: &'static str, inputs: Vec<Inputs>) -> InputRun {
    InputRun {
        name,
        every_room: true,
        inputs,
    }
}

fn in_enough_room(name: &'static str, inputs: Vec<Inputs>) -> InputRun {
    InputRun {
        every_room: false,
        ..in_every_room(name, inputs)
    }
}

/// Every three bytes behind a prefix.
fn three_behind(name: &'static str, prefix: &[u8]) -> InputRun {
    let rows = (0..=0xFF).map(|next| [prefix, &[next]].concat());
    in_enough_room(name, behind(Record, 2, rows.collect()))
}

/// The inputs of up to four bytes but for those below; those of pages and of two prefixes are of four.
pub fn up_to_four() -> Vec<InputRun> {
    let page = |name, prefix: &[u8]| in_every_room(name, behind(Record, 1, edged(prefix, 3)));
    let two_behind =
        |name, prefix: [u8; 2]| in_every_room(name, behind(Record, 2, vec![prefix.to_vec()]));
    vec![
        in_every_room("all of 0 to 2 bytes", up_to_two(Record)),
        three_behind("all of 3 bytes", &[]),
        page("plain page", &[]),
        page("CB page", &[0xCB]),
        page("ED page", &[0xED]),
        page("DD page", &[0xDD]),
        page("FD page", &[0xFD]),
        two_behind("all behind DD CB", [0xDD, 0xCB]),
        two_behind("all behind FD CB", [0xFD, 0xCB]),
        two_behind("all behind DD ED", [0xDD, 0xED]),
        two_behind("all behind FD ED", [0xFD, 0xED]),
        in_enough_room("random 4 bytes", random(Record)),
    ]
}

/// All of four bytes that begin with DD or FD.
pub fn behind_prefix() -> [InputRun; 2] {
    [
        three_behind("all behind DD", &[0xDD]),
        three_behind("all behind FD", &[0xFD]),
    ]
}
