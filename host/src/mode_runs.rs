//! The calls with numbers that are no mode: each function on what it would take, and on what it would refuse.

use crate::arguments::{FULL, PLAIN};
use crate::calls::{About, Calls, Inputs, Places};
use crate::function::Function::{self, Record, Text};
use crate::maps::{pairs, Drawn};
use crate::plain::Mode;
use crate::runs::Run;

/// Inputs that would be Nothing, Done, Short, Done and Long.
const BYTES: [&[u8]; 5] = [&[], &[0x00], &[0xDD], &[0xDD, 0xCB, 0x80, 0xC7], &[0x00; 5]];

/// Choices, and numbers that are none.
const CHOICES: [u8; 5] = [0, PLAIN, FULL, FULL + 1, 255];

/// No room, one too few for a record, just enough, and enough for all that is written.
const ROOMS: [u8; 4] = [0, 23, 24, 58];

/// Images with their marks: none, one that passes, one that breaks a rule, and marks that are too many.
const MAPS: [(&[u8], &[u8]); 4] = [
    (&[], &[]),
    (&[0x18, 0xFE], &[1, 2]),
    (&[0x18, 0xFF], &[1, 2]),
    (&[0xC9], &[1, 1]),
];

/// All numbers that are no mode.
pub fn other_modes() -> impl Iterator<Item = u8> {
    (0..=u8::MAX).filter(|number| Mode::numbered(*number).is_err())
}

/// With each number that is no mode, in each of the rooms.
fn in_other_modes<A: Iterator<Item = About> + 'static>(abouts: impl Fn() -> A + 'static) -> Run {
    Box::new(other_modes().flat_map(move |mode| {
        abouts().map(move |about| Calls {
            mode,
            rooms: ROOMS.to_vec(),
            about,
        })
    }))
}

fn of_bytes(function: Function) -> impl Iterator<Item = About> {
    BYTES.into_iter().map(move |ins| {
        About::Inputs(Inputs {
            function,
            free: 0,
            fixed: ins.to_vec(),
        })
    })
}

/// At an address of the image and at the one behind it; at the second origin it does not fit.
fn places() -> impl Iterator<Item = About> {
    let origins = [0x1000, 0xFFFF].into_iter();
    origins.flat_map(|origin| {
        MAPS.into_iter()
            .map(move |(image, _)| About::Places(Places::new(image, origin, origin, 3)))
    })
}

/// With an entry, and with none.
fn maps() -> impl Iterator<Item = About> {
    let entries = [pairs(&[0x1000]), vec![]].into_iter();
    entries.flat_map(|entries| {
        MAPS.into_iter().map(move |(image, marks)| {
            About::Map(Drawn {
                image: image.to_vec(),
                origin: 0x1000,
                marks: marks.to_vec(),
                entries: entries.clone(),
            })
        })
    })
}

pub fn mode_runs() -> Vec<(&'static str, Run)> {
    let texts = || {
        CHOICES
            .into_iter()
            .flat_map(|choice| of_bytes(Text(choice)))
    };
    vec![
        ("record", in_other_modes(|| of_bytes(Record))),
        ("text", in_other_modes(texts)),
        ("row", in_other_modes(places)),
        ("map check", in_other_modes(maps)),
    ]
}

#[cfg(test)]
mod tests {
    use super::*;

    #[test]
    fn modes() {
        assert!(other_modes().eq(2..=255));
        for (name, run) in mode_runs() {
            let mut modes: Vec<u8> = run.map(|calls| calls.mode).collect();
            modes.dedup();
            assert!(modes.into_iter().eq(2..=255), "{name}");
        }
    }
}
