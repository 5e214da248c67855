//! The calls that are compared, in runs under a name.

use crate::calls::{About, Calls, Inputs};
use crate::choice_runs::choice_runs;
use crate::function::{Function, FULL_TEXT, PLAIN_TEXT};
use crate::input_runs::{behind, behind_prefix, long, random, up_to_four, up_to_two, InputRun};
use crate::map_runs::map_runs;
use crate::mode_runs::{mode_runs, other_modes};
use crate::pages::{edged, ED_BEHIND, PAGES};
use crate::plain::Mode;
use crate::rooms::{enough_room, every_room};
use crate::row_runs::row_runs;
use crate::tally::{answers_in, OF_BYTES, OF_CHOICES, OF_MAPS, OF_OTHER_MODES, OF_ROWS};

/// So many maps at least come to each answer of the map check.
const OF_EACH_ANSWER: usize = 2_000;

/// The pages that have their codes in the first two bytes.
const SHALLOW: usize = 5;

/// Lengths of the inputs that are too long.
const LONG: [usize; 9] = [5, 6, 7, 8, 16, 64, 255, 256, 300];

pub type Run = Box<dyn Iterator<Item = Calls>>;

/// The runs of one function in a mode, what their answers must meet, and how often.
pub struct Group {
    pub function: String,
    pub to_meet: Vec<usize>,
    pub at_least: usize,
    pub runs: Vec<(String, Run)>,
}

/// Calls over these inputs in every room.
fn in_every_room(mode: Mode, inputs: Vec<Inputs>) -> Run {
    Box::new(inputs.into_iter().map(move |inputs| Calls {
        mode: mode as u8,
        rooms: every_room(inputs.function),
        about: About::Inputs(inputs),
    }))
}

/// Calls over these inputs, in a room that is enough.
fn in_enough_room(mode: Mode, inputs: Vec<Inputs>) -> Run {
    let inputs = inputs.into_iter().enumerate();
    Box::new(inputs.map(move |(k, inputs)| Calls {
        mode: mode as u8,
        rooms: enough_room(inputs.function, k),
        about: About::Inputs(inputs),
    }))
}

/// Every first byte with five bytes and more.
fn too_long(mode: Mode, function: Function) -> Run {
    in_every_room(mode, behind(function, 0, long(&LONG)))
}

fn named(mode: Mode, run: InputRun) -> (String, Run) {
    let InputRun { name, inputs, .. } = run;
    match run.every_room {
        true => (format!("{name}, every room"), in_every_room(mode, inputs)),
        false => (name.into(), in_enough_room(mode, inputs)),
    }
}

/// The runs of `z80_record`; in the Rust's mode, where a prefix takes four bytes, all of these behind it too.
fn record_runs(mode: Mode) -> Vec<(String, Run)> {
    let mut up_to_four = up_to_four();
    if mode == Mode::Rust {
        up_to_four.extend(behind_prefix());
    }
    let runs = up_to_four.into_iter().map(|run| named(mode, run));
    let too_long = too_long(mode, Function::Record);
    let too_long = ("5 to 300 bytes, every room".into(), too_long);
    runs.chain([too_long]).collect()
}

/// The runs of a text in the Rust's mode; those of pages and prefixes are of four bytes.
fn text_runs(function: Function) -> Vec<(&'static str, Run)> {
    let pages = [&PAGES[..], &ED_BEHIND].concat();
    let (shallow, deep) = pages.split_at(SHALLOW);
    let edges = pages.iter().flat_map(|prefix| edged(prefix, 4)).collect();
    let codes = shallow.iter().flat_map(|prefix| edged(prefix, 3)).collect();
    let deep = deep.iter().map(|prefix| prefix.to_vec()).collect();
    let up_to_two = in_every_room(Mode::Rust, up_to_two(function));
    let edges = in_every_room(Mode::Rust, behind(function, 0, edges));
    let codes = in_enough_room(Mode::Rust, behind(function, 1, codes));
    let deep = in_enough_room(Mode::Rust, behind(function, 2, deep));
    let random = in_enough_room(Mode::Rust, random(function));
    let too_long = too_long(Mode::Rust, function);
    vec![
        ("all of 0 to 2 bytes, every room", up_to_two),
        ("edges on every page, every room", edges),
        ("plain, CB, ED, DD and FD page", codes),
        ("all behind DD CB, FD CB, DD ED, FD ED", deep),
        ("random 4 bytes", random),
        ("5 to 300 bytes, every room", too_long),
    ]
}

/// The runs of a function in a mode, each of whose answers there is to be met.
fn group<N: Into<String>>(
    mode: Mode,
    function: &str,
    answers: &[usize],
    runs: Vec<(N, Run)>,
) -> Group {
    let runs = runs.into_iter().map(|(name, run)| (name.into(), run));
    Group {
        function: format!("{function}, mode {}", mode as u8),
        to_meet: answers_in(mode, answers),
        at_least: 1,
        runs: runs.collect(),
    }
}

/// The runs of a mode, by function.
fn groups_in(mode: Mode) -> Vec<Group> {
    let maps = Group {
        at_least: OF_EACH_ANSWER,
        ..group(mode, "map check", &OF_MAPS, map_runs(mode))
    };
    vec![
        group(mode, "record", &OF_BYTES, record_runs(mode)),
        group(mode, "every text", &OF_CHOICES, choice_runs(mode)),
        group(mode, "row", &OF_ROWS, row_runs(mode)),
        maps,
    ]
}

/// The two texts that the original has itself.
fn original_texts() -> [Group; 2] {
    [("plain text", PLAIN_TEXT), ("full text", FULL_TEXT)]
        .map(|(name, function)| group(Mode::Rust, name, &OF_BYTES, text_runs(function)))
}

/// Every function with the numbers that are no mode.
fn other_modes_group() -> Group {
    let runs = mode_runs().into_iter();
    Group {
        function: "other modes".into(),
        to_meet: OF_OTHER_MODES.into(),
        at_least: other_modes().count(),
        runs: runs.map(|(name, run)| (name.into(), run)).collect(),
    }
}

/// All runs, by mode and function.
pub fn groups() -> Vec<Group> {
    let mut groups = groups_in(Mode::Rust);
    groups.extend(original_texts());
    groups.extend(groups_in(Mode::Chip));
    groups.push(other_modes_group());
    groups
}

/// The calls of all groups, one behind another.
pub fn all_calls() -> Run {
    let runs = groups().into_iter().flat_map(|group| group.runs);
    Box::new(runs.flat_map(|(_, run)| run))
}
