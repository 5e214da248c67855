//! How the sides are timed.

use std::hint::black_box;
use std::time::Instant;

/// The fastest round counts, and the sides take turns at the rounds.
const ROUNDS: usize = 60;

/// A round has at least this many calls, so that the clock's own steps do not show.
const CALLS: usize = 65_536;

/// Some work, and how many calls it makes.
pub struct Side<'a> {
    pub calls: usize,
    pub work: &'a dyn Fn(),
}

/// Nanoseconds a call: of ours in each mode, and of theirs.
pub struct Times {
    pub rust: f64,
    pub chip: f64,
    pub theirs: f64,
}

/// Times ours in the Rust's mode, ours in the chip's, and theirs.
pub fn times(sides: [Side; 3]) -> Times {
    let mut fastest = [f64::INFINITY; 3];
    for _ in 0..ROUNDS {
        for (fastest, side) in fastest.iter_mut().zip(&sides) {
            *fastest = fastest.min(round(side));
        }
    }
    let [rust, chip, theirs] = fastest;
    Times { rust, chip, theirs }
}

/// Takes a result, so that the work for it is done.
pub fn take<T>(result: T) {
    drop(black_box(result));
}

/// Nanoseconds a call, in a round of all of them, as often as it takes.
fn round(side: &Side) -> f64 {
    let times = CALLS.div_ceil(side.calls);
    let start = Instant::now();
    for _ in 0..times {
        (side.work)();
    }
    start.elapsed().as_nanos() as f64 / (times * side.calls) as f64
}

impl Times {
    /// The times of so many calls together, in the Rust's mode and in the chip's.
    pub fn whole(&self, rust: usize, chip: usize) -> String {
        let microseconds = |nanoseconds: f64, calls: usize| nanoseconds * calls as f64 / 1000.0;
        let ours = microseconds(self.rust, rust);
        let in_chip_mode = microseconds(self.chip, chip);
        let theirs = microseconds(self.theirs, rust);
        format!("{ours:.0} us ours, {in_chip_mode:.0} us in chip mode, {theirs:.0} us theirs")
    }
}
