//! How far a kind is: a line from time to time.

use crate::block::BLOCKS;
use crate::tally::{grouped, Tally};
use std::time::{Duration, Instant};

/// From one line to the next.
const BETWEEN: Duration = Duration::from_secs(10);

pub struct Pace {
    start: Instant,
    next: Instant,
}

impl Pace {
    pub fn start() -> Pace {
        let start = Instant::now();
        let next = start + BETWEEN;
        Pace { start, next }
    }

    /// How long it is until a line is due.
    pub fn wait(&self) -> Duration {
        self.next.saturating_duration_since(Instant::now())
    }

    /// The line, where it is time for one.
    pub fn due(&mut self, tally: &Tally) -> Option<String> {
        self.wait().is_zero().then(|| {
            self.next = Instant::now() + BETWEEN;
            line(tally, self.start.elapsed())
        })
    }
}

/// Blocks, differing ones, seconds, and what is left at the pace of this run.
fn line(tally: &Tally, elapsed: Duration) -> String {
    let (done, all, differing) = (tally.done(), BLOCKS, tally.differing);
    let [now, of, differ] = [done, all, differing].map(grouped);
    let seconds = seconds(elapsed);
    let left = match tally.compared {
        0 => "no estimate yet".into(),
        compared => {
            let left = elapsed.mul_f64((all - done) as f64 / compared as f64);
            format!("about {} to go", self::seconds(left))
        }
    };
    format!("{now} of {of} blocks, {differ} differ, {seconds}, {left}")
}

/// Such as '3,456 s'.
pub fn seconds(elapsed: Duration) -> String {
    format!("{} s", grouped(elapsed.as_secs() as usize))
}

#[cfg(test)]
mod tests {
    use super::*;

    #[test]
    fn lines() {
        let mut tally = Tally {
            earlier: 60_000,
            ..Tally::default()
        };
        let shown = line(&tally, Duration::from_secs(10));
        let expected = "60,000 of 65,536 blocks, 0 differ, 10 s, no estimate yet";
        assert_eq!(shown, expected);
        for k in 0..536 {
            tally.add(k != 77);
        }
        let shown = line(&tally, Duration::from_millis(1_072_900));
        let expected = "60,536 of 65,536 blocks, 1 differ, 1,072 s, about 10,008 s to go";
        assert_eq!(shown, expected);
    }

    #[test]
    fn no_line_before_its_time() {
        let (mut pace, tally) = (Pace::start(), Tally::default());
        assert_eq!(pace.due(&tally), None);
        assert!(pace.wait() > BETWEEN / 2);
        pace.next = Instant::now();
        assert!(pace.due(&tally).is_some());
        assert_eq!(pace.due(&tally), None);
    }
}
