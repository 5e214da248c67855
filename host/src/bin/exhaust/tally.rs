//! Blocks, counted.

use crate::block::{BLOCKS, INPUTS};

/// Blocks found equal in earlier runs, those compared in this one, and those of them that differ.
#[derive(Debug, Default, Clone, Copy)]
pub struct Tally {
    pub earlier: usize,
    pub compared: usize,
    pub differing: usize,
}

impl Tally {
    pub fn add(&mut self, equal: bool) {
        self.compared += 1;
        self.differing += !equal as usize;
    }

    pub fn join(&mut self, other: Tally) {
        self.earlier += other.earlier;
        self.compared += other.compared;
        self.differing += other.differing;
    }

    /// Compared at any time.
    pub fn done(&self) -> usize {
        self.earlier + self.compared
    }

    /// Whether all blocks of so many kinds were compared, and none differs.
    pub fn is_equal(&self, kinds: usize) -> bool {
        self.done() == kinds * BLOCKS && self.differing == 0
    }

    /// What all of it came to.
    pub fn summary(&self) -> String {
        let (calls, earlier) = (self.done() * INPUTS, self.earlier * INPUTS);
        let earlier = match earlier {
            0 => String::new(),
            _ => format!(" ({} of them in earlier runs)", grouped(earlier)),
        };
        let differing = grouped(self.differing);
        format!(
            "{} calls compared{earlier}, {differing} blocks differ",
            grouped(calls)
        )
    }
}

/// A number with its digits in threes.
pub fn grouped(number: usize) -> String {
    match number {
        0..1000 => number.to_string(),
        _ => format!("{},{:03}", grouped(number / 1000), number % 1000),
    }
}

#[cfg(test)]
mod tests {
    use super::*;

    #[test]
    fn numbers() {
        let cases = [
            (0, "0"),
            (999, "999"),
            (1_000, "1,000"),
            (65_036, "65,036"),
            (12_884_901_888, "12,884,901,888"),
        ];
        for (number, expected) in cases {
            assert_eq!(grouped(number), expected);
        }
    }

    /// A kind of which so many blocks were equal before, with the others compared now but for some; one may differ.
    fn kind(earlier: usize, missing: usize, differing: bool) -> Tally {
        let mut tally = Tally {
            earlier,
            ..Tally::default()
        };
        for k in earlier..BLOCKS - missing {
            tally.add(!(differing && k == earlier));
        }
        tally
    }

    #[test]
    fn equal_exactly_where_all_blocks_are() {
        let cases = [
            (kind(0, 0, false), true),
            (kind(100, 0, false), true),
            (kind(BLOCKS, 0, false), true),
            (kind(100, 1, false), false),
            (kind(100, 0, true), false),
        ];
        for (second, equal) in cases {
            let mut both = kind(7, 0, false);
            both.join(second);
            assert_eq!(both.is_equal(2), equal, "{both:?}");
            assert!(!both.is_equal(3));
        }
    }

    #[test]
    fn summaries() {
        let mut tally = kind(0, 0, true);
        let expected = "4,294,967,296 calls compared, 1 blocks differ";
        assert_eq!(tally.summary(), expected);
        tally.join(kind(2, 3, false));
        let expected =
            "8,589,737,984 calls compared (131,072 of them in earlier runs), 1 blocks differ";
        assert_eq!(tally.summary(), expected);
    }
}
