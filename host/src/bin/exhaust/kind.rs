//! What may be compared, by the words of the command line.

use host::function::{Function, FULL_TEXT, PLAIN_TEXT};
use host::plain::Mode;

/// A function in a mode.
#[derive(Debug, PartialEq, Eq, Clone, Copy)]
pub struct Kind {
    pub name: &'static str,
    pub mode: Mode,
    pub function: Function,
}

const fn kind(name: &'static str, mode: Mode, function: Function) -> Kind {
    Kind {
        name,
        mode,
        function,
    }
}

pub const RECORDS: Kind = kind("records", Mode::Rust, Function::Record);

pub const KINDS: [Kind; 6] = [
    RECORDS,
    kind("texts", Mode::Rust, PLAIN_TEXT),
    kind("full_texts", Mode::Rust, FULL_TEXT),
    kind("chip_records", Mode::Chip, Function::Record),
    kind("chip_texts", Mode::Chip, PLAIN_TEXT),
    kind("chip_full_texts", Mode::Chip, FULL_TEXT),
];

/// The kinds that are named, those of the Rust's mode where none is; nothing where a word names none.
pub fn kinds(words: &[String]) -> Option<Vec<Kind>> {
    let is_named = |kind: &Kind| words.iter().any(|word| word == kind.name);
    let is_kind = |word: &String| KINDS.iter().any(|kind| kind.name == word);
    if words.is_empty() {
        let kinds = KINDS.into_iter();
        return Some(kinds.filter(|kind| kind.mode == Mode::Rust).collect());
    }
    let named = KINDS.into_iter().filter(is_named).collect();
    words.iter().all(is_kind).then_some(named)
}

#[cfg(test)]
mod tests {
    use super::*;

    fn named(words: &[&str]) -> Option<Vec<Kind>> {
        let words: Vec<String> = words.iter().map(|word| word.to_string()).collect();
        kinds(&words)
    }

    #[test]
    fn by_name() {
        let [records, texts, full_texts, chip_records, ..] = KINDS;
        assert_eq!(named(&[]), Some(vec![records, texts, full_texts]));
        assert_eq!(named(&["chip_records"]), Some(vec![chip_records]));
        assert_eq!(named(&["texts"]), Some(vec![texts]));
        let twice = named(&["full_texts", "records", "full_texts"]);
        assert_eq!(twice, Some(vec![records, full_texts]));
        assert_eq!(named(&["texts", "text"]), None);
    }
}
