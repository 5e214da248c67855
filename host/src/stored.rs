//! The stored runs of programs: what each reads, and what the original has it print.

use crate::{edit_rows, list_rows, replay_rows, staged};
use std::collections::HashSet;

/// So many bytes of an input are in a request, those beyond it zero.
const INPUT_BYTES: usize = 5;

/// A part of what a program reads, and what it prints for that.
#[derive(Clone)]
pub struct Row {
    pub request: Vec<u8>,
    pub line: Vec<u8>,
}

/// A program's run, in a folder of that name; in its files the rows follow one another without a gap.
pub struct Stored {
    pub folder: &'static str,
    pub rows: Vec<Row>,
}

/// All stored runs.
pub fn stored() -> Vec<Stored> {
    let replay = Stored {
        folder: "replay",
        rows: replay_rows::rows(),
    };
    let replay_staged = Stored {
        folder: "replay_staged",
        rows: staged::rows(),
    };
    let edits = Stored {
        folder: "edits",
        rows: edit_rows::rows(),
    };
    let lists = list_rows::images().map(|(folder, image)| Stored {
        folder,
        rows: list_rows::rows(&image),
    });
    let requested = [replay, replay_staged, edits];
    requested.into_iter().chain(lists).collect()
}

/// The bytes of an input as they stand in a request.
pub fn padded(ins: &[u8]) -> [u8; INPUT_BYTES] {
    let mut bytes = [0; INPUT_BYTES];
    bytes[..ins.len()].copy_from_slice(ins);
    bytes
}

/// The rows without those whose request stands before them.
pub fn distinct(mut rows: Vec<Row>) -> Vec<Row> {
    let mut seen = HashSet::new();
    rows.retain(|row| seen.insert(row.request.clone()));
    rows
}

impl Stored {
    /// The two files: name, and a part for each row.
    pub fn files(&self) -> [(&'static str, Vec<&[u8]>); 2] {
        let requests = self.rows.iter().map(|row| &row.request[..]);
        let lines = self.rows.iter().map(|row| &row.line[..]);
        [("stdin", requests.collect()), ("stdout", lines.collect())]
    }
}

#[cfg(test)]
mod tests {
    use super::*;
    use std::collections::BTreeSet;
    use std::fs;
    use std::path::Path;

    /// The folders below `from` that hold a run, by their path from `top` on; what rt makes of a crate, in `out`, is none.
    fn with_run(top: &Path, from: &Path) -> BTreeSet<String> {
        let entries = fs::read_dir(from)
            .unwrap()
            .map(|entry| entry.unwrap().path());
        let mut found = BTreeSet::new();
        for folder in entries.filter(|path| path.is_dir() && !path.ends_with("out")) {
            if folder.join("stdout").exists() {
                let name = folder.strip_prefix(top).unwrap();
                found.insert(name.to_str().unwrap().to_owned());
            }
            found.extend(with_run(top, &folder));
        }
        found
    }

    /// So that no stored file goes unchecked.
    #[test]
    fn every_folder_that_has_a_run() {
        let crates = Path::new(concat!(env!("CARGO_MANIFEST_DIR"), "/../crates"));
        let named: BTreeSet<_> = stored().iter().map(|run| run.folder.to_owned()).collect();
        assert_eq!(with_run(crates, crates), named);
    }
}
