//! A file that keeps something of each block from one run to the next.

use crate::block::BLOCKS;
use std::fs::{self, File};
use std::io;
use std::os::unix::fs::FileExt;
use std::path::Path;

/// What was there at the start: nothing, a file of another head or one that is not whole, or one to go on with.
#[derive(Debug, PartialEq, Eq)]
pub enum Before {
    Nothing,
    Unfit,
    Fit,
}

/// A line, then a cell of SIZE bytes for each block. A cell is written at once, so that there is no moment at which the file is
/// not whole.
pub struct Kept<const SIZE: usize> {
    file: File,
    head: usize,
    pub before: Before,
    /// The cells as they were at the start.
    pub cells: Vec<[u8; SIZE]>,
}

impl<const SIZE: usize> Kept<SIZE> {
    /// Goes on with a file that is whole, has this line and in each cell something that is known; any other is made anew, of
    /// empty cells.
    pub fn open(
        path: &Path,
        line: &str,
        empty: [u8; SIZE],
        is_known: impl Fn(&[u8; SIZE]) -> bool,
    ) -> io::Result<Kept<SIZE>> {
        let head = format!("{line}\n").into_bytes();
        let stored = match fs::read(path) {
            Ok(stored) => Some(stored),
            Err(error) if error.kind() == io::ErrorKind::NotFound => None,
            Err(error) => return Err(error),
        };
        let cells = stored
            .as_deref()
            .and_then(|stored| cells(stored, &head))
            .filter(|cells| cells.iter().all(is_known));
        if cells.is_none() {
            create(path, &[&head, [empty; BLOCKS].as_flattened()].concat())?;
        }
        Ok(Kept {
            file: File::options().write(true).open(path)?,
            head: head.len(),
            before: match (stored, &cells) {
                (None, _) => Before::Nothing,
                (_, None) => Before::Unfit,
                _ => Before::Fit,
            },
            cells: cells.unwrap_or_else(|| vec![empty; BLOCKS]),
        })
    }

    pub fn write(&self, block: u16, cell: [u8; SIZE]) -> io::Result<()> {
        let place = self.head + block as usize * SIZE;
        self.file.write_all_at(&cell, place as u64)
    }
}

/// The cells of a stored file, where it is whole and has this head.
fn cells<const SIZE: usize>(stored: &[u8], head: &[u8]) -> Option<Vec<[u8; SIZE]>> {
    let (cells, rest) = stored.strip_prefix(head)?.as_chunks();
    (cells.len() == BLOCKS && rest.is_empty()).then(|| cells.to_vec())
}

/// The file in one step: written beside its place and then moved there.
fn create(path: &Path, whole: &[u8]) -> io::Result<()> {
    let beside = path.with_extension("new");
    fs::write(&beside, whole)?;
    fs::rename(beside, path)
}

/// A file of its own for each test, removed behind it.
#[cfg(test)]
pub struct Scratch(pub std::path::PathBuf);

#[cfg(test)]
impl Scratch {
    pub fn new(name: &str) -> Scratch {
        let name = format!("exhaust-{}-{name}", std::process::id());
        Scratch(std::env::temp_dir().join(name))
    }
}

#[cfg(test)]
impl Drop for Scratch {
    fn drop(&mut self) {
        let _ = fs::remove_file(&self.0);
    }
}
