//! Holds the archive to the original, and in the chip's mode to the plain reading of that, on all inputs of four bytes, by the
//! hashes of blocks; host/exhaust gives it its words.

mod block;
mod child;
mod hash;
mod kept;
mod kind;
mod left;
mod original;
mod pace;
mod progress;
mod run;
mod search;
mod tally;
mod work;

use kind::{kinds, Kind};
use original::Original;
use pace::seconds;
use run::{Run, Sides};
use std::path::Path;
use std::process::ExitCode;
use std::time::Instant;
use std::{env, fs, io};
use tally::Tally;

/// What is asked for: the folder of the files that are kept, the words that name the two sides, the kinds, and the command that
/// runs the archive's side.
struct Words<'a> {
    folder: &'a Path,
    sides: Sides<'a>,
    kinds: Vec<Kind>,
    archive: &'a [String],
}

/// FOLDER ARCHIVE ORIGINAL [KIND...] -- COMMAND...
fn parsed(words: &[String]) -> Option<Words<'_>> {
    let end = words.iter().rposition(|word| word == "--")?;
    let [folder, archive, original, named @ ..] = &words[..end] else {
        return None;
    };
    Some(Words {
        folder: Path::new(folder),
        sides: Sides { archive, original },
        kinds: kinds(named)?,
        archive: &words[end + 1..],
    })
}

/// Compares the kinds one behind the other; whether every block of theirs is equal.
fn compare(words: &Words) -> io::Result<bool> {
    let (start, mut all) = (Instant::now(), Tally::default());
    fs::create_dir_all(words.folder)?;
    println!("exhaust: {}", words.sides);
    for kind in &words.kinds {
        let run = Run::open(*kind, words.archive, words.folder, &words.sides)?;
        let original = Original::open(words.folder, words.sides.original, *kind)?;
        all.join(run.compare(&original)?);
    }
    println!("exhaust: {}, {}", all.summary(), seconds(start.elapsed()));
    Ok(all.is_equal(words.kinds.len()))
}

fn main() -> ExitCode {
    let words: Vec<String> = env::args().skip(1).collect();
    let Some(words) = parsed(&words) else {
        eprintln!("usage: host/exhaust [[chip_]records|[chip_]texts|[chip_]full_texts]...");
        return ExitCode::from(2);
    };
    match compare(&words) {
        Ok(true) => ExitCode::SUCCESS,
        Ok(false) => ExitCode::FAILURE,
        Err(error) => {
            eprintln!("exhaust: {error}");
            ExitCode::FAILURE
        }
    }
}
