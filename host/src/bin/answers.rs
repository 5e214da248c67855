//! Writes the stored runs of the programs from what the original says, or holds the stored files to it.

use host::stored::{stored, Stored};
use std::path::Path;
use std::process::ExitCode;
use std::{env, fs};

fn write(crates: &Path, stored: &Stored) -> Result<(), String> {
    let folder = crates.join(stored.folder);
    for (name, parts) in stored.files() {
        let path = folder.join(name);
        let written = fs::create_dir_all(&folder).and_then(|()| fs::write(&path, parts.concat()));
        written.map_err(|error| format!("{}: {error}", path.display()))?;
    }
    Ok(())
}

/// The first part, counted from 1, where a stored file and the given parts differ.
fn first_differing(file: &[u8], parts: &[&[u8]]) -> Option<usize> {
    let mut rest = file;
    for (n, part) in parts.iter().enumerate() {
        match rest.strip_prefix(*part) {
            Some(behind) => rest = behind,
            None => return Some(n + 1),
        }
    }
    (!rest.is_empty()).then_some(parts.len() + 1)
}

/// Compares both stored files with what the original says now.
fn check(crates: &Path, stored: &Stored) -> Result<(), String> {
    for (name, parts) in stored.files() {
        let path = crates.join(stored.folder).join(name);
        let shown = path.display();
        let file = fs::read(&path).map_err(|error| format!("{shown}: {error}"))?;
        if let Some(n) = first_differing(&file, &parts) {
            let row = stored.rows.get(n - 1);
            let line = row.map_or(&b"no such row"[..], |row| &row.line);
            let original = line.trim_ascii_end().escape_ascii();
            return Err(format!(
                "{shown}: row {n} differs; the original: {original}"
            ));
        }
    }
    Ok(())
}

fn main() -> ExitCode {
    let arguments: Vec<String> = env::args().skip(1).collect();
    let words: Vec<&str> = arguments.iter().map(String::as_str).collect();
    let (step, done, crates): (fn(&Path, &Stored) -> _, _, _) = match words[..] {
        ["write", crates] => (write, "written", crates),
        ["check", crates] => (check, "checked", crates),
        _ => {
            eprintln!("usage: answers write CRATES_DIR | answers check CRATES_DIR");
            return ExitCode::from(2);
        }
    };
    let mut code = ExitCode::SUCCESS;
    for stored in stored() {
        match step(Path::new(crates), &stored) {
            Ok(()) => println!(
                "answers: {}: {} rows {done}",
                stored.folder,
                stored.rows.len()
            ),
            Err(error) => {
                eprintln!("answers: {error}");
                code = ExitCode::FAILURE;
            }
        }
    }
    code
}
