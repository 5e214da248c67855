//! Writes the files of the sample ROM from its source.

use host::sample::source::Source;
use host::sample::{entries, hold_texts, image, marks, printed};
use std::path::Path;
use std::process::ExitCode;
use std::{env, fs};

fn write(dir: &Path) -> Result<(), String> {
    let path = dir.join("scanner.asm");
    let text = fs::read_to_string(&path).map_err(|error| format!("{}: {error}", path.display()))?;
    let source = Source::read(&text)?;
    hold_texts(&source)?;
    let image = image(&source);
    let files = [
        ("scanner.list", printed(&image)),
        ("scanner.rom", image),
        ("scanner.map", marks(&source)),
        ("scanner.entries", entries(&source)?),
    ];
    for (name, bytes) in files {
        fs::write(dir.join(name), bytes).map_err(|error| format!("{name}: {error}"))?;
    }
    Ok(())
}

fn main() -> ExitCode {
    let arguments: Vec<String> = env::args().skip(1).collect();
    let words: Vec<&str> = arguments.iter().map(String::as_str).collect();
    let ["write", dir] = words[..] else {
        eprintln!("usage: samples write DIR");
        return ExitCode::from(2);
    };
    if let Err(error) = write(Path::new(dir)) {
        eprintln!("samples: {error}");
        return ExitCode::FAILURE;
    }
    ExitCode::SUCCESS
}
