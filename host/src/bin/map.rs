//! Checks a map from files with the exported function in the Rust's mode, and prints what it says. The words behind the origin run the bridge,
//! where there is one.

use host::answer::name;
use host::arguments::RUST;
use host::asked::Asked;
use host::caller::Caller;
use host::calls::Calls;
use host::maps::Drawn;
use host::outcome::{filled, Call};
use std::process::ExitCode;
use std::{env, fs, io};

fn read(path: &str) -> Result<Vec<u8>, String> {
    fs::read(path).map_err(|error| format!("{path}: {error}"))
}

/// Four hex digits.
fn origin(word: &str) -> Option<u16> {
    let digits = word.len() == 4 && word.chars().all(|c| c.is_ascii_hexdigit());
    digits.then(|| u16::from_str_radix(word, 16).ok())?
}

/// The number and the address of the exported function.
fn checked(drawn: &Drawn, bridge: &[String]) -> io::Result<(u8, u32)> {
    let calls = Calls::of_map(RUST, drawn.clone());
    let mut caller = Caller::start(bridge, || Box::new([calls].into_iter()))?;
    let asked = Asked::Map(drawn.map());
    let call = Call {
        mode: RUST,
        asked: &asked,
        room: 0,
        before: filled(0),
    };
    let outcome = caller.call(&call)?;
    caller.finish()?;
    Ok((outcome.number, outcome.lent.address))
}

/// The number and its name, and the address where it has one.
fn shown(number: u8, address: u32) -> Result<String, String> {
    let name = name(number as usize).ok_or(format!("{number} is no answer"))?;
    Ok(match number {
        0..=7 => format!("{number} {name}"),
        _ => format!("{number} {name} at {address:04X}"),
    })
}

/// Prints what is said of the map; whether it passes.
fn run(files: [&String; 3], origin: u16, bridge: &[String]) -> Result<bool, String> {
    let [image, marks, entries] = files;
    let drawn = Drawn {
        image: read(image)?,
        origin,
        marks: read(marks)?,
        entries: read(entries)?,
    };
    let (number, address) = checked(&drawn, bridge).map_err(|error| error.to_string())?;
    println!("{}", shown(number, address)?);
    Ok(number == 0)
}

fn main() -> ExitCode {
    let words: Vec<String> = env::args().skip(1).collect();
    let [image, marks, entries, word, bridge @ ..] = &words[..] else {
        return usage();
    };
    let Some(origin) = origin(word) else {
        return usage();
    };
    match run([image, marks, entries], origin, bridge) {
        Ok(true) => ExitCode::SUCCESS,
        Ok(false) => ExitCode::FAILURE,
        Err(error) => {
            eprintln!("map: {error}");
            ExitCode::FAILURE
        }
    }
}

fn usage() -> ExitCode {
    eprintln!("usage: map IMAGE MARKS ENTRIES ORIGIN [BRIDGE...]; the origin is four hex digits");
    ExitCode::from(2)
}

#[cfg(test)]
mod tests {
    use super::*;

    #[test]
    fn origins() {
        assert_eq!(origin("0000"), Some(0));
        assert_eq!(origin("aBcD"), Some(0xABCD));
        for word in ["", "0", "000", "00000", "+123", "12 4", "000g"] {
            assert_eq!(origin(word), None, "{word}");
        }
    }

    #[test]
    fn lines() {
        assert_eq!(shown(0, 0).unwrap(), "0 Done");
        assert_eq!(shown(7, 0).unwrap(), "7 EntryCount");
        assert_eq!(shown(8, 0).unwrap(), "8 MarkValue at 0000");
        assert_eq!(shown(13, 0xABC).unwrap(), "13 BadNext at 0ABC");
        assert!(shown(14, 0).is_err());
    }
}
