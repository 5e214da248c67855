//! Holds the program `replay_staged`, which runs the stages, to the original. The words of the command line run it; before
//! them may stand `all`, for every input that begins with DD or FD.

use host::arguments::RUST;
use host::calls::Inputs;
use host::outcome::expected;
use host::piped::Piped;
use host::plain::said::said;
use host::staged::{call, outcome, request, runs};
use host::tally::Tally;
use std::process::ExitCode;
use std::{env, io};

/// Reads the outcome of each of these inputs.
fn hold(inputs: &Inputs, program: &mut Piped, tally: &mut Tally) -> io::Result<()> {
    for asked in inputs.asked() {
        let call = call(&asked);
        let found = outcome(program.read()?);
        if let Some(text) = tally.add(&call, expected(&call, &said(RUST, &asked)), found) {
            println!("{text}");
        }
    }
    Ok(())
}

/// Whether no input of the runs differs.
fn hold_all(all: bool, words: &[String]) -> io::Result<bool> {
    let requests = move || {
        let inputs = runs(all).into_iter().flat_map(|(_, inputs)| inputs);
        inputs.map(|inputs| request(&inputs))
    };
    let mut program = Piped::asked(words, requests)?;
    let mut tally = Tally::default();
    for (name, run) in runs(all) {
        let earlier = tally.calls;
        for inputs in run {
            hold(&inputs, &mut program, &mut tally)?;
        }
        println!("staged: {:>9} inputs: {name}", tally.calls - earlier);
    }
    program.finish()?;
    println!("staged: {}", tally.counts());
    let (inputs, differing) = (tally.calls, tally.differing);
    println!("staged: {inputs} inputs in all, {differing} differ");
    Ok(differing == 0)
}

fn main() -> ExitCode {
    let words: Vec<String> = env::args().skip(1).collect();
    let held = match words.split_first() {
        Some((all, program)) if all == "all" => hold_all(true, program),
        _ => hold_all(false, &words),
    };
    match held {
        Ok(true) => ExitCode::SUCCESS,
        Ok(false) => ExitCode::FAILURE,
        Err(error) => {
            eprintln!("staged: {error}");
            ExitCode::FAILURE
        }
    }
}
