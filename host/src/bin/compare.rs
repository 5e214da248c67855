//! Holds the exported functions to the original, and in the chip's mode to the plain reading of that. The words of the command line run the bridge, where there is one.

use host::caller::Caller;
use host::calls::Calls;
use host::outcome::{expected, filled, Call};
use host::plain::said::said;
use host::runs::{all_calls, groups, Group};
use host::tally::Tally;
use std::process::ExitCode;
use std::{env, io};

/// Makes these calls. What they should say is asked for once for all rooms.
fn make(calls: &Calls, caller: &mut Caller, tally: &mut Tally) -> io::Result<()> {
    let mut fills = (0..).map(filled);
    for asked in calls.asked() {
        let said = said(calls.mode, &asked);
        for (room, before) in calls.rooms.iter().zip(&mut fills) {
            let call = Call {
                mode: calls.mode,
                asked: &asked,
                room: *room as usize,
                before,
            };
            let found = caller.call(&call)?;
            if let Some(text) = tally.add(&call, expected(&call, &said), found) {
                println!("{text}");
            }
        }
    }
    Ok(())
}

/// Makes all calls of one function in a mode, and prints what they came to.
fn compare_group(group: &mut Group, caller: &mut Caller) -> io::Result<Tally> {
    let (function, mut tally) = (&group.function, Tally::default());
    for (name, run) in &mut group.runs {
        let earlier = tally.calls;
        for calls in run {
            make(&calls, caller, &mut tally)?;
        }
        let calls = tally.calls - earlier;
        println!("compare: {calls:>9} calls: {function}: {name}");
    }
    let (calls, counts) = (tally.calls, tally.counts());
    println!("compare: {calls:>9} calls: {function} in all; {counts}");
    Ok(tally)
}

/// Makes all calls. Whether none differs, and every answer that a function has was met.
fn compare(words: &[String]) -> io::Result<bool> {
    let mut caller = Caller::start(words, all_calls)?;
    let (mut calls, mut differing, mut complete) = (0, 0, true);
    for mut group in groups() {
        let tally = compare_group(&mut group, &mut caller)?;
        calls += tally.calls;
        differing += tally.differing;
        let (function, at_least) = (&group.function, group.at_least);
        for met in tally.missing(&group.to_meet, at_least) {
            println!("compare: fewer than {at_least} calls of {function} came to {met}");
            complete = false;
        }
    }
    caller.finish()?;
    println!("compare: {calls:>9} calls in all, {differing} differ");
    Ok(differing == 0 && complete)
}

fn main() -> ExitCode {
    let words: Vec<String> = env::args().skip(1).collect();
    match compare(&words) {
        Ok(true) => ExitCode::SUCCESS,
        Ok(false) => ExitCode::FAILURE,
        Err(error) => {
            eprintln!("compare: {error}");
            ExitCode::FAILURE
        }
    }
}
