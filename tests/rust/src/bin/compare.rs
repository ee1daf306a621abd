//! Compares the library with the reference, call by call, over random runs, and
//! with the plain extractor, event by event.
//!
//! Usage: `compare [RUNS [SEED]]`. Run number i has the seed SEED + i, so a run
//! that differs is made again by `compare 1 SEED`.

use std::env;
use std::process::ExitCode;

use itzahuemo_reference::calls::Reference;
use itzahuemo_reference::ffi::Library;
use itzahuemo_reference::hearing;
use itzahuemo_reference::sessions::{session, Tally};

const RUNS: u64 = 100_000;
const SEED: u64 = 7_321;

/// So many differences are shown; the others are only counted.
const SHOWN: u64 = 10;

fn main() -> ExitCode {
    let mut numbers = env::args().skip(1).map(|argument| argument.parse::<u64>());
    match (numbers.next().unwrap_or(Ok(RUNS)), numbers.next().unwrap_or(Ok(SEED))) {
        (Ok(runs), Ok(seed)) => compare(runs, seed),
        _ => {
            eprintln!("usage: compare [RUNS [SEED]]");
            ExitCode::from(2)
        }
    }
}

fn compare(runs: u64, seed: u64) -> ExitCode {
    println!("runs {runs}, seeds {seed} to {}", seed.wrapping_add(runs.saturating_sub(1)));
    let mut tally = Tally::default();
    let mut differ = 0;
    for run in 0..runs {
        let seed = seed.wrapping_add(run);
        let difference = match session(&Reference, &Library, seed) {
            Ok(met) => {
                tally.add(&met);
                hearing::plain_session(&Library, seed).err()
            }
            Err(difference) => Some(format!("{difference} (reference first)")),
        };
        if let Some(difference) = difference {
            differ += 1;
            if differ <= SHOWN {
                println!("run {run} seed {seed}: {difference}");
            }
        }
    }
    show(&tally);
    println!("compared {runs} runs, {differ} differ");
    if differ == 0 {
        ExitCode::SUCCESS
    } else {
        ExitCode::FAILURE
    }
}

/// How often each call was made, by the refusal it gave, and what else was said.
fn show(tally: &Tally) {
    let mut calls: Vec<_> = tally.refusals.keys().map(|key| key.0).collect();
    calls.dedup();
    for call in calls {
        let of_call = tally.refusals.iter().filter(|(key, _)| key.0 == call);
        let words: Vec<_> = of_call.map(|(key, times)| format!("{}: {times}", key.1)).collect();
        println!("{call} by refusal: {}", words.join(", "));
    }
    let words: Vec<_> =
        tally.said.iter().map(|(key, times)| format!("{} {}: {times}", key.0, key.1)).collect();
    println!("said: {}", words.join(", "));
}
