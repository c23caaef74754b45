//! Drives the library through its C boundary and the model with the same calls, side by side.
//! Every answer is compared; after every call what the buffers say is compared with the model; after
//! every refusal both buffers must be as before. Damaged buffers must be refused with 7 exactly
//! where they are not sound.

mod call;
mod calls;
mod compare;
mod counts;
mod damage;
#[cfg(any(self_test, over_plain))]
mod encode;
mod examples;
#[cfg(any(self_test, over_plain))]
#[cfg_attr(over_plain, allow(dead_code))] // Plain Rust is bent from outside alone.
mod faults;
mod ffi;
mod generate;
mod layout;
mod lengths;
#[cfg(over_plain)]
mod over_plain;
mod random;
#[cfg(any(self_test, over_plain))]
mod record_stub;
mod recorded;
mod session;
#[cfg(self_test)]
mod stub;
#[cfg(any(self_test, over_plain))]
mod trace_stub;
mod traced;
mod writers;

use compare::Difference;
use counts::Counts;
use random::Random;
use session::Session;
use std::process::ExitCode;
use std::time::{Duration, Instant};

const SEED: u64 = 1;
const CALLS: u64 = 400_000;
/// One session in so many is traced.
const TRACED: u64 = 10;

struct Options {
    seed: u64,
    calls: u64,
    seconds: u64,
}

const USAGE: &str = "differential [SEED [CALLS [SECONDS]]] | differential trace SEED RECORDS FILE";

fn options() -> Result<Options, String> {
    let mut numbers = Vec::new();
    for word in std::env::args().skip(1) {
        numbers.push(word.parse::<u64>().map_err(|_| format!("not a number: {word}\n{USAGE}"))?);
    }
    if numbers.len() > 3 {
        return Err(USAGE.to_string());
    }
    let number = |i: usize, default: u64| numbers.get(i).copied().unwrap_or(default);
    // All calls are made, unless a time is given too.
    Ok(Options { seed: number(0, SEED), calls: number(1, CALLS), seconds: number(2, u64::MAX / 2) })
}

/// Runs sessions until the calls or the time are used up.
fn run(options: &Options) -> Result<Counts, Difference> {
    let mut random = Random::new(options.seed);
    let began = Instant::now();
    let mut counts = Counts::default();
    examples::compare_examples()?;
    lengths::compare_lengths()?;
    recorded::compare_records(&mut random)?;
    traced::compare_writers(&mut random)?;
    while counts.calls < options.calls && began.elapsed() < Duration::from_secs(options.seconds) {
        if counts.sessions % TRACED == 0 {
            Session::traced(&mut random, &mut counts).run()?;
        } else {
            Session::new(&mut random, &mut counts).run()?;
        }
    }
    Ok(counts)
}

/// With the words `trace SEED RECORDS FILE`: writes a trace of random calls, of so many records or somewhat more, and says what the verdict on
/// it must be. A session's trace follows another's: each begins with a start.
fn write_trace(words: &[String]) -> Result<(), String> {
    let [seed, records, file] = words else { return Err(USAGE.to_string()) };
    let number = |word: &String| word.parse::<u64>().map_err(|_| format!("not a number: {word}\n{USAGE}"));
    let (mut random, records) = (Random::new(number(seed)?), number(records)?);
    let (mut counts, mut bytes) = (Counts::default(), Vec::new());
    while counts.records < records {
        let mut session = Session::traced(&mut random, &mut counts);
        session.run().map_err(|difference| difference.to_string())?;
        bytes.extend(session.trace.into_iter().flat_map(|trace| trace.bytes));
    }
    std::fs::write(file, bytes).map_err(|what| format!("{file}: {what}"))?;
    println!("ok {}", counts.records);
    Ok(())
}

/// With the word `faults`, and no archive linked: names what FG_FAULT can put into the stand-in.
#[cfg(self_test)]
fn lists_faults() -> bool {
    let asked = std::env::args().nth(1).is_some_and(|word| word == "faults");
    if asked {
        faults::NAMES.iter().for_each(|name| println!("{name}"));
    }
    asked
}

#[cfg(not(self_test))]
fn lists_faults() -> bool {
    false
}

fn main() -> ExitCode {
    if lists_faults() {
        return ExitCode::SUCCESS;
    }
    let words: Vec<String> = std::env::args().skip(1).collect();
    if words.first().is_some_and(|word| word == "trace") {
        return match write_trace(&words[1..]) {
            Ok(()) => ExitCode::SUCCESS,
            Err(what) => {
                println!("{what}");
                ExitCode::FAILURE
            }
        };
    }
    let options = match options() {
        Ok(options) => options,
        Err(message) => {
            eprintln!("{message}");
            return ExitCode::from(2);
        }
    };
    if cfg!(self_test) {
        println!("differential: no archive is linked (FG_LIB is not set): the model is compared with itself");
    }
    if cfg!(over_plain) {
        println!("differential: plain Rust is compared with the model");
    }
    match run(&options) {
        Ok(counts) => {
            counts.print();
            println!("differential: {} calls compared, seed {}", counts.calls, options.seed);
            ExitCode::SUCCESS
        }
        Err(difference) => {
            println!("{difference}");
            println!("differential: FAILED, seed {}", options.seed);
            ExitCode::FAILURE
        }
    }
}
