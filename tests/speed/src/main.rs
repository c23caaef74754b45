//! The library and plain Rust side by side, through the same C boundary, in one process: nanoseconds a call, and how many times as long the
//! library takes. Before anything is timed both sides make the same calls, and their answers, words and bytes are compared.
//!
//! `speed` prints all tables. `speed actors` prints the one of boxes that differ in the number of actors alone. `speed check` measures the bench run
//! with full pools alone, and fails where the library takes more than 1.5 times as long, or more than another number that is given.
//!
//! How full the pools are: `empty`, but for the actor that runs; `one of each`, an actor with a timer, a link, a monitor, a message in its hand and
//! one in its mailbox, and a bus that it can read from, and two actors more; `one left`, all pools full but for one entry of each; `full`.

mod crowds;
mod rounds;
#[cfg(not(self_test))]
mod searches;
mod sides;
mod stage;
mod timing;
mod worst;

use model::limits::*;
use sides::{Call, LIBRARY, PLAIN};
use stage::{receive_any, Stage};
use std::process::ExitCode;
use std::time::Duration;
use timing::{measure, Effort, Times};

/// How many times as long as plain Rust the library may take on the bench run with full pools.
const MOST: f64 = 1.5;

const SMALL: Capacities = [4; 6];
const QUARTER: Capacities = [64, 64, 64, 32, 32, 16];
const HALF: Capacities = [128, 128, 128, 64, 64, 32];

/// A measured row, and a row that decides.
const ROW: Effort = Effort { time: Duration::from_millis(60), least: 20, most: 2_000 };
const ROUND: Effort = Effort { time: Duration::from_millis(1_500), least: 100, most: 4_000 };

fn size(capacities: &Capacities) -> &'static str {
    match *capacities {
        SMALL => "four of each",
        QUARTER => "quarter",
        HALF => "half",
        _ => "largest",
    }
}

fn heading(title: &str) {
    println!("\n{title}\n");
    println!("| call | box | pools | answer | {} ns | {} ns | ratio |", LIBRARY.name, PLAIN.name);
    println!("|---|---|---|---|---|---|---|");
}

/// Measures one call on a stage, once both sides agree on it, and prints its row.
fn row(stage: &Stage, pools: &str, call: Call) {
    row_of(stage, size(&stage.capacities), pools, call);
}

/// The same for a box that is named otherwise than by its size.
fn row_of(stage: &Stage, size: &str, pools: &str, call: Call) {
    let no = stage.clone().make(call).no();
    let times = measure(stage, &[call], &ROW);
    let name = call.name();
    println!("| {name} | {size} | {pools} | {no} | {:.0} | {:.0} | {:.2} |", times.library, times.plain, times.ratio);
}

/// The bench run with full pools, nanoseconds a call, once both sides agree on it and each call answers what it must.
fn bench_run() -> Times {
    let (stage, steps) = (rounds::stage(), rounds::steps());
    let mut tried = stage.clone();
    for (call, no) in &steps {
        assert_eq!(tried.make(*call).no(), *no, "{call:?} of the bench run with full pools");
    }
    let calls: Vec<Call> = steps.into_iter().map(|(call, _)| call).collect();
    measure(&stage, &calls, &ROUND).a_call(calls.len())
}

fn print_bench_run(times: &Times) {
    println!("\nThe bench run with full pools, {} calls\n", rounds::steps().len());
    println!("| {} ns a call | {} ns a call | ratio |", LIBRARY.name, PLAIN.name);
    println!("|---|---|---|");
    println!("| {:.0} | {:.0} | {:.2} |", times.library, times.plain, times.ratio);
}

/// Every call but next, by the first actor; it is tied to the second one, and not to the stranger.
fn every_call(capacities: Capacities, stranger: u64) -> Vec<Call> {
    let (me, other) = (Stage::id(0), Stage::id(1));
    vec![
        Call::Start(capacities),
        Call::Spawn(1),
        Call::Yield,
        Call::Notify(me, 1, 8),
        receive_any(),
        Call::Shown,
        Call::After(1_000_000),
        Call::Every(1_000_000),
        Call::Cancel(TIMER_FACTOR),
        Call::Link(stranger),
        Call::Unlink(other),
        Call::Monitor(other),
        Call::Demonitor(MONITOR_FACTOR),
        Call::Exit(0),
        Call::Advance(1_000),
        Call::Report,
        Call::Bus(4, 4, 0, 0),
        Call::Publish(0, 8),
        Call::Subscribe(0),
        Call::Unsubscribe(0),
        Call::Read(0),
    ]
}

fn print_every_call() {
    heading("Every call once");
    for capacities in [SMALL, LARGEST] {
        let stranger = Stage::id(capacities[0] / 2);
        let stages = [
            ("empty", Stage::empty(capacities), stranger),
            ("one of each", Stage::few(capacities), Stage::id(2)),
            ("one left", Stage::full(capacities, 1), stranger),
            ("full", Stage::full(capacities, 0), stranger),
        ];
        for (pools, stage, stranger) in stages {
            every_call(capacities, stranger).into_iter().for_each(|call| row(&stage, pools, call));
            let mut resting = stage;
            resting.done(Call::Yield);
            row(&resting, pools, Call::Next);
        }
    }
}

fn print_worst_calls() {
    heading("The calls that take longest");
    let receive = |tag| Call::Receive(ANY_SENDER, NOTIFY, tag, 0);
    row(&worst::everything_its_own(), "all its own: 256 messages, 128 links, 128 monitors, 64 timers", Call::Exit(0));
    row(&worst::few_messages_its_own(), "the same, but 254 messages are others'", Call::Exit(0));
    row(&worst::timers_armed(0), "64 timers due", Call::Advance(2_000));
    row(&worst::timers_armed(192), "64 timers due, 192 messages", Call::Advance(2_000));
    row(&worst::timers_armed(256), "64 timers due, 256 messages", Call::Advance(2_000));
    row(&worst::metronomes_armed(), "64 metronomes due, most beats missed", Call::Advance(MAX_STEP));
    row(&worst::deadlines_near(), "255 deadlines over, 256 messages", Call::Advance(1_000_000));
    row(&worst::match_is_last(), "the match is the last of 256 messages", receive(1));
    row(&worst::match_is_last(), "no match among 256 messages", receive(2));
    row(&worst::all_queued(), "256 actors queued", Call::Next);
    let buses = "32 buses, 1,024 subscriptions, 256 entries";
    let full = worst::buses_full();
    for call in [Call::Publish(15, 8), Call::Read(15), Call::Unsubscribe(15), Call::Exit(0)] {
        row(&full, buses, call);
    }
    row(&worst::buses_aged(), "32 buses, 256 entries at their age", Call::Advance(1_000));
}

/// A message, which takes the lowest free entry of two pools.
fn print_far_up() {
    heading("A message, where so many entries of both pools are taken");
    for taken in [0, 128, 255] {
        row(&worst::messages(taken), &format!("{taken} messages"), Call::Notify(Stage::id(0), 1, 8));
    }
}

/// A call that tests the buffers and then is refused.
fn print_pure_test() {
    heading("The test alone: a timer that is not there is cancelled");
    for capacities in [SMALL, QUARTER, HALF, LARGEST] {
        row(&Stage::empty(capacities), "empty", Call::Cancel(1));
        row(&Stage::full(capacities, 0), "full", Call::Cancel(1));
    }
    row(&worst::buses_full(), "32 buses, 1,024 subscriptions, 256 entries", Call::Cancel(1));
}

/// The bench run alone; fails where the library takes more than so many times as long as plain Rust.
fn check(most: f64) -> ExitCode {
    let times = bench_run();
    let ratio = times.ratio;
    let said = format!("{ratio:.2} times plain Rust ({:.0} and {:.0} ns a call)", times.library, times.plain);
    if ratio <= most {
        println!("note: the bench run with full pools takes {said}; at most {most} are allowed");
        return ExitCode::SUCCESS;
    }
    println!("speed: FAILED: the bench run with full pools takes {said}, more than {most}");
    ExitCode::FAILURE
}

fn print_all() -> ExitCode {
    print_bench_run(&bench_run());
    print_every_call();
    print_worst_calls();
    print_far_up();
    print_pure_test();
    crowds::print();
    #[cfg(not(self_test))]
    searches::print();
    ExitCode::SUCCESS
}

fn main() -> ExitCode {
    if cfg!(self_test) {
        println!("speed: no archive is linked (FG_LIB is not set): plain Rust is measured against itself");
    }
    let words: Vec<String> = std::env::args().skip(1).collect();
    let most = |word: &str| word.parse::<f64>().ok();
    match words.iter().map(String::as_str).collect::<Vec<_>>()[..] {
        [] => print_all(),
        ["actors"] => {
            crowds::print();
            ExitCode::SUCCESS
        }
        ["check"] => check(MOST),
        ["check", word] if most(word).is_some() => check(most(word).unwrap_or(MOST)),
        _ => {
            eprintln!("speed | speed actors | speed check [MOST]");
            ExitCode::from(2)
        }
    }
}
