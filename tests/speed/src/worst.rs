//! The stages of the calls that take longest, at the largest capacities.

use crate::sides::Call;
use crate::stage::{receive_any, Stage};
use model::limits::*;

/// Messages by the running actor to itself or, from the second on, to the others in turn.
fn send(stage: &mut Stage, count: u64, to_others: bool) {
    for number in 0..count {
        let target = if to_others { 1 + number % (LARGEST[0] - 1) } else { 0 };
        stage.done(Call::Notify(Stage::id(target), 0, 8 + (number % 200) as usize));
    }
}

/// All actors; the first runs, with all links and timers, half of the monitors by it and half on it.
fn tied() -> Stage {
    let mut stage = Stage::with_actors(LARGEST, LARGEST[0]);
    let [actors, _, _, links, monitors, timers] = LARGEST;
    for number in 0..links {
        stage.done(Call::Link(Stage::id(1 + number)));
    }
    for number in 0..monitors / 2 {
        stage.done(Call::Monitor(Stage::id(1 + number)));
    }
    for number in 0..timers {
        stage.done(Call::Every(1_000_000 + number));
    }
    for slot in 1..actors {
        stage.turn();
        if slot <= monitors / 2 {
            stage.done(Call::Monitor(Stage::id(0)));
        }
    }
    stage.turn();
    stage
}

/// Everything is the running actor's: 255 messages in its mailbox and one in its hand, links, monitors, timers.
pub fn everything_its_own() -> Stage {
    let mut stage = tied();
    send(&mut stage, LARGEST[1], false);
    stage.done(receive_any());
    stage.expect_free([0; 5]);
    stage
}

/// The same ties, but all messages but two are others'.
pub fn few_messages_its_own() -> Stage {
    let mut stage = tied();
    send(&mut stage, 2, false);
    send(&mut stage, LARGEST[1] - 2, true);
    stage.expect_free([0; 5]);
    stage
}

/// All timers are due after a second, in another order than that of their slots; so many messages are queued.
pub fn timers_armed(messages: u64) -> Stage {
    let mut stage = Stage::with_actors(LARGEST, LARGEST[0]);
    send(&mut stage, messages, true);
    for number in 0..LARGEST[5] {
        let due = 1_000 + number * 29 % LARGEST[5];
        stage.done(if number % 2 == 0 { Call::After(due) } else { Call::Every(due) });
    }
    stage
}

/// All timers are periodic, and their intervals are short.
pub fn metronomes_armed() -> Stage {
    let mut stage = Stage::with_actors(LARGEST, LARGEST[0]);
    for number in 0..LARGEST[5] {
        stage.done(Call::Every(100 + number));
    }
    stage
}

/// All actors but the last wait, each with a deadline of its own, later slots with earlier ones; every pool of messages is full.
pub fn deadlines_near() -> Stage {
    let mut stage = Stage::with_actors(LARGEST, LARGEST[0]);
    send(&mut stage, LARGEST[1], true);
    for slot in 0..LARGEST[0] - 1 {
        stage.make(Call::Receive(ANY_SENDER, NOTIFY, 9, 300 - slot as i64));
        stage.done(Call::Next);
    }
    stage
}

/// The running actor's mailbox holds all messages, and the last one alone has tag 1.
pub fn match_is_last() -> Stage {
    let mut stage = messages(LARGEST[1] - 1);
    stage.done(Call::Notify(Stage::id(0), 1, 8));
    stage
}

/// The running actor's mailbox holds so many messages; nobody else is there.
pub fn messages(count: u64) -> Stage {
    let mut stage = Stage::with_actors(LARGEST, 1);
    send(&mut stage, count, false);
    stage
}

/// All actors are queued, and nobody runs; every other pool is empty.
pub fn all_queued() -> Stage {
    let mut stage = Stage::with_actors(LARGEST, LARGEST[0]);
    stage.done(Call::Yield);
    stage
}

/// Fills the first 16 buses, which takes all data entries.
fn publish_all(stage: &mut Stage) {
    for number in 0..LARGEST[2] {
        stage.done(Call::Publish(number / MAX_BUS_ENTRIES, 8 + (number % 200) as usize));
    }
}

/// As many actors as a bus has seats are subscribed to all buses, and every data entry is a bus's. The first actor runs, which has read nothing.
pub fn buses_full() -> Stage {
    let mut stage = Stage::with_actors(LARGEST, LARGEST[0]);
    for _ in 0..MAX_BUSES {
        stage.done(Call::Bus(MAX_BUS_ENTRIES, MAX_SUBSCRIBERS, 0, 0));
    }
    for slot in 0..LARGEST[0] {
        for bus in (0..MAX_BUSES as u64).filter(|_| slot < MAX_SUBSCRIBERS) {
            stage.done(Call::Subscribe(bus));
        }
        stage.turn();
    }
    publish_all(&mut stage);
    stage.expect_free([0, 0, LARGEST[3], LARGEST[4], LARGEST[5]]);
    stage
}

/// Every data entry is a bus's and ends in a millisecond.
pub fn buses_aged() -> Stage {
    let mut stage = Stage::with_actors(LARGEST, 1);
    for _ in 0..MAX_BUSES {
        stage.done(Call::Bus(MAX_BUS_ENTRIES, MAX_SUBSCRIBERS, 0, 1));
    }
    publish_all(&mut stage);
    stage
}
