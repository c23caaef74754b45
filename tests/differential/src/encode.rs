//! The buffers that say what a state says, as docs/LAYOUT.md describes them. For the stand-in.

use crate::layout::*;
use model::limits::*;
use model::pool::Entries;
use model::records::header;
use model::state::{Activity, State};
use model::Model;
use std::collections::BTreeSet;

/// Writes the state of a model, where it has one.
pub fn store(m: &Model, words: &mut [u64], bytes: &mut [u8]) {
    if let Some(state) = &m.state {
        encode(state, words, bytes);
    }
}

/// Writes a state to the needed words and bytes.
fn encode(state: &State, words: &mut [u64], bytes: &mut [u8]) {
    let caps = state.capacities();
    let starts = starts(&caps);
    words[..starts[REST]].fill(0);
    bytes[..bytes_needed(&caps) as usize].fill(0);
    let mut put = |column: usize, entry: usize, value: u64| words[starts[column] + entry] = value;
    (0..6).for_each(|pool| put(CAPACITIES[pool], 0, caps[pool]));
    put(CLOCK, 0, state.clock);
    put(RUNNING, 0, one_up(state.running()));
    put(QUEUED, 0, state.queue.len() as u64);
    put(ARRIVED, 0, state.arrivals.len() as u64);
    put(ISSUED, 0, state.values.len() as u64);
    put(BUSES, 0, state.buses.len() as u64);
    (0..4).for_each(|w| put(MAIL_FREE, w, free_word(&state.letters, w)));
    (0..4).for_each(|w| put(DATA_FREE, w, free_word(&state.data, w)));
    write_actors(state, &mut put);
    state.queue.iter().enumerate().for_each(|(i, slot)| put(QUEUE, i, *slot as u64));
    state.arrivals.iter().enumerate().for_each(|(i, entry)| put(ARRIVAL, i, *entry as u64));
    write_pools(state, &mut put);
    write_buses(state, &mut put);
    for (i, message) in state.data.used() {
        put(SENDER, i, message.sender);
        put(LENGTH, i, message.payload.len() as u64);
        let entry = &mut bytes[256 * i..256 * (i + 1)];
        entry[..4].copy_from_slice(&header(message.class, message.class != NOTIFY, message.tag));
        entry[4..4 + message.payload.len()].copy_from_slice(&message.payload);
    }
}

fn one_up(slot: Option<usize>) -> u64 {
    slot.map_or(0, |s| s as u64 + 1)
}

fn free_word<T>(pool: &Entries<T>, word: usize) -> u64 {
    let entries = pool.entries.iter().enumerate().skip(64 * word).take(64);
    entries.filter(|(_, e)| e.is_none()).map(|(i, _)| 1 << (i % 64)).sum()
}

fn write_actors(state: &State, put: &mut impl FnMut(usize, usize, u64)) {
    for (i, slot) in state.actors.slots.iter().enumerate() {
        put(AGE, i, slot.age);
        let Some(actor) = &slot.held else { continue };
        put(PRIORITY, i, actor.priority);
        put(HAND, i, one_up(actor.hand));
        match &actor.activity {
            Activity::Runnable(reason) => {
                put(STATE, i, RUNNABLE);
                put(REASON, i, *reason as u64);
            }
            Activity::Running => put(STATE, i, RUNS),
            Activity::Waiting { filter, deadline } => {
                put(STATE, i, WAITS);
                put(WANT_SENDER, i, filter.sender);
                put(WANT_CLASS, i, filter.class);
                put(WANT_TAG, i, filter.tag);
                put(DEADLINE, i, deadline.unwrap_or(0));
            }
        }
    }
}

fn write_pools(state: &State, put: &mut impl FnMut(usize, usize, u64)) {
    for (i, letter) in state.letters.used() {
        put(MAIL_OWNER, i, one_up(Some(letter.owner)));
        put(MAIL_DATA, i, one_up(Some(letter.data)));
    }
    for (i, link) in state.links.used() {
        put(LINK_ONE, i, one_up(Some(link.low)));
        put(LINK_TWO, i, one_up(Some(link.high)));
    }
    for (i, slot) in state.monitors.slots.iter().enumerate() {
        put(MONITOR_AGE, i, slot.age);
        put(WATCHER, i, one_up(slot.held.map(|m| m.watcher)));
        put(WATCHED, i, one_up(slot.held.map(|m| m.watched)));
    }
    for (i, slot) in state.timers.slots.iter().enumerate() {
        put(TIMER_AGE, i, slot.age);
        put(TIMER_OWNER, i, one_up(slot.held.map(|t| t.owner)));
        put(DUE, i, slot.held.map_or(0, |t| t.due));
        put(INTERVAL, i, slot.held.and_then(|t| t.interval).unwrap_or(0));
    }
}

fn write_buses(state: &State, put: &mut impl FnMut(usize, usize, u64)) {
    for (b, bus) in state.buses.iter().enumerate() {
        put(BUS_SIZE, b, bus.entries);
        put(BUS_SEATS, b, bus.seats.len() as u64);
        put(BUS_READS, b, bus.reads);
        put(BUS_AGE, b, bus.age);
        bus.seats.iter().enumerate().for_each(|(n, slot)| put(SEAT, SEATS * b + n, one_up(*slot)));
    }
    let bits = |seats: &BTreeSet<usize>| seats.iter().map(|n| 1 << n).sum::<u64>();
    for (i, value) in state.values.iter().enumerate() {
        put(ISSUE, i, one_up(Some(value.data)));
        put(VALUE_BUS, value.data, one_up(Some(value.bus)));
        put(READERS, value.data, bits(&value.read) | bits(&value.unread) << SEATS);
        put(PUBLISHED, value.data, value.published);
    }
}
