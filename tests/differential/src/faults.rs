//! Faults that can be put into the stand-in, one at a time (environment variable FG_FAULT), to see that
//! the differential test finds them: the wrong runtimes that document 01 names, and errors that are easy to make.

use crate::call::{Answer, Call, Written};
use crate::layout::{self, CLOCK, DATA_FREE, INTERVAL, LENGTH, SPARE};
use model::limits::*;
use model::records::{header, OLD_TICK_BYTES, TICK_BYTES};
use model::state::{Activity, Reason, State};
use model::{Advanced, Ended, Model, DONE};
use std::sync::OnceLock;

pub const NAMES: [&str; 48] = [
    "all-unsound",
    "next-names-slot-0",
    "notify-stores-nothing",
    "exit-keeps-timers",
    "advance-fires-all",
    "counts-invented",
    "fired-invented",
    "only-the-slot-of-an-id",
    "notices-before-clearing",
    "wakes-on-any-message",
    "head-instead-of-match",
    "yield-to-the-head",
    "due-from-the-clock",
    "due-a-beat-early",
    "due-a-beat-late",
    "longest-wait-refused",
    "short-interval-taken",
    "short-interval-sound",
    "age-not-raised",
    "worn-slot-taken",
    "freed-bytes-stay",
    "word-past-the-needed",
    "refusal-writes",
    "spare-words-not-tested",
    "free-bytes-not-tested",
    "start-wants-a-word-more",
    "record-written-as-far-as-it-fits",
    "record-loses-the-sign",
    "record-keeps-long-payloads",
    "replay-looks-at-the-first-number-alone",
    "replay-begins-with-any-start",
    "new-subscriber-sees-history",
    "newest-is-evicted",
    "read-not-marked",
    "exit-keeps-subscriptions",
    "age-has-to-be-passed",
    "copy-a-byte-too-long",
    "copied-bytes-not-judged",
    "slot-by-64",
    "large-sender-refused",
    "start-refuses-65-actors",
    "worn-too-early",
    "old-length-sound",
    "notice-cuts-ids",
    "record-cuts-ids",
    "old-reader-takes-new-kind",
    "old-kinds-refused",
    "kind-not-told",
];

/// The age of a slot's last use before C-19.
const OLD_MAX_AGE: u64 = 33_000_000;

fn chosen() -> &'static str {
    static CHOSEN: OnceLock<String> = OnceLock::new();
    CHOSEN.get_or_init(|| std::env::var("FG_FAULT").unwrap_or_default())
}

pub fn is(name: &str) -> bool {
    debug_assert!(NAMES.contains(&name));
    chosen() == name
}

/// Is no fault chosen?
#[allow(dead_code)] // The stand-in bends every call by its fault, and by none where none is chosen.
pub fn none() -> bool {
    chosen().is_empty()
}

/// What the stand-in reads from the buffers: some faults overlook damage.
pub fn read(words: &[u64], bytes: &[u8]) -> Option<State> {
    let (mut words, mut bytes) = (words.to_vec(), bytes.to_vec());
    if is("all-unsound") {
        return None;
    }
    if is("spare-words-not-tested") && words.len() > SPARE {
        words[SPARE] = 0;
    }
    if is("free-bytes-not-tested") {
        clear_free_entries(&words, &mut bytes);
    }
    if is("short-interval-sound") {
        lengthen_intervals(&mut words, &bytes);
    }
    if is("old-length-sound") {
        lengthen_records(&mut words, &bytes);
    }
    layout::decode(&words, &bytes)
}

/// Makes each interval that is just too short the shortest one.
fn lengthen_intervals(words: &mut [u64], bytes: &[u8]) {
    let Some(caps) = layout::capacities(words, bytes) else { return };
    let start = layout::starts(&caps)[INTERVAL];
    let short = words[start..].iter_mut().take(caps[5] as usize).filter(|word| **word == MIN_INTERVAL - 1);
    short.for_each(|word| *word = MIN_INTERVAL);
}

/// Makes the length of each tick that is an old tick's the length of today.
fn lengthen_records(words: &mut [u64], bytes: &[u8]) {
    let Some(caps) = layout::capacities(words, bytes) else { return };
    let start = layout::starts(&caps)[LENGTH];
    for (length, entry) in words[start..].iter_mut().zip(bytes.chunks(256)).take(caps[2] as usize) {
        if entry[..4] == header(TIMER, true, 0) && *length == OLD_TICK_BYTES as u64 {
            *length = TICK_BYTES as u64;
        }
    }
}

fn clear_free_entries(words: &[u64], bytes: &mut [u8]) {
    let Some(caps) = layout::capacities(words, bytes) else { return };
    let start = layout::starts(&caps)[DATA_FREE];
    for entry in (0..caps[2] as usize).filter(|e| words[start + e / 64] >> (e % 64) & 1 == 1) {
        bytes[256 * entry..256 * (entry + 1)].fill(0);
    }
}

/// Bends the state before a call.
pub fn before(call: &Call, state: &mut State) {
    let (name, clock) = (call.name(), state.clock);
    if is("advance-fires-all") && name == "advance" {
        state.timers.slots.iter_mut().filter_map(|s| s.held.as_mut()).for_each(|t| t.due = clock);
    }
    if is("worn-slot-taken") && name == "spawn" {
        let worn = state.actors.slots.iter_mut().find(|s| s.held.is_none() && s.age == MAX_AGE);
        worn.into_iter().for_each(|s| s.age -= 1);
    }
    if is("worn-too-early") && name == "spawn" {
        state.actors.slots.iter_mut().filter(|s| s.age >= OLD_MAX_AGE).for_each(|s| s.age = MAX_AGE);
    }
    if is("next-names-slot-0") && name == "next" {
        if let Some(place) = state.queue.iter().position(|&slot| slot == 0) {
            state.queue.remove(place);
            state.queue.insert(0, 0);
            state.actors.get_mut(0).expect("queued actors live").priority = 0;
        }
    }
    if is("notices-before-clearing") && name == "exit" {
        keep_room_taken(state);
    }
    match call {
        Call::Publish(bus, _) if is("newest-is-evicted") => newest_first(state, *bus),
        _ => {}
    }
}

/// Puts a full bus's newest value before its others, so that it is the one that is evicted.
fn newest_first(state: &mut State, bus: u64) {
    let Some(bus) = state.find_bus(bus) else { return };
    if let (true, Some(&newest)) = (state.is_full(bus), state.values_of(bus).last()) {
        let value = state.values.remove(newest);
        state.values.insert(0, value);
    }
}

/// Bends the call itself.
pub fn call(call: Call, before: &Model) -> Call {
    match call {
        Call::Notify(target, tag, payload) if is("only-the-slot-of-an-id") => {
            Call::Notify(same_slot(before, target), tag, payload)
        }
        Call::Notify(target, tag, payload) if is("slot-by-64") => {
            Call::Notify(target / ACTOR_FACTOR * ACTOR_FACTOR + target % 64, tag, payload)
        }
        Call::Receive(sender, _, tag, wait)
            if is("large-sender-refused") && sender >> 32 != 0 && sender < ANY_SENDER =>
        {
            Call::Receive(sender, LAST_CLASS + 1, tag, wait)
        }
        Call::Receive(sender, class, tag, wait) if is("head-instead-of-match") && tag < ANY_TAG => {
            Call::Receive(sender, class, ANY_TAG, wait)
        }
        Call::Receive(sender, class, tag, MAX_WAIT) if is("longest-wait-refused") => {
            Call::Receive(sender, class, tag, MAX_WAIT + 1)
        }
        Call::Every(interval) if is("short-interval-taken") && interval == MIN_INTERVAL - 1 => {
            Call::Every(MIN_INTERVAL)
        }
        call => call,
    }
}

/// The id of whoever is in the slot now.
fn same_slot(m: &Model, id: u64) -> u64 {
    let slot = (id % ACTOR_FACTOR) as usize;
    match &m.state {
        Some(state) if state.actors.get(slot).is_some() => state.actors.id(slot),
        _ => id,
    }
}

/// Bends what is answered.
pub fn answer(answer: Answer) -> Answer {
    match answer {
        Answer::Ended(ended) if is("counts-invented") => {
            Answer::Ended(Ended { sent: ended.sent + ended.lost, lost: 0, ..ended })
        }
        Answer::Advanced(advanced) if is("fired-invented") && advanced.fired > 1 => {
            Answer::Advanced(Advanced { fired: advanced.fired + 1, ..advanced })
        }
        Answer::Written(mut written) if is("copy-a-byte-too-long") && written.copied.no == DONE => {
            let Written { copied, slice } = &mut written;
            slice.iter_mut().skip(copied.length as usize).take(1).for_each(|byte| *byte = 0);
            Answer::Written(written)
        }
        answer => answer,
    }
}

/// Gives the running actor's messages and hand to nobody, so that they still take room while notices are sent.
fn keep_room_taken(state: &mut State) {
    let Some(me) = state.running() else { return };
    state.arrivals.retain(|&entry| state.letters.get(entry).is_some_and(|l| l.owner != me));
    state.actors.get_mut(me).expect("the running actor lives").hand = None;
}

/// Frees what nobody owns.
fn free_room(state: &mut State) {
    for entry in 0..state.letters.entries.len() {
        if !state.arrivals.contains(&entry) {
            state.letters.release(entry);
        }
    }
    let mut owned: Vec<usize> = state.letters.used().map(|(_, l)| l.data).collect();
    owned.extend(state.actors.live().filter_map(|(_, a)| a.hand));
    owned.extend(state.values.iter().map(|value| value.data));
    for entry in (0..state.data.entries.len()).filter(|e| !owned.contains(e)) {
        state.data.release(entry);
    }
}

/// Bends the state after a call that was not refused.
pub fn after(call: &Call, old: &State, new: &mut State) {
    match call.name() {
        "exit" | "advance" if is("notice-cuts-ids") => cut_ids(old, new),
        "subscribe" if is("new-subscriber-sees-history") => show_history(old, new),
        "read" if is("read-not-marked") => *new = old.clone(),
        "exit" if is("exit-keeps-subscriptions") => new.buses = old.buses.clone(),
        "advance" if is("age-has-to-be-passed") => keep_just_aged(old, new),
        "notify" if is("notify-stores-nothing") => *new = old.clone(),
        "exit" if is("exit-keeps-timers") => new.timers = old.timers.clone(),
        "exit" if is("notices-before-clearing") => free_room(new),
        "notify" if is("wakes-on-any-message") => wake_all_with_mail(new),
        "yield" if is("yield-to-the-head") => new.queue.rotate_right(1),
        "advance" if is("due-from-the-clock") => move_beats(old, new, |_, clock, interval| clock + interval),
        "advance" if is("due-a-beat-early") => move_beats(old, new, |due, _, interval| due - interval),
        "advance" if is("due-a-beat-late") => move_beats(old, new, |due, _, interval| due + interval),
        "spawn" if is("age-not-raised") => lower_new_ages(old, new),
        _ => {}
    }
}

/// In the records that are new, the first id has 32 bits.
fn cut_ids(old: &State, new: &mut State) {
    for (before, now) in old.data.entries.iter().zip(&mut new.data.entries) {
        let written = now.as_mut().filter(|message| before.is_none() && message.class != NOTIFY);
        written.into_iter().for_each(|message| message.payload[8..12].fill(0));
    }
}

/// Whoever is new on a bus may read all that stands there.
fn show_history(old: &State, new: &mut State) {
    for value in &mut new.values {
        let (before, now) = (old.buses[value.bus].taken_seats(), new.buses[value.bus].taken_seats());
        value.unread.extend(now.difference(&before).filter(|seat| !value.read.contains(seat)));
    }
}

/// Puts back what was published just as long ago as its bus keeps it.
fn keep_just_aged(old: &State, new: &mut State) {
    for place in (0..old.values.len()).filter(|&place| old.end_of_value(place) == Some(new.clock)) {
        let value = old.values[place].clone();
        new.data.entries[value.data] = old.data.entries[value.data].clone();
        new.values.insert(0, value);
    }
}

fn wake_all_with_mail(state: &mut State) {
    let waiting = |state: &State, slot: usize| {
        matches!(state.actors.get(slot).map(|a| &a.activity), Some(Activity::Waiting { .. }))
    };
    let owners: Vec<usize> = state.letters.used().map(|(_, l)| l.owner).collect();
    for owner in owners {
        if waiting(state, owner) {
            state.make_runnable(owner, Reason::Message);
        }
    }
}

/// Gives each periodic timer that fired another due time: from the right one, the clock and the interval.
fn move_beats(old: &State, new: &mut State, moved: fn(u64, u64, u64) -> u64) {
    for (slot, timer) in new.timers.slots.iter_mut().enumerate() {
        let (Some(before), Some(now)) = (old.timers.get(slot), timer.held.as_mut()) else { continue };
        if let (Some(interval), true) = (now.interval, before.due != now.due) {
            now.due = moved(now.due, new.clock, interval);
        }
    }
}

fn lower_new_ages(old: &State, new: &mut State) {
    for (before, now) in old.actors.slots.iter().zip(new.actors.slots.iter_mut()) {
        if now.age > before.age && before.age > 0 {
            now.age = before.age;
        }
    }
}

/// Bends the buffers after a call.
pub fn spoil(old: &Model, new: &Model, words: &mut [u64], bytes: &mut [u8]) {
    if is("refusal-writes") && old == new {
        words.iter_mut().skip(CLOCK).take(1).for_each(|clock| *clock ^= 1);
    }
    let Some(state) = &new.state else { return };
    if is("word-past-the-needed") {
        let needed = layout::words_needed(&state.capacities()) as usize;
        words.iter_mut().skip(needed).take(1).for_each(|word| *word = 0);
    }
    if is("freed-bytes-stay") {
        let Some(before) = &old.state else { return };
        let freed = before.data.used().filter(|(entry, _)| state.data.get(*entry).is_none());
        freed.for_each(|(entry, message)| bytes[256 * entry] = message.tag as u8);
    }
}
