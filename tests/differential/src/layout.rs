//! The two buffers as docs/LAYOUT.md describes them: where a column lies, by the document's own table, and what the
//! buffers say (`decode`, None where they are not sound).

use model::buses::{Bus, Value};
use model::limits::*;
use model::pool::Slots;
use model::records::{parts, EXIT_BYTES, TICK_BYTES};
use model::state::{Activity, Actor, Filter, Letter, Link, Message, Monitor, Reason, State, Timer};
use std::collections::BTreeSet;

/// A constant for each column, its number; `SIZES` and their sum `WORDS`: from the rows of docs/LAYOUT.md, by build.rs.
#[allow(dead_code)] // Some columns are only counted.
mod columns {
    use numbers::document::Amount;
    include!(concat!(env!("OUT_DIR"), "/columns.rs"));
}
pub use columns::*;

/// The columns of the capacities, in the order of the pools. They are of one word each, as are all before them.
pub const CAPACITIES: [usize; 6] = [ACTORS, MAILS, DATAS, LINKS, MONITORS, TIMERS];

/// The seats of each bus, which stand side by side, and the bits in each half of a word of READERS.
pub const SEATS: usize = 32;

pub const FREE: u64 = 0;
pub const RUNNABLE: u64 = 1;
pub const RUNS: u64 = 2;
pub const WAITS: u64 = 3;

/// Where each column starts; the last start is that of the rest.
pub fn starts(caps: &Capacities) -> [usize; REST + 1] {
    let mut starts = [0; REST + 1];
    for column in 0..REST {
        starts[column + 1] = starts[column] + SIZES[column].at(caps) as usize;
    }
    starts
}

/// The table's words for capacities in range: all columns but the rest.
pub fn words_needed(caps: &Capacities) -> u64 {
    WORDS.at(caps)
}

/// Says whether a table of so many words is long enough for these capacities.
pub fn table_suffices(words: usize, caps: &Capacities) -> bool {
    suffices(words as u64, caps)
}

/// The same for a length as a trace carries it.
pub fn suffices(words: u64, caps: &Capacities) -> bool {
    in_range(caps) && words >= words_needed(caps)
}

/// The capacities that the buffers name, where they are in range and the buffers are long enough.
pub fn capacities(words: &[u64], bytes: &[u8]) -> Option<Capacities> {
    let mut caps = [0; 6];
    for pool in 0..6 {
        caps[pool] = *words.get(CAPACITIES[pool])?;
    }
    let fits = table_suffices(words.len(), &caps) && bytes.len() as u64 >= bytes_needed(&caps);
    fits.then_some(caps)
}

struct Reader<'a> {
    caps: Capacities,
    starts: [usize; REST + 1],
    words: &'a [u64],
    bytes: &'a [u8],
}

impl Reader<'_> {
    fn at(&self, column: usize, entry: usize) -> u64 {
        self.words[self.starts[column] + entry]
    }

    fn all_zero(&self, columns: &[usize], entry: usize) -> bool {
        columns.iter().all(|&c| self.at(c, entry) == 0)
    }

    fn size(&self, pool: usize) -> usize {
        self.caps[pool] as usize
    }

    /// The bytes of a data entry.
    fn entry(&self, n: usize) -> &[u8] {
        &self.bytes[256 * n..256 * (n + 1)]
    }

    /// The free bits of a pool, where no bit past its size is set.
    fn free_bits(&self, column: usize, size: usize) -> Option<Vec<bool>> {
        let bit = |i: usize| self.at(column, i / 64) >> (i % 64) & 1 == 1;
        (size..256).all(|i| !bit(i)).then(|| (0..size).map(bit).collect())
    }

    /// A number stored one up that must name one of `size`.
    fn named(&self, column: usize, entry: usize, size: usize) -> Option<usize> {
        let word = self.at(column, entry);
        (1..=size as u64).contains(&word).then(|| word as usize - 1)
    }

    /// The numbers of a counted list; words past the count are 0.
    fn list(&self, column: usize, count: usize, size: usize) -> Option<Vec<usize>> {
        let count = self.at(count, 0);
        require(count <= size as u64)?;
        require((count as usize..size).all(|i| self.at(column, i) == 0))?;
        let list: Vec<u64> = (0..count as usize).map(|i| self.at(column, i)).collect();
        require(list.iter().all(|&x| x < size as u64))?;
        Some(list.into_iter().map(|x| x as usize).collect())
    }
}

fn require(holds: bool) -> Option<()> {
    holds.then_some(())
}

/// Says whether the list has each of `wanted` once and nothing else.
fn has_exactly(list: &[usize], wanted: impl Iterator<Item = usize>) -> bool {
    let mut sorted = list.to_vec();
    sorted.sort();
    sorted.into_iter().eq(wanted)
}

/// What the buffers say, or None where a rule of soundness is broken or a buffer is too short.
pub fn decode(words: &[u64], bytes: &[u8]) -> Option<State> {
    let caps = capacities(words, bytes)?;
    let r = Reader { caps, starts: starts(&caps), words, bytes };
    let mut state = State::fresh(&caps);
    state.clock = r.at(CLOCK, 0);
    require(state.clock <= MAX_CLOCK)?;
    require((0..SIZES[SPARE].fixed as usize).all(|i| r.at(SPARE, i) == 0))?;
    read_actors(&r, &mut state)?;
    read_queue(&r, &mut state)?;
    read_letters(&r, &mut state)?;
    read_buses(&r, &mut state)?;
    read_values(&r, &mut state)?;
    read_data(&r, &mut state)?;
    read_links(&r, &mut state)?;
    read_monitors(&r, &mut state)?;
    read_timers(&r, &mut state)?;
    require(nobody_waits_in_vain(&state))?;
    Some(state)
}

fn read_actors(r: &Reader, state: &mut State) -> Option<()> {
    for i in 0..r.size(0) {
        let age = r.at(AGE, i);
        require(age <= MAX_AGE)?;
        state.actors.slots[i].age = age;
        state.actors.slots[i].held = read_actor(r, i, state.clock)?;
    }
    let running: Vec<usize> = (0..r.size(0)).filter(|&i| r.at(STATE, i) == RUNS).collect();
    match r.at(RUNNING, 0) {
        0 => require(running.is_empty()),
        slot => require(running.len() == 1 && running[0] as u64 == slot - 1),
    }
}

/// The actor in a slot: None where the slot is not sound, Some(None) where it is free.
fn read_actor(r: &Reader, i: usize, clock: u64) -> Option<Option<Actor>> {
    let wants = [WANT_SENDER, WANT_CLASS, WANT_TAG, DEADLINE];
    if r.at(STATE, i) == FREE {
        require(r.all_zero(&[PRIORITY, REASON, HAND], i) && r.all_zero(&wants, i))?;
        return Some(None);
    }
    require(r.at(AGE, i) >= 1 && r.at(PRIORITY, i) <= MAX_PRIORITY)?;
    let activity = match r.at(STATE, i) {
        RUNNABLE => Activity::Runnable(read_reason(r.at(REASON, i))?),
        RUNS => Activity::Running,
        WAITS => read_wait(r, i, clock)?,
        _ => return None,
    };
    let is = |state: u64| r.at(STATE, i) == state;
    require(is(RUNNABLE) || r.at(REASON, i) == 0)?;
    require(is(WAITS) || r.all_zero(&wants, i))?;
    let hand = match r.at(HAND, i) {
        0 => None,
        _ => Some(r.named(HAND, i, r.size(2))?),
    };
    Some(Some(Actor { priority: r.at(PRIORITY, i), activity, hand }))
}

fn read_reason(word: u64) -> Option<Reason> {
    match word {
        0 => Some(Reason::Ready),
        1 => Some(Reason::Message),
        2 => Some(Reason::Timeout),
        _ => None,
    }
}

fn read_wait(r: &Reader, i: usize, clock: u64) -> Option<Activity> {
    let filter = Filter { sender: r.at(WANT_SENDER, i), class: r.at(WANT_CLASS, i), tag: r.at(WANT_TAG, i) };
    require(filter.is_legal())?;
    let deadline = match r.at(DEADLINE, i) {
        0 => None,
        time => {
            require(clock < time && time <= MAX_DEADLINE)?;
            Some(time)
        }
    };
    Some(Activity::Waiting { filter, deadline })
}

fn read_queue(r: &Reader, state: &mut State) -> Option<()> {
    state.queue = r.list(QUEUE, QUEUED, r.size(0))?;
    let runnable = (0..r.size(0)).filter(|&i| r.at(STATE, i) == RUNNABLE);
    require(has_exactly(&state.queue, runnable))
}

fn read_letters(r: &Reader, state: &mut State) -> Option<()> {
    let free = r.free_bits(MAIL_FREE, r.size(1))?;
    for i in 0..r.size(1) {
        if free[i] {
            require(r.all_zero(&[MAIL_OWNER, MAIL_DATA], i))?;
            continue;
        }
        let owner = r.named(MAIL_OWNER, i, r.size(0))?;
        let data = r.named(MAIL_DATA, i, r.size(2))?;
        state.actors.get(owner)?;
        state.letters.entries[i] = Some(Letter { owner, data });
    }
    state.arrivals = r.list(ARRIVAL, ARRIVED, r.size(1))?;
    require(has_exactly(&state.arrivals, (0..r.size(1)).filter(|&i| !free[i])))
}

fn read_buses(r: &Reader, state: &mut State) -> Option<()> {
    let made = r.at(BUSES, 0);
    require(made <= MAX_BUSES as u64)?;
    for b in 0..MAX_BUSES {
        if b as u64 >= made {
            require(r.all_zero(&[BUS_SIZE, BUS_SEATS, BUS_READS, BUS_AGE], b))?;
            require((0..SEATS).all(|n| r.at(SEAT, SEATS * b + n) == 0))?;
            continue;
        }
        let (entries, subscribers) = (r.at(BUS_SIZE, b), r.at(BUS_SEATS, b));
        let (reads, age) = (r.at(BUS_READS, b), r.at(BUS_AGE, b));
        require(Bus::in_range(entries, subscribers, reads, age))?;
        let mut bus = Bus::new(entries, subscribers, reads, age);
        read_seats(r, b, &mut bus, state)?;
        state.buses.push(bus);
    }
    Some(())
}

/// Live actors, none twice, in the seats that the bus has.
fn read_seats(r: &Reader, b: usize, bus: &mut Bus, state: &State) -> Option<()> {
    for n in (0..SEATS).filter(|&n| r.at(SEAT, SEATS * b + n) != 0) {
        let slot = r.named(SEAT, SEATS * b + n, r.size(0))?;
        require(n < bus.seats.len() && state.actors.get(slot).is_some() && bus.seat_of(slot).is_none())?;
        bus.seats[n] = Some(slot);
    }
    Some(())
}

/// The row of values: as many as its count, none twice, and every data entry with a bus is in it.
fn read_values(r: &Reader, state: &mut State) -> Option<()> {
    let (count, size) = (r.at(ISSUED, 0), r.size(2));
    require(count <= size as u64)?;
    let count = count as usize;
    require((count..size).all(|i| r.at(ISSUE, i) == 0))?;
    let row: Option<Vec<usize>> = (0..count).map(|i| r.named(ISSUE, i, size)).collect();
    let row = row?;
    require(has_exactly(&row, (0..size).filter(|&i| r.at(VALUE_BUS, i) != 0)))?;
    require((0..size).filter(|i| !row.contains(i)).all(|i| r.all_zero(&[READERS, PUBLISHED], i)))?;
    for data in row {
        let value = read_value(r, data, state)?;
        state.values.push(value);
    }
    require((0..state.buses.len()).all(|bus| state.values_of(bus).len() as u64 <= state.buses[bus].entries))
}

/// A value of a bus that is made: nobody has read it who still may, and whoever may sits there.
fn read_value(r: &Reader, data: usize, state: &State) -> Option<Value> {
    let bus = r.named(VALUE_BUS, data, state.buses.len())?;
    let (readers, published) = (r.at(READERS, data), r.at(PUBLISHED, data));
    let bits = |from: usize| (0..SEATS).filter(|n| readers >> (from + n) & 1 == 1).collect::<BTreeSet<usize>>();
    let (read, unread) = (bits(0), bits(SEATS));
    require(read.is_disjoint(&unread) && unread.is_subset(&state.buses[bus].taken_seats()))?;
    require(published <= state.clock)?;
    Some(Value { bus, data, published, read, unread })
}

fn read_data(r: &Reader, state: &mut State) -> Option<()> {
    let free = r.free_bits(DATA_FREE, r.size(2))?;
    let queued = state.letters.used().map(|(_, letter)| letter.data);
    let held = state.actors.live().filter_map(|(_, a)| a.hand);
    let owned: Vec<usize> = queued.chain(held).chain(state.values.iter().map(|v| v.data)).collect();
    require(has_exactly(&owned, (0..r.size(2)).filter(|&i| !free[i])))?;
    for i in 0..r.size(2) {
        if free[i] {
            require(r.all_zero(&[SENDER, LENGTH], i) && r.entry(i).iter().all(|&b| b == 0))?;
        } else if r.at(VALUE_BUS, i) == 0 {
            state.data.entries[i] = Some(read_message(r, i, &state.actors)?);
        } else {
            state.data.entries[i] = Some(read_published(r, i)?);
        }
    }
    Some(())
}

/// What was published: header 0, and no sender.
fn read_published(r: &Reader, i: usize) -> Option<Message> {
    let (bytes, length) = (r.entry(i), r.at(LENGTH, i));
    require(bytes[..4] == [0; 4] && r.at(SENDER, i) == 0 && length <= MAX_PAYLOAD as u64)?;
    let length = length as usize;
    require(bytes[4 + length..].iter().all(|&b| b == 0))?;
    Some(Message { sender: 0, class: NOTIFY, tag: 0, payload: bytes[4..4 + length].to_vec() })
}

fn read_message(r: &Reader, i: usize, actors: &Slots<Actor>) -> Option<Message> {
    let bytes = r.entry(i);
    let (class, by_runtime, tag) = parts([bytes[0], bytes[1], bytes[2], bytes[3]]);
    let (sender, length) = (r.at(SENDER, i), r.at(LENGTH, i));
    require(length <= MAX_PAYLOAD as u64)?;
    let length = length as usize;
    require(match class {
        NOTIFY => !by_runtime && tag < ANY_TAG,
        TIMER => by_runtime && tag == 0 && length == TICK_BYTES,
        EXIT => by_runtime && tag == 0 && length == EXIT_BYTES,
        _ => false,
    })?;
    require(if sender == 0 { class == TIMER } else { was_an_actor(actors, sender) })?;
    require(bytes[4 + length..].iter().all(|&b| b == 0))?;
    Some(Message { sender, class, tag, payload: bytes[4..4 + length].to_vec() })
}

/// An actor id of age 1 to its slot's age.
fn was_an_actor(actors: &Slots<Actor>, id: u64) -> bool {
    let (slot, age) = ((id % ACTOR_FACTOR) as usize, id / ACTOR_FACTOR);
    actors.slots.get(slot).is_some_and(|s| 1 <= age && age <= s.age)
}

fn read_links(r: &Reader, state: &mut State) -> Option<()> {
    for i in 0..r.size(3) {
        if r.all_zero(&[LINK_ONE, LINK_TWO], i) {
            continue;
        }
        let (a, b) = read_pair(r, LINK_ONE, LINK_TWO, i, state)?;
        require(state.link_between(a, b).is_none())?;
        state.links.entries[i] = Some(Link::new(a, b));
    }
    Some(())
}

/// Two different live actors.
fn read_pair(r: &Reader, one: usize, two: usize, i: usize, state: &State) -> Option<(usize, usize)> {
    let a = r.named(one, i, r.size(0))?;
    let b = r.named(two, i, r.size(0))?;
    require(a != b && state.actors.get(a).is_some() && state.actors.get(b).is_some())?;
    Some((a, b))
}

fn read_monitors(r: &Reader, state: &mut State) -> Option<()> {
    for i in 0..r.size(4) {
        let age = r.at(MONITOR_AGE, i);
        require(age <= MAX_AGE)?;
        state.monitors.slots[i].age = age;
        if r.all_zero(&[WATCHER, WATCHED], i) {
            continue;
        }
        require(age >= 1)?;
        let (watcher, watched) = read_pair(r, WATCHER, WATCHED, i, state)?;
        state.monitors.slots[i].held = Some(Monitor { watcher, watched });
    }
    Some(())
}

fn read_timers(r: &Reader, state: &mut State) -> Option<()> {
    for i in 0..r.size(5) {
        let age = r.at(TIMER_AGE, i);
        require(age <= MAX_AGE)?;
        state.timers.slots[i].age = age;
        if r.all_zero(&[TIMER_OWNER, DUE, INTERVAL], i) {
            continue;
        }
        let owner = r.named(TIMER_OWNER, i, r.size(0))?;
        let (due, interval) = (r.at(DUE, i), r.at(INTERVAL, i));
        require(age >= 1 && state.actors.get(owner).is_some() && due <= MAX_DUE)?;
        require(interval == 0 || (MIN_INTERVAL..=MAX_STEP).contains(&interval))?;
        let interval = (interval != 0).then_some(interval);
        state.timers.slots[i].held = Some(Timer { owner, due, interval });
    }
    Some(())
}

/// No waiting actor's mailbox holds what its filter matches.
fn nobody_waits_in_vain(state: &State) -> bool {
    state.actors.live().all(|(slot, actor)| match &actor.activity {
        Activity::Waiting { filter, .. } => state.first_match(slot, filter).is_none(),
        _ => true,
    })
}
