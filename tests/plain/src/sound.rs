//! The test of both buffers: the paragraph "Sound means" of document 01, in few passes over each column. What is counted as it goes:
//! a row of the actors in each state, a byte for each data entry that somebody holds, and who sits on each bus.
//! Where several things are tested of one entry, they are joined by `&`, not by branches.

use crate::actors::{FREE, RUNNABLE, RUNS, TIMEOUT, WAITS};
use crate::buses;
use crate::ending::EXIT_HEADER;
use crate::messages::{header_of, Filter, HEADER};
use crate::pools::{all_free, count, is_free};
use crate::rows::{Row, Square, PER_WORD, WIDE};
use crate::tables::{Entry, Seats, Tables, ARRIVED, BUSES, CLOCK, ENTRY, ISSUED, QUEUED, RUNNING, SEATS, SPARE};
use crate::timers::TICK_HEADER;
use model::limits::*;
use model::records::{EXIT_BYTES, TICK_BYTES};
use std::ops::Range;

/// Who is in which state.
struct Who<const W: usize> {
    runnable: Row<W>,
    running: Row<W>,
    waiting: Row<W>,
    live: Row<W>,
}

impl<const W: usize> Who<W> {
    const NOBODY: Self = Who { runnable: Row::EMPTY, running: Row::EMPTY, waiting: Row::EMPTY, live: Row::EMPTY };

    /// Does this word, a slot one up, name a live actor?
    #[inline]
    fn lives(&self, one_up: u64) -> bool {
        self.live.has(one_up.wrapping_sub(1))
    }

    /// Two words that name two different live actors?
    #[inline]
    fn join(&self, one: u64, two: u64) -> bool {
        (one != two) & self.lives(one) & self.lives(two)
    }
}

/// Do the columns of these buffers keep every rule?
pub fn is_sound(tables: &Tables) -> bool {
    if tables.actors.state.len() <= PER_WORD {
        is_sound_among::<1>(tables)
    } else {
        is_sound_among::<WIDE>(tables)
    }
}

/// The same for a box whose rows of actors have so many words.
#[inline(never)]
fn is_sound_among<const W: usize>(tables: &Tables) -> bool {
    if !head(tables) || !in_range(tables) {
        return false;
    }
    let Some(who) = actors::<W>(tables) else { return false };
    let mut held = [0; 256];
    queue(tables, &who)
        && mailboxes(tables, &who, &mut held)
        && hands(tables, &mut held)
        && values(tables, &who, &mut held)
        && data(tables, &held)
        && links(tables, &who)
        && monitors(tables, &who)
        && timers(tables, &who)
}

fn any_set(words: &[u64]) -> bool {
    words.iter().fold(0, |all, word| all | word) != 0
}

fn head(tables: &Tables) -> bool {
    let past = |bits: &[u64; 4], size: usize| {
        let within = all_free(size);
        (0..4).fold(0, |past, word| past | bits[word] & !within[word])
    };
    let past = past(tables.mail_free, tables.mails.owner.len()) | past(tables.data_free, tables.datas.sender.len());
    tables.head[CLOCK] <= MAX_CLOCK && !any_set(&tables.head[SPARE..]) && past == 0
}

/// No word of a column is larger than `most`, which is below 2^63: a difference or a word that is too large has its top bit set.
fn at_most(most: u64, column: &[u64]) -> bool {
    column.iter().fold(0, |all, &word| all | word | most.wrapping_sub(word)) >> 63 == 0
}

/// What has a range of its own, whatever the state of its entry.
fn in_range(tables: &Tables) -> bool {
    at_most(MAX_PRIORITY, tables.actors.priority)
        && at_most(MAX_AGE, tables.actors.age)
        && at_most(tables.datas.sender.len() as u64, tables.actors.hand)
        && at_most(MAX_AGE, tables.monitors.age)
        && at_most(MAX_AGE, tables.timers.age)
        && at_most(MAX_DUE, tables.timers.due)
        && at_most(MAX_STEP, tables.timers.interval)
}

/// Every actor slot by itself. Answers who is in which state.
fn actors<const W: usize>(tables: &Tables) -> Option<Who<W>> {
    let mut who = Who::NOBODY;
    let size = tables.actors.state.len();
    for word in 0..W {
        let [runnable, running, waiting] =
            actors_of(tables, (PER_WORD * word).min(size)..(PER_WORD * (word + 1)).min(size))?;
        who.runnable.0[word] = runnable;
        who.running.0[word] = running;
        who.waiting.0[word] = waiting;
        who.live.0[word] = runnable | running | waiting;
    }
    Some(who)
}

/// These slots of some columns, in parts of one length.
#[inline]
fn parts<'a, const N: usize>(columns: [&'a [u64]; N], slots: &Range<usize>) -> [&'a [u64]; N] {
    columns.map(|column| &column[slots.start..][..slots.len()])
}

/// The same for the slots of one word: who is runnable, who runs and who waits, a bit each.
#[inline]
fn actors_of(tables: &Tables, slots: Range<usize>) -> Option<[u64; 3]> {
    let a = &tables.actors;
    let [states, priorities, reasons] = parts([a.state, a.priority, a.reason], &slots);
    let [ages, hands, deadlines] = parts([a.age, a.hand, a.deadline], &slots);
    let [senders, classes, tags] = parts([a.want_sender, a.want_class, a.want_tag], &slots);
    let (mut runnable, mut running, mut waiting) = (0, 0, 0);
    for slot in 0..slots.len() {
        let (state, reason, deadline) = (states[slot], reasons[slot], deadlines[slot]);
        let filter = Filter { sender: senders[slot], class: classes[slot], tag: tags[slot] };
        let wants = filter.sender | filter.class | filter.tag | deadline;
        let sound = match state {
            FREE => priorities[slot] | reason | hands[slot] | wants == 0,
            RUNNABLE => {
                runnable |= 1 << slot;
                (ages[slot] != 0) & (reason <= TIMEOUT) & (wants == 0)
            }
            RUNS => {
                running |= 1 << slot;
                (ages[slot] != 0) & (reason | wants == 0)
            }
            WAITS => {
                waiting |= 1 << slot;
                (ages[slot] != 0) & (reason == 0) & filter.is_legal() & later(deadline, tables.head[CLOCK])
            }
            _ => false,
        };
        if !sound {
            return None;
        }
    }
    Some([runnable, running, waiting])
}

/// No deadline, or one that is later than the clock and in range.
fn later(deadline: u64, clock: u64) -> bool {
    (deadline == 0) | ((deadline > clock) & (deadline <= MAX_DEADLINE))
}

/// The queue has each runnable slot once: as many words as there are such slots, and all of these. And the running slot is told.
fn queue<const W: usize>(tables: &Tables, who: &Who<W>) -> bool {
    let queued = tables.head[QUEUED];
    if queued != who.runnable.count() {
        return false;
    }
    let (list, past) = tables.actors.queue.split_at(queued as usize);
    are_all(list, &who.runnable) && runner_is_told(tables, who) && !any_set(past)
}

/// As many words as a row has slots: are they these, and so none twice?
fn are_all<const W: usize>(list: &[u64], row: &Row<W>) -> bool {
    if W == 1 {
        let (mut found, mut all) = (Row::EMPTY, 0);
        for &slot in list {
            found.add(slot);
            all |= slot;
        }
        return all < PER_WORD as u64 && found == *row;
    }
    // A byte for each slot: in a row of several words, which is in memory, each slot would wait for the one before.
    let mut seen = [0; 256];
    list.iter().fold(true, |good, &slot| good & row.has(slot) & (mark(&mut seen, slot as usize) == 0))
}

/// Nobody runs and none is told, or the only one that runs is.
fn runner_is_told<const W: usize>(tables: &Tables, who: &Who<W>) -> bool {
    match tables.head[RUNNING] {
        0 => who.running.is_empty(),
        runner => who.running.has(runner - 1) && who.running.count() == 1,
    }
}

/// The arrivals have each mailbox entry in use once; each is in a live actor's mailbox and has a data entry of its own, and no
/// waiting actor's filter matches what it holds. All other entries are zero. An entry that arrived twice holds its data entry twice.
#[inline(never)] // By itself its loop has more registers.
fn mailboxes<const W: usize>(tables: &Tables, who: &Who<W>, held: &mut [u8; 256]) -> bool {
    let size = tables.mails.owner.len();
    let (owners, datas) = (&tables.mails.owner[..size], &tables.mails.data[..size]);
    let arrived = size - count(tables.mail_free) as usize;
    if tables.head[ARRIVED] != arrived as u64 {
        return false;
    }
    let (list, past) = tables.mails.arrival.split_at(arrived);
    let mut again = 0;
    for &mail in list {
        if mail >= size as u64 {
            return false;
        }
        let mail = mail as usize;
        let (owner, data) = (owners[mail], datas[mail].wrapping_sub(1));
        let used = !is_free(tables.mail_free, mail);
        if !(used & who.lives(owner) & (data < tables.datas.sender.len() as u64)) {
            return false;
        }
        again |= mark(held, data as usize);
        if who.waiting.has(owner - 1) && waits_for(tables, owner as usize - 1, data as usize) {
            return false;
        }
    }
    let filled = owners.iter().zip(datas).filter(|(&owner, &data)| owner | data != 0).count();
    again == 0 && filled == arrived && !any_set(past)
}

/// Marks an entry; answers 1 where it was marked before.
fn mark(marks: &mut [u8; 256], entry: usize) -> u8 {
    std::mem::replace(&mut marks[entry % 256], 1)
}

/// Does the filter of the actor in a slot match a data entry?
fn waits_for(tables: &Tables, slot: usize, data: usize) -> bool {
    tables.filter(slot).matches(tables.datas.sender[data], header_of(&tables.datas.entries[data]))
}

/// The data entries in hands are nobody else's.
fn hands(tables: &Tables, held: &mut [u8; 256]) -> bool {
    let hands = tables.actors.hand.iter().filter(|&&hand| hand != 0);
    hands.fold(0, |again, &hand| again | mark(held, hand as usize - 1)) == 0
}

/// Each data entry is held and holds a message, or is free and all zero.
fn data(tables: &Tables, held: &[u8; 256]) -> bool {
    let words = tables.datas.sender.iter().zip(&*tables.datas.length).zip(&*tables.datas.bus);
    let mut entries = tables.datas.entries.iter().zip(words).zip(held).enumerate();
    entries.all(|(number, ((entry, ((&sender, &length), &bus)), &held))| {
        if is_free(tables.data_free, number) {
            (u64::from(held) | sender | length == 0) & is_zero(entry)
        } else if bus == 0 {
            held == 1 && message(entry, sender, length, tables.actors.age)
        } else {
            held == 1 && published(entry, sender, length)
        }
    })
}

/// Header 0 and no sender, and what is past the payload is zero.
#[inline]
fn published(entry: &Entry, sender: u64, length: u64) -> bool {
    let public = (u64::from(header_of(entry)) | sender == 0) & (length <= MAX_PAYLOAD as u64);
    public && zero_from(entry, HEADER + length as usize)
}

/// The buses that are made have settings in range, live subscribers and no more values than they can have; the others are all zero. The row of
/// values has each once.
fn values<const W: usize>(tables: &Tables, who: &Who<W>, held: &mut [u8; 256]) -> bool {
    let (made, issued) = (tables.head[BUSES] as usize, tables.head[ISSUED] as usize);
    if tables.head[BUSES] > MAX_BUSES as u64 || tables.head[ISSUED] > tables.datas.issue.len() as u64 {
        return false;
    }
    let (row, past) = tables.datas.issue.split_at(issued);
    let mut audiences = [0; MAX_BUSES];
    if any_set(past) || !unmade(tables, made) || !(0..made).all(|bus| bus_is_sound(tables, who, bus, &mut audiences)) {
        return false;
    }
    let mut counts = [0u64; MAX_BUSES];
    row.iter().all(|&one_up| value_is_sound(tables, one_up, &audiences, &mut counts, held))
        && no_other_values(tables, issued)
        && (0..made).all(|bus| counts[bus] <= tables.buses.size[bus])
}

/// The buses from this one on are not made.
fn unmade(tables: &Tables, made: usize) -> bool {
    let b = &tables.buses;
    let settings =
        [&b.size[made..], &b.limit[made..], &b.reads[made..], &b.age[made..], b.seats[made..].as_flattened()];
    !settings.into_iter().any(any_set)
}

/// Settings in range, and live actors, none twice, in the seats that the bus has. Tells who sits there.
fn bus_is_sound<const W: usize>(tables: &Tables, who: &Who<W>, bus: usize, audiences: &mut [u64; MAX_BUSES]) -> bool {
    let b = &tables.buses;
    let in_range = buses::in_range(b.size[bus], b.limit[bus], b.reads[bus], b.age[bus]);
    audiences[bus] = buses::audience(&b.seats[bus]);
    in_range && audiences[bus] >> SEATS >> b.limit[bus] == 0 && seated(&b.seats[bus], who)
}

fn seated<const W: usize>(seats: &Seats, who: &Who<W>) -> bool {
    let (mut found, mut good) = (Row::<W>::EMPTY, true);
    for &one_up in seats.iter().filter(|&&one_up| one_up != 0) {
        good &= who.lives(one_up) & !found.has(one_up - 1);
        found.add(one_up - 1);
    }
    good
}

/// A word of the row names a value that nobody else holds: of a bus that is made, published by now, and whoever may still read it sits there and
/// has not read it.
fn value_is_sound(
    tables: &Tables,
    one_up: u64,
    audiences: &[u64; MAX_BUSES],
    counts: &mut [u64; MAX_BUSES],
    held: &mut [u8; 256],
) -> bool {
    let data = one_up.wrapping_sub(1) as usize;
    if data >= tables.datas.bus.len() || mark(held, data) != 0 {
        return false;
    }
    let bus = tables.datas.bus[data].wrapping_sub(1) as usize;
    if bus as u64 >= tables.head[BUSES] {
        return false;
    }
    counts[bus] += 1;
    let readers = tables.datas.readers[data];
    let (unread, read) = (readers >> SEATS << SEATS, readers << SEATS);
    (unread & !audiences[bus] | unread & read == 0) & (tables.datas.published[data] <= tables.head[CLOCK])
}

/// There are so many values; the words of all other data entries are zero.
fn no_other_values(tables: &Tables, issued: usize) -> bool {
    let words = tables.datas.readers.iter().zip(&*tables.datas.published);
    let (values, others) =
        tables.datas.bus.iter().zip(words).fold((0, 0), |(values, others), (&bus, (readers, published))| {
            (values + usize::from(bus != 0), others | if bus == 0 { readers | published } else { 0 })
        });
    values == issued && others == 0
}

/// Header, sender and length go together, and what is past the payload is zero.
#[inline]
fn message(entry: &Entry, sender: u64, length: u64, ages: &[u64]) -> bool {
    let header = header_of(entry);
    let of_its_class = match header {
        TICK_HEADER => length == TICK_BYTES as u64,
        EXIT_HEADER => length == EXIT_BYTES as u64,
        _ => (u64::from(header) < ANY_TAG) & (length <= MAX_PAYLOAD as u64),
    };
    let sent = if sender == 0 { header == TICK_HEADER } else { was_an_actor(sender, ages) };
    of_its_class && sent && zero_from(entry, HEADER + length as usize)
}

/// An actor id of age 1 to its slot's age.
#[inline]
fn was_an_actor(id: u64, ages: &[u64]) -> bool {
    let (slot, age) = ((id % ACTOR_FACTOR) as usize, id / ACTOR_FACTOR);
    slot < ages.len() && (age >= 1) & (age <= ages[slot])
}

/// Bytes that are looked at together.
const WORD: usize = 8;

#[inline]
fn is_zero(entry: &Entry) -> bool {
    entry.as_chunks::<WORD>().0.iter().fold(0, |all, word| all | u64::from_le_bytes(*word)) == 0
}

/// All bytes of an entry from this one on are zero.
#[inline]
fn zero_from(entry: &Entry, from: usize) -> bool {
    if from >= ENTRY {
        return true;
    }
    let words = &entry.as_chunks::<WORD>().0[from / WORD..];
    let first = u64::from_le_bytes(words[0]) >> (8 * (from % WORD));
    words[1..].iter().fold(first, |all, word| all | u64::from_le_bytes(*word)) == 0
}

/// Links join two different live actors, no pair twice.
fn links<const W: usize>(tables: &Tables, who: &Who<W>) -> bool {
    let (mut partners, mut good) = (Square::<W>::EMPTY, true);
    for (&one, &two) in tables.links.one.iter().zip(&*tables.links.two) {
        if one | two != 0 {
            let (low, high) = (one.min(two).wrapping_sub(1), one.max(two) - 1);
            let row = partners.row(low);
            good &= who.join(one, two) & !row.has(high);
            row.add(high);
        }
    }
    good
}

/// Monitors join two different live actors, and have an age.
fn monitors<const W: usize>(tables: &Tables, who: &Who<W>) -> bool {
    let ends = tables.monitors.watcher.iter().zip(&*tables.monitors.watched);
    let mut slots = ends.zip(&*tables.monitors.age);
    slots.all(|((&watcher, &watched), &age)| watcher | watched == 0 || (age != 0) & who.join(watcher, watched))
}

/// Timers have live owners and an age; a periodic one's interval is not too short.
fn timers<const W: usize>(tables: &Tables, who: &Who<W>) -> bool {
    let times = tables.timers.due.iter().zip(&*tables.timers.interval);
    let mut slots = tables.timers.owner.iter().zip(&*tables.timers.age).zip(times);
    slots.all(|((&owner, &age), (&due, &interval))| {
        owner | due | interval == 0 || (age != 0) & ((interval == 0) | (MIN_INTERVAL <= interval)) & who.lives(owner)
    })
}
