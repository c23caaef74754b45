//! Who runs and who is runnable: spawn, next, yield, and the queue.

use crate::answer::{made, require, Outcome};
use crate::pools;
use crate::tables::{Tables, CLOCK, QUEUED, RUNNING};
use model::limits::{ACTOR_FACTOR, MAX_PRIORITY};
use model::{Made, Turn, DONE, MALFORMED, NOT_NOW, NO_ROOM, WAITING};

/// What the words of STATE say.
pub const FREE: u64 = 0;
pub const RUNNABLE: u64 = 1;
pub const RUNS: u64 = 2;
pub const WAITS: u64 = 3;

/// Why an actor is runnable.
pub const READY: u64 = 0;
pub const MESSAGE: u64 = 1;
pub const TIMEOUT: u64 = 2;

impl Tables<'_> {
    /// The id of a slot's present use.
    pub fn actor_id(&self, slot: usize) -> u64 {
        self.actors.age[slot] * ACTOR_FACTOR + slot as u64
    }

    /// The slot of a live actor's id.
    pub fn actor(&self, id: u64) -> Option<usize> {
        pools::slot_of(id, ACTOR_FACTOR, self.actors.state, self.actors.age)
    }

    /// Makes an actor runnable, at the tail of the queue.
    pub fn make_runnable(&mut self, slot: usize, reason: u64) {
        self.actors.state[slot] = RUNNABLE;
        self.actors.reason[slot] = reason;
        self.actors.queue[self.head[QUEUED] as usize] = slot as u64;
        self.head[QUEUED] += 1;
    }

    /// The same for one that waits.
    pub fn wake(&mut self, slot: usize, reason: u64) {
        self.actors.want_sender[slot] = 0;
        self.actors.want_class[slot] = 0;
        self.actors.want_tag[slot] = 0;
        self.actors.deadline[slot] = 0;
        self.make_runnable(slot, reason);
    }
}

/// A new actor at the tail of its level.
pub fn spawn(tables: &mut Tables, priority: u64) -> Outcome<Made> {
    require(priority <= MAX_PRIORITY, MALFORMED)?;
    let slot = pools::lowest_slot(tables.actors.state, tables.actors.age).ok_or(NO_ROOM)?;
    tables.actors.age[slot] += 1;
    tables.actors.priority[slot] = priority;
    tables.make_runnable(slot, READY);
    Ok(made(tables.actor_id(slot)))
}

/// Runs the head of the first level that is not empty.
pub fn next(tables: &mut Tables) -> Outcome<Turn> {
    require(tables.head[RUNNING] == 0, NOT_NOW)?;
    let Some(place) = head_of_queue(tables) else {
        return Ok(Turn { no: WAITING, id: 0, reason: 0, sleep: time_to_sleep(tables) });
    };
    let queued = tables.head[QUEUED] as usize;
    let slot = tables.actors.queue[place] as usize;
    remove_from_list(&mut tables.actors.queue[..queued], place);
    tables.head[QUEUED] -= 1;
    let reason = std::mem::take(&mut tables.actors.reason[slot]);
    tables.actors.state[slot] = RUNS;
    tables.head[RUNNING] = slot as u64 + 1;
    Ok(Turn { no: DONE, id: tables.actor_id(slot), reason, sleep: 0 })
}

/// The place of the first of the lowest priority; nobody is before one of priority 0.
fn head_of_queue(tables: &Tables) -> Option<usize> {
    let queue = &tables.actors.queue[..tables.head[QUEUED] as usize];
    let (mut least, mut found) = (MAX_PRIORITY + 1, None);
    for (place, &slot) in queue.iter().enumerate() {
        let priority = tables.actors.priority[slot as usize];
        if priority < least {
            (least, found) = (priority, Some(place));
            if priority == 0 {
                break;
            }
        }
    }
    found
}

/// Removes one word of a list: those behind it move up, and the last one is 0.
pub fn remove_from_list(list: &mut [u64], place: usize) {
    list.copy_within(place + 1.., place);
    if let Some(last) = list.last_mut() {
        *last = 0;
    }
}

/// The smallest due time or deadline less the clock, not below 0, or -1 if there is neither.
fn time_to_sleep(tables: &Tables) -> i64 {
    let dues = tables.timers.owner.iter().zip(&*tables.timers.due).filter(|(&owner, _)| owner != 0);
    let deadlines = tables.actors.deadline.iter().filter(|&&deadline| deadline != 0);
    match dues.map(|(_, due)| due).chain(deadlines).min() {
        Some(time) => time.saturating_sub(tables.head[CLOCK]) as i64,
        None => -1,
    }
}

/// Puts the running actor at the tail of its level.
pub fn yield_now(tables: &mut Tables, me: usize) -> Outcome<u64> {
    tables.head[RUNNING] = 0;
    tables.make_runnable(me, READY);
    Ok(DONE)
}
