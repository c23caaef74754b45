//! What ties two actors: link, unlink, monitor, demonitor. Slots are stored one up.

use crate::answer::{made, require, Outcome};
use crate::pools;
use crate::tables::{Links, Monitors, Tables};
use model::limits::MONITOR_FACTOR;
use model::{Made, DONE, MALFORMED, NO_ROOM, UNKNOWN};

impl Links<'_> {
    /// The entry that joins two slots, stored one up.
    fn between(&self, a: u64, b: u64) -> Option<usize> {
        let mut ends = self.one.iter().zip(&*self.two);
        ends.position(|(&one, &two)| (one == a && two == b) || (one == b && two == a))
    }

    pub fn remove(&mut self, entry: usize) {
        self.one[entry] = 0;
        self.two[entry] = 0;
    }
}

impl Monitors<'_> {
    pub fn remove(&mut self, slot: usize) {
        self.watcher[slot] = 0;
        self.watched[slot] = 0;
    }
}

/// Links the caller and another actor, if they are not linked yet.
pub fn link(tables: &mut Tables, me: usize, partner: u64) -> Outcome<u64> {
    require(partner != tables.actor_id(me), MALFORMED)?;
    let other = tables.actor(partner).ok_or(UNKNOWN)?;
    let (a, b) = (me as u64 + 1, other as u64 + 1);
    let links = &mut tables.links;
    if links.between(a, b).is_some() {
        return Ok(DONE);
    }
    let entry = links.one.iter().position(|&end| end == 0).ok_or(NO_ROOM)?;
    links.one[entry] = a;
    links.two[entry] = b;
    Ok(DONE)
}

/// Takes a link back, from either end.
pub fn unlink(tables: &mut Tables, me: usize, partner: u64) -> Outcome<u64> {
    let other = tables.actor(partner).ok_or(UNKNOWN)?;
    let entry = tables.links.between(me as u64 + 1, other as u64 + 1).ok_or(UNKNOWN)?;
    tables.links.remove(entry);
    Ok(DONE)
}

/// Watches another actor.
pub fn monitor(tables: &mut Tables, me: usize, target: u64) -> Outcome<Made> {
    require(target != tables.actor_id(me), MALFORMED)?;
    let other = tables.actor(target).ok_or(UNKNOWN)?;
    let monitors = &mut tables.monitors;
    let slot = pools::lowest_slot(monitors.watcher, monitors.age).ok_or(NO_ROOM)?;
    monitors.watcher[slot] = me as u64 + 1;
    monitors.watched[slot] = other as u64 + 1;
    monitors.age[slot] += 1;
    Ok(made(monitors.age[slot] * MONITOR_FACTOR + slot as u64))
}

/// Takes a monitor of the caller back.
pub fn demonitor(tables: &mut Tables, me: usize, monitor: u64) -> Outcome<u64> {
    let monitors = &mut tables.monitors;
    let slot = pools::slot_of(monitor, MONITOR_FACTOR, monitors.watcher, monitors.age).ok_or(UNKNOWN)?;
    require(monitors.watcher[slot] == me as u64 + 1, UNKNOWN)?;
    monitors.remove(slot);
    Ok(DONE)
}
