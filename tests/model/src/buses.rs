//! Buses: what is published on one can be read once by each of those who were subscribed then.

use crate::limits::*;
use crate::state::{Message, State};
use std::collections::BTreeSet;

/// A bus: how many entries it can have, when an entry ends, and who is subscribed.
#[derive(Debug, Clone, PartialEq, Eq)]
pub struct Bus {
    pub entries: u64,
    /// After how many reads an entry ends, and after how many milliseconds; 0 for neither.
    pub reads: u64,
    pub age: u64,
    /// The actor slot of each subscriber, who keeps its seat while it is subscribed. There are as many seats as there may be subscribers.
    pub seats: Vec<Option<usize>>,
}

impl Bus {
    pub fn in_range(entries: u64, subscribers: u64, reads: u64, age: u64) -> bool {
        (1..=MAX_BUS_ENTRIES).contains(&entries)
            && (1..=MAX_SUBSCRIBERS).contains(&subscribers)
            && reads <= MAX_READS
            && age <= MAX_BUS_AGE
    }

    pub fn new(entries: u64, subscribers: u64, reads: u64, age: u64) -> Self {
        Bus { entries, reads, age, seats: vec![None; subscribers as usize] }
    }

    /// The seat of an actor slot.
    pub fn seat_of(&self, slot: usize) -> Option<usize> {
        self.seats.iter().position(|&seat| seat == Some(slot))
    }

    /// The lowest seat that is free.
    pub fn free_seat(&self) -> Option<usize> {
        self.seats.iter().position(Option::is_none)
    }

    /// The seats in which somebody sits.
    pub fn taken_seats(&self) -> BTreeSet<usize> {
        (0..self.seats.len()).filter(|&seat| self.seats[seat].is_some()).collect()
    }
}

/// An entry of a bus.
#[derive(Debug, Clone, PartialEq, Eq)]
pub struct Value {
    pub bus: usize,
    /// The data entry of its payload.
    pub data: usize,
    /// The clock when it was published.
    pub published: u64,
    /// The seats of those who have read it, and of those who still may.
    pub read: BTreeSet<usize>,
    pub unread: BTreeSet<usize>,
}

impl State {
    /// The bus of this number.
    pub fn find_bus(&self, number: u64) -> Option<usize> {
        (0..self.buses.len()).find(|&bus| bus as u64 == number)
    }

    /// The places of a bus's entries, oldest first.
    pub fn values_of(&self, bus: usize) -> Vec<usize> {
        (0..self.values.len()).filter(|&place| self.values[place].bus == bus).collect()
    }

    pub fn is_full(&self, bus: usize) -> bool {
        self.values_of(bus).len() as u64 >= self.buses[bus].entries
    }

    /// The payload of the entry at this place.
    pub fn payload(&self, place: usize) -> &[u8] {
        &self.data.get(self.values[place].data).expect("values have data").payload
    }

    /// Ends the entry at this place.
    fn end_value(&mut self, place: usize) {
        let value = self.values.remove(place);
        self.data.release(value.data);
    }

    /// Ends the oldest entry of a bus.
    pub fn end_oldest(&mut self, bus: usize) {
        if let Some(&place) = self.values_of(bus).first() {
            self.end_value(place);
        }
    }

    /// A new entry, for those who are subscribed now. Says whether there was room; without room nothing changes.
    pub fn publish(&mut self, bus: usize, payload: &[u8]) -> bool {
        let content = Message { sender: 0, class: NOTIFY, tag: 0, payload: payload.to_vec() };
        let Some(data) = self.data.take(content) else { return false };
        let (published, unread) = (self.clock, self.buses[bus].taken_seats());
        self.values.push(Value { bus, data, published, read: BTreeSet::new(), unread });
        true
    }

    /// The place of a bus's oldest entry that the one in this seat may still read.
    pub fn oldest_unread(&self, bus: usize, seat: usize) -> Option<usize> {
        self.values_of(bus).into_iter().find(|&place| self.values[place].unread.contains(&seat))
    }

    /// The one in this seat reads the entry at this place, which ends where it has been read often enough.
    pub fn read(&mut self, place: usize, seat: usize) -> Vec<u8> {
        let payload = self.payload(place).to_vec();
        let value = &mut self.values[place];
        value.unread.remove(&seat);
        value.read.insert(seat);
        let (reads, most) = (value.read.len() as u64, self.buses[value.bus].reads);
        if most != 0 && reads >= most {
            self.end_value(place);
        }
        payload
    }

    /// Whoever sits in this seat of a bus leaves it, and what it has not read.
    pub fn leave(&mut self, bus: usize, seat: usize) {
        self.buses[bus].seats[seat] = None;
        for place in self.values_of(bus) {
            self.values[place].unread.remove(&seat);
        }
    }

    /// An actor leaves every bus.
    pub fn leave_all(&mut self, slot: usize) {
        for bus in 0..self.buses.len() {
            if let Some(seat) = self.buses[bus].seat_of(slot) {
                self.leave(bus, seat);
            }
        }
    }

    /// When the entry at this place has reached its age; None where its bus ends none by age.
    pub fn end_of_value(&self, place: usize) -> Option<u64> {
        let value = &self.values[place];
        let age = self.buses[value.bus].age;
        (age != 0).then(|| value.published + 1_000 * age)
    }

    /// Ends every entry that has reached its age.
    pub fn end_aged_values(&mut self) {
        for place in (0..self.values.len()).rev() {
            if self.end_of_value(place).is_some_and(|end| end <= self.clock) {
                self.end_value(place);
            }
        }
    }
}
