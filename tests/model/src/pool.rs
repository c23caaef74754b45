//! Pools of numbered entries: with ages and ids (slots), and without (entries).

use crate::limits::MAX_AGE;

/// One slot: how often it was taken, and what is in it now.
#[derive(Debug, Clone, PartialEq, Eq)]
pub struct Slot<T> {
    pub age: u64,
    pub held: Option<T>,
}

/// A pool whose entries have ids, age × factor + slot.
#[derive(Debug, Clone, PartialEq, Eq)]
pub struct Slots<T> {
    pub factor: u64,
    pub slots: Vec<Slot<T>>,
}

impl<T> Slots<T> {
    pub fn new(factor: u64, size: u64) -> Self {
        let slots = (0..size).map(|_| Slot { age: 0, held: None }).collect();
        Slots { factor, slots }
    }

    /// The lowest slot that is free and not worn.
    pub fn lowest_free(&self) -> Option<usize> {
        self.slots.iter().position(|s| s.held.is_none() && s.age < MAX_AGE)
    }

    /// Takes the lowest free slot and answers its new id.
    pub fn take(&mut self, value: T) -> Option<u64> {
        let slot = self.lowest_free()?;
        self.slots[slot].age += 1;
        self.slots[slot].held = Some(value);
        Some(self.id(slot))
    }

    pub fn release(&mut self, slot: usize) -> Option<T> {
        self.slots[slot].held.take()
    }

    /// The id of a slot's present or last use.
    pub fn id(&self, slot: usize) -> u64 {
        self.slots[slot].age * self.factor + slot as u64
    }

    /// The slot in use under this very id, its age included.
    pub fn find(&self, id: u64) -> Option<usize> {
        let slot = (id % self.factor) as usize;
        let found = self.slots.get(slot)?;
        (found.held.is_some() && found.age == id / self.factor).then_some(slot)
    }

    pub fn get(&self, slot: usize) -> Option<&T> {
        self.slots.get(slot)?.held.as_ref()
    }

    pub fn get_mut(&mut self, slot: usize) -> Option<&mut T> {
        self.slots.get_mut(slot)?.held.as_mut()
    }

    /// The slots in use, ascending.
    pub fn live(&self) -> impl Iterator<Item = (usize, &T)> {
        self.slots.iter().enumerate().filter_map(|(i, s)| s.held.as_ref().map(|t| (i, t)))
    }

    /// How many can be taken: worn slots do not count.
    pub fn free_count(&self) -> u64 {
        self.slots.iter().filter(|s| s.held.is_none() && s.age < MAX_AGE).count() as u64
    }
}

/// A pool of entries without ids.
#[derive(Debug, Clone, PartialEq, Eq)]
pub struct Entries<T> {
    pub entries: Vec<Option<T>>,
}

impl<T> Entries<T> {
    pub fn new(size: u64) -> Self {
        Entries { entries: (0..size).map(|_| None).collect() }
    }

    pub fn has_room(&self) -> bool {
        self.entries.iter().any(Option::is_none)
    }

    /// Takes the lowest free entry and answers its number.
    pub fn take(&mut self, value: T) -> Option<usize> {
        let entry = self.entries.iter().position(Option::is_none)?;
        self.entries[entry] = Some(value);
        Some(entry)
    }

    pub fn release(&mut self, entry: usize) -> Option<T> {
        self.entries[entry].take()
    }

    pub fn get(&self, entry: usize) -> Option<&T> {
        self.entries.get(entry)?.as_ref()
    }

    /// The entries in use, ascending.
    pub fn used(&self) -> impl Iterator<Item = (usize, &T)> {
        self.entries.iter().enumerate().filter_map(|(i, e)| e.as_ref().map(|t| (i, t)))
    }

    pub fn free_count(&self) -> u64 {
        self.entries.iter().filter(|e| e.is_none()).count() as u64
    }
}
