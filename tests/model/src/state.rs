//! What the runtime holds, and the steps that several calls share.

use crate::buses::{Bus, Value};
use crate::limits::*;
use crate::pool::{Entries, Slots};

#[derive(Debug, Clone, Copy, PartialEq, Eq)]
pub struct Filter {
    pub sender: u64,
    pub class: u64,
    pub tag: u64,
}

impl Filter {
    /// Classes 5 to 14 or above 15 and larger tags are malformed; no sender is.
    pub fn is_legal(&self) -> bool {
        self.tag <= ANY_TAG && (self.class <= LAST_CLASS || self.class == ANY_CLASS)
    }

    pub fn matches(&self, message: &Message) -> bool {
        (self.sender == ANY_SENDER || self.sender == message.sender)
            && (self.class == ANY_CLASS || self.class == message.class)
            && (self.tag == ANY_TAG || self.tag == message.tag)
    }
}

/// Why an actor is runnable.
#[derive(Debug, Clone, Copy, PartialEq, Eq)]
pub enum Reason {
    Ready = 0,
    Message = 1,
    Timeout = 2,
}

#[derive(Debug, Clone, PartialEq, Eq)]
pub enum Activity {
    Runnable(Reason),
    Running,
    Waiting { filter: Filter, deadline: Option<u64> },
}

#[derive(Debug, Clone, PartialEq, Eq)]
pub struct Actor {
    pub priority: u64,
    pub activity: Activity,
    /// The data entry in hand.
    pub hand: Option<usize>,
}

/// What a data entry holds: a message, or what was published on a bus, with header 0 and no sender.
#[derive(Debug, Clone, PartialEq, Eq)]
pub struct Message {
    pub sender: u64,
    pub class: u64,
    pub tag: u64,
    pub payload: Vec<u8>,
}

/// What a mailbox entry holds: whose it is and where its message lies.
#[derive(Debug, Clone, Copy, PartialEq, Eq)]
pub struct Letter {
    pub owner: usize,
    pub data: usize,
}

/// Two actor slots, the lower first.
#[derive(Debug, Clone, Copy, PartialEq, Eq)]
pub struct Link {
    pub low: usize,
    pub high: usize,
}

impl Link {
    pub fn new(a: usize, b: usize) -> Self {
        Link { low: a.min(b), high: a.max(b) }
    }

    /// The other end, if this slot is one.
    pub fn partner(&self, slot: usize) -> Option<usize> {
        if self.low == slot {
            Some(self.high)
        } else {
            (self.high == slot).then_some(self.low)
        }
    }
}

#[derive(Debug, Clone, Copy, PartialEq, Eq)]
pub struct Monitor {
    pub watcher: usize,
    pub watched: usize,
}

#[derive(Debug, Clone, Copy, PartialEq, Eq)]
pub struct Timer {
    pub owner: usize,
    pub due: u64,
    /// None for a one-shot.
    pub interval: Option<u64>,
}

#[derive(Debug, Clone, PartialEq, Eq)]
pub struct State {
    pub clock: u64,
    pub actors: Slots<Actor>,
    /// The runnable slots in the order in which they joined; a level is the part with its priority.
    pub queue: Vec<usize>,
    pub letters: Entries<Letter>,
    /// The mailbox entries in use, oldest first; a mailbox is the part with its owner.
    pub arrivals: Vec<usize>,
    pub data: Entries<Message>,
    pub links: Entries<Link>,
    pub monitors: Slots<Monitor>,
    pub timers: Slots<Timer>,
    /// The buses that were made, by their number.
    pub buses: Vec<Bus>,
    /// The entries of all buses, in the order of publishing; those of a bus are the part with its number.
    pub values: Vec<Value>,
}

impl State {
    pub fn fresh(caps: &Capacities) -> Self {
        State {
            clock: 0,
            actors: Slots::new(ACTOR_FACTOR, caps[0]),
            queue: Vec::new(),
            letters: Entries::new(caps[1]),
            arrivals: Vec::new(),
            data: Entries::new(caps[2]),
            links: Entries::new(caps[3]),
            monitors: Slots::new(MONITOR_FACTOR, caps[4]),
            timers: Slots::new(TIMER_FACTOR, caps[5]),
            buses: Vec::new(),
            values: Vec::new(),
        }
    }

    pub fn capacities(&self) -> Capacities {
        [
            self.actors.slots.len() as u64,
            self.letters.entries.len() as u64,
            self.data.entries.len() as u64,
            self.links.entries.len() as u64,
            self.monitors.slots.len() as u64,
            self.timers.slots.len() as u64,
        ]
    }

    /// The running actor's slot.
    pub fn running(&self) -> Option<usize> {
        self.actors.live().find(|(_, a)| a.activity == Activity::Running).map(|(slot, _)| slot)
    }

    /// Makes an actor runnable, at the tail of its level.
    pub fn make_runnable(&mut self, slot: usize, reason: Reason) {
        if let Some(actor) = self.actors.get_mut(slot) {
            actor.activity = Activity::Runnable(reason);
            self.queue.push(slot);
        }
    }

    pub fn has_message_room(&self) -> bool {
        self.letters.has_room() && self.data.has_room()
    }

    /// Queues a message at the tail of a mailbox and wakes its owner where the filter matches.
    /// Says whether there was room; without room nothing changes.
    pub fn deliver(&mut self, owner: usize, message: Message) -> bool {
        if !self.has_message_room() {
            return false;
        }
        let wakes = self.waits_for(owner, &message);
        let data = self.data.take(message).expect("room was tested");
        let letter = self.letters.take(Letter { owner, data }).expect("room was tested");
        self.arrivals.push(letter);
        if wakes {
            self.make_runnable(owner, Reason::Message);
        }
        true
    }

    fn waits_for(&self, slot: usize, message: &Message) -> bool {
        match self.actors.get(slot).map(|a| &a.activity) {
            Some(Activity::Waiting { filter, .. }) => filter.matches(message),
            _ => false,
        }
    }

    /// Frees the data entry in an actor's hand.
    pub fn release_hand(&mut self, slot: usize) {
        if let Some(data) = self.actors.get_mut(slot).and_then(|a| a.hand.take()) {
            self.data.release(data);
        }
    }

    /// The place in the arrivals of a mailbox's first message that the filter matches.
    pub fn first_match(&self, slot: usize, filter: &Filter) -> Option<usize> {
        self.arrivals.iter().position(|&entry| {
            let letter = self.letters.get(entry).expect("arrivals are in use");
            let message = self.data.get(letter.data).expect("letters have messages");
            letter.owner == slot && filter.matches(message)
        })
    }

    /// Frees every message in an actor's mailbox.
    pub fn clear_mailbox(&mut self, slot: usize) {
        let (mine, others): (Vec<usize>, Vec<usize>) =
            self.arrivals.iter().partition(|&&entry| self.letters.get(entry).is_some_and(|l| l.owner == slot));
        self.arrivals = others;
        for entry in mine {
            let letter = self.letters.release(entry).expect("arrivals are in use");
            self.data.release(letter.data);
        }
    }

    /// The number of the link between two slots.
    pub fn link_between(&self, a: usize, b: usize) -> Option<usize> {
        self.links.used().find(|(_, link)| **link == Link::new(a, b)).map(|(entry, _)| entry)
    }
}
