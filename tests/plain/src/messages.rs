//! Messages: notify, receive, shown, and what every message goes through.

use crate::actors::{remove_from_list, MESSAGE, WAITS};
use crate::answer::{require, Outcome};
use crate::pools;
use crate::tables::{Datas, Entry, Tables, ARRIVED, CLOCK, ENTRY, RUNNING};
use model::limits::*;
use model::{Received, Shown, DONE, MALFORMED, NOTHING, NO_ROOM, UNKNOWN, WAITING};

/// Bytes before a payload.
pub const HEADER: usize = HEADER_BYTES as usize;
const TAG_BITS: u32 = (1 << 27) - 1;

/// The header of a data entry.
pub fn header_of(entry: &Entry) -> u32 {
    u32::from_le_bytes([entry[0], entry[1], entry[2], entry[3]])
}

pub fn class_of(header: u32) -> u64 {
    u64::from(header >> 28)
}

pub fn tag_of(header: u32) -> u64 {
    u64::from(header & TAG_BITS)
}

/// What a receive asks for, or an actor waits for.
#[derive(Clone, Copy)]
pub struct Filter {
    pub sender: u64,
    pub class: u64,
    pub tag: u64,
}

impl Filter {
    pub fn is_legal(&self) -> bool {
        self.tag <= ANY_TAG && (self.class <= LAST_CLASS || self.class == ANY_CLASS)
    }

    pub fn matches(&self, sender: u64, header: u32) -> bool {
        ((self.sender == ANY_SENDER) | (self.sender == sender))
            & ((self.class == ANY_CLASS) | (self.class == class_of(header)))
            & ((self.tag == ANY_TAG) | (self.tag == tag_of(header)))
    }
}

/// A message that is to be written.
pub struct Message<'a> {
    pub sender: u64,
    pub header: u32,
    pub payload: &'a [u8],
}

impl Tables<'_> {
    /// What the actor in a slot waits for.
    pub fn filter(&self, slot: usize) -> Filter {
        let a = &self.actors;
        Filter { sender: a.want_sender[slot], class: a.want_class[slot], tag: a.want_tag[slot] }
    }

    /// Queues a message at the tail of a mailbox and wakes its owner where it waits for it. Says whether there was room for it.
    #[inline]
    pub fn deliver(&mut self, owner: usize, message: &Message) -> bool {
        let (Some(mail), Some(data)) = (pools::lowest(self.mail_free), pools::lowest(self.data_free)) else {
            return false;
        };
        pools::take(self.mail_free, mail);
        pools::take(self.data_free, data);
        self.datas.write(data, message);
        self.mails.owner[mail] = owner as u64 + 1;
        self.mails.data[mail] = data as u64 + 1;
        self.mails.arrival[self.head[ARRIVED] as usize] = mail as u64;
        self.head[ARRIVED] += 1;
        if self.actors.state[owner] == WAITS && self.filter(owner).matches(message.sender, message.header) {
            self.wake(owner, MESSAGE);
        }
        true
    }

    /// Frees a data entry.
    pub fn free_data(&mut self, data: usize) {
        pools::give_back(self.data_free, data);
        self.datas.wipe(data);
    }

    /// Frees the data entry in an actor's hand.
    pub fn release_hand(&mut self, slot: usize) {
        let hand = std::mem::take(&mut self.actors.hand[slot]);
        if hand != 0 {
            self.free_data(hand as usize - 1);
        }
    }
}

impl Datas<'_> {
    pub fn write(&mut self, data: usize, message: &Message) {
        self.sender[data] = message.sender;
        self.length[data] = message.payload.len() as u64;
        let entry = &mut self.entries[data];
        entry[..HEADER].copy_from_slice(&message.header.to_le_bytes());
        entry[HEADER..HEADER + message.payload.len()].copy_from_slice(message.payload);
    }

    /// Makes an entry zero; what is past its payload is zero already.
    fn wipe(&mut self, data: usize) {
        self.sender[data] = 0;
        let length = std::mem::take(&mut self.length[data]) as usize;
        self.entries[data][..HEADER + length].fill(0);
    }
}

/// Sends a message to an actor, the caller included.
pub fn notify(tables: &mut Tables, me: usize, target: u64, tag: u64, payload: &[u8]) -> Outcome<u64> {
    require(tag < ANY_TAG && payload.len() <= MAX_PAYLOAD, MALFORMED)?;
    let owner = tables.actor(target).ok_or(UNKNOWN)?;
    let message = Message { sender: tables.actor_id(me), header: tag as u32, payload };
    require(tables.deliver(owner, &message), NO_ROOM)?;
    Ok(DONE)
}

/// Releases the hand, then takes the first match; without one the caller waits or finds nothing.
pub fn receive(tables: &mut Tables, me: usize, filter: Filter, wait: i64) -> Outcome<Received> {
    require(filter.is_legal() && (-1..=MAX_WAIT).contains(&wait), MALFORMED)?;
    tables.release_hand(me);
    if let Some(place) = first_match(tables, me, filter) {
        return Ok(take_message(tables, me, place));
    }
    require(wait != 0, NOTHING)?;
    tables.head[RUNNING] = 0;
    let deadline = if wait < 0 { 0 } else { tables.head[CLOCK] + 1_000 * wait as u64 };
    let actors = &mut tables.actors;
    actors.state[me] = WAITS;
    (actors.want_sender[me], actors.want_class[me], actors.want_tag[me]) = (filter.sender, filter.class, filter.tag);
    actors.deadline[me] = deadline;
    Err(WAITING)
}

/// The place among the arrivals of the first message in an actor's mailbox that the filter matches.
fn first_match(tables: &Tables, me: usize, filter: Filter) -> Option<usize> {
    let arrivals = &tables.mails.arrival[..tables.head[ARRIVED] as usize];
    let mine = me as u64 + 1;
    arrivals.iter().position(|&mail| {
        let mail = mail as usize;
        tables.mails.owner[mail] == mine && {
            let data = tables.mails.data[mail] as usize - 1;
            filter.matches(tables.datas.sender[data], header_of(&tables.datas.entries[data]))
        }
    })
}

/// Takes the message at this place among the arrivals into the hand.
fn take_message(tables: &mut Tables, me: usize, place: usize) -> Received {
    let arrived = tables.head[ARRIVED] as usize;
    let mail = tables.mails.arrival[place] as usize;
    remove_from_list(&mut tables.mails.arrival[..arrived], place);
    tables.head[ARRIVED] -= 1;
    pools::give_back(tables.mail_free, mail);
    tables.mails.owner[mail] = 0;
    let hand = std::mem::take(&mut tables.mails.data[mail]);
    tables.actors.hand[me] = hand;
    let data = hand as usize - 1;
    let header = header_of(&tables.datas.entries[data]);
    Received {
        no: DONE,
        sender: tables.datas.sender[data],
        class: class_of(header),
        tag: tag_of(header),
        length: tables.datas.length[data],
    }
}

/// Where in the payload area the payload in hand lies.
pub fn shown(tables: &mut Tables, me: usize) -> Outcome<Shown> {
    let data = tables.actors.hand[me].checked_sub(1).ok_or(UNKNOWN)?;
    let offset = ENTRY as u64 * data + HEADER_BYTES;
    Ok(Shown { no: DONE, offset, length: tables.datas.length[data as usize] })
}
