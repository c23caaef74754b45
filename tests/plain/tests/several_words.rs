//! Damage to several words at once that breaks one rule alone: report answers 7. Damage to one word or byte is done by the differential test.

mod common;

use common::Runtime;
use model::limits::*;
use model::{DONE, WAITING};

/// Every pool has so many entries, so that all columns from STATE on are of one size.
const EACH: usize = 4;
/// The words of the free bits, and where STATE begins.
const MAIL_FREE: usize = 16;
const DATA_FREE: usize = 20;
const STATE: usize = 24 + 4 * 32 + 1024;
/// Words of the head and of the buses.
const CLOCK: usize = 6;
const ISSUED: usize = 10;
const SEAT: usize = 24 + 4 * 32;

/// Some columns, counted from STATE on, by the rows of docs/LAYOUT.md.
const WANT_TAG: usize = 7;
const MAIL_DATA: usize = 11;
const ARRIVAL: usize = 12;
const SENDER: usize = 13;
const LENGTH: usize = 14;
const VALUE_BUS: usize = 15;
const READERS: usize = 16;
const PUBLISHED: usize = 17;
const ISSUE: usize = 18;
const LINK_ONE: usize = 19;
const LINK_TWO: usize = 20;

/// Three actors; the first runs, and two messages of its own are queued, with tags 1 and 2.
fn running() -> Runtime {
    let mut r = Runtime::start([EACH as u64; 6]);
    for id in ACTOR_FACTOR..ACTOR_FACTOR + 3 {
        assert_eq!(call!(r, spawn, 1).id, id);
    }
    assert_eq!(call!(r, next).id, ACTOR_FACTOR);
    for tag in [1, 2] {
        assert_eq!(call!(r, notify, ACTOR_FACTOR, tag, [7; 5].as_ptr(), 5), DONE);
    }
    r
}

trait Columns {
    fn word(&mut self, column: usize, entry: usize) -> &mut u64;
    fn free_second_message(&mut self);
}

impl Columns for Runtime {
    fn word(&mut self, column: usize, entry: usize) -> &mut u64 {
        &mut self.words[STATE + EACH * column + entry]
    }

    /// Frees data entry 1 as a call would, so that only the mailboxes know of it.
    fn free_second_message(&mut self) {
        self.words[DATA_FREE] |= 1 << 1;
        *self.word(SENDER, 1) = 0;
        *self.word(LENGTH, 1) = 0;
        self.bytes[256..512].fill(0);
    }
}

#[test]
fn another_mailbox_entry_is_free_than_the_one_that_arrived() {
    let mut r = running();
    assert_eq!(r.words[MAIL_FREE], 0b1100);
    assert!(r.is_sound());
    r.words[MAIL_FREE] = 0b0101;
    assert!(!r.is_sound());
}

#[test]
fn two_messages_share_a_data_entry() {
    let mut r = running();
    assert!(r.is_sound());
    r.free_second_message();
    *r.word(MAIL_DATA, 1) = *r.word(MAIL_DATA, 0);
    assert!(!r.is_sound());
}

#[test]
fn a_message_arrived_twice_and_another_not_at_all() {
    let mut r = running();
    assert!(r.is_sound());
    r.free_second_message();
    *r.word(ARRIVAL, 1) = *r.word(ARRIVAL, 0);
    assert!(!r.is_sound());
}

#[test]
fn a_pair_is_linked_twice() {
    for turned in [false, true] {
        let mut r = running();
        assert_eq!(call!(r, link, ACTOR_FACTOR + 1), DONE);
        let (one, two) = (*r.word(LINK_ONE, 0), *r.word(LINK_TWO, 0));
        (*r.word(LINK_ONE, 2), *r.word(LINK_TWO, 2)) = (one, 3);
        assert!(r.is_sound());
        (*r.word(LINK_ONE, 2), *r.word(LINK_TWO, 2)) = if turned { (two, one) } else { (one, two) };
        assert!(!r.is_sound());
    }
}

#[test]
fn a_waiting_actor_has_what_it_waits_for() {
    let mut r = running();
    assert_eq!(call!(r, receive, ANY_SENDER, NOTIFY, 3, -1).no, WAITING);
    assert!(r.is_sound());
    for (tag, sound) in [(1, false), (2, false), (3, true), (4, true), (ANY_TAG, false)] {
        *r.word(WANT_TAG, 0) = tag;
        assert_eq!(r.is_sound(), sound, "it waits for tag {tag}");
    }
}

/// The same, with two buses, to both of which the first actor is subscribed. The values, in data entries 2 and 3, are the first bus's.
fn with_buses() -> Runtime {
    let mut r = running();
    for number in [0, 1] {
        assert_eq!(call!(r, bus, 2, 2, 0, 0).id, number);
        assert_eq!(call!(r, subscribe, number), DONE);
    }
    for payload in [b"21.5", b"22.0"] {
        assert_eq!(call!(r, publish, 0, payload.as_ptr(), payload.len()), DONE);
    }
    assert!(r.is_sound());
    r
}

#[test]
fn a_value_is_in_the_row_twice_and_another_not_at_all() {
    let mut r = with_buses();
    for column in [SENDER, LENGTH, VALUE_BUS, READERS, PUBLISHED] {
        *r.word(column, 3) = 0;
    }
    r.words[DATA_FREE] |= 1 << 3;
    r.bytes[3 * 256..].fill(0);
    *r.word(ISSUE, 1) = *r.word(ISSUE, 0);
    assert!(!r.is_sound());
    *r.word(ISSUE, 1) = 0;
    r.words[ISSUED] = 1;
    assert!(r.is_sound());
}

#[test]
fn a_message_is_a_value_too() {
    let mut r = with_buses();
    *r.word(ISSUE, 2) = 1;
    r.words[ISSUED] = 3;
    assert!(!r.is_sound());
    *r.word(VALUE_BUS, 0) = 2;
    assert!(!r.is_sound());
}

#[test]
fn the_values_are_the_other_buss() {
    let mut r = with_buses();
    for (bus, sound) in [(1, true), (2, true), (3, false)] {
        (*r.word(VALUE_BUS, 2), *r.word(VALUE_BUS, 3)) = (bus, bus);
        assert_eq!(r.is_sound(), sound, "bus {bus}, one up");
    }
}

#[test]
fn somebody_else_sits_where_a_value_may_be_read() {
    let mut r = with_buses();
    for (slot, sound) in [(1, true), (3, true), (4, false), (5, false), (0, false)] {
        r.words[SEAT] = slot;
        assert_eq!(r.is_sound(), sound, "slot {slot}, one up");
    }
    *r.word(READERS, 2) = 1;
    *r.word(READERS, 3) = 1 << 31;
    assert!(r.is_sound());
}

#[test]
fn a_value_was_published_just_now() {
    let mut r = with_buses();
    r.words[CLOCK] = 1_000;
    for (time, sound) in [(0, true), (1_000, true), (1_001, false)] {
        *r.word(PUBLISHED, 3) = time;
        assert_eq!(r.is_sound(), sound, "at {time}");
    }
}
