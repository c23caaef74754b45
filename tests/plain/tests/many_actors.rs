//! Boxes on either side of 64 actors, where rows of slots get more words: no slot is taken for another one that shares its bit.

mod common;

use common::Runtime;
use model::limits::*;
use model::{Ended, DONE, WAITING};

/// Where the seats of the buses and the columns of the actors begin.
const SEAT: usize = 24 + 4 * 32;
const STATE: usize = SEAT + 1024;
/// Words of the head.
const RUNNING: usize = 7;

/// A box with so many actors, all of them there, and the first running.
fn crowded(actors: u64) -> Runtime {
    let mut r = Runtime::start([actors, 8, 8, 128, 8, 8]);
    for slot in 0..actors {
        assert_eq!(call!(r, spawn, 1).id, ACTOR_FACTOR + slot);
    }
    assert_eq!(call!(r, next).id, ACTOR_FACTOR);
    assert!(r.is_sound());
    r
}

const SIZES: [u64; 6] = [63, 64, 65, 128, 255, 256];

#[test]
fn the_first_is_linked_to_every_64th() {
    let mut r = crowded(256);
    for slot in [64, 128, 192, 1, 65, 129, 193] {
        assert_eq!(call!(r, link, ACTOR_FACTOR + slot), DONE);
        assert!(r.is_sound());
    }
    assert_eq!(call!(r, exit, 0), Ended { no: DONE, sent: 7, lost: 0 });
    assert!(r.is_sound());
}

#[test]
fn a_pair_is_linked_twice() {
    for actors in SIZES {
        let mut r = crowded(actors);
        let last = ACTOR_FACTOR + actors - 1;
        assert_eq!((call!(r, link, last), call!(r, link, last - 1)), (DONE, DONE));
        let links = STATE + 10 * actors as usize + 3 * 8 + 6 * 8;
        let (one, two) = (r.words[links], r.words[links + 128]);
        (r.words[links + 1], r.words[links + 129]) = (two, one);
        assert!(!r.is_sound(), "{actors} actors");
    }
}

#[test]
fn slots_past_the_actors_and_dead_ones_are_nobody() {
    for actors in SIZES {
        let mut r = crowded(actors);
        assert_eq!(call!(r, bus, 1, 32, 0, 0).no, DONE);
        assert_eq!(call!(r, subscribe, 0), DONE);
        for (one_up, sound) in [(1, false), (2, true), (actors, true), (actors + 1, false), (actors + 64, false)] {
            r.words[SEAT + 1] = one_up;
            assert_eq!(r.is_sound(), sound, "{actors} actors, slot {one_up}, one up");
        }
        r.words[SEAT + 1] = u64::MAX;
        assert!(!r.is_sound());
    }
}

#[test]
fn another_runs_than_is_told() {
    for actors in SIZES {
        let mut r = crowded(actors);
        for told in [0, 2, 65, 129, actors, actors + 1, 257, u64::MAX] {
            r.words[RUNNING] = told;
            assert!(!r.is_sound(), "{actors} actors, {told} is told");
        }
        r.words[RUNNING] = 1;
        r.words[STATE + actors as usize - 1] = 2;
        assert!(!r.is_sound(), "two run");
    }
}

#[test]
fn a_slot_is_queued_twice() {
    for actors in SIZES {
        let mut r = crowded(actors);
        let queue = STATE + 9 * actors as usize;
        r.words[queue] = r.words[queue + actors as usize - 2];
        assert!(!r.is_sound(), "{actors} actors");
    }
}

#[test]
fn waits_end_by_deadline_and_then_by_slot() {
    for actors in SIZES {
        let mut r = crowded(actors);
        for slot in 0..actors {
            assert_eq!(call!(r, receive, ANY_SENDER, ANY_CLASS, ANY_TAG, 1 + (slot as i64 * 7) % 3).no, WAITING);
            assert_eq!(call!(r, next).no, if slot + 1 < actors { DONE } else { WAITING });
        }
        assert_eq!(call!(r, advance, 3_000).no, DONE);
        let mut due: Vec<(u64, u64)> = (0..actors).map(|slot| (slot * 7 % 3, slot)).collect();
        due.sort();
        let queue = STATE + 9 * actors as usize;
        let queued: Vec<u64> = r.words[queue..queue + actors as usize].to_vec();
        assert_eq!(queued, due.into_iter().map(|(_, slot)| slot).collect::<Vec<_>>(), "{actors} actors");
    }
}
