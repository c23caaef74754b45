//! A stage: a runtime that is led somewhere by legal calls, which both sides make and agree on.

use crate::sides::{Answer, Call, LIBRARY, PLAIN};
use model::limits::*;
use model::{DONE, WAITING};

/// The two lent buffers, and the slice that a read writes to.
#[derive(Clone, PartialEq)]
pub struct Buffers {
    pub words: Vec<u64>,
    pub bytes: Vec<u8>,
    pub out: Vec<u8>,
}

impl Buffers {
    /// Buffers of just the needed lengths that are not zero.
    fn patterned(capacities: &Capacities) -> Self {
        let sizes = plain::sizes(capacities).expect("capacities are in range");
        let (words, bytes) = plain::needed(&sizes);
        Buffers { words: vec![u64::MAX; words], bytes: vec![0xFF; bytes], out: vec![0; MAX_PAYLOAD] }
    }

    pub fn copy_from(&mut self, other: &Buffers) {
        self.words.copy_from_slice(&other.words);
        self.bytes.copy_from_slice(&other.bytes);
        self.out.copy_from_slice(&other.out);
    }
}

/// So many of the actors, the first ones, have messages where all pools are full: several each at the largest capacities.
const RECIPIENTS: u64 = 64;

#[derive(Clone)]
pub struct Stage {
    pub capacities: Capacities,
    pub buffers: Buffers,
}

impl Stage {
    /// A start.
    pub fn start(capacities: Capacities) -> Self {
        let mut stage = Stage { capacities, buffers: Buffers::patterned(&capacities) };
        stage.done(Call::Start(capacities));
        stage
    }

    /// Makes a call on both sides: answer, words and bytes must be the same.
    pub fn make(&mut self, call: Call) -> Answer {
        let mut other = self.buffers.clone();
        let answer = call.make(&LIBRARY, &mut self.buffers);
        let again = call.make(&PLAIN, &mut other);
        assert_eq!(answer, again, "{call:?}: {} answers the first, {} the second", LIBRARY.name, PLAIN.name);
        assert!(self.buffers == other, "{call:?}: {} and {} leave different buffers", LIBRARY.name, PLAIN.name);
        answer
    }

    /// The same for a call that must be done.
    pub fn done(&mut self, call: Call) -> Answer {
        let answer = self.make(call);
        assert_eq!(answer.no(), DONE, "{call:?}: {answer:?}");
        answer
    }

    /// So many entries are free in each pool but that of the mailbox entries, some of whose messages are in hands.
    pub fn expect_free(&mut self, expected: [u64; 5]) {
        let Answer::Report(report) = self.done(Call::Report) else { unreachable!("report answers a report") };
        let [actors, _, data, links, monitors, timers] = report.free;
        assert_eq!(
            [actors, data, links, monitors, timers],
            expected,
            "free actors, data entries, links, monitors, timers"
        );
    }

    /// The caller waits for what does not come: for ever, or so many milliseconds.
    fn wait_in_vain(&mut self, wait: i64) {
        let answer = self.make(Call::Receive(ANY_SENDER, NOTIFY, ANY_TAG - 1, wait));
        assert_eq!(answer.no(), WAITING, "{answer:?}");
    }

    fn actors(&self) -> u64 {
        self.capacities[0]
    }

    /// The first id of a slot.
    pub fn id(slot: u64) -> u64 {
        ACTOR_FACTOR + slot
    }

    /// So many actors of one level; the first of them runs.
    pub fn with_actors(capacities: Capacities, count: u64) -> Self {
        let mut stage = Stage::start(capacities);
        for _ in 0..count {
            stage.done(Call::Spawn(1));
        }
        stage.done(Call::Next);
        stage
    }

    /// Hands the turn on.
    pub fn turn(&mut self) {
        self.done(Call::Yield);
        self.done(Call::Next);
    }

    /// Nothing but the running actor.
    pub fn empty(capacities: Capacities) -> Self {
        Stage::with_actors(capacities, 1)
    }

    /// A bus, to which the running actor is subscribed.
    fn bus(&mut self) {
        self.done(Call::Bus(4, 4, 0, 0));
        self.done(Call::Subscribe(0));
    }

    /// Three actors; the first runs, and has a message in hand and one in its mailbox, a timer, a link with the second and a monitor on it, and a bus
    /// to read from.
    pub fn few(capacities: Capacities) -> Self {
        let mut stage = Stage::with_actors(capacities, 3);
        let (me, other) = (Stage::id(0), Stage::id(1));
        stage.done(Call::Link(other));
        stage.done(Call::Monitor(other));
        stage.done(Call::After(1_000_000));
        stage.done(Call::Notify(me, 1, 8));
        stage.done(Call::Notify(me, 2, 8));
        stage.done(receive_any());
        stage.bus();
        stage.done(Call::Publish(0, 8));
        stage
    }

    /// Every pool is full but for `left` entries: messages of many lengths in the mailboxes of the first actors and in some hands, some actors waiting,
    /// links, monitors and timers, and a bus on which nothing stands. The first actor runs.
    pub fn full(capacities: Capacities, left: u64) -> Self {
        let [actors, mailboxes, data, ..] = capacities;
        let mut stage = Stage::with_actors(capacities, actors - left);
        let recipients = (actors - left).min(RECIPIENTS);
        for number in 0..mailboxes.min(data) - left {
            let length = (number * 37 % 253) as usize;
            stage.done(Call::Notify(Stage::id(number % recipients), 1 + number % 5, length));
        }
        stage.fill_ties(left);
        for slot in 1..actors - left {
            match slot % 8 {
                3 if slot < recipients => {
                    stage.done(receive_any());
                }
                2 => stage.wait_in_vain(-1),
                7 => stage.wait_in_vain(60_000 + slot as i64),
                _ => {}
            }
            stage.give_way(slot);
        }
        stage.expect_free([left; 5]);
        stage.bus();
        stage
    }

    /// Whoever still runs yields, and the next one runs.
    fn give_way(&mut self, slot: u64) {
        if slot % 8 != 2 && slot % 8 != 7 {
            self.done(Call::Yield);
        }
        self.done(Call::Next);
    }

    /// Each actor in its turn takes its part of the links, monitors and timers, all but `left` of each pool; then the second one runs.
    fn fill_ties(&mut self, left: u64) {
        let actors = self.actors() - left;
        let [_, _, _, links, monitors, timers] = self.capacities;
        let mut free = [links - left, monitors - left, timers - left];
        for slot in 0..actors {
            let (mine, after_me) = (Stage::id(slot), actors - slot);
            for step in 1..=part(&mut free[0], links, after_me) {
                self.done(Call::Link(Stage::id((slot + step) % actors)));
            }
            for step in 1..=part(&mut free[1], monitors, after_me) {
                self.done(Call::Monitor(Stage::id((slot + 2 * step - 1) % actors)));
            }
            for step in 0..part(&mut free[2], timers, after_me) {
                let time = 1_000_000 + 977 * (mine % 13) + step;
                self.done(if slot % 2 == 0 { Call::After(time) } else { Call::Every(time) });
            }
            self.turn();
        }
        self.turn();
    }
}

/// How many of what is free one of so many takes, so that all is taken in the end.
fn part(free: &mut u64, size: u64, takers: u64) -> u64 {
    let taken = if size == 0 { 0 } else { free.div_ceil(takers) };
    *free -= taken;
    taken
}

pub fn receive_any() -> Call {
    Call::Receive(ANY_SENDER, ANY_CLASS, ANY_TAG, 0)
}
