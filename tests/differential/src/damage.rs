//! Damage to one word or byte. `must_refuse` lists damage after which every call but start answers 7.

use crate::layout::{self, *};
use crate::random::Random;
use model::buses::{Bus, Value};
use model::limits::*;
use model::state::{Activity, Actor, State};

#[derive(Debug, Clone, Copy, PartialEq, Eq)]
pub enum Place {
    Word(usize),
    Byte(usize),
}

#[derive(Debug, Clone, Copy)]
pub struct Damage {
    pub what: &'static str,
    pub place: Place,
    pub value: u64,
}

impl Damage {
    pub fn apply(&self, words: &mut [u64], bytes: &mut [u8]) {
        match self.place {
            Place::Word(i) => words[i] = self.value,
            Place::Byte(i) => bytes[i] = self.value as u8,
        }
    }

    fn changes(&self, words: &[u64], bytes: &[u8]) -> bool {
        match self.place {
            Place::Word(i) => words[i] != self.value,
            Place::Byte(i) => bytes[i] != self.value as u8,
        }
    }
}

/// One bit, or one whole word or byte, anywhere in the buffers.
pub fn anywhere(random: &mut Random, words: &[u64], bytes: &[u8]) -> Damage {
    let flip = |random: &mut Random, old: u64, bits: u64| match random.below(4) {
        0 => old ^ 1 << random.below(bits),
        1 => old.wrapping_add(1),
        2 => random.below(8),
        _ => random.bits(),
    };
    if random.percent(75) || bytes.is_empty() {
        let i = some_word(random, words.len());
        Damage { what: "any word", place: Place::Word(i), value: flip(random, words[i], 64) }
    } else {
        let i = random.index(bytes.len());
        Damage { what: "any byte", place: Place::Byte(i), value: flip(random, u64::from(bytes[i]), 8) & 255 }
    }
}

/// A word, and seldom one of the seats, which are most of a small table.
fn some_word(random: &mut Random, words: usize) -> usize {
    let seats = layout::starts(&SMALLEST)[SEAT]..layout::starts(&SMALLEST)[SEAT + 1];
    loop {
        let i = random.index(words);
        if !seats.contains(&i) || random.once_in(8) {
            return i;
        }
    }
}

/// Collects damage for a sound state.
struct Table<'a> {
    state: &'a State,
    caps: Capacities,
    starts: [usize; REST + 1],
    words: &'a [u64],
    found: Vec<Damage>,
}

/// All damage of the list that can be done to these sound buffers.
pub fn must_refuse(state: &State, words: &[u64], bytes: &[u8]) -> Vec<Damage> {
    let caps = state.capacities();
    let mut table = Table { state, caps, starts: layout::starts(&caps), words, found: Vec::new() };
    table.header();
    table.free_bits();
    table.actors();
    table.lists();
    table.letters();
    table.data();
    table.buses();
    table.row_of_values();
    table.links();
    table.monitors();
    table.timers();
    table.found.retain(|damage| damage.changes(words, bytes));
    table.found
}

impl Table<'_> {
    fn word(&mut self, what: &'static str, column: usize, entry: usize, value: u64) {
        let place = Place::Word(self.starts[column] + entry);
        self.found.push(Damage { what, place, value });
    }

    fn byte(&mut self, what: &'static str, index: usize, value: u64) {
        self.found.push(Damage { what, place: Place::Byte(index), value });
    }

    fn at(&self, column: usize, entry: usize) -> u64 {
        self.words[self.starts[column] + entry]
    }

    fn free_actor(&self) -> Option<usize> {
        self.state.actors.slots.iter().position(|s| s.held.is_none())
    }

    fn header(&mut self) {
        for pool in 0..6 {
            self.word("capacity above its range", CAPACITIES[pool], 0, LARGEST[pool] + 1);
            self.word("capacity far above its range", CAPACITIES[pool], 0, u64::MAX);
        }
        for pool in 0..3 {
            self.word("capacity below its range", CAPACITIES[pool], 0, 0);
        }
        self.word("clock above its range", CLOCK, 0, MAX_CLOCK + 1);
        for spare in 0..SIZES[SPARE].fixed as usize {
            self.word("spare word", SPARE, spare, 1);
        }
        self.running();
        let counts =
            [("queue count", QUEUED), ("arrival count", ARRIVED), ("value count", ISSUED), ("bus count", BUSES)];
        for (what, column) in counts {
            let count = self.at(column, 0);
            self.word(what, column, 0, count + 1);
            self.word(what, column, 0, count.wrapping_sub(1));
            self.word(what, column, 0, u64::MAX);
        }
    }

    fn running(&mut self) {
        for slot in 0..=self.caps[0] {
            self.word("running slot", RUNNING, 0, slot);
        }
        self.word("running slot", RUNNING, 0, self.caps[0] + 1);
        self.word("running slot", RUNNING, 0, u64::MAX);
    }

    fn free_bits(&mut self) {
        for (column, size) in [(MAIL_FREE, self.caps[1] as usize), (DATA_FREE, self.caps[2] as usize)] {
            for bit in (0..256).step_by(5) {
                let flipped = self.at(column, bit / 64) ^ 1 << (bit % 64);
                let what = if bit < size { "free bit" } else { "free bit past the capacity" };
                self.word(what, column, bit / 64, flipped);
            }
        }
    }

    fn actors(&mut self) {
        for i in 0..self.caps[0] as usize {
            self.word("age above the limit", AGE, i, MAX_AGE + 1);
            self.word("priority above 3", PRIORITY, i, 4);
            self.word("state above 3", STATE, i, 4);
            self.word("hand past the data entries", HAND, i, self.caps[2] + 1);
            match self.state.actors.get(i).cloned() {
                None => self.free_slot(i),
                Some(actor) => self.live_slot(i, &actor),
            }
        }
    }

    fn free_slot(&mut self, i: usize) {
        for column in [STATE, PRIORITY, REASON, HAND, WANT_SENDER, WANT_CLASS, WANT_TAG, DEADLINE] {
            self.word("word of a free actor slot", column, i, 1);
        }
    }

    fn live_slot(&mut self, i: usize, actor: &Actor) {
        self.word("live actor of age 0", AGE, i, 0);
        self.word("unknown state", STATE, i, u64::MAX);
        self.word("hand is a free entry or another's", HAND, i, 1 + u64::from(actor.hand == Some(0)));
        match &actor.activity {
            Activity::Runnable(_) => {
                self.word("reason above 2", REASON, i, 3);
                self.not_waiting(i);
                self.other_states(i, 1);
            }
            Activity::Running => {
                self.word("reason of a running actor", REASON, i, 1);
                self.not_waiting(i);
                self.other_states(i, 2);
            }
            Activity::Waiting { .. } => {
                self.word("reason of a waiting actor", REASON, i, 2);
                self.waiting(i);
                self.other_states(i, 3);
            }
        }
    }

    /// A state alone never changes soundly: queue or running slot no longer agree.
    fn other_states(&mut self, i: usize, state: u64) {
        for other in (1..=3).filter(|&other| other != state) {
            self.word("state", STATE, i, other);
        }
    }

    fn not_waiting(&mut self, i: usize) {
        for column in [WANT_SENDER, WANT_CLASS, WANT_TAG] {
            self.word("filter of an actor that does not wait", column, i, 1);
        }
        self.word("deadline of an actor that does not wait", DEADLINE, i, self.state.clock + 1);
    }

    fn waiting(&mut self, i: usize) {
        self.word("filter's tag too large", WANT_TAG, i, ANY_TAG + 1);
        for class in [5, 14, 16, u64::MAX] {
            self.word("filter's class not legal", WANT_CLASS, i, class);
        }
        if self.state.clock > 0 {
            self.word("deadline not later than the clock", DEADLINE, i, self.state.clock);
        }
        self.word("deadline above its range", DEADLINE, i, MAX_DEADLINE + 1);
    }

    fn lists(&mut self) {
        let (queued, arrived) = (self.state.queue.len(), self.state.arrivals.len());
        for (column, count, size) in [(QUEUE, queued, self.caps[0]), (ARRIVAL, arrived, self.caps[1])] {
            for i in 0..size as usize {
                if i >= count {
                    self.word("list word past the count", column, i, 1);
                } else {
                    self.word("list word past the pool", column, i, size);
                    let other = if i == 0 { count - 1 } else { 0 };
                    let twice = self.at(column, other);
                    self.word("list names an entry twice", column, i, twice);
                }
            }
        }
    }

    fn letters(&mut self) {
        for i in 0..self.caps[1] as usize {
            self.word("mailbox owner past the actors", MAIL_OWNER, i, self.caps[0] + 1);
            self.word("mailbox data past the entries", MAIL_DATA, i, self.caps[2] + 1);
            if self.state.letters.get(i).is_none() {
                self.word("word of a free mailbox entry", MAIL_OWNER, i, 1);
                self.word("word of a free mailbox entry", MAIL_DATA, i, 1);
                continue;
            }
            self.word("mailbox entry without owner", MAIL_OWNER, i, 0);
            self.word("mailbox entry without data", MAIL_DATA, i, 0);
            if let Some(free) = self.free_actor() {
                self.word("mailbox of a free slot", MAIL_OWNER, i, free as u64 + 1);
            }
            let other = 1 + (self.at(MAIL_DATA, i) % self.caps[2]);
            self.word("mailbox data that is free or another's", MAIL_DATA, i, other);
        }
    }

    fn data(&mut self) {
        for i in 0..self.caps[2] as usize {
            self.word("length above 252", LENGTH, i, 253);
            self.word("sender too large", SENDER, i, (MAX_AGE + 1) * ACTOR_FACTOR);
            self.word("sender too large", SENDER, i, ANY_SENDER);
            if self.caps[0] < ACTOR_FACTOR {
                self.word("sender past the actors", SENDER, i, ACTOR_FACTOR + self.caps[0]);
            }
            let value = self.state.values.iter().find(|value| value.data == i).cloned();
            match (self.state.data.get(i).cloned(), value) {
                (None, _) => self.free_data(i),
                (Some(content), Some(value)) => self.value_data(i, &value, content.payload.len()),
                (Some(message), None) => {
                    self.used_data(i, message.class, message.sender, message.payload.len());
                    self.no_value(i);
                }
            }
        }
    }

    fn no_value(&mut self, i: usize) {
        self.word("bus of what is no value", VALUE_BUS, i, 1);
        self.word("readers of what is no value", READERS, i, 1);
        self.word("readers of what is no value", READERS, i, 1 << 32);
        self.word("time of what is no value", PUBLISHED, i, 1);
    }

    fn value_data(&mut self, i: usize, value: &Value, length: usize) {
        self.word("value of no bus", VALUE_BUS, i, 0);
        self.word("value of a bus that is not made", VALUE_BUS, i, self.state.buses.len() as u64 + 1);
        self.word("value of a bus that is not made", VALUE_BUS, i, u64::MAX);
        for bus in (0..self.state.buses.len()).filter(|&bus| bus != value.bus && self.state.is_full(bus)) {
            self.word("one value too many", VALUE_BUS, i, bus as u64 + 1);
        }
        self.word("published after now", PUBLISHED, i, self.state.clock + 1);
        self.word("sender of a value", SENDER, i, ACTOR_FACTOR);
        for (offset, byte) in [(0, 1), (3, 0x10), (3, 0x48), (3, 0x08)] {
            self.byte("header of a value", 256 * i + offset, byte);
        }
        self.bytes_past(i, length);
        self.readers(i, &self.state.buses[value.bus]);
    }

    /// A bit of each seat in the wrong half of a value's readers, or in both.
    fn readers(&mut self, i: usize, bus: &Bus) {
        let word = self.at(READERS, i);
        for seat in [0, 1, 2, 3, 15, 31] {
            let (read, unread) = (1 << seat, 1 << (SEATS + seat));
            match bus.seats.get(seat) {
                Some(Some(_)) => self.word("has read it, and still may", READERS, i, word | read | unread),
                _ => self.word("nobody may still read it", READERS, i, word & !read | unread),
            }
        }
    }

    fn buses(&mut self) {
        for b in 0..MAX_BUSES {
            self.word("entries above 16", BUS_SIZE, b, MAX_BUS_ENTRIES + 1);
            self.word("subscribers above 32", BUS_SEATS, b, MAX_SUBSCRIBERS + 1);
            self.word("reads above 32", BUS_READS, b, MAX_READS + 1);
            self.word("age above its range", BUS_AGE, b, MAX_BUS_AGE + 1);
            match self.state.buses.get(b).cloned() {
                None => self.no_bus(b),
                Some(bus) => self.bus(b, &bus),
            }
        }
    }

    fn no_bus(&mut self, b: usize) {
        for column in [BUS_SIZE, BUS_SEATS, BUS_READS, BUS_AGE] {
            self.word("word of a bus that is not made", column, b, 1);
        }
        self.word("seat of a bus that is not made", SEAT, SEATS * b, 1);
        self.word("seat of a bus that is not made", SEAT, SEATS * b + SEATS - 1, 1);
    }

    fn bus(&mut self, b: usize, bus: &Bus) {
        self.word("bus for no entries", BUS_SIZE, b, 0);
        self.word("bus for no subscribers", BUS_SEATS, b, 0);
        let values = self.state.values_of(b).len() as u64;
        if values > 1 {
            self.word("more values than entries", BUS_SIZE, b, values - 1);
        }
        if let Some(&last) = bus.taken_seats().last() {
            self.word("seat past the subscribers", BUS_SEATS, b, last as u64);
        }
        for n in bus.seats.len()..SEATS {
            self.word("seat past the subscribers", SEAT, SEATS * b + n, 1);
        }
        (0..bus.seats.len()).for_each(|n| self.seat(b, n, bus));
    }

    fn seat(&mut self, b: usize, n: usize, bus: &Bus) {
        let place = SEATS * b + n;
        self.word("subscriber past the actors", SEAT, place, self.caps[0] + 1);
        self.word("subscriber past the actors", SEAT, place, u64::MAX);
        if let Some(free) = self.free_actor() {
            self.word("dead subscriber", SEAT, place, free as u64 + 1);
        }
        if let Some(&other) = bus.taken_seats().iter().find(|&&other| other != n) {
            let twice = self.at(SEAT, SEATS * b + other);
            self.word("subscriber twice", SEAT, place, twice);
        }
        if self.state.values.iter().any(|value| value.bus == b && value.unread.contains(&n)) {
            self.word("nobody may still read it", SEAT, place, 0);
        }
    }

    fn row_of_values(&mut self) {
        let count = self.state.values.len();
        for i in 0..self.caps[2] as usize {
            self.word("row of values: past the entries", ISSUE, i, self.caps[2] + 1);
            if i >= count {
                self.word("row of values: past its count", ISSUE, i, 1);
                continue;
            }
            self.word("row of values: none", ISSUE, i, 0);
            let other = self.at(ISSUE, if i == 0 { count - 1 } else { 0 });
            self.word("row of values: twice", ISSUE, i, other);
            let message = self.state.letters.used().map(|(_, letter)| letter.data as u64 + 1).next();
            if let Some(message) = message {
                self.word("row of values: a message", ISSUE, i, message);
            }
        }
    }

    fn free_data(&mut self, i: usize) {
        self.word("word of a free data entry", SENDER, i, ACTOR_FACTOR);
        self.word("word of a free data entry", LENGTH, i, 1);
        self.no_value(i);
        for offset in [0, 3, 4, 100, 255] {
            self.byte("byte of a free data entry", 256 * i + offset, 1);
        }
    }

    fn used_data(&mut self, i: usize, class: u64, sender: u64, length: usize) {
        self.word("sender of age 0", SENDER, i, 1);
        if class != TIMER {
            self.word("no sender", SENDER, i, 0);
        }
        if sender != 0 {
            let slot = (sender % ACTOR_FACTOR) as usize;
            let age = self.state.actors.slots[slot].age;
            self.word("sender older than its slot", SENDER, i, sender % ACTOR_FACTOR + ACTOR_FACTOR * (age + 1));
        }
        if class == TIMER || class == EXIT {
            self.record_lengths(i, length as u64);
        }
        for top in [0x10, 0x18, 0x28, 0x30, 0x40, 0x50, 0xf8, 0x08] {
            self.byte("header's class or bit 27", 256 * i + 3, top);
        }
        self.bytes_past(i, length);
    }

    /// Those of the other records, of either edition, and those beside its own.
    fn record_lengths(&mut self, i: usize, length: u64) {
        for other in [8, 12, 14, 22, length - 1, length + 1] {
            self.word("length that is not the record's", LENGTH, i, other);
        }
    }

    fn bytes_past(&mut self, i: usize, length: usize) {
        for offset in [length, (length + 252) / 2, 251] {
            if (length..252).contains(&offset) {
                self.byte("byte past a payload", 256 * i + 4 + offset, 1);
            }
        }
    }

    fn links(&mut self) {
        for i in 0..self.caps[3] as usize {
            self.pair("link", LINK_ONE, LINK_TWO, i, self.state.links.get(i).is_some());
        }
    }

    /// Damage to two actor slots side by side.
    fn pair(&mut self, what: &'static str, one: usize, two: usize, i: usize, used: bool) {
        self.word(what, one, i, self.caps[0] + 1);
        self.word(what, two, i, u64::MAX);
        if !used {
            self.word(what, one, i, 1);
            self.word(what, two, i, 1);
            return;
        }
        self.word(what, one, i, 0);
        self.word(what, two, i, self.at(one, i));
        if let Some(free) = self.free_actor() {
            self.word(what, two, i, free as u64 + 1);
        }
    }

    fn monitors(&mut self) {
        for i in 0..self.caps[4] as usize {
            let used = self.state.monitors.get(i).is_some();
            self.pair("monitor", WATCHER, WATCHED, i, used);
            self.word("monitor age above the limit", MONITOR_AGE, i, MAX_AGE + 1);
            if used {
                self.word("monitor of age 0", MONITOR_AGE, i, 0);
            }
        }
    }

    fn timers(&mut self) {
        for i in 0..self.caps[5] as usize {
            self.word("timer age above the limit", TIMER_AGE, i, MAX_AGE + 1);
            self.word("timer owner past the actors", TIMER_OWNER, i, self.caps[0] + 1);
            self.word("due time above its range", DUE, i, MAX_DUE + 1);
            self.word("interval above its range", INTERVAL, i, MAX_STEP + 1);
            if self.state.timers.get(i).is_some() {
                self.word("timer of age 0", TIMER_AGE, i, 0);
                self.word("interval below its range", INTERVAL, i, MIN_INTERVAL - 1);
                if let Some(free) = self.free_actor() {
                    self.word("timer of a free slot", TIMER_OWNER, i, free as u64 + 1);
                }
            } else {
                if self.at(TIMER_AGE, i) == 0 || self.state.actors.get(0).is_none() {
                    self.word("word of a free timer", TIMER_OWNER, i, 1);
                }
                self.word("word of a free timer", DUE, i, 1);
                self.word("word of a free timer", INTERVAL, i, 1);
            }
        }
    }
}
