//! The two buffers as columns: a slice for each column of docs/LAYOUT.md, in the order of its rows.

use model::limits::{Capacities, LARGEST, MAX_BUSES, MAX_SUBSCRIBERS, SMALLEST};

/// The words before the free bits: six capacities, then these.
pub const HEAD: usize = 16;
pub const CLOCK: usize = 6;
pub const RUNNING: usize = 7;
pub const QUEUED: usize = 8;
pub const ARRIVED: usize = 9;
pub const ISSUED: usize = 10;
pub const BUSES: usize = 11;
pub const SPARE: usize = 12;

/// Words of the free bits of one pool.
pub const BIT_WORDS: usize = 4;
pub const ENTRY: usize = 256;
/// The seats of one bus.
pub const SEATS: usize = MAX_SUBSCRIBERS as usize;

/// A data entry: header, payload, zeros.
pub type Entry = [u8; ENTRY];
/// Free bits, a bit for each entry.
pub type Bits = [u64; BIT_WORDS];
/// A word for each bus.
pub type EachBus = [u64; MAX_BUSES];
/// The seats of a bus: the slot in each, one up.
pub type Seats = [u64; SEATS];

pub struct Buses<'a> {
    pub size: &'a mut EachBus,
    pub limit: &'a mut EachBus,
    pub reads: &'a mut EachBus,
    pub age: &'a mut EachBus,
    pub seats: &'a mut [Seats; MAX_BUSES],
}

pub struct Actors<'a> {
    pub state: &'a mut [u64],
    pub priority: &'a mut [u64],
    pub reason: &'a mut [u64],
    pub age: &'a mut [u64],
    pub hand: &'a mut [u64],
    pub want_sender: &'a mut [u64],
    pub want_class: &'a mut [u64],
    pub want_tag: &'a mut [u64],
    pub deadline: &'a mut [u64],
    pub queue: &'a mut [u64],
}

pub struct Mails<'a> {
    pub owner: &'a mut [u64],
    pub data: &'a mut [u64],
    pub arrival: &'a mut [u64],
}

pub struct Datas<'a> {
    pub sender: &'a mut [u64],
    pub length: &'a mut [u64],
    /// What the next three say of a bus's value, and the row of all values.
    pub bus: &'a mut [u64],
    pub readers: &'a mut [u64],
    pub published: &'a mut [u64],
    pub issue: &'a mut [u64],
    pub entries: &'a mut [Entry],
}

pub struct Links<'a> {
    pub one: &'a mut [u64],
    pub two: &'a mut [u64],
}

pub struct Monitors<'a> {
    pub watcher: &'a mut [u64],
    pub watched: &'a mut [u64],
    pub age: &'a mut [u64],
}

pub struct Timers<'a> {
    pub owner: &'a mut [u64],
    pub age: &'a mut [u64],
    pub due: &'a mut [u64],
    pub interval: &'a mut [u64],
}

/// All columns that a call reads or writes. A pool's columns are as long as its capacity.
pub struct Tables<'a> {
    pub head: &'a mut [u64; HEAD],
    pub mail_free: &'a mut Bits,
    pub data_free: &'a mut Bits,
    pub buses: Buses<'a>,
    pub actors: Actors<'a>,
    pub mails: Mails<'a>,
    pub datas: Datas<'a>,
    pub links: Links<'a>,
    pub monitors: Monitors<'a>,
    pub timers: Timers<'a>,
}

/// What is left of a table while its columns are taken from the front.
struct Rest<'a>(&'a mut [u64]);

impl<'a> Rest<'a> {
    fn column(&mut self, size: usize) -> &'a mut [u64] {
        let (column, rest) = std::mem::take(&mut self.0).split_at_mut(size);
        self.0 = rest;
        column
    }

    fn bits(&mut self) -> Option<&'a mut Bits> {
        self.column(BIT_WORDS).first_chunk_mut()
    }

    fn each_bus(&mut self) -> Option<&'a mut EachBus> {
        self.column(MAX_BUSES).first_chunk_mut()
    }

    fn seats(&mut self) -> Option<&'a mut [Seats; MAX_BUSES]> {
        self.column(MAX_BUSES * SEATS).as_chunks_mut().0.first_chunk_mut()
    }
}

/// Each pool's size, where all are in range.
pub fn sizes(capacities: &Capacities) -> Option<[usize; 6]> {
    let in_range = (0..6).all(|pool| (SMALLEST[pool]..=LARGEST[pool]).contains(&capacities[pool]));
    in_range.then(|| capacities.map(|capacity| capacity as usize))
}

/// How many words and bytes pools of these sizes need.
pub fn needed(sizes: &[usize; 6]) -> (usize, usize) {
    let [actors, mails, datas, links, monitors, timers] = *sizes;
    let pools = 10 * actors + 3 * mails + 6 * datas + 2 * links + 3 * monitors + 4 * timers;
    (HEAD + 2 * BIT_WORDS + MAX_BUSES * (4 + SEATS) + pools, ENTRY * datas)
}

impl<'a> Tables<'a> {
    /// The columns, where the capacities that the table names are in range and both buffers long enough.
    #[inline]
    pub fn open(words: &'a mut [u64], bytes: &'a mut [u8]) -> Option<Self> {
        let sizes = sizes(words.first_chunk()?)?;
        let (least_words, least_bytes) = needed(&sizes);
        if words.len() < least_words || bytes.len() < least_bytes {
            return None;
        }
        let (head, rest) = words.split_first_chunk_mut()?;
        Tables::columns(head, Rest(rest), &mut bytes[..least_bytes], &sizes)
    }

    #[inline]
    fn columns(head: &'a mut [u64; HEAD], mut rest: Rest<'a>, area: &'a mut [u8], sizes: &[usize; 6]) -> Option<Self> {
        let [actors, mails, datas, links, monitors, timers] = *sizes;
        let (mail_free, data_free) = (rest.bits()?, rest.bits()?);
        let (size, limit, reads, age) = (rest.each_bus()?, rest.each_bus()?, rest.each_bus()?, rest.each_bus()?);
        let buses = Buses { size, limit, reads, age, seats: rest.seats()? };
        let mut next = |size| rest.column(size);
        let actors = Actors {
            state: next(actors),
            priority: next(actors),
            reason: next(actors),
            age: next(actors),
            hand: next(actors),
            want_sender: next(actors),
            want_class: next(actors),
            want_tag: next(actors),
            deadline: next(actors),
            queue: next(actors),
        };
        let mails = Mails { owner: next(mails), data: next(mails), arrival: next(mails) };
        let datas = Datas {
            sender: next(datas),
            length: next(datas),
            bus: next(datas),
            readers: next(datas),
            published: next(datas),
            issue: next(datas),
            entries: area.as_chunks_mut().0,
        };
        let links = Links { one: next(links), two: next(links) };
        let monitors = Monitors { watcher: next(monitors), watched: next(monitors), age: next(monitors) };
        let timers = Timers { owner: next(timers), age: next(timers), due: next(timers), interval: next(timers) };
        Some(Tables { head, mail_free, data_free, buses, actors, mails, datas, links, monitors, timers })
    }
}
