//! The ranges and special numbers of document 01, and of the requests that came later.

/// Largest capacity of each pool, in the order of the pool table.
pub const LARGEST: [u64; 6] = [256, 256, 256, 128, 128, 64];
/// Smallest capacity of each pool, in the same order.
pub const SMALLEST: [u64; 6] = [1, 1, 1, 0, 0, 0];

/// Ids of actors are age × 256 + slot, those of timers age × 64 + slot, those of monitors age × 128 + slot.
pub const ACTOR_FACTOR: u64 = 256;
pub const TIMER_FACTOR: u64 = 64;
pub const MONITOR_FACTOR: u64 = 128;
/// The age of a slot's last use.
pub const MAX_AGE: u64 = 1 << 40;

pub const MAX_CLOCK: u64 = 1 << 62;
/// Delays, intervals and steps of the clock are at most this many microseconds.
pub const MAX_STEP: u64 = (1 << 32) - 1;
/// A periodic timer's interval is at least this many microseconds.
pub const MIN_INTERVAL: u64 = 100;
/// A wait is at most this many milliseconds, a day.
pub const MAX_WAIT: i64 = 86_400_000;
pub const MAX_DUE: u64 = (1 << 62) + (1 << 32);
pub const MAX_DEADLINE: u64 = (1 << 62) + (1 << 41);

pub const MAX_PRIORITY: u64 = 3;
pub const MAX_PAYLOAD: usize = 252;
pub const ENTRY_BYTES: u64 = 256;
pub const HEADER_BYTES: u64 = 4;

/// Buses; the entries and the subscribers of one, both from 1; after how many reads, and after how many milliseconds, an entry may end.
pub const MAX_BUSES: usize = 32;
pub const MAX_BUS_ENTRIES: u64 = 16;
pub const MAX_SUBSCRIBERS: u64 = 32;
pub const MAX_READS: u64 = 32;
pub const MAX_BUS_AGE: u64 = (1 << 31) - 1;

/// No actor's id is so large, and no sender is malformed.
pub const ANY_SENDER: u64 = u64::MAX;
pub const ANY_CLASS: u64 = 15;
pub const ANY_TAG: u64 = 134_217_727;

pub const NOTIFY: u64 = 0;
pub const TIMER: u64 = 3;
pub const EXIT: u64 = 4;
/// The largest class that is named; 15 stands for any.
pub const LAST_CLASS: u64 = 4;

pub const MAX_REASON: u64 = 65_535;

/// Capacities in the order of the pool table: actors, mailboxes, data, links, monitors, timers.
pub type Capacities = [u64; 6];

pub fn in_range(caps: &Capacities) -> bool {
    (0..6).all(|i| SMALLEST[i] <= caps[i] && caps[i] <= LARGEST[i])
}

/// Capacities to try: the smallest and the largest, each pool alone at its other end, and two between.
pub fn samples() -> Vec<Capacities> {
    let mut all = vec![SMALLEST, LARGEST, [4, 16, 16, 4, 4, 4], [5, 5, 6, 3, 2, 2]];
    for pool in 0..6 {
        for (mut caps, other) in [(SMALLEST, LARGEST), (LARGEST, SMALLEST)] {
            caps[pool] = other[pool];
            all.push(caps);
        }
    }
    all
}

/// The payload area's bytes for capacities in range.
pub fn bytes_needed(caps: &Capacities) -> u64 {
    ENTRY_BYTES * caps[2]
}
