//! Start: every entry free, ages and clock 0. And report: how many entries are free.

use crate::answer::Outcome;
use crate::pools;
use crate::tables::{needed, sizes, Tables, BIT_WORDS, HEAD};
use model::limits::Capacities;
use model::{Report, DONE, MALFORMED};

/// A fresh runtime in the two buffers, whatever they held.
pub fn start(words: &mut [u64], bytes: &mut [u8], capacities: Capacities) -> u64 {
    let Some(sizes) = sizes(&capacities) else { return MALFORMED };
    let (least_words, least_bytes) = needed(&sizes);
    if words.len() < least_words || bytes.len() < least_bytes {
        return MALFORMED;
    }
    words[..least_words].fill(0);
    bytes[..least_bytes].fill(0);
    words[..6].copy_from_slice(&capacities);
    words[HEAD..HEAD + BIT_WORDS].copy_from_slice(&pools::all_free(sizes[1]));
    words[HEAD + BIT_WORDS..HEAD + 2 * BIT_WORDS].copy_from_slice(&pools::all_free(sizes[2]));
    DONE
}

/// The six free counts.
pub fn report(tables: &mut Tables) -> Outcome<Report> {
    let free_links = tables.links.one.iter().filter(|&&end| end == 0).count() as u64;
    let free = [
        pools::free_slots(tables.actors.state, tables.actors.age),
        pools::count(tables.mail_free),
        pools::count(tables.data_free),
        free_links,
        pools::free_slots(tables.monitors.watcher, tables.monitors.age),
        pools::free_slots(tables.timers.owner, tables.timers.age),
    ];
    Ok(Report { no: DONE, free })
}
