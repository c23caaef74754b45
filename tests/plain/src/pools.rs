//! Entries of a pool: the lowest that is free, one taken or freed, and the slot that an id names.

use crate::tables::Bits;
use model::limits::MAX_AGE;

/// Is this entry free?
pub fn is_free(free: &Bits, entry: usize) -> bool {
    free[entry / 64] >> (entry % 64) & 1 == 1
}

/// The lowest free entry.
pub fn lowest(free: &Bits) -> Option<usize> {
    let word = free.iter().position(|&word| word != 0)?;
    Some(64 * word + free[word].trailing_zeros() as usize)
}

pub fn take(free: &mut Bits, entry: usize) {
    free[entry / 64] &= !(1 << (entry % 64));
}

pub fn give_back(free: &mut Bits, entry: usize) {
    free[entry / 64] |= 1 << (entry % 64);
}

pub fn count(free: &Bits) -> u64 {
    free.iter().map(|word| u64::from(word.count_ones())).sum()
}

/// The free bits of a pool of this size, all free.
pub fn all_free(size: usize) -> Bits {
    std::array::from_fn(|word| match size.saturating_sub(64 * word) {
        left @ 0..64 => (1 << left) - 1,
        _ => u64::MAX,
    })
}

/// The lowest slot that nobody uses and that is not worn. A slot is in use where its word in `used` is not 0.
pub fn lowest_slot(used: &[u64], ages: &[u64]) -> Option<usize> {
    used.iter().zip(ages).position(|(&used, &age)| used == 0 && age < MAX_AGE)
}

/// How many slots can be taken.
pub fn free_slots(used: &[u64], ages: &[u64]) -> u64 {
    used.iter().zip(ages).filter(|(&used, &age)| used == 0 && age < MAX_AGE).count() as u64
}

/// The slot in use under this very id, its age included.
pub fn slot_of(id: u64, factor: u64, used: &[u64], ages: &[u64]) -> Option<usize> {
    let slot = (id % factor) as usize;
    (*used.get(slot)? != 0 && *ages.get(slot)? == id / factor).then_some(slot)
}
