//! The searches of the free bits in two forms, as the crate `searches` has them: bit by bit and word by word, side by side in one run.

use crate::timing::median;
use std::hint::black_box;
use std::time::Instant;

extern "C" {
    fn lowest_by_bits(words: *const u64, len: usize, entries: usize) -> usize;
    fn lowest_by_words(words: *const u64, len: usize, entries: usize) -> usize;
    fn count_by_bits(words: *const u64, len: usize, entries: usize) -> usize;
    fn count_by_words(words: *const u64, len: usize, entries: usize) -> usize;
}

type Search = unsafe extern "C" fn(*const u64, usize, usize) -> usize;

/// The free bits of a pool of the largest capacity.
type Bits = [u64; 4];
const ENTRIES: usize = 256;

/// How often a search is made in one sample, and how many samples there are.
const OFTEN: usize = 1_000;
const SAMPLES: usize = 301;

fn answer(search: Search, bits: &Bits) -> usize {
    // SAFETY: pointer and length are those of a live array.
    unsafe { search(bits.as_ptr(), bits.len(), ENTRIES) }
}

/// Nanoseconds of one search, from a sample of many.
#[inline(never)]
fn nanoseconds(search: Search, bits: &Bits) -> f64 {
    let began = Instant::now();
    for _ in 0..OFTEN {
        black_box(answer(black_box(search), black_box(bits)));
    }
    began.elapsed().as_nanos() as f64 / OFTEN as f64
}

/// The bits of a pool whose entries from this one on are free.
fn free_from(entry: usize) -> Bits {
    std::array::from_fn(|word| (0..64).filter(|bit| 64 * word + bit >= entry).fold(0, |bits, bit| bits | 1 << bit))
}

/// Both forms on the same bits, once both give what is due; a row of the table.
fn row(name: &str, [by_bits, by_words]: [Search; 2], entry: usize, due: usize) {
    let bits = free_from(entry);
    for search in [by_bits, by_words] {
        assert_eq!(answer(search, &bits), due, "{name}, free from {entry} on");
    }
    let (mut slow, mut quick) = (Vec::new(), Vec::new());
    for _ in 0..SAMPLES {
        slow.push(nanoseconds(by_bits, &bits));
        quick.push(nanoseconds(by_words, &bits));
    }
    let ratio = median(slow.iter().zip(&quick).map(|(slow, quick)| slow / quick).collect());
    println!("| {name} | {entry} | {:.1} | {:.1} | {ratio:.1} |", median(slow), median(quick));
}

pub fn print() {
    println!("\nThe free bits of a pool of {ENTRIES} entries, searched bit by bit and word by word\n");
    println!("| search | first free entry | bit by bit ns | word by word ns | times as quick |");
    println!("|---|---|---|---|---|");
    for entry in [0, 128, 255, ENTRIES] {
        row("the lowest free entry", [lowest_by_bits, lowest_by_words], entry, entry);
    }
    for entry in [0, 128, 255, ENTRIES] {
        row("how many are free", [count_by_bits, count_by_words], entry, ENTRIES - entry);
    }
}
