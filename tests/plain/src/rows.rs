//! Sets of actor slots, a bit for each. A row has one word in a box of at most 64 actors, and four in a larger one. What is made of rows is
//! compiled for either, so that a small box does not pay for the slots that it has not.

/// Slots in one word.
pub const PER_WORD: usize = 64;
/// Words of the rows of a large box.
pub const WIDE: usize = 4;

/// A bit for each of the slots 0 to 64 × W - 1.
#[derive(Clone, Copy, PartialEq, Eq)]
pub struct Row<const W: usize>(pub [u64; W]);

impl<const W: usize> Row<W> {
    pub const EMPTY: Self = Row([0; W]);

    /// Whether this slot, which may be any number, is in the row.
    #[inline]
    pub fn has(&self, slot: u64) -> bool {
        let slot = slot as usize;
        (slot < PER_WORD * W) & (self.0[slot / PER_WORD % W] >> (slot % PER_WORD) & 1 == 1)
    }

    /// Adds a slot of the row.
    #[inline]
    pub fn add(&mut self, slot: u64) {
        let slot = slot as usize;
        self.0[slot / PER_WORD % W] |= 1 << (slot % PER_WORD);
    }

    pub fn count(&self) -> u64 {
        self.0.iter().map(|word| u64::from(word.count_ones())).sum()
    }

    pub fn is_empty(&self) -> bool {
        self.0.iter().all(|&word| word == 0)
    }

    /// Hands on the slots of the row, ascending.
    #[inline]
    pub fn each(&self, mut work: impl FnMut(usize)) {
        for (place, &word) in self.0.iter().enumerate() {
            let mut left = word;
            while left != 0 {
                work(PER_WORD * place + left.trailing_zeros() as usize);
                left &= left - 1;
            }
        }
    }
}

/// A row for each slot.
pub struct Square<const W: usize>([[Row<W>; PER_WORD]; W]);

impl<const W: usize> Square<W> {
    pub const EMPTY: Self = Square([[Row::EMPTY; PER_WORD]; W]);

    /// The row of this slot, which is one of the square.
    #[inline]
    pub fn row(&mut self, slot: u64) -> &mut Row<W> {
        &mut self.0[slot as usize / PER_WORD % W][slot as usize % PER_WORD]
    }
}
