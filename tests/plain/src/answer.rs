//! What calls share: the order of the tests, and how a refusal becomes an answer.

use crate::sound;
use crate::tables::{Tables, RUNNING};
use model::{Advanced, Copied, Ended, Made, Received, Report, Shown, Turn, DONE, NOT_NOW, UNSOUND};

/// What a call answers, or the number with which it is refused or finds nothing.
pub type Outcome<T> = Result<T, u64>;

/// An answer whose other numbers are all 0.
pub trait Bare {
    fn bare(no: u64) -> Self;
}

macro_rules! bare {
    ($($kind:ident)*) => {
        $(impl Bare for $kind {
            fn bare(no: u64) -> Self {
                $kind { no, ..Default::default() }
            }
        })*
    };
}

bare!(Made Turn Received Shown Ended Advanced Report Copied);

impl Bare for u64 {
    fn bare(no: u64) -> Self {
        no
    }
}

/// Opens the two buffers, tests them and does the work; 7 where they are not sound.
#[inline]
pub fn on_sound<T: Bare>(words: &mut [u64], bytes: &mut [u8], work: impl FnOnce(&mut Tables) -> Outcome<T>) -> T {
    let Some(mut tables) = Tables::open(words, bytes) else { return T::bare(UNSOUND) };
    if !sound::is_sound(&tables) {
        return T::bare(UNSOUND);
    }
    work(&mut tables).unwrap_or_else(T::bare)
}

/// The same for a call that needs a running actor, whose slot the work is handed: 4 where none runs.
#[inline]
pub fn by_caller<T: Bare>(
    words: &mut [u64],
    bytes: &mut [u8],
    work: impl FnOnce(&mut Tables, usize) -> Outcome<T>,
) -> T {
    on_sound(words, bytes, |tables| match tables.head[RUNNING] {
        0 => Err(NOT_NOW),
        runner => work(tables, runner as usize - 1),
    })
}

/// Refuses with a number unless something holds.
pub fn require(holds: bool, no: u64) -> Outcome<()> {
    if holds {
        Ok(())
    } else {
        Err(no)
    }
}

pub fn made(id: u64) -> Made {
    Made { no: DONE, id }
}
