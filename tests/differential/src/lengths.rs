//! How long the buffers must be: start at just the lengths that docs/LAYOUT.md gives, and in buffers one word or one byte shorter.

use crate::call::{Answer, Call};
use crate::compare::{make, Buffers, Difference};
use crate::layout::words_needed;
use model::limits::*;
use model::{Model, DONE, MALFORMED};

pub fn compare_lengths() -> Result<(), Difference> {
    samples().into_iter().try_for_each(start_at)
}

/// Start answers 0 at the needed lengths and 1 in shorter buffers, and the model agrees.
fn start_at(caps: Capacities) -> Result<(), Difference> {
    let (words, bytes) = (words_needed(&caps) as usize, bytes_needed(&caps) as usize);
    for (lengths, no) in [((words - 1, bytes), MALFORMED), ((words, bytes - 1), MALFORMED), ((words, bytes), DONE)] {
        let mut buffers = Buffers { words: vec![u64::MAX; words], bytes: vec![255; bytes] };
        let call = Call::Start(caps);
        let wrong = |what| Difference { number: 0, call: format!("{call:?} with {lengths:?} words and bytes"), what };
        let answer = make(&call, &mut buffers, lengths, &mut Model::unsound()).map_err(wrong)?;
        if answer != Answer::Number(no) {
            return Err(wrong(format!(
                "library: {answer:?}, where docs/LAYOUT.md needs {words} words and {bytes} bytes"
            )));
        }
    }
    Ok(())
}
