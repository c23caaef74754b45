//! A runtime whose calls are plain Rust's, on buffers of just the needed lengths.

use model::limits::Capacities;
use model::{Report, DONE, UNSOUND};

/// Makes a call of plain Rust on a runtime's buffers.
#[macro_export]
macro_rules! call {
    ($runtime:expr, $name:ident $(, $arg:expr)*) => {{
        let (words, bytes) = (&mut $runtime.words, &mut $runtime.bytes);
        // SAFETY: pointers and lengths come from live slices that do not overlap.
        unsafe { plain::boundary::$name(words.as_mut_ptr(), words.len(), bytes.as_mut_ptr(), bytes.len() $(, $arg)*) }
    }};
}

pub struct Runtime {
    pub words: Vec<u64>,
    pub bytes: Vec<u8>,
}

impl Runtime {
    pub fn start(capacities: Capacities) -> Self {
        let (words, bytes) = plain::needed(&plain::sizes(&capacities).expect("capacities are in range"));
        let mut r = Runtime { words: vec![0; words], bytes: vec![0; bytes] };
        let [actors, mailboxes, data, links, monitors, timers] = capacities;
        assert_eq!(call!(r, start, actors, mailboxes, data, links, monitors, timers), DONE);
        r
    }

    pub fn is_sound(&mut self) -> bool {
        match call!(self, report) {
            Report { no: DONE, .. } => true,
            report => {
                assert_eq!(report, Report { no: UNSOUND, free: [0; 6] });
                false
            }
        }
    }
}
