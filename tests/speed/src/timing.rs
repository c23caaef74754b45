//! How long calls take on either side. Both sides work in the same buffers, which are put back before each measured part, outside of it. They take
//! turns, and which of them is first changes each time. What is told are medians of many samples, and the median of the ratios of two samples
//! that were taken one after the other: so a busy machine, which delays both, does not decide.

use crate::sides::{Call, Side, LIBRARY, PLAIN};
use crate::stage::Stage;
use std::hint::black_box;
use std::time::{Duration, Instant};

/// Nanoseconds of both sides, and how many times as long the library takes.
#[derive(Clone, Copy)]
pub struct Times {
    pub library: f64,
    pub plain: f64,
    pub ratio: f64,
}

impl Times {
    fn of(library: Vec<f64>, plain: Vec<f64>) -> Times {
        let ratios = library.iter().zip(&plain).map(|(library, plain)| library / plain).collect();
        Times { ratio: median(ratios), library: median(library), plain: median(plain) }
    }

    /// The time of one of so many calls.
    pub fn a_call(self, calls: usize) -> Times {
        Times { library: self.library / calls as f64, plain: self.plain / calls as f64, ..self }
    }
}

/// How much is measured: for so long, but at least and at most so many samples a side.
pub struct Effort {
    pub time: Duration,
    pub least: usize,
    pub most: usize,
}

/// Nanoseconds of making all these calls from a stage on, on each side, without what the clock itself takes.
pub fn measure(stage: &Stage, calls: &[Call], effort: &Effort) -> Times {
    let (mut work, empty) = (stage.clone(), nothing());
    let mut sample = |side: &Side| {
        work.buffers.copy_from(&stage.buffers);
        // At least a nanosecond, so that ratios are numbers.
        (nanoseconds(&mut work, side, calls) - empty).max(1.0)
    };
    let (mut library, mut plain) = (Vec::new(), Vec::new());
    for side in [&LIBRARY, &PLAIN] {
        sample(side); // To warm up.
    }
    let began = Instant::now();
    while library.len() < effort.least || (library.len() < effort.most && began.elapsed() < effort.time) {
        library.push(sample(&LIBRARY));
        plain.push(sample(&PLAIN));
        plain.push(sample(&PLAIN));
        library.push(sample(&LIBRARY));
    }
    Times::of(library, plain)
}

/// One sample: all calls by one side.
#[inline(never)]
fn nanoseconds(stage: &mut Stage, side: &Side, calls: &[Call]) -> f64 {
    let began = Instant::now();
    for call in calls {
        black_box(call.make(side, &mut stage.buffers));
    }
    began.elapsed().as_nanos() as f64
}

/// What the clock says of nothing.
fn nothing() -> f64 {
    median((0..999).map(|_| Instant::now().elapsed().as_nanos() as f64).collect())
}

/// The one in the middle.
pub fn median(mut samples: Vec<f64>) -> f64 {
    samples.sort_unstable_by(f64::total_cmp);
    samples[samples.len() / 2]
}
