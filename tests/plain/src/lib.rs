//! The calls of include/foamgangway.h in plain Rust, on the very same two buffers: the same words, the same bytes, the same answers.
//! Nothing here is proved. It is written for speed, the way a Rust programmer would write it who knows the whole layout
//! (docs/LAYOUT.md), and so it is what the library's speed is measured by (tests/speed). The differential test runs over it too.
//!
//! A call finds the columns in the buffers (tables.rs), tests them (sound.rs), and does its work on slices. Nothing is allocated, and
//! unsafe code is in the C boundary alone (boundary.rs).

#![deny(unsafe_code)]

mod actors;
mod answer;
#[allow(unsafe_code)]
pub mod boundary;
mod buses;
mod ending;
mod messages;
mod pools;
mod rows;
mod sound;
mod start;
mod tables;
mod ties;
mod timers;

pub use tables::{needed, sizes};
