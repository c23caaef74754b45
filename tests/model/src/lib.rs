//! Document 01, with the requests that came later, written down a second time, in plain Rust and in data structures of its own.
//! It shares nothing with the library: no table, no layout, no definition. The differential test
//! drives both with the same calls and compares every answer.

pub mod answers;
pub mod buses;
pub mod calls;
pub mod limits;
pub mod pool;
pub mod records;
pub mod state;
pub mod trace;
pub mod verdict;

pub use answers::*;
pub use calls::Model;
pub use state::State;
