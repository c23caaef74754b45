//! The numbers of the layout and of the limits, wherever they are written down.

pub mod document;
pub mod sources;
