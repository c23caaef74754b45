//! Traces as text and as bytes, and the model's verdict on them.

pub mod lines;
pub mod text;
pub mod words;

use model::limits::{in_range, Capacities};
use model::verdict::{self, Verdict};
use numbers::document::Document;
use std::sync::OnceLock;

/// The model's verdict, with the table's length as docs/LAYOUT.md has it.
pub fn verdict(trace: &[u8]) -> Verdict {
    verdict::verdict(trace, table_suffices)
}

fn table_suffices(words: u64, caps: &Capacities) -> bool {
    static DOCUMENT: OnceLock<Document> = OnceLock::new();
    let document = DOCUMENT.get_or_init(|| Document::read().unwrap_or_else(|what| panic!("{what}")));
    in_range(caps) && words >= document.words.at(caps)
}
