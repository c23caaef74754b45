//! One call on both sides, and everything that must agree.

use crate::call::{Answer, Call};
use crate::layout;
use crate::traced;
use model::answers::is_refusal;
use model::limits::bytes_needed;
use model::{Model, State};
use std::fmt;

/// The first thing that did not agree.
#[derive(Debug)]
pub struct Difference {
    pub number: u64,
    pub call: String,
    pub what: String,
}

impl fmt::Display for Difference {
    fn fmt(&self, f: &mut fmt::Formatter) -> fmt::Result {
        write!(f, "call {}: {}\n{}", self.number, self.call, self.what)
    }
}

/// The two lent buffers.
#[derive(Clone)]
pub struct Buffers {
    pub words: Vec<u64>,
    pub bytes: Vec<u8>,
}

impl Buffers {
    /// How many words and bytes the named capacities need; nothing where there are none.
    fn needed(&self) -> (usize, usize) {
        match layout::capacities(&self.words, &self.bytes) {
            Some(caps) => (layout::words_needed(&caps) as usize, bytes_needed(&caps) as usize),
            None => (0, 0),
        }
    }
}

/// Makes the call on the first `lengths` words and bytes and on the model.
/// Answers the library's answer, or what differs.
pub fn make(call: &Call, buffers: &mut Buffers, lengths: (usize, usize), model: &mut Model) -> Result<Answer, String> {
    let (before, model_before) = (buffers.clone(), model.clone());
    let expected = call.on_model(model, lengths.0, lengths.1);
    let answer = call.on_library(&mut buffers.words[..lengths.0], &mut buffers.bytes[..lengths.1]);
    if answer != expected {
        return Err(format!("library: {answer:?}\nmodel:   {expected:?}"));
    }
    traced::compare_writer(&traced::record(call, &answer, lengths))
        .map_err(|what| format!("{answer:?}, but {what}"))?;
    // Refusals, calls that only read, an idle next, linking a linked pair: not a bit changes.
    if is_refusal(answer.no()) || call.only_reads() || *model == model_before {
        unchanged(&before, buffers, (0, 0)).map_err(|what| format!("{answer:?}, but {what}"))?;
        return Ok(answer);
    }
    // A start changes what the new capacities need, any other call what the old ones need.
    let needed = if call.is_start() { buffers.needed() } else { before.needed() };
    unchanged(&before, buffers, needed).map_err(|what| format!("{answer:?}, but past the needed ones {what}"))?;
    same_state(buffers, lengths, model).map_err(|what| format!("{answer:?}, but {what}"))?;
    Ok(answer)
}

/// No word and byte from the given ones on has changed.
fn unchanged(before: &Buffers, after: &Buffers, from: (usize, usize)) -> Result<(), String> {
    if before.words[from.0..] != after.words[from.0..] {
        let i = (from.0..before.words.len()).find(|&i| before.words[i] != after.words[i]).unwrap_or(from.0);
        return Err(format!("word {i} changed from {} to {}", before.words[i], after.words[i]));
    }
    if before.bytes[from.1..] != after.bytes[from.1..] {
        let i = (from.1..before.bytes.len()).find(|&i| before.bytes[i] != after.bytes[i]).unwrap_or(from.1);
        return Err(format!("byte {i} changed from {} to {}", before.bytes[i], after.bytes[i]));
    }
    Ok(())
}

/// The buffers are sound and say what the model says.
fn same_state(buffers: &Buffers, lengths: (usize, usize), model: &Model) -> Result<(), String> {
    let left = layout::decode(&buffers.words[..lengths.0], &buffers.bytes[..lengths.1]);
    match (&left, &model.state) {
        (library, model) if library == model => Ok(()),
        (Some(library), Some(model)) => Err(format!("it left another state: {}", first_difference(library, model))),
        _ => Err("it left buffers that are not sound".to_string()),
    }
}

/// Names the first part of two states that differs.
fn first_difference(library: &State, model: &State) -> String {
    let parts = [
        in_lists("clock", &[library.clock], &[model.clock]),
        in_lists("actor slot", &library.actors.slots, &model.actors.slots),
        in_lists("queue place", &library.queue, &model.queue),
        in_lists("mailbox entry", &library.letters.entries, &model.letters.entries),
        in_lists("arrival place", &library.arrivals, &model.arrivals),
        in_lists("data entry", &library.data.entries, &model.data.entries),
        in_lists("link", &library.links.entries, &model.links.entries),
        in_lists("monitor slot", &library.monitors.slots, &model.monitors.slots),
        in_lists("timer slot", &library.timers.slots, &model.timers.slots),
        in_lists("bus", &library.buses, &model.buses),
        in_lists("published", &library.values, &model.values),
    ];
    parts.into_iter().flatten().next().unwrap_or_default()
}

fn in_lists<T: PartialEq + fmt::Debug>(what: &str, library: &[T], model: &[T]) -> Option<String> {
    let longest = library.len().max(model.len());
    let i = (0..longest).find(|&i| library.get(i) != model.get(i))?;
    Some(format!("{what} {i}\nlibrary: {:?}\nmodel:   {:?}", library.get(i), model.get(i)))
}
