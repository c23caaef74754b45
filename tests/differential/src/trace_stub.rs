//! The stand-in's writers of records, and its judgement of a record, both made of the model.

use crate::encode::store;
use crate::faults;
use crate::layout::suffices;
use crate::writers::{recorded, writers};
use model::trace::{Field, Record, Shape};
use model::verdict::Replay;
use model::{Model, MALFORMED};
use std::slice::{from_raw_parts, from_raw_parts_mut};

/// The record of a call's name, from its numbers and its payload.
fn record(name: &str, numbers: &[u64], payload: &[u8]) -> Record {
    let shape = Shape::of_name(name).expect("every writer has its kind");
    let mut numbers = numbers.iter();
    let mut field = |letter: char| match letter {
        'p' => payload_field(payload),
        's' if faults::is("record-loses-the-sign") => Field::Number(numbers.next().expect("as many") & 0xffff_ffff),
        _ => Field::Number(*numbers.next().expect("as many as the kind has")),
    };
    let args = shape.args.chars().map(&mut field).collect();
    Record { shape, args, answer: shape.answer.chars().map(field).collect() }
}

fn payload_field(payload: &[u8]) -> Field {
    if faults::is("record-keeps-long-payloads") {
        return Field::Bytes(payload.to_vec());
    }
    Field::payload(payload)
}

/// Writes a record to the front of a slice and answers its length, or 0 where the slice is too short.
fn write(out: &mut [u8], record: Record) -> usize {
    let bytes = record.bytes();
    if out.len() >= bytes.len() {
        out[..bytes.len()].copy_from_slice(&bytes);
        return bytes.len();
    }
    if faults::is("record-written-as-far-as-it-fits") {
        out.copy_from_slice(&bytes[..out.len()]);
    }
    0
}

macro_rules! stand_in_writers {
    (
        numbers { $($c:ident($($arg:ident: $ty:ty),*);)* }
        payloads { $($sent_c:ident($($before:ident: $kind:ty),*; $($after:ident: $rest:ty),*);)* }
    ) => {
        $(
            #[no_mangle]
            unsafe extern "C" fn $c(out: *mut u8, out_len: usize $(, $arg: $ty)*) -> usize {
                write(from_raw_parts_mut(out, out_len), record(recorded!($c), &[$($arg as u64),*], &[]))
            }
        )*

        $(
            #[no_mangle]
            unsafe extern "C" fn $sent_c(
                out: *mut u8, out_len: usize, $($before: $kind,)* part: *const u8, part_len: usize $(, $after: $rest)*
            ) -> usize {
                let payload = from_raw_parts(part, part_len);
                let numbers = [$($before as u64,)* $($after as u64,)*];
                write(from_raw_parts_mut(out, out_len), record(recorded!($sent_c), &numbers, payload))
            }
        )*
    };
}

writers!(stand_in_writers);

#[no_mangle]
unsafe extern "C" fn fg_replay(
    t: *mut u64,
    t_len: usize,
    p: *mut u8,
    p_len: usize,
    n: u64,
    record: *const u8,
    record_len: usize,
) -> bool {
    let (words, bytes) = (from_raw_parts_mut(t, t_len), from_raw_parts_mut(p, p_len));
    let state = if n == 0 { None } else { faults::read(words, bytes) };
    let mut replay = Replay::from(Model { state }, suffices);
    let right = judge(&mut replay, from_raw_parts(record, record_len));
    if right {
        store(&replay.model, words, bytes);
    }
    right
}

/// The model's judgement, or that of a fault.
fn judge(replay: &mut Replay, bytes: &[u8]) -> bool {
    let Some(mut record) = Record::read(bytes) else { return false };
    if faults::is("replay-begins-with-any-start") && record.shape.name == "start" && replay.model.state.is_none() {
        return record.answer == [Field::Number(MALFORMED)] || replay.is_right(bytes);
    }
    if faults::is("copied-bytes-not-judged") && record.shape.name == "read" {
        record.answer = replay.clone().answer(&record);
        return replay.is_right(&record.bytes());
    }
    if faults::is("replay-looks-at-the-first-number-alone") {
        let answer = replay.clone().answer(&record);
        record.answer.splice(1.., answer.into_iter().skip(1));
        return replay.is_right(&record.bytes());
    }
    replay.is_right(bytes)
}
