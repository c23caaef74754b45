//! The C boundary, as include/foamgangway.h declares it, and a safe function for each call.
//! A slice passes as a pointer, then a length. Rust's borrows keep the slices of one call apart.

use crate::calls::calls;
use crate::writers::{recorded, writers};
use model::trace::{Field, Record};
use model::*;

/// Declares the functions of the calls in C, and makes the safe function of each: pointer and length of both buffers, then its numbers,
/// then pointer and length of its payload, or of the slice that it writes to, where it has one.
macro_rules! on_buffers {
    (
        numbers { $($call:ident $(($($arg:ident: $ty:ty),*))? = $c:ident, $method:ident -> $answer:ty, $chances:expr, $chosen:expr;)* }
        payloads { $($sent:ident($($with:ident: $kind:ty),*) = $sent_c:ident, $sent_method:ident -> $sent_answer:ty, $sent_chances:expr, $sent_chosen:expr;)* }
        slices { $($lent:ident($($by:ident: $sort:ty),*) = $lent_c:ident, $lent_method:ident -> $lent_answer:ty, $lent_chances:expr, $lent_chosen:expr;)* }
    ) => {
        mod raw {
            use super::*;

            extern "C" {
                $(pub fn $c(t: *mut u64, t_len: usize, p: *mut u8, p_len: usize $($(, $arg: $ty)*)?) -> $answer;)*
                $(pub fn $sent_c(
                    t: *mut u64, t_len: usize, p: *mut u8, p_len: usize, $($with: $kind,)* payload: *const u8, payload_len: usize,
                ) -> $sent_answer;)*
                $(pub fn $lent_c(
                    t: *mut u64, t_len: usize, p: *mut u8, p_len: usize, $($by: $sort,)* out: *mut u8, out_len: usize,
                ) -> $lent_answer;)*
            }
        }

        $(
            pub fn $method(t: &mut [u64], p: &mut [u8] $($(, $arg: $ty)*)?) -> $answer {
                // SAFETY: pointers and lengths come from two live slices that do not overlap.
                unsafe { raw::$c(t.as_mut_ptr(), t.len(), p.as_mut_ptr(), p.len() $($(, $arg)*)?) }
            }
        )*

        $(
            pub fn $sent_method(t: &mut [u64], p: &mut [u8], $($with: $kind,)* payload: &[u8]) -> $sent_answer {
                // SAFETY: as above; the payload is a third live slice.
                unsafe {
                    raw::$sent_c(t.as_mut_ptr(), t.len(), p.as_mut_ptr(), p.len(), $($with,)* payload.as_ptr(), payload.len())
                }
            }
        )*

        $(
            pub fn $lent_method(t: &mut [u64], p: &mut [u8], $($by: $sort,)* out: &mut [u8]) -> $lent_answer {
                // SAFETY: as above; what is written to is a third live slice.
                unsafe {
                    raw::$lent_c(t.as_mut_ptr(), t.len(), p.as_mut_ptr(), p.len(), $($by,)* out.as_mut_ptr(), out.len())
                }
            }
        )*
    };
}

calls!(on_buffers);

/// Declares the writers of records in C, and makes one safe function of them all.
macro_rules! record_writers {
    (
        numbers { $($c:ident($($arg:ident: $ty:ty),*);)* }
        payloads { $($sent_c:ident($($before:ident: $kind:ty),*; $($after:ident: $rest:ty),*);)* }
    ) => {
        mod raw_writers {
            extern "C" {
                $(pub fn $c(out: *mut u8, out_len: usize $(, $arg: $ty)*) -> usize;)*
                $(pub fn $sent_c(
                    out: *mut u8, out_len: usize, $($before: $kind,)* part: *const u8, part_len: usize $(, $after: $rest)*
                ) -> usize;)*
            }
        }

        /// Writes a record by the library's writer of its kind; a payload that is recorded by its length alone is lent as nines.
        pub fn write_record(record: &Record, out: &mut [u8]) -> usize {
            let (numbers, payload) = parts(record);
            let mut numbers = numbers.into_iter();
            let mut number = || numbers.next().expect("a record has as many numbers as its writer");
            let (to, len) = (out.as_mut_ptr(), out.len());
            match record.shape.name {
                // SAFETY: pointers and lengths come from two live slices that do not overlap.
                $(name if name == recorded!($c) => unsafe { raw_writers::$c(to, len $(, number() as $ty)*) },)*
                $(name if name == recorded!($sent_c) => unsafe {
                    raw_writers::$sent_c(
                        to, len, $(number() as $kind,)* payload.as_ptr(), payload.len() $(, number() as $rest)*
                    )
                },)*
                name => unreachable!("{name} has no writer"),
            }
        }
    };
}

writers!(record_writers);

/// The numbers of a record in their order, and its payload, empty where it has none.
fn parts(record: &Record) -> (Vec<u64>, Vec<u8>) {
    let (mut numbers, mut payload) = (Vec::new(), Vec::new());
    for field in record.args.iter().chain(&record.answer) {
        match field {
            Field::Number(number) => numbers.push(*number),
            Field::Bytes(bytes) => payload = bytes.clone(),
            Field::Long(length) => payload = vec![9; *length as usize],
        }
    }
    (numbers, payload)
}

/// Functions that are not calls on a runtime.
mod others {
    use super::*;

    extern "C" {
        pub fn fg_start(
            t: *mut u64,
            t_len: usize,
            p: *mut u8,
            p_len: usize,
            actors: u64,
            mailboxes: u64,
            data: u64,
            links: u64,
            monitors: u64,
            timers: u64,
        ) -> u64;

        pub fn fg_write_tick(out: *mut u8, len: usize, id: u64) -> u64;
        pub fn fg_read_tick(bytes: *const u8, len: usize) -> TickRead;
        pub fn fg_write_exit(out: *mut u8, len: usize, actor: u64, reason: u16, monitor: u64) -> u64;
        pub fn fg_read_exit(bytes: *const u8, len: usize) -> ExitRead;
        pub fn fg_write_old_tick(out: *mut u8, len: usize, id: u32) -> u64;
        pub fn fg_read_old_tick(bytes: *const u8, len: usize) -> OldTickRead;
        pub fn fg_write_old_exit(out: *mut u8, len: usize, actor: u32, reason: u16, monitor: u32) -> u64;
        pub fn fg_read_old_exit(bytes: *const u8, len: usize) -> OldExitRead;
        pub fn fg_reason_word(reason: u16) -> ReasonWord;

        // C's bool is a byte; that it is 0 or 1 is tested here.
        pub fn fg_replay(
            t: *mut u64,
            t_len: usize,
            p: *mut u8,
            p_len: usize,
            n: u64,
            record: *const u8,
            record_len: usize,
        ) -> u8;
    }
}

pub fn start(t: &mut [u64], p: &mut [u8], c: [u64; 6]) -> u64 {
    // SAFETY: as above.
    unsafe { others::fg_start(t.as_mut_ptr(), t.len(), p.as_mut_ptr(), p.len(), c[0], c[1], c[2], c[3], c[4], c[5]) }
}

pub fn write_tick(out: &mut [u8], id: u64) -> u64 {
    // SAFETY: pointer and length of one live slice, here and below.
    unsafe { others::fg_write_tick(out.as_mut_ptr(), out.len(), id) }
}

pub fn read_tick(bytes: &[u8]) -> TickRead {
    unsafe { others::fg_read_tick(bytes.as_ptr(), bytes.len()) }
}

pub fn write_exit(out: &mut [u8], actor: u64, reason: u16, monitor: u64) -> u64 {
    unsafe { others::fg_write_exit(out.as_mut_ptr(), out.len(), actor, reason, monitor) }
}

pub fn read_exit(bytes: &[u8]) -> ExitRead {
    unsafe { others::fg_read_exit(bytes.as_ptr(), bytes.len()) }
}

pub fn write_old_tick(out: &mut [u8], id: u32) -> u64 {
    unsafe { others::fg_write_old_tick(out.as_mut_ptr(), out.len(), id) }
}

pub fn read_old_tick(bytes: &[u8]) -> OldTickRead {
    unsafe { others::fg_read_old_tick(bytes.as_ptr(), bytes.len()) }
}

pub fn write_old_exit(out: &mut [u8], actor: u32, reason: u16, monitor: u32) -> u64 {
    unsafe { others::fg_write_old_exit(out.as_mut_ptr(), out.len(), actor, reason, monitor) }
}

pub fn read_old_exit(bytes: &[u8]) -> OldExitRead {
    unsafe { others::fg_read_old_exit(bytes.as_ptr(), bytes.len()) }
}

pub fn reason_word(reason: u16) -> ReasonWord {
    unsafe { others::fg_reason_word(reason) }
}

/// Whether record number n is right on these buffers; its call is then made on them.
pub fn replay(t: &mut [u64], p: &mut [u8], n: u64, record: &[u8]) -> bool {
    let (at, len) = (record.as_ptr(), record.len());
    // SAFETY: pointers and lengths of three live slices that do not overlap.
    match unsafe { others::fg_replay(t.as_mut_ptr(), t.len(), p.as_mut_ptr(), p.len(), n, at, len) } {
        0 => false,
        1 => true,
        other => panic!("fg_replay answers {other}, which is no bool"),
    }
}
