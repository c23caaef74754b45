//! The stand-in's readers and writers of the records in runtime messages, made of the model, or of one of its faults.

use crate::faults;
use model::{records, ExitRead, OldExitRead, OldTickRead, ReasonWord, TickRead};
use std::slice::{from_raw_parts, from_raw_parts_mut};

/// An id as it is written, or read.
fn id(id: u64) -> u64 {
    if faults::is("record-cuts-ids") {
        return id & u64::from(u32::MAX);
    }
    id
}

#[no_mangle]
unsafe extern "C" fn fg_write_tick(out: *mut u8, len: usize, timer: u64) -> u64 {
    records::write_tick(from_raw_parts_mut(out, len), id(timer))
}

#[no_mangle]
unsafe extern "C" fn fg_read_tick(bytes: *const u8, len: usize) -> TickRead {
    let bytes = from_raw_parts(bytes, len);
    let read = records::read_tick(bytes);
    if faults::is("old-kinds-refused") && read.kind == records::OLD_TICK_KIND {
        return records::read_tick(&[]);
    }
    read
}

#[no_mangle]
unsafe extern "C" fn fg_write_exit(out: *mut u8, len: usize, actor: u64, reason: u16, monitor: u64) -> u64 {
    records::write_exit(from_raw_parts_mut(out, len), id(actor), reason, id(monitor))
}

#[no_mangle]
unsafe extern "C" fn fg_read_exit(bytes: *const u8, len: usize) -> ExitRead {
    let read = records::read_exit(from_raw_parts(bytes, len));
    if faults::is("kind-not-told") && read.kind == records::OLD_EXIT_KIND {
        return ExitRead { kind: records::EXIT_KIND, ..read };
    }
    read
}

#[no_mangle]
unsafe extern "C" fn fg_write_old_tick(out: *mut u8, len: usize, timer: u32) -> u64 {
    records::write_old_tick(from_raw_parts_mut(out, len), timer)
}

#[no_mangle]
unsafe extern "C" fn fg_read_old_tick(bytes: *const u8, len: usize) -> OldTickRead {
    let bytes = from_raw_parts(bytes, len);
    if faults::is("old-reader-takes-new-kind") {
        let read = records::read_tick(bytes);
        return OldTickRead { no: read.no, id: read.id as u32 };
    }
    records::read_old_tick(bytes)
}

#[no_mangle]
unsafe extern "C" fn fg_write_old_exit(out: *mut u8, len: usize, actor: u32, reason: u16, monitor: u32) -> u64 {
    records::write_old_exit(from_raw_parts_mut(out, len), actor, reason, monitor)
}

#[no_mangle]
unsafe extern "C" fn fg_read_old_exit(bytes: *const u8, len: usize) -> OldExitRead {
    records::read_old_exit(from_raw_parts(bytes, len))
}

#[no_mangle]
extern "C" fn fg_reason_word(reason: u16) -> ReasonWord {
    let word = records::reason_word(reason).as_bytes();
    let mut bytes = [0; 8];
    bytes[..word.len()].copy_from_slice(word);
    ReasonWord { bytes, len: word.len() }
}
