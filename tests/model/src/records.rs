//! Message headers, the records in runtime messages, and the word of an exit reason.
//!
//! Records have two editions. What the runtime writes has ids of eight bytes, kinds 3 and 4. Those of the old edition have ids of four
//! bytes, kinds 1 and 2. The readers take both, and say by the kind which it was; a reader of the old edition takes its own alone.

use crate::answers::{ExitRead, OldExitRead, OldTickRead, TickRead, DONE, MALFORMED};

pub const TICK_BYTES: usize = 12;
pub const EXIT_BYTES: usize = 22;
pub const TICK_KIND: u16 = 3;
pub const EXIT_KIND: u16 = 4;
pub const OLD_TICK_BYTES: usize = 8;
pub const OLD_EXIT_BYTES: usize = 14;
pub const OLD_TICK_KIND: u16 = 1;
pub const OLD_EXIT_KIND: u16 = 2;
/// The two bytes of the length do not count themselves.
const LENGTH_BYTES: usize = 2;
/// Where the fields begin, after length and kind.
const FIELDS: usize = 4;

/// The four bytes before a payload: class in the top four bits, bit 27 for what the runtime wrote, then the tag.
pub fn header(class: u64, by_runtime: bool, tag: u64) -> [u8; 4] {
    let mark = if by_runtime { 1u32 << 27 } else { 0 };
    ((class as u32) << 28 | mark | tag as u32).to_le_bytes()
}

/// What a header says: class, bit 27, tag.
pub fn parts(header: [u8; 4]) -> (u64, bool, u64) {
    let word = u32::from_le_bytes(header);
    (u64::from(word >> 28), word >> 27 & 1 == 1, u64::from(word & 0x7ff_ffff))
}

/// The length and the kind that a record of so many bytes begins with.
fn opening(size: usize, kind: u16) -> Vec<u8> {
    let mut bytes = ((size - LENGTH_BYTES) as u16).to_le_bytes().to_vec();
    bytes.extend(kind.to_le_bytes());
    bytes
}

pub fn tick(timer: u64) -> Vec<u8> {
    [opening(TICK_BYTES, TICK_KIND), timer.to_le_bytes().to_vec()].concat()
}

pub fn exit(actor: u64, reason: u16, monitor: u64) -> Vec<u8> {
    let mut bytes = opening(EXIT_BYTES, EXIT_KIND);
    bytes.extend(actor.to_le_bytes());
    bytes.extend(reason.to_le_bytes());
    bytes.extend(monitor.to_le_bytes());
    bytes
}

pub fn old_tick(timer: u32) -> Vec<u8> {
    [opening(OLD_TICK_BYTES, OLD_TICK_KIND), timer.to_le_bytes().to_vec()].concat()
}

pub fn old_exit(actor: u32, reason: u16, monitor: u32) -> Vec<u8> {
    let mut bytes = opening(OLD_EXIT_BYTES, OLD_EXIT_KIND);
    bytes.extend(actor.to_le_bytes());
    bytes.extend(reason.to_le_bytes());
    bytes.extend(monitor.to_le_bytes());
    bytes
}

/// Writes a record to the front of a slice; 1 where the slice is shorter.
fn write(out: &mut [u8], record: &[u8]) -> u64 {
    if out.len() < record.len() {
        return MALFORMED;
    }
    out[..record.len()].copy_from_slice(record);
    DONE
}

pub fn write_tick(out: &mut [u8], timer: u64) -> u64 {
    write(out, &tick(timer))
}

pub fn write_exit(out: &mut [u8], actor: u64, reason: u16, monitor: u64) -> u64 {
    write(out, &exit(actor, reason, monitor))
}

pub fn write_old_tick(out: &mut [u8], timer: u32) -> u64 {
    write(out, &old_tick(timer))
}

pub fn write_old_exit(out: &mut [u8], actor: u32, reason: u16, monitor: u32) -> u64 {
    write(out, &old_exit(actor, reason, monitor))
}

/// So many bytes, little-endian, as a number.
fn number(bytes: &[u8]) -> u64 {
    bytes.iter().rev().fold(0, |number, &byte| number << 8 | u64::from(byte))
}

/// The fields of a record, of these widths in bytes; None unless size, length and kind are exactly this kind's.
fn fields<const N: usize>(bytes: &[u8], kind: u16, widths: [usize; N]) -> Option<[u64; N]> {
    let size = FIELDS + widths.iter().sum::<usize>();
    if bytes.len() != size || !bytes.starts_with(&opening(size, kind)) {
        return None;
    }
    let mut at = FIELDS;
    Some(widths.map(|width| {
        at += width;
        number(&bytes[at - width..at])
    }))
}

pub fn read_tick(bytes: &[u8]) -> TickRead {
    for (kind, width) in [(TICK_KIND, 8), (OLD_TICK_KIND, 4)] {
        if let Some([id]) = fields(bytes, kind, [width]) {
            return TickRead { no: DONE, kind, id };
        }
    }
    TickRead { no: MALFORMED, ..Default::default() }
}

pub fn read_exit(bytes: &[u8]) -> ExitRead {
    for (kind, width) in [(EXIT_KIND, 8), (OLD_EXIT_KIND, 4)] {
        if let Some([actor, reason, monitor]) = fields(bytes, kind, [width, 2, width]) {
            return ExitRead { no: DONE, kind, actor, reason: reason as u16, monitor };
        }
    }
    ExitRead { no: MALFORMED, ..Default::default() }
}

pub fn read_old_tick(bytes: &[u8]) -> OldTickRead {
    match fields(bytes, OLD_TICK_KIND, [4]) {
        Some([id]) => OldTickRead { no: DONE, id: id as u32 },
        None => OldTickRead { no: MALFORMED, ..Default::default() },
    }
}

pub fn read_old_exit(bytes: &[u8]) -> OldExitRead {
    match fields(bytes, OLD_EXIT_KIND, [4, 2, 4]) {
        Some([actor, reason, monitor]) => {
            OldExitRead { no: DONE, actor: actor as u32, reason: reason as u16, monitor: monitor as u32 }
        }
        None => OldExitRead { no: MALFORMED, ..Default::default() },
    }
}

/// The one word of every exit reason.
pub fn reason_word(reason: u16) -> &'static str {
    match reason {
        0..=65_531 => "app",
        65_532 => "normal",
        65_533 => "crash",
        65_534 => "killed",
        65_535 => "overflow",
    }
}
