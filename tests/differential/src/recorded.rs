//! The record readers and writers and the words of reasons, compared call by call.

use crate::compare::Difference;
use crate::ffi;
use crate::random::Random;
use model::limits::{ACTOR_FACTOR, MAX_AGE};
use model::records;
use model::ReasonWord;
use std::fmt::Debug;

const ROUNDS: u64 = 20_000;

fn same<T: PartialEq + Debug>(number: u64, call: String, library: T, model: T) -> Result<(), Difference> {
    if library == model {
        return Ok(());
    }
    Err(Difference { number, call, what: format!("library: {library:?}\nmodel:   {model:?}") })
}

pub fn compare_records(random: &mut Random) -> Result<(), Difference> {
    for round in 0..ROUNDS {
        compare_writers(random, round)?;
        compare_readers(random, round)?;
    }
    compare_words()
}

/// A record's numbers: ids of any length, among them those at the limits, and a reason.
struct Numbers {
    actor: u64,
    reason: u16,
    monitor: u64,
}

impl Numbers {
    fn some(random: &mut Random) -> Self {
        Numbers { actor: some_id(random), reason: random.bits() as u16, monitor: some_id(random) }
    }
}

fn some_id(random: &mut Random) -> u64 {
    match random.below(4) {
        0 => random.pick(&[0, 64, 256, u64::from(u32::MAX), 1 << 32, MAX_AGE * ACTOR_FACTOR, u64::MAX]),
        _ => random.bits() >> random.below(64),
    }
}

/// A writer on either side, on the same slice; answers and slices must be the same.
fn compare_writer(
    (round, call, before): (u64, String, &[u8]),
    library: impl FnOnce(&mut [u8]) -> u64,
    model: impl FnOnce(&mut [u8]) -> u64,
) -> Result<(), Difference> {
    let (mut theirs, mut ours) = (before.to_vec(), before.to_vec());
    let answers = (library(&mut theirs), model(&mut ours));
    same(round, format!("{call} to {before:?}"), (answers.0, theirs), (answers.1, ours))
}

fn compare_writers(random: &mut Random, round: u64) -> Result<(), Difference> {
    let length = random.index(30);
    let before = random.bytes(length);
    let Numbers { actor, reason, monitor } = Numbers::some(random);
    let ids = format!("{actor}, {reason}, {monitor}");
    let called = |name: &str| (round, format!("{name}({ids})"), &before[..]);
    compare_writer(called("write_tick"), |to| ffi::write_tick(to, actor), |to| records::write_tick(to, actor))?;
    compare_writer(
        called("write_exit"),
        |to| ffi::write_exit(to, actor, reason, monitor),
        |to| records::write_exit(to, actor, reason, monitor),
    )?;
    let (actor, monitor) = (actor as u32, monitor as u32);
    compare_writer(
        called("write_old_tick"),
        |to| ffi::write_old_tick(to, actor),
        |to| records::write_old_tick(to, actor),
    )?;
    compare_writer(
        called("write_old_exit"),
        |to| ffi::write_old_exit(to, actor, reason, monitor),
        |to| records::write_old_exit(to, actor, reason, monitor),
    )
}

/// Every reader gets the same bytes, so that each is seen to refuse what is the others'.
fn compare_readers(random: &mut Random, round: u64) -> Result<(), Difference> {
    let bytes = some_record(random);
    let called = |name: &str| format!("{name}({bytes:?})");
    same(round, called("read_tick"), ffi::read_tick(&bytes), records::read_tick(&bytes))?;
    same(round, called("read_exit"), ffi::read_exit(&bytes), records::read_exit(&bytes))?;
    same(round, called("read_old_tick"), ffi::read_old_tick(&bytes), records::read_old_tick(&bytes))?;
    same(round, called("read_old_exit"), ffi::read_old_exit(&bytes), records::read_old_exit(&bytes))
}

/// A record of either edition, whole or with a bit of its length or kind changed, with another kind, a byte too many or too few, or any bytes.
fn some_record(random: &mut Random) -> Vec<u8> {
    let Numbers { actor, reason, monitor } = Numbers::some(random);
    let mut bytes = match random.below(4) {
        0 => records::tick(actor),
        1 => records::exit(actor, reason, monitor),
        2 => records::old_tick(actor as u32),
        _ => records::old_exit(actor as u32, reason, monitor as u32),
    };
    match random.below(7) {
        0 => bytes.push(0),
        1 => drop(bytes.pop()),
        2 => {
            let i = random.index(4);
            bytes[i] ^= 1 << random.below(8);
        }
        3 => bytes[2] = random.below(6) as u8,
        4 => {
            let length = random.index(30);
            bytes = random.bytes(length);
        }
        _ => {}
    }
    bytes
}

fn compare_words() -> Result<(), Difference> {
    for reason in 0..=u16::MAX {
        let word = records::reason_word(reason);
        let mut expected = ReasonWord { len: word.len(), ..Default::default() };
        expected.bytes[..word.len()].copy_from_slice(word.as_bytes());
        same(u64::from(reason), format!("reason_word({reason})"), ffi::reason_word(reason), expected)?;
    }
    Ok(())
}
