//! Traces: the library's records compared with the model's, and a trace of the random calls judged by the library, record by record.

use crate::call::{Answer, Call};
use crate::compare::{Buffers, Difference};
use crate::counts::Counts;
use crate::ffi;
use crate::layout::{self, suffices};
use crate::random::Random;
use model::trace::{Field, Record, Shape, SHAPES};
use model::verdict::Replay;
use model::{DONE, MALFORMED, UNSOUND};

/// What lies past a record in a longer slice, and in a slice that is too short.
const PATTERN: u8 = 0xA5;
const ROUNDS: u64 = 300;

/// The record of a call on buffers of so many words and bytes.
pub fn record(call: &Call, answer: &Answer, lengths: (usize, usize)) -> Record {
    let shape = Shape::of_name(call.name()).expect("every call has its kind");
    let mut args = call.fields();
    if call.is_start() {
        args.splice(0..0, [lengths.0, lengths.1].map(|length| Field::Number(length as u64)));
    }
    Record { shape, args, answer: answer.fields() }
}

/// The record of showing a part of the payload area.
pub fn shown(part: &[u8]) -> Record {
    let shape = Shape::of_name("show").expect("show has its kind");
    Record { shape, args: Vec::new(), answer: vec![Field::payload(part)] }
}

/// The library writes the model's bytes and none past them, and nothing where there is no room.
pub fn compare_writer(record: &Record) -> Result<(), String> {
    let bytes = record.bytes();
    for length in [bytes.len(), bytes.len() - 1, bytes.len() + 9, 0] {
        let (mut out, mut expected) = (vec![PATTERN; length], vec![PATTERN; length]);
        let mut written = 0;
        if length >= bytes.len() {
            expected[..bytes.len()].copy_from_slice(&bytes);
            written = bytes.len();
        }
        let answer = ffi::write_record(record, &mut out);
        if (answer, &out) != (written, &expected) {
            return Err(format!(
                "its record in {length} bytes\nlibrary: {answer} {out:02x?}\nmodel:   {written} {expected:02x?}"
            ));
        }
    }
    Ok(())
}

/// Records of every kind with any numbers.
pub fn compare_writers(random: &mut Random) -> Result<(), Difference> {
    for number in 0..ROUNDS {
        for shape in &SHAPES {
            let record = any_record(random, shape);
            compare_writer(&record).map_err(|what| Difference { number, call: format!("{record:?}"), what })?;
        }
    }
    Ok(())
}

fn any_record(random: &mut Random, shape: &'static Shape) -> Record {
    let mut field = |letter: char| match letter {
        'p' => {
            let length = random.pick(&[0, 1, 7, 100, 251, 252, 253, 300]);
            Field::payload(&random.bytes(length))
        }
        _ => Field::Number(random.bits() >> random.below(64)),
    };
    let args = shape.args.chars().map(&mut field).collect();
    Record { shape, args, answer: shape.answer.chars().map(field).collect() }
}

/// A trace of calls that the library judges as it goes, on buffers of its own.
pub struct Trace {
    pub bytes: Vec<u8>,
    pub records: u64,
    buffers: Buffers,
    replay: Replay,
}

impl Trace {
    pub fn new(fill: u8) -> Self {
        let buffers = Buffers { words: vec![u64::from(fill); 8_192], bytes: vec![fill; 65_536] };
        Trace { bytes: Vec::new(), records: 0, buffers, replay: Replay::new(suffices) }
    }

    /// Adds the next record, which must be right; now and then a changed one must be judged as the model judges it.
    /// A trace begins with a start that is done: what comes before is left out.
    pub fn add(&mut self, random: &mut Random, counts: &mut Counts, record: &Record) -> Result<(), String> {
        if self.records == 0 && !(record.shape.name == "start" && record.answer == [Field::Number(DONE)]) {
            return Ok(());
        }
        let bytes = record.bytes();
        if self.records == 0 {
            no_beginnings(record).iter().try_for_each(|other| self.judge_changed(&other.bytes()).map(|_| ()))?;
        }
        if random.once_in(3) {
            let right = self.judge_changed(&changed(random, &bytes))?;
            counts.count_changed(right);
        }
        self.judge(&bytes)?;
        counts.records += 1;
        self.records += 1;
        self.bytes.extend(bytes);
        Ok(())
    }

    fn judge(&mut self, bytes: &[u8]) -> Result<(), String> {
        let n = self.records;
        if !self.replay.is_right(bytes) {
            return Err(format!("an error of the test: the model finds record {n} wrong\n{bytes:02x?}"));
        }
        if !ffi::replay(&mut self.buffers.words, &mut self.buffers.bytes, n, bytes) {
            return Err(format!("fg_replay finds record {n} wrong, the model right\n{bytes:02x?}"));
        }
        Ok(())
    }

    /// Judges other bytes in the place of the next record, on copies. Answers whether they are right.
    fn judge_changed(&self, bytes: &[u8]) -> Result<bool, String> {
        let (mut buffers, mut replay) = (self.buffers.clone(), self.replay.clone());
        let model = replay.is_right(bytes);
        let library = ffi::replay(&mut buffers.words, &mut buffers.bytes, self.records, bytes);
        if library != model {
            return Err(format!(
                "as record {}, changed to\n{bytes:02x?}\nright for fg_replay: {library}, for the model: {model}",
                self.records
            ));
        }
        if model {
            same_state(&buffers, &replay)?;
        }
        Ok(model)
    }

    /// What the records have left in the library's buffers is what they have left in the model.
    pub fn compare_end(&self) -> Result<(), String> {
        if self.records == 0 {
            return Ok(());
        }
        same_state(&self.buffers, &self.replay)
    }
}

/// Records with which no trace begins, though their answers are those of a runtime that has not been started: a start that is refused, and
/// other calls.
fn no_beginnings(start: &Record) -> [Record; 3] {
    let mut refused = Record { answer: vec![Field::Number(MALFORMED)], ..start.clone() };
    refused.args[0] = Field::Number(0);
    let report = Shape::of_name("report").expect("report has its kind");
    let unsound = [UNSOUND, 0, 0, 0, 0, 0, 0].map(Field::Number).to_vec();
    [refused, Record { shape: report, args: Vec::new(), answer: unsound }, shown(&[])]
}

fn same_state(buffers: &Buffers, replay: &Replay) -> Result<(), String> {
    if layout::decode(&buffers.words, &buffers.bytes) == replay.model.state {
        return Ok(());
    }
    Err("fg_replay left another state than the model's".to_string())
}

/// A record with a bit changed, a number changed, bytes more or fewer, or any bytes.
fn changed(random: &mut Random, record: &[u8]) -> Vec<u8> {
    let mut bytes = record.to_vec();
    match random.below(8) {
        0 => bytes.push(0),
        1 => bytes.truncate(random.index(record.len())),
        2 => {
            let length = random.index(80);
            bytes = random.bytes(length);
        }
        3 => bytes[2] = random.between(14, 40) as u8,
        4 | 5 => {
            let at = random.index(bytes.len());
            bytes[at] ^= 1 << random.below(8);
        }
        _ => change_number(random, &mut bytes),
    }
    bytes
}

/// Changes one of the eight-byte numbers, counted from the front or from the end.
fn change_number(random: &mut Random, bytes: &mut [u8]) {
    let place = 8 * random.index((bytes.len() - 4) / 8);
    let at = if random.percent(50) { 4 + place } else { bytes.len() - 8 - place };
    let number: &mut [u8] = &mut bytes[at..at + 8];
    let old = u64::from_le_bytes(number.try_into().expect("eight bytes"));
    let new = random.pick(&[0, 1, 2, 3, 7, 64, 256, u64::MAX, old ^ 1, old.wrapping_add(1), old.wrapping_add(1 << 32)]);
    number.copy_from_slice(&new.to_le_bytes());
}
