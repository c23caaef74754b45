//! The verdict on a trace: its calls are made on the model, and every answer is compared.

use crate::answers::Numbers;
use crate::calls::Model;
use crate::limits::{Capacities, MAX_PAYLOAD};
use crate::trace::{self, Field, Record};
use std::fmt;

/// What is said of a trace; the number counts records, from 0.
#[derive(Debug, Clone, Copy, PartialEq, Eq)]
pub enum Verdict {
    /// So many records, and all are right.
    Ok(u64),
    /// This record is the first that is not right.
    Bad(u64),
    /// The input ends inside this record, and those before it are right.
    Cut(u64),
}

impl fmt::Display for Verdict {
    fn fmt(&self, f: &mut fmt::Formatter) -> fmt::Result {
        match self {
            Verdict::Ok(n) => write!(f, "ok {n}"),
            Verdict::Bad(n) => write!(f, "bad {n}"),
            Verdict::Cut(n) => write!(f, "cut {n}"),
        }
    }
}

/// Says whether a table of so many words is long enough for some capacities: the layout decides that, which the model does not know.
pub type Suffices = fn(u64, &Capacities) -> bool;

/// A replay under way: what the records so far have left.
#[derive(Debug, Clone)]
pub struct Replay {
    pub model: Model,
    suffices: Suffices,
}

impl Replay {
    /// Before the first record nothing stands, so only a start that is done is right.
    pub fn new(suffices: Suffices) -> Self {
        Replay::from(Model::unsound(), suffices)
    }

    /// After records that left this.
    pub fn from(model: Model, suffices: Suffices) -> Self {
        Replay { model, suffices }
    }

    /// Says whether these bytes are a right record here, and makes its call.
    pub fn is_right(&mut self, record: &[u8]) -> bool {
        let Some(record) = Record::read(record) else { return false };
        self.answer(&record) == record.answer && self.model.state.is_some()
    }

    /// Makes the call of a record and gives the answer that is right.
    pub fn answer(&mut self, record: &Record) -> Vec<Field> {
        match record.shape.name {
            "show" => vec![Field::payload(&self.model.show())],
            "read" => {
                let numbers = record.numbers();
                let (no, copied) = self.model.read_within(numbers[0], numbers[1]);
                vec![Field::Number(no), Field::payload(&copied)]
            }
            _ => self.answer_in_numbers(record).into_iter().map(Field::Number).collect(),
        }
    }

    fn answer_in_numbers(&mut self, record: &Record) -> Vec<u64> {
        let (m, n) = (&mut self.model, record.numbers());
        match record.shape.name {
            "start" => {
                let caps = [n[2], n[3], n[4], n[5], n[6], n[7]];
                m.start((self.suffices)(n[0], &caps), n[1], caps).numbers()
            }
            "spawn" => m.spawn(n[0]).numbers(),
            "next" => m.next().numbers(),
            "yield" => m.yield_now().numbers(),
            "notify" => m.notify(n[0], n[1], &payload(record)).numbers(),
            "receive" => m.receive(n[0], n[1], n[2], n[3] as i64).numbers(),
            "shown" => m.shown().numbers(),
            "after" => m.after(n[0]).numbers(),
            "every" => m.every(n[0]).numbers(),
            "cancel" => m.cancel(n[0]).numbers(),
            "link" => m.link(n[0]).numbers(),
            "unlink" => m.unlink(n[0]).numbers(),
            "monitor" => m.monitor(n[0]).numbers(),
            "demonitor" => m.demonitor(n[0]).numbers(),
            "exit" => m.exit(n[0]).numbers(),
            "advance" => m.advance(n[0]).numbers(),
            "report" => m.report().numbers(),
            "bus" => m.bus(n[0], n[1], n[2], n[3]).numbers(),
            "publish" => m.publish(n[0], &payload(record)).numbers(),
            "subscribe" => m.subscribe(n[0]).numbers(),
            "unsubscribe" => m.unsubscribe(n[0]).numbers(),
            name => unreachable!("{name} is no call"),
        }
    }
}

/// The payload of a record. One that is too long is malformed whatever it holds and however long it is, so zeros stand for it.
fn payload(record: &Record) -> Vec<u8> {
    let found = record.args.iter().find_map(|field| match field {
        Field::Number(_) => None,
        Field::Bytes(bytes) => Some(bytes.clone()),
        Field::Long(_) => Some(vec![0; MAX_PAYLOAD + 1]),
    });
    found.unwrap_or_default()
}

/// The verdict on a whole trace. That the input ends inside a record is tested first.
pub fn verdict(trace: &[u8], suffices: Suffices) -> Verdict {
    let (mut replay, mut rest, mut n) = (Replay::new(suffices), trace, 0);
    while !rest.is_empty() {
        let Some(record) = trace::first(rest) else { return Verdict::Cut(n) };
        if !replay.is_right(record) {
            return Verdict::Bad(n);
        }
        rest = &rest[record.len()..];
        n += 1;
    }
    Verdict::Ok(n)
}
