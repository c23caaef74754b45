//! The records of a trace: a call, its arguments and its answer as bytes, and back.
//!
//! A record is a two-byte length of what follows, a two-byte kind, the arguments in the order of the C function, the answer in the
//! order of its struct. A number takes eight bytes, a signed one as two's complement. A payload is its length, then its bytes where
//! they are at most 252. All is little-endian.

use crate::limits::MAX_PAYLOAD;

/// How a call is recorded. The arguments and the answer have a letter for each field: `n` a number, `s` a signed number, `p` a payload.
#[derive(Debug, PartialEq, Eq)]
pub struct Shape {
    pub kind: u16,
    pub name: &'static str,
    pub args: &'static str,
    pub answer: &'static str,
}

const fn shape(kind: u16, name: &'static str, args: &'static str, answer: &'static str) -> Shape {
    Shape { kind, name, args, answer }
}

/// The table of kinds. A start has the words and the bytes of the buffers before its capacities. A read has the length of the slice that was
/// lent, and then the number answered and the bytes that were copied.
pub const SHAPES: [Shape; 23] = [
    shape(16, "start", "nnnnnnnn", "n"),
    shape(17, "spawn", "n", "nn"),
    shape(18, "next", "", "nnns"),
    shape(19, "yield", "", "n"),
    shape(20, "notify", "nnp", "n"),
    shape(21, "receive", "nnns", "nnnnn"),
    shape(22, "show", "", "p"),
    shape(23, "shown", "", "nnn"),
    shape(24, "after", "n", "nn"),
    shape(25, "every", "n", "nn"),
    shape(26, "cancel", "n", "n"),
    shape(27, "link", "n", "n"),
    shape(28, "unlink", "n", "n"),
    shape(29, "monitor", "n", "nn"),
    shape(30, "demonitor", "n", "n"),
    shape(31, "exit", "n", "nnn"),
    shape(32, "advance", "n", "nn"),
    shape(33, "report", "", "nnnnnnn"),
    shape(34, "bus", "nnnn", "nn"),
    shape(35, "publish", "np", "n"),
    shape(36, "subscribe", "n", "n"),
    shape(37, "unsubscribe", "n", "n"),
    shape(38, "read", "nn", "np"),
];

impl Shape {
    pub fn of_kind(kind: u16) -> Option<&'static Shape> {
        SHAPES.iter().find(|shape| shape.kind == kind)
    }

    pub fn of_name(name: &str) -> Option<&'static Shape> {
        SHAPES.iter().find(|shape| shape.name == name)
    }

    /// The bytes of its longest record.
    pub fn longest(&self) -> usize {
        let field = |letter: char| if letter == 'p' { NUMBER_BYTES + MAX_PAYLOAD } else { NUMBER_BYTES };
        LENGTH_BYTES + KIND_BYTES + self.args.chars().chain(self.answer.chars()).map(field).sum::<usize>()
    }
}

const LENGTH_BYTES: usize = 2;
const KIND_BYTES: usize = 2;
const NUMBER_BYTES: usize = 8;

/// The bytes of the longest record of all.
pub fn most() -> usize {
    SHAPES.iter().map(Shape::longest).max().unwrap_or(0)
}

#[derive(Debug, Clone, PartialEq, Eq)]
pub enum Field {
    /// A number; a signed one as two's complement.
    Number(u64),
    /// A payload of at most 252 bytes.
    Bytes(Vec<u8>),
    /// The length of a longer payload: its bytes are not recorded.
    Long(u64),
}

impl Field {
    pub fn payload(bytes: &[u8]) -> Field {
        if bytes.len() <= MAX_PAYLOAD {
            Field::Bytes(bytes.to_vec())
        } else {
            Field::Long(bytes.len() as u64)
        }
    }

    fn write(&self, out: &mut Vec<u8>) {
        match self {
            Field::Number(number) | Field::Long(number) => out.extend(number.to_le_bytes()),
            Field::Bytes(bytes) => {
                out.extend((bytes.len() as u64).to_le_bytes());
                out.extend(bytes);
            }
        }
    }

    /// Reads a field of this letter from the front, and moves the front past it.
    fn read(letter: char, bytes: &mut &[u8]) -> Option<Field> {
        let number = u64::from_le_bytes(front(bytes, NUMBER_BYTES)?.try_into().ok()?);
        Some(match letter {
            'p' if number <= MAX_PAYLOAD as u64 => Field::Bytes(front(bytes, number as usize)?.to_vec()),
            'p' => Field::Long(number),
            _ => Field::Number(number),
        })
    }
}

/// Takes so many bytes from the front.
fn front<'a>(bytes: &mut &'a [u8], count: usize) -> Option<&'a [u8]> {
    let (taken, rest) = (bytes.get(..count)?, &bytes[count..]);
    *bytes = rest;
    Some(taken)
}

/// A call and its answer.
#[derive(Debug, Clone, PartialEq, Eq)]
pub struct Record {
    pub shape: &'static Shape,
    pub args: Vec<Field>,
    pub answer: Vec<Field>,
}

impl Record {
    pub fn bytes(&self) -> Vec<u8> {
        let mut rest = self.shape.kind.to_le_bytes().to_vec();
        self.args.iter().chain(&self.answer).for_each(|field| field.write(&mut rest));
        let mut bytes = (rest.len() as u16).to_le_bytes().to_vec();
        bytes.extend(rest);
        bytes
    }

    /// The record that these bytes are, all of them; None where the kind is unknown or the length is not the kind's.
    pub fn read(bytes: &[u8]) -> Option<Record> {
        let mut rest = bytes;
        let length = front_u16(&mut rest)?;
        if usize::from(length) != rest.len() {
            return None;
        }
        let shape = Shape::of_kind(front_u16(&mut rest)?)?;
        let mut fields = |letters: &str| letters.chars().map(|letter| Field::read(letter, &mut rest)).collect();
        let (args, answer): (Option<_>, Option<_>) = (fields(shape.args), fields(shape.answer));
        let record = Record { shape, args: args?, answer: answer? };
        rest.is_empty().then_some(record)
    }

    /// The arguments that are numbers, in their order.
    pub fn numbers(&self) -> Vec<u64> {
        self.args
            .iter()
            .filter_map(|field| if let Field::Number(number) = field { Some(*number) } else { None })
            .collect()
    }
}

fn front_u16(bytes: &mut &[u8]) -> Option<u16> {
    Some(u16::from_le_bytes(front(bytes, 2)?.try_into().ok()?))
}

/// The first record of a trace with the two bytes of its length, as that length has it; None where the input ends inside it.
pub fn first(trace: &[u8]) -> Option<&[u8]> {
    let length = front_u16(&mut &trace[..])?;
    trace.get(..LENGTH_BYTES + usize::from(length))
}
