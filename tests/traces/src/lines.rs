//! One record as a line: the call's name, its arguments, `=`, its answer.
//!
//!     spawn 1 = 0 256
//!     notify 257 7 "abc" = 0
//!     notify 257 7 long 300 = 1
//!     show = "abc"

use crate::words::{quote, Word};
use model::trace::{Field, Record, Shape};

pub fn write(record: &Record) -> String {
    let mut words = vec![record.shape.name.to_string()];
    words.extend(fields(record.shape.args, &record.args));
    words.push("=".to_string());
    words.extend(fields(record.shape.answer, &record.answer));
    words.join(" ")
}

fn fields<'a>(letters: &'a str, fields: &'a [Field]) -> impl Iterator<Item = String> + 'a {
    letters.chars().zip(fields).map(|(letter, field)| match field {
        Field::Number(number) if letter == 's' => (*number as i64).to_string(),
        Field::Number(number) => number.to_string(),
        Field::Bytes(bytes) => quote(bytes),
        Field::Long(length) => format!("long {length}"),
    })
}

pub fn read(words: &[Word]) -> Result<Record, String> {
    let (name, mut rest) = words.split_first().ok_or("a call is missing")?;
    let shape = match name {
        Word::Plain(name) => Shape::of_name(name).ok_or(format!("{name} is no call"))?,
        Word::Text(_) => return Err("a line begins with a call".to_string()),
    };
    let args = read_fields(shape.args, &mut rest)?;
    if next(&mut rest)? != Word::Plain("=".to_string()) {
        return Err("= is missing after the arguments".to_string());
    }
    let answer = read_fields(shape.answer, &mut rest)?;
    if rest.is_empty() {
        return Ok(Record { shape, args, answer });
    }
    Err("the answer is too long".to_string())
}

fn next(rest: &mut &[Word]) -> Result<Word, String> {
    let (word, after) = rest.split_first().ok_or("the line is too short")?;
    *rest = after;
    Ok(word.clone())
}

fn read_fields(letters: &str, rest: &mut &[Word]) -> Result<Vec<Field>, String> {
    letters.chars().map(|letter| if letter == 'p' { payload(rest) } else { number(rest).map(Field::Number) }).collect()
}

fn number(rest: &mut &[Word]) -> Result<u64, String> {
    let Word::Plain(word) = next(rest)? else { return Err("a number is missing".to_string()) };
    let signed = word.parse::<i64>().map(|number| number as u64);
    word.parse::<u64>().or(signed).map_err(|_| format!("\"{word}\" is no number"))
}

/// A text in quotes, or `long` and the length of a payload that is recorded by it alone.
fn payload(rest: &mut &[Word]) -> Result<Field, String> {
    match next(rest)? {
        Word::Plain(word) if word == "long" => Ok(Field::Long(number(rest)?)),
        Word::Plain(word) => Err(format!("a payload is missing before {word}")),
        Word::Text(bytes) => Ok(Field::payload(&bytes)),
    }
}
