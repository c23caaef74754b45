//! A whole trace as text, a record a line, and back.
//!
//! Beside the lines of records there are `raw 11 00 FF`, bytes that are no record, and `less 3`, which leaves off the last three of all the
//! bytes before it. A `#` begins a comment.

use crate::lines;
use crate::words::{hex, split, Word};
use model::trace::{first, Record};

/// The bytes of a text; an error names its line.
pub fn to_bytes(text: &str) -> Result<Vec<u8>, String> {
    let mut bytes = Vec::new();
    for (i, line) in text.lines().enumerate() {
        split(line).and_then(|words| add(&mut bytes, &words)).map_err(|what| format!("line {}: {what}", i + 1))?;
    }
    Ok(bytes)
}

fn add(bytes: &mut Vec<u8>, words: &[Word]) -> Result<(), String> {
    match words.first() {
        None => {}
        Some(Word::Plain(word)) if word == "raw" => bytes.extend(raw(&words[1..])?),
        Some(Word::Plain(word)) if word == "less" => leave_off(bytes, &words[1..])?,
        Some(_) => bytes.extend(lines::read(words)?.bytes()),
    }
    Ok(())
}

fn raw(words: &[Word]) -> Result<Vec<u8>, String> {
    let byte = |word: &Word| match word {
        Word::Plain(digits) => hex(digits),
        Word::Text(_) => Err("raw bytes are hexadecimal numbers".to_string()),
    };
    words.iter().map(byte).collect()
}

fn leave_off(bytes: &mut Vec<u8>, words: &[Word]) -> Result<(), String> {
    let [Word::Plain(count)] = words else { return Err("less has one number".to_string()) };
    let count: usize = count.parse().map_err(|_| format!("\"{count}\" is no number"))?;
    let left = bytes.len().checked_sub(count).ok_or("there are fewer bytes than that")?;
    bytes.truncate(left);
    Ok(())
}

/// A trace as text. What is no record stands there as raw bytes, up to the end that its length names.
pub fn to_text(trace: &[u8]) -> String {
    let (mut text, mut rest) = (String::new(), trace);
    while !rest.is_empty() {
        let part = first(rest).unwrap_or(rest);
        text += &Record::read(part).map_or_else(|| raw_line(part), |record| lines::write(&record));
        text.push('\n');
        rest = &rest[part.len()..];
    }
    text
}

fn raw_line(bytes: &[u8]) -> String {
    bytes.iter().fold("raw".to_string(), |line, byte| line + &format!(" {byte:02x}"))
}
