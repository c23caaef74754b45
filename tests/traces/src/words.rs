//! A line of text as its words: plain ones, and texts in quotes that stand for bytes.

#[derive(Debug, Clone, PartialEq, Eq)]
pub enum Word {
    Plain(String),
    Text(Vec<u8>),
}

/// The words of a line, up to a `#`, which begins a comment.
pub fn split(line: &str) -> Result<Vec<Word>, String> {
    let mut words = Vec::new();
    let mut rest = line.trim_start();
    while !rest.is_empty() && !rest.starts_with('#') {
        let (word, after) = match rest.strip_prefix('"') {
            Some(inside) => quoted(inside)?,
            None => plain(rest),
        };
        words.push(word);
        rest = after.trim_start();
    }
    Ok(words)
}

fn plain(rest: &str) -> (Word, &str) {
    let end = rest.find(char::is_whitespace).unwrap_or(rest.len());
    (Word::Plain(rest[..end].to_string()), &rest[end..])
}

/// The bytes up to the closing quote, and what follows it.
fn quoted(inside: &str) -> Result<(Word, &str), String> {
    let (mut bytes, mut rest) = (Vec::new(), inside);
    loop {
        if let Some(after) = rest.strip_prefix('"') {
            return Ok((Word::Text(bytes), after));
        }
        let (byte, after) = one_byte(rest)?;
        bytes.push(byte);
        rest = after;
    }
}

/// A letter, or `\"`, `\\`, or `\x` and two hexadecimal digits.
fn one_byte(rest: &str) -> Result<(u8, &str), String> {
    if let Some(digits) = rest.strip_prefix("\\x").and_then(|rest| rest.get(..2)) {
        return Ok((hex(digits)?, &rest[4..]));
    }
    let letter = rest.strip_prefix('\\').unwrap_or(rest);
    match letter.bytes().next() {
        Some(byte) if is_letter(byte) => Ok((byte, &letter[1..])),
        Some(_) => Err(format!("a byte that is no letter is written as \\xNN, not as \"{letter}\"")),
        None => Err("a quote is not closed".to_string()),
    }
}

fn is_letter(byte: u8) -> bool {
    byte == b' ' || byte.is_ascii_graphic()
}

pub fn hex(digits: &str) -> Result<u8, String> {
    u8::from_str_radix(digits, 16).map_err(|_| format!("\"{digits}\" is no byte"))
}

/// The bytes in quotes, as `split` reads them.
pub fn quote(bytes: &[u8]) -> String {
    let shown = |byte: &u8| match *byte {
        b'"' => "\\\"".to_string(),
        b'\\' => "\\\\".to_string(),
        byte if is_letter(byte) => char::from(byte).to_string(),
        byte => format!("\\x{byte:02x}"),
    };
    format!("\"{}\"", bytes.iter().map(shown).collect::<String>())
}
