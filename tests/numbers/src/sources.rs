//! The named numbers of the library's sources: `pub const NAME: T = SUM;` of Rattle, and of antt `abbrev pub NAME : ℕ` with `NAME = SUM`.

use std::collections::BTreeMap;

pub type Numbers = BTreeMap<String, i128>;

const CODE: [(&str, &str); 5] = [
    ("crates/pools/src/bits.rt", include_str!("../../../crates/pools/src/bits.rt")),
    ("crates/tables/src/columns.rt", include_str!("../../../crates/tables/src/columns.rt")),
    ("crates/tables/src/limits.rt", include_str!("../../../crates/tables/src/limits.rt")),
    ("crates/tables/src/sizes.rt", include_str!("../../../crates/tables/src/sizes.rt")),
    ("crates/rules/src/states.rt", include_str!("../../../crates/rules/src/states.rt")),
];

const SPECS: [(&str, &str); 5] = [
    ("crates/pools/specs/Bits.antt", include_str!("../../../crates/pools/specs/Bits.antt")),
    ("crates/tables/specs/Columns.antt", include_str!("../../../crates/tables/specs/Columns.antt")),
    ("crates/tables/specs/Limits.antt", include_str!("../../../crates/tables/specs/Limits.antt")),
    ("crates/tables/specs/Sizes.antt", include_str!("../../../crates/tables/specs/Sizes.antt")),
    ("crates/rules/specs/Terms.antt", include_str!("../../../crates/rules/specs/Terms.antt")),
];

const LEDGER: [(&str, &str); 1] =
    [("crates/ledger/specs/Limits.antt", include_str!("../../../crates/ledger/specs/Limits.antt"))];

/// The numbers that the code names; those of columns.rt alone.
pub fn code() -> Result<(Numbers, Numbers), String> {
    let all = read(&CODE, in_code)?;
    Ok((all, read(&CODE[1..2], in_code)?))
}

/// The numbers that the statements name, `-` in a name written as `_`.
pub fn specs() -> Result<Numbers, String> {
    read(&SPECS, in_specs)
}

/// The numbers that the reckoning names for itself.
pub fn ledger() -> Result<Numbers, String> {
    read(&LEDGER, in_specs)
}

/// A name and its sum, where a line of the code, and the line after it, give one.
fn in_code<'a>(line: &'a str, _: &'a str) -> Option<(&'a str, &'a str)> {
    let (name, rest) = line.strip_prefix("pub const ")?.split_once(": ")?;
    Some((name, rest.split_once(" = ")?.1.trim_end_matches(';')))
}

/// The same for a line of a specification.
fn in_specs<'a>(line: &'a str, next: &'a str) -> Option<(&'a str, &'a str)> {
    let name = line.strip_prefix("abbrev pub ")?.strip_suffix(" : ℕ")?;
    Some((name, next.strip_prefix(name)?.strip_prefix(" = ")?))
}

type Find = for<'a> fn(&'a str, &'a str) -> Option<(&'a str, &'a str)>;

fn read(files: &[(&str, &str)], find: Find) -> Result<Numbers, String> {
    let mut numbers = Numbers::new();
    for (file, text) in files {
        // A long sum goes on in the next lines, each of which begins with its sign.
        let joined = text.replace("\n    + ", " + ");
        let lines: Vec<&str> = joined.lines().chain([""]).collect();
        for pair in lines.windows(2) {
            let Some((name, sum)) = find(pair[0], pair[1]) else { continue };
            let wrong = |what: String| format!("{file}: {name} = {sum}: {what}");
            let spaced = sum.replace('(', "( ").replace(')', " )");
            let value = Sum { words: spaced.split_whitespace().collect(), at: 0, known: &numbers }.all().map_err(wrong)?;
            if numbers.insert(plain(name), value).is_some() {
                return Err(wrong("this name is there twice".to_string()));
            }
        }
    }
    Ok(numbers)
}

fn plain(name: &str) -> String {
    name.replace('-', "_")
}

/// A sum of numbers and names that are known already, with spaces around `+`, `-`, `*`, `^` and `<<`; parentheses may stand in it.
struct Sum<'a> {
    words: Vec<&'a str>,
    at: usize,
    known: &'a Numbers,
}

impl Sum<'_> {
    fn all(mut self) -> Result<i128, String> {
        let value = self.shift()?;
        match self.words.get(self.at) {
            None => Ok(value),
            Some(word) => Err(format!("what is \"{word}\" here?")),
        }
    }

    /// Whether the next word is this one; then it is passed.
    fn passes(&mut self, word: &str) -> bool {
        let is = self.words.get(self.at) == Some(&word);
        self.at += usize::from(is);
        is
    }

    /// As in Rust, a shift comes after the sums on both its sides.
    fn shift(&mut self) -> Result<i128, String> {
        let mut value = self.sum()?;
        while self.passes("<<") {
            value <<= self.sum()?;
        }
        Ok(value)
    }

    fn sum(&mut self) -> Result<i128, String> {
        let mut value = self.product()?;
        loop {
            if self.passes("+") {
                value += self.product()?;
            } else if self.passes("-") {
                value -= self.product()?;
            } else {
                return Ok(value);
            }
        }
    }

    fn product(&mut self) -> Result<i128, String> {
        let mut value = self.power()?;
        while self.passes("*") {
            value *= self.power()?;
        }
        Ok(value)
    }

    fn power(&mut self) -> Result<i128, String> {
        let base = self.number()?;
        if self.passes("^") {
            return Ok(base.pow(self.number()? as u32));
        }
        Ok(base)
    }

    fn number(&mut self) -> Result<i128, String> {
        if self.passes("(") {
            let value = self.shift()?;
            return if self.passes(")") { Ok(value) } else { Err("a parenthesis stays open".to_string()) };
        }
        if self.passes("u64::MAX") {
            return Ok(i128::from(u64::MAX));
        }
        let word = *self.words.get(self.at).ok_or("it ends too early")?;
        self.at += 1;
        let digits = word.replace('_', "");
        let read = match digits.strip_prefix("0x") {
            Some(digits) => i128::from_str_radix(digits, 16),
            None => digits.parse(),
        };
        read.ok().or_else(|| self.known.get(&plain(word)).copied()).ok_or(format!("\"{word}\" is not known"))
    }
}
