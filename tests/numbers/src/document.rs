//! docs/LAYOUT.md read as data: the rows of its two tables of columns, and its two formulas.

const TEXT: &str = include_str!("../../../docs/LAYOUT.md");

/// The pools as the document names them, in the order of the capacities.
const POOLS: [&str; 6] = ["actors", "mailboxes", "data", "links", "monitors", "timers"];

/// A number of words or bytes: a fixed part, and a part for each entry of each pool.
#[derive(Debug, Clone, Copy, PartialEq, Eq, Default)]
pub struct Amount {
    pub fixed: u64,
    pub each: [u64; 6],
}

impl Amount {
    /// The number at some capacities.
    pub fn at(&self, capacities: &[u64; 6]) -> u64 {
        self.fixed + (0..6).map(|pool| self.each[pool] * capacities[pool]).sum::<u64>()
    }

    fn plus(mut self, other: &Amount) -> Amount {
        self.fixed += other.fixed;
        (0..6).for_each(|pool| self.each[pool] += other.each[pool]);
        self
    }

    /// Reads a sum such as `1176 + 10·actors + timers`.
    fn read(text: &str) -> Result<Amount, String> {
        let mut sum = Amount::default();
        for term in text.split('+').map(str::trim) {
            let (factor, pool) = match term.split_once('·') {
                Some((factor, pool)) => (number(factor)?, Some(pool)),
                None if POOLS.contains(&term) => (1, Some(term)),
                None => (number(term)?, None),
            };
            match pool {
                None => sum.fixed += factor,
                Some(name) => match POOLS.iter().position(|pool| *pool == name) {
                    Some(pool) => sum.each[pool] += factor,
                    None => return Err(format!("\"{name}\" is no pool")),
                },
            }
        }
        Ok(sum)
    }
}

fn number(text: &str) -> Result<u64, String> {
    text.parse().map_err(|_| format!("\"{text}\" is no number"))
}

/// A row of a table: a column and how many words or bytes it has; None is the rest of the buffer.
#[derive(Debug, Clone)]
pub struct Row {
    pub name: &'static str,
    pub number: usize,
    pub size: Option<Amount>,
}

impl Row {
    /// Reads `| name | 1 | what it holds |`; its number is its place.
    fn read(line: &'static str, number: usize) -> Result<Row, String> {
        let cells: Vec<&str> = line.trim_matches('|').split('|').map(str::trim).collect();
        let [name, size, _] = cells[..] else { return Err("a row has three cells".to_string()) };
        if name.is_empty() {
            return Err("it has no name".to_string());
        }
        let size = match size {
            "the rest" => None,
            size => Some(Amount::read(size)?),
        };
        Ok(Row { name, number, size })
    }
}

/// All that the document says in numbers.
pub struct Document {
    pub table: Vec<Row>,
    pub area: Vec<Row>,
    pub words: Amount,
    pub bytes: Amount,
}

impl Document {
    /// Reads the document; an error names the line that is wrong.
    pub fn read() -> Result<Document, String> {
        let table = rows("words", 0)?;
        let area = rows("bytes", table[table.len() - 1].number + 1)?;
        let document = Document { words: formula("words")?, bytes: formula("bytes")?, table, area };
        document.agrees()
    }

    /// Every row, those of the table first.
    pub fn rows(&self) -> impl Iterator<Item = &Row> {
        self.table.iter().chain(&self.area)
    }

    /// The size of each column of the table but the rest.
    pub fn sizes(&self) -> Vec<Amount> {
        self.table.iter().filter_map(|row| row.size).collect()
    }

    /// The formulas are the sums of the rows.
    fn agrees(self) -> Result<Document, String> {
        let sum = |sizes: Vec<Amount>| sizes.iter().fold(Amount::default(), Amount::plus);
        let (words, bytes) = (sum(self.sizes()), sum(self.area.iter().filter_map(|row| row.size).collect()));
        for (name, formula, sum) in [("words", self.words, words), ("bytes", self.bytes, bytes)] {
            if formula != sum {
                return Err(format!(
                    "docs/LAYOUT.md: the formula of {name} is {formula:?}, the sum of the rows {sum:?}"
                ));
            }
        }
        Ok(self)
    }

    /// What the document says of the largest capacities stands in it, as `6,936 words` and `65,536 bytes`.
    pub fn states(&self, largest: &[u64; 6]) -> Result<(), String> {
        for (amount, unit) in [(self.words, "words"), (self.bytes, "bytes")] {
            let number = amount.at(largest);
            let stated = format!("{},{:03} {unit}", number / 1_000, number % 1_000);
            if !TEXT.split_whitespace().collect::<Vec<_>>().join(" ").contains(&format!(" {stated}")) {
                return Err(format!("docs/LAYOUT.md does not say {stated}"));
            }
        }
        Ok(())
    }
}

/// The rows of the table whose second cell is headed so. They are numbered from `next` on, and only the last is the rest.
fn rows(head: &str, mut next: usize) -> Result<Vec<Row>, String> {
    let head = format!("| name | {head} | holds |");
    let lines = TEXT.lines().skip_while(|line| *line != head).skip(2).take_while(|line| line.starts_with('|'));
    let mut rows: Vec<Row> = Vec::new();
    for line in lines {
        let wrong = |what: String| format!("docs/LAYOUT.md: {what}, in the row\n{line}");
        let row = Row::read(line, next).map_err(wrong)?;
        if rows.last().is_some_and(|before| before.size.is_none()) {
            return Err(wrong("a row follows the rest".to_string()));
        }
        next += 1;
        rows.push(row);
    }
    match rows.last() {
        Some(Row { size: None, .. }) => Ok(rows),
        _ => Err(format!("docs/LAYOUT.md: no table with the head\n{head}\nthat ends with the rest")),
    }
}

/// The line `NAME = SUM`.
fn formula(name: &str) -> Result<Amount, String> {
    let begin = format!("    {name} = ");
    let line = TEXT.lines().find_map(|line| line.strip_prefix(&begin));
    let sum = line.ok_or(format!("docs/LAYOUT.md: no line{begin}"))?;
    Amount::read(sum).map_err(|what| format!("docs/LAYOUT.md: {what}, in the formula of {name}"))
}
