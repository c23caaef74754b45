//! docs/TRACE.md: its table of kinds is the model's and the statements', and the bytes of its example are those of the example's lines.

use model::limits::MAX_PAYLOAD;
use model::trace::{Shape, SHAPES};
use traces::text::to_bytes;
use traces::verdict;
use traces::words::hex;

const DOCUMENT: &str = include_str!("../../../docs/TRACE.md");
const STATEMENTS: &str = include_str!("../../../crates/trace/specs/Kinds.antt");

const HEAD: &str = "| kind | call | in front | text | answer | bytes |";
const EXAMPLE: &str = "## An example, taken apart";

/// A kind: how many numbers stand in front, whether a text follows them, how many are answered, the bytes of all but the text.
#[derive(Debug, PartialEq, Eq)]
struct Row {
    kind: u16,
    name: String,
    front: usize,
    text: bool,
    answer: usize,
    bytes: usize,
}

impl Row {
    /// As the model has it. A text's length stands in front of it, also where the text is the answer.
    fn of(shape: &Shape) -> Row {
        let fields = format!("{}{}", shape.args, shape.answer);
        let text = fields.find('p');
        let front = text.map_or(shape.args.len(), |place| place + 1);
        Row {
            kind: shape.kind,
            name: shape.name.to_string(),
            front,
            text: text.is_some(),
            answer: fields.len() - front,
            bytes: shape.longest() - text.map_or(0, |_| MAX_PAYLOAD),
        }
    }

    /// As the document has it: `| 17 | spawn | priority | - | no, id | 28 |`, and `36 + payload` where `payload` is the text.
    fn read(line: &str) -> Row {
        let cells: Vec<&str> = line.trim_matches('|').split('|').map(str::trim).collect();
        let [kind, name, front, text, answer, bytes] = cells[..] else { panic!("a row has six cells: {line}") };
        let (front, text, answer) = (names(front), names(text), names(answer));
        assert!(text.len() <= 1, "a row has one text at most: {line}");
        let sum: Vec<&str> = bytes.split('+').map(str::trim).collect();
        assert_eq!(sum[1..], text[..], "the texts of the sum: {line}");
        let number = |cell: &str| cell.parse().unwrap_or_else(|_| panic!("\"{cell}\" is no number: {line}"));
        Row {
            kind: number(kind) as u16,
            name: name.to_string(),
            front: front.len(),
            text: !text.is_empty(),
            answer: answer.len(),
            bytes: number(sum[0]),
        }
    }
}

/// The names in a cell; `-` stands for none.
fn names(cell: &str) -> Vec<&str> {
    let names: Vec<&str> = cell.split(',').map(str::trim).collect();
    assert!(names.iter().all(|name| !name.is_empty()), "a name is missing in \"{cell}\"");
    if names == ["-"] {
        return Vec::new();
    }
    names
}

/// The lines after this one, up to the next heading of a section.
fn section(heading: &'static str) -> impl Iterator<Item = &'static str> {
    DOCUMENT.lines().skip_while(move |line| *line != heading).skip(1).take_while(|line| !line.starts_with("## "))
}

/// The lines of the example, each with the bytes below it, up to the words that explain them.
fn example() -> Vec<(&'static str, Vec<u8>)> {
    let mut records: Vec<(&str, Vec<u8>)> = Vec::new();
    for line in section(EXAMPLE).filter_map(|line| line.strip_prefix("    ")) {
        if line.contains(" = ") {
            records.push((line, Vec::new()));
        } else if let Some((bytes, _)) = line.split_once("  ") {
            let record = records.last_mut().expect("bytes stand below a line");
            record.1.extend(bytes.split(' ').map(|byte| hex(byte).unwrap()));
        }
    }
    records
}

#[test]
fn the_table_is_the_models() {
    let rows = DOCUMENT.lines().skip_while(|line| *line != HEAD).skip(2).take_while(|line| line.starts_with('|'));
    assert_eq!(rows.map(Row::read).collect::<Vec<_>>(), SHAPES.iter().map(Row::of).collect::<Vec<_>>());
}

#[test]
fn the_statements_are_the_models() {
    let rows = STATEMENTS.lines().filter_map(|line| line.trim_start().trim_start_matches("∷ ").strip_prefix("row "));
    let numbers = rows.filter(|row| row.starts_with(|letter: char| letter.is_ascii_digit())).map(|row| {
        let words: Vec<&str> = row.split(' ').collect();
        (words[0].parse().unwrap(), words[1] == "PAYLOAD-MOST", words[2].parse().unwrap())
    });
    let ours = SHAPES.iter().map(Row::of).map(|row| (row.front, row.text, row.answer));
    assert_eq!(numbers.collect::<Vec<(usize, bool, usize)>>(), ours.collect::<Vec<_>>());
}

#[test]
fn the_example_is_what_its_lines_give() {
    let records = example();
    for (line, bytes) in &records {
        assert_eq!(to_bytes(line).unwrap(), *bytes, "{line}");
    }
    let calls: Vec<&str> = records.iter().map(|(line, _)| line.split(' ').next().unwrap()).collect();
    assert_eq!(calls, ["start", "spawn", "next", "notify"]);
}

#[test]
fn the_example_gets_its_verdicts() {
    let trace: Vec<u8> = example().into_iter().flat_map(|(_, bytes)| bytes).collect();
    let (mut changed, cut) = (trace.clone(), &trace[..trace.len() - 1]);
    changed[trace.len() - 1] = 2;
    let text = section(EXAMPLE).collect::<Vec<_>>().join("\n");
    for part in [&trace, &changed, cut] {
        let said = format!("`{}`", verdict(part));
        assert!(text.contains(&said), "the document does not say {said}");
    }
    assert!(text.contains(&format!("{} in all", trace.len())));
}
