//! The same number in different places: the library's code (crates/tables/src), its statements (crates/tables/specs), docs/LAYOUT.md, the C
//! header and the model. `numbers c` writes a C program that prints every number of the header; `numbers compare` reads what it printed and
//! compares all of them.

use model::limits::*;
use model::records::*;
use model::state::Reason;
use model::trace;
use numbers::document::Document;
use numbers::sources::{self, Numbers};
use std::collections::BTreeSet;
use std::process::ExitCode;

const HEADER: &str = include_str!("../../../include/foamgangway.h");

/// Words of the header that are no numbers.
const NO_NUMBERS: [&str; 4] = ["FG_BUFFERS", "FG_RECORD", "FG_WORDS", "FG_BYTES"];

/// The names of the header's numbers: every constant that it mentions.
fn header_names() -> BTreeSet<&'static str> {
    let words = HEADER.split(|c: char| !c.is_ascii_alphanumeric() && c != '_');
    let upper =
        |word: &&str| word.starts_with("FG_") && !word.contains(|c: char| c.is_ascii_lowercase()) && *word != "FG_";
    words.filter(upper).filter(|word| !NO_NUMBERS.contains(word)).collect()
}

/// The four ways of the header to say how much is needed, at some capacities.
fn needs(caps: &Capacities) -> [String; 4] {
    let list = caps.map(|n| n.to_string()).join(", ");
    let data = caps[2];
    [
        format!("FG_WORDS({list})"),
        format!("fg_words_needed({list})"),
        format!("FG_BYTES({data})"),
        format!("fg_bytes_needed({data})"),
    ]
}

/// How the C program begins: a number of 64 bits without a sign is printed as such, and every other as one with a sign.
const C_BEGINS: &str = "#include <inttypes.h>
#include <stdio.h>
#include \"foamgangway.h\"

static void print_unsigned(const char *name, uint64_t number) { printf(\"%s = %\" PRIu64 \"\\n\", name, number); }
static void print_signed(const char *name, int64_t number) { printf(\"%s = %\" PRId64 \"\\n\", name, number); }
#define PRINT(name, number) _Generic((number), uint64_t: print_unsigned, default: print_signed)(name, number)
";

/// The C program: a line `NAME = NUMBER` for each number.
fn c_program() -> String {
    let names = header_names().into_iter().map(str::to_string);
    let needs = samples().iter().flat_map(needs).collect::<Vec<_>>();
    let line = |name: String| format!("    PRINT(\"{name}\", {name});\n");
    let lines: String = names.chain(needs).map(line).collect();
    format!("{C_BEGINS}\nint main(void)\n{{\n{lines}    return 0;\n}}\n")
}

/// What the C program printed.
fn printed(text: &str) -> Result<Numbers, String> {
    let read = |line: &str| {
        let (name, number) = line.rsplit_once(" = ")?;
        Some((name.to_string(), number.parse().ok()?))
    };
    text.lines().map(|line| read(line).ok_or(format!("the C program printed: {line}"))).collect()
}

/// A limit by its name in the header, its name in the library and its number in the model. "" is no name.
type Limit = (&'static str, &'static str, i128);

fn limits() -> Vec<Limit> {
    let reason = |word: &str| (0..=u16::MAX).find(|&r| reason_word(r) == word).map_or(-1, i128::from);
    vec![
        ("FG_MAX_ACTORS", "MOST_ACTORS", LARGEST[0].into()),
        ("FG_MAX_MAILBOXES", "MOST_MAILS", LARGEST[1].into()),
        ("FG_MAX_DATA", "MOST_DATAS", LARGEST[2].into()),
        ("FG_MAX_LINKS", "MOST_LINKS", LARGEST[3].into()),
        ("FG_MAX_MONITORS", "MOST_MONITORS", LARGEST[4].into()),
        ("FG_MAX_TIMERS", "MOST_TIMERS", LARGEST[5].into()),
        ("FG_ACTOR_FACTOR", "ACTOR_FACTOR", ACTOR_FACTOR.into()),
        ("FG_TIMER_FACTOR", "TIMER_FACTOR", TIMER_FACTOR.into()),
        ("FG_MONITOR_FACTOR", "MONITOR_FACTOR", MONITOR_FACTOR.into()),
        ("FG_MAX_AGE", "OLDEST", MAX_AGE.into()),
        ("FG_MAX_PRIORITY", "LAST_LEVEL", MAX_PRIORITY.into()),
        ("FG_MAX_PAYLOAD", "PAYLOAD_MOST", MAX_PAYLOAD as i128),
        ("FG_ENTRY_BYTES", "ENTRY_BYTES", ENTRY_BYTES.into()),
        ("FG_HEADER_BYTES", "HEADER_BYTES", HEADER_BYTES.into()),
        ("FG_MAX_CLOCK", "CLOCK_END", MAX_CLOCK.into()),
        ("FG_MAX_STEP", "LONGEST", MAX_STEP.into()),
        ("FG_MIN_INTERVAL", "SHORTEST_INTERVAL", MIN_INTERVAL.into()),
        ("FG_MAX_WAIT", "LONGEST_WAIT", MAX_WAIT.into()),
        ("FG_MAX_BUSES", "MOST_BUSES", MAX_BUSES as i128),
        ("FG_MAX_BUS_ENTRIES", "MOST_VALUES", MAX_BUS_ENTRIES.into()),
        ("FG_MAX_SUBSCRIBERS", "MOST_SEATS", MAX_SUBSCRIBERS.into()),
        ("FG_MAX_READS", "MOST_READS", MAX_READS.into()),
        ("FG_MAX_BUS_AGE", "LONGEST_AGE", MAX_BUS_AGE.into()),
        ("", "DUE_END", MAX_DUE.into()),
        ("", "DEADLINE_END", MAX_DEADLINE.into()),
        ("FG_ANY_SENDER", "ANY_SENDER", ANY_SENDER.into()),
        ("FG_ANY_CLASS", "ANY_CLASS", ANY_CLASS.into()),
        ("FG_ANY_TAG", "ANY_TAG", ANY_TAG.into()),
        ("FG_MAX_TAG", "", (ANY_TAG - 1).into()),
        ("FG_MAX_REASON", "LAST_REASON", MAX_REASON.into()),
        ("FG_EXIT_NORMAL", "", reason("normal")),
        ("FG_EXIT_CRASH", "", reason("crash")),
        ("FG_EXIT_KILLED", "", reason("killed")),
        ("FG_EXIT_OVERFLOW", "", reason("overflow")),
        ("FG_TICK_BYTES", "", TICK_BYTES as i128),
        ("FG_EXIT_BYTES", "", EXIT_BYTES as i128),
        ("FG_KIND_TICK", "", TICK_KIND.into()),
        ("FG_KIND_EXIT", "", EXIT_KIND.into()),
        ("FG_OLD_TICK_BYTES", "", OLD_TICK_BYTES as i128),
        ("FG_OLD_EXIT_BYTES", "", OLD_EXIT_BYTES as i128),
        ("FG_KIND_OLD_TICK", "", OLD_TICK_KIND.into()),
        ("FG_KIND_OLD_EXIT", "", OLD_EXIT_KIND.into()),
        ("FG_TRACE_MOST", "", trace::most() as i128),
        ("FG_WAIT_FOREVER", "", -1),
        ("FG_WAIT_NOT", "", 0),
        ("FG_CLASS_NOTIFY", "", NOTIFY.into()),
        ("FG_CLASS_REQUEST", "", 1),
        ("FG_CLASS_REPLY", "", 2),
        ("FG_CLASS_TIMER", "", TIMER.into()),
        ("FG_CLASS_EXIT", "", EXIT.into()),
        ("FG_RUNS_READY", "", Reason::Ready as i128),
        ("FG_RUNS_MESSAGE", "", Reason::Message as i128),
        ("FG_RUNS_TIMEOUT", "", Reason::Timeout as i128),
        ("FG_DONE", "", model::DONE.into()),
        ("FG_MALFORMED", "", model::MALFORMED.into()),
        ("FG_NO_ROOM", "", model::NO_ROOM.into()),
        ("FG_UNKNOWN", "", model::UNKNOWN.into()),
        ("FG_NOT_NOW", "", model::NOT_NOW.into()),
        ("FG_NOTHING", "", model::NOTHING.into()),
        ("FG_WAITING", "", model::WAITING.into()),
        ("FG_UNSOUND", "", model::UNSOUND.into()),
    ]
}

/// Compares numbers, and keeps what differs.
#[derive(Default)]
struct Compared {
    count: usize,
    wrong: Vec<String>,
}

impl Compared {
    fn same(&mut self, name: &str, here: (&str, Option<i128>), there: (&str, Option<i128>)) {
        self.count += 1;
        if here.1.is_none() || here.1 != there.1 {
            let show = |number: Option<i128>| number.map_or("nothing".to_string(), |n| n.to_string());
            self.wrong.push(format!("{name}: {} in {}, {} in {}", show(here.1), here.0, show(there.1), there.0));
        }
    }

    /// The code's columns and the document's rows are the same.
    fn columns(&mut self, columns: &Numbers, document: &Document) {
        let rows: Numbers = document.rows().map(|row| (row.name.to_string(), row.number as i128)).collect();
        for name in columns.keys().chain(rows.keys()).collect::<BTreeSet<_>>() {
            let numbers = (columns.get(name).copied(), rows.get(name).copied());
            self.same(name, ("columns.rt", numbers.0), ("docs/LAYOUT.md", numbers.1));
        }
    }

    /// Every name of the code is one of the statements too.
    fn statements(&mut self, code: &Numbers, specs: &Numbers) {
        for (name, number) in code {
            self.same(name, ("the code", Some(*number)), ("the statements", specs.get(name).copied()));
        }
    }

    /// The reckoning, which stands on no table, has names of its own: those that the statements have too are the same numbers, the others the model's.
    fn reckoning(&mut self, ledger: &Numbers, specs: &Numbers) {
        let record = |bytes: usize| Some(bytes as i128 - 2);
        for (name, number) in ledger {
            let model = match name.as_str() {
                "NOTIFY_CLASS" => Some(NOTIFY.into()),
                "TIMER_CLASS" => Some(TIMER.into()),
                "EXIT_CLASS" => Some(EXIT.into()),
                "LAST_CLASS" => Some(LAST_CLASS.into()),
                "TICK_LENGTH" => record(TICK_BYTES),
                "EXIT_LENGTH" => record(EXIT_BYTES),
                "TICK_KIND" => Some(TICK_KIND.into()),
                "EXIT_KIND" => Some(EXIT_KIND.into()),
                _ => specs.get(name).copied(),
            };
            self.same(name, ("the reckoning", Some(*number)), ("the statements or the model", model));
        }
    }

    fn limits(&mut self, code: &Numbers, header: &Numbers) {
        for (in_header, in_code, number) in limits() {
            let model = ("the model", Some(number));
            if !in_code.is_empty() {
                self.same(in_code, ("the code", code.get(in_code).copied()), model);
            }
            if !in_header.is_empty() {
                self.same(in_header, ("the header", header.get(in_header).copied()), model);
            }
        }
    }

    /// No number of the header is left out.
    fn header_is_covered(&mut self) {
        let known: BTreeSet<&str> = limits().iter().map(|limit| limit.0).collect();
        let left = header_names().into_iter().filter(|name| !known.contains(name));
        self.wrong.extend(left.map(|name| format!("{name}: the header has it, and nothing is compared with it")));
    }

    /// The words and bytes that are needed: the header's, the document's and, for bytes, the model's.
    fn needed(&mut self, header: &Numbers, document: &Document) {
        for caps in samples() {
            let (words, bytes) = (document.words.at(&caps).into(), document.bytes.at(&caps).into());
            for (name, number) in needs(&caps).iter().zip([words, words, bytes, bytes]) {
                self.same(name, ("the header", header.get(name).copied()), ("docs/LAYOUT.md", Some(number)));
            }
            let model = ("the model", Some(bytes_needed(&caps).into()));
            self.same(&format!("bytes at {caps:?}"), ("docs/LAYOUT.md", Some(bytes)), model);
        }
    }
}

fn compare(text: &str) -> Result<usize, String> {
    let (document, header) = (Document::read()?, printed(text)?);
    let (code, columns) = sources::code()?;
    let mut compared = Compared::default();
    compared.columns(&columns, &document);
    let specs = sources::specs()?;
    compared.statements(&code, &specs);
    compared.reckoning(&sources::ledger()?, &specs);
    compared.limits(&code, &header);
    compared.header_is_covered();
    compared.needed(&header, &document);
    compared.wrong.extend(document.states(&LARGEST).err());
    if compared.wrong.is_empty() {
        return Ok(compared.count);
    }
    Err(compared.wrong.join("\n"))
}

fn main() -> ExitCode {
    let done = match std::env::args().nth(1).as_deref() {
        Some("c") => Ok(c_program()),
        Some("compare") => std::io::read_to_string(std::io::stdin())
            .map_err(|what| what.to_string())
            .and_then(|text| compare(&text))
            .map(|count| format!("numbers: {count} comparisons agree\n")),
        _ => Err("numbers c | numbers compare".to_string()),
    };
    match done {
        Ok(text) => print!("{text}"),
        Err(what) => {
            println!("{what}");
            return ExitCode::FAILURE;
        }
    }
    ExitCode::SUCCESS
}
