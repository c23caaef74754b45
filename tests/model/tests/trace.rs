//! Records and verdicts: every way in which a trace ends, and the bytes of the records of which the form is special.

use model::limits::Capacities;
use model::trace::{self, Field, Record, Shape, SHAPES};
use model::verdict::{self, Verdict};
use Verdict::{Bad, Cut, Ok};

/// A layout for these tests: ten words for each actor.
fn suffices(words: u64, caps: &Capacities) -> bool {
    words >= 10 * caps[0]
}

fn verdict(trace: &[u8]) -> Verdict {
    verdict::verdict(trace, suffices)
}

fn numbers(of: &[i64]) -> Vec<Field> {
    of.iter().map(|&number| Field::Number(number as u64)).collect()
}

/// The record of a call whose arguments and answer are numbers.
fn record(name: &str, args: &[i64], answer: &[i64]) -> Record {
    Record { shape: Shape::of_name(name).unwrap(), args: numbers(args), answer: numbers(answer) }
}

fn call(name: &str, args: &[i64], answer: &[i64]) -> Vec<u8> {
    record(name, args, answer).bytes()
}

fn start(words: i64, bytes: i64, no: i64) -> Vec<u8> {
    call("start", &[words, bytes, 4, 8, 8, 4, 4, 4], &[no])
}

fn notify(target: i64, payload: &[u8], no: i64) -> Vec<u8> {
    let args = [numbers(&[target, 7]), vec![Field::payload(payload)]].concat();
    Record { shape: Shape::of_name("notify").unwrap(), args, answer: numbers(&[no]) }.bytes()
}

fn publish(bus: i64, payload: &[u8], no: i64) -> Vec<u8> {
    let args = [numbers(&[bus]), vec![Field::payload(payload)]].concat();
    Record { shape: Shape::of_name("publish").unwrap(), args, answer: numbers(&[no]) }.bytes()
}

fn read(bus: i64, room: i64, no: i64, copied: &[u8]) -> Vec<u8> {
    let answer = [numbers(&[no]), vec![Field::payload(copied)]].concat();
    Record { shape: Shape::of_name("read").unwrap(), args: numbers(&[bus, room]), answer }.bytes()
}

fn show(part: &[u8]) -> Vec<u8> {
    Record { shape: Shape::of_name("show").unwrap(), args: vec![], answer: vec![Field::payload(part)] }.bytes()
}

/// Any sender is 2^64 - 1, which is -1 as a signed number.
const ANY: [i64; 3] = [-1, 15, 134_217_727];

fn receive(wait: i64, answer: &[i64]) -> Vec<u8> {
    call("receive", &[&ANY[..], &[wait]].concat(), answer)
}

/// A run with every kind of record.
fn run() -> Vec<Vec<u8>> {
    vec![
        start(40, 2_048, 0),
        call("spawn", &[1], &[0, 256]),
        call("spawn", &[1], &[0, 257]),
        call("next", &[], &[0, 256, 0, 0]),
        call("link", &[257], &[0]),
        call("unlink", &[257], &[0]),
        call("monitor", &[257], &[0, 128]),
        call("demonitor", &[128], &[0]),
        call("link", &[257], &[0]),
        call("every", &[1_000], &[0, 64]),
        call("cancel", &[64], &[0]),
        call("after", &[1_000], &[0, 128]),
        notify(257, b"abc", 0),
        notify(257, &[1; 253], 1),
        call("yield", &[], &[0]),
        call("next", &[], &[0, 257, 0, 0]),
        receive(0, &[0, 256, 0, 7, 3]),
        show(b"abc"),
        call("shown", &[], &[0, 4, 3]),
        receive(-1, &[6, 0, 0, 0, 0]),
        call("next", &[], &[0, 256, 0, 0]),
        receive(-1, &[6, 0, 0, 0, 0]),
        call("next", &[], &[6, 0, 0, 1_000]),
        call("advance", &[1_000], &[0, 1]),
        call("next", &[], &[0, 256, 1, 0]),
        call("exit", &[65_533], &[0, 1, 0]),
        call("report", &[], &[0, 3, 7, 7, 4, 4, 4]),
        call("bus", &[2, 1, 0, 0], &[0, 0]),
        call("next", &[], &[0, 257, 1, 0]),
        call("subscribe", &[0], &[0]),
        publish(0, b"21.5", 0),
        read(0, 3, 1, b""),
        read(0, 4, 0, b"21.5"),
        read(0, 4, 5, b""),
        call("unsubscribe", &[0], &[0]),
        read(0, 4, 3, b""),
    ]
}

/// How many records that are, as a verdict counts them.
fn count() -> u64 {
    run().len() as u64
}

fn trace() -> Vec<u8> {
    run().concat()
}

#[test]
fn a_whole_trace_is_ok() {
    assert_eq!(verdict(&trace()), Ok(count()));
}

#[test]
fn the_run_has_every_kind() {
    let named = |record: &Vec<u8>| Record::read(record).unwrap().shape.name;
    let names: Vec<&str> = run().iter().map(named).collect();
    assert!(SHAPES.iter().all(|shape| names.contains(&shape.name)));
}

#[test]
fn no_input_is_ok_0() {
    assert_eq!(verdict(&[]), Ok(0));
}

#[test]
fn the_first_record_must_be_a_start() {
    assert_eq!(verdict(&run()[1..].concat()), Bad(0));
    assert_eq!(verdict(&call("spawn", &[1], &[7, 0])), Bad(0));
    assert_eq!(verdict(&show(b"")), Bad(0));
}

#[test]
fn the_first_start_must_be_done() {
    assert_eq!(verdict(&start(39, 2_048, 1)), Bad(0));
    assert_eq!(verdict(&start(40, 2_047, 1)), Bad(0));
    assert_eq!(verdict(&start(39, 2_048, 0)), Bad(0));
    assert_eq!(verdict(&start(40, 2_048, 1)), Bad(0));
}

#[test]
fn a_length_without_room_for_a_kind_is_bad() {
    assert_eq!(verdict(&[&trace()[..], &[0, 0]].concat()), Bad(count()));
    assert_eq!(verdict(&[&trace()[..], &[1, 0, 17]].concat()), Bad(count()));
    assert_eq!(verdict(&[0, 0]), Bad(0));
}

#[test]
fn an_unknown_kind_is_bad_and_cut_where_the_input_ends_inside() {
    for kind in [0, 1, 2, 3, 4, 15, 39, 255, 256 + 17] {
        let [low, high] = u16::to_le_bytes(kind);
        assert_eq!(verdict(&[&trace()[..], &[2, 0, low, high]].concat()), Bad(count()));
        assert_eq!(verdict(&[&trace()[..], &[3, 0, low, high]].concat()), Cut(count()));
    }
}

#[test]
fn a_cut_is_told_at_every_byte() {
    let (whole, mut n, mut end) = (trace(), 0, run()[0].len());
    for length in 1..whole.len() {
        if length == end {
            n += 1;
            end += run()[n as usize].len();
            assert_eq!(verdict(&whole[..length]), Ok(n));
        } else {
            assert_eq!(verdict(&whole[..length]), Cut(n));
        }
    }
}

#[test]
fn a_kind_with_the_length_of_another_is_bad() {
    for other in SHAPES.iter().filter(|other| other.longest() != Shape::of_name("link").unwrap().longest()) {
        let mut wrong = call("link", &[257], &[0]);
        wrong[2..4].copy_from_slice(&other.kind.to_le_bytes());
        assert_eq!(verdict(&[&run()[..4].concat()[..], &wrong].concat()), Bad(4), "{}", other.name);
    }
}

#[test]
fn a_byte_too_many_or_too_few_is_bad() {
    for (i, record) in run().iter().enumerate() {
        let before = run()[..i].concat();
        let longer = [&with_length(record, 1)[..], &[0]].concat();
        assert_eq!(verdict(&[&before[..], &longer].concat()), Bad(i as u64));
        let shorter = &with_length(record, -1)[..record.len() - 1];
        assert_eq!(verdict(&[&before[..], shorter].concat()), Bad(i as u64));
    }
}

/// The record with a length that is so much more.
fn with_length(record: &[u8], more: i16) -> Vec<u8> {
    let length = i16::from_le_bytes([record[0], record[1]]) + more;
    [&length.to_le_bytes(), &record[2..]].concat()
}

/// Another field, of the same length where it can be.
fn other(field: &Field) -> Field {
    match field {
        Field::Number(number) => Field::Number(number ^ (1 << 40)),
        Field::Bytes(bytes) if bytes.is_empty() => Field::Bytes(vec![0]),
        Field::Bytes(bytes) => Field::Bytes(bytes.iter().map(|byte| byte ^ 1).collect()),
        Field::Long(length) => Field::Long(length + 1),
    }
}

#[test]
fn an_answer_that_differs_in_any_field_is_bad() {
    for (i, bytes) in run().iter().enumerate() {
        let record = Record::read(bytes).unwrap();
        for field in 0..record.answer.len() {
            let mut wrong = record.clone();
            wrong.answer[field] = other(&wrong.answer[field]);
            let trace = [run()[..i].concat(), wrong.bytes(), run()[i + 1..].concat()].concat();
            assert_eq!(verdict(&trace), Bad(i as u64), "{} field {field}", record.shape.name);
        }
    }
}

#[test]
fn a_payload_over_252_is_its_length_alone() {
    let before = run()[..4].concat();
    let long = notify(257, &[9; 253], 1);
    assert_eq!(long.len(), 4 + 3 * 8 + 8);
    assert_eq!(long, notify(257, &[7; 253], 1));
    assert_eq!(verdict(&[&before[..], &long].concat()), Ok(5));
    assert_eq!(verdict(&[&before[..], &notify(257, &[9; 253], 0)].concat()), Bad(4));
    let mut longest = long.clone();
    longest[20..28].fill(255);
    assert_eq!(verdict(&[&before[..], &longest].concat()), Ok(5));
    assert_eq!(verdict(&[&before[..], &notify(257, &[9; 252], 0)].concat()), Ok(5));
    assert_eq!(notify(257, &[9; 252], 0).len(), trace::most());
}

#[test]
fn a_shown_part_over_252_is_never_right() {
    assert_eq!(verdict(&[run()[..17].concat(), show(&[1; 300])].concat()), Bad(17));
}

#[test]
fn the_bytes_that_a_read_copied_are_compared() {
    let before = run()[..32].concat();
    for (copied, verdict_due) in
        [(&b"21.5"[..], Ok(33)), (b"21.6", Bad(32)), (b"21.5 ", Bad(32)), (b"21.", Bad(32)), (b"", Bad(32))]
    {
        assert_eq!(verdict(&[&before[..], &read(0, 252, 0, copied)].concat()), verdict_due);
    }
    assert_eq!(verdict(&[&before[..], &read(0, -1, 0, b"21.5")].concat()), Ok(33));
    assert_eq!(verdict(&[&before[..], &read(0, 300, 0, &[1; 300])].concat()), Bad(32));
    assert_eq!(read(0, 252, 0, &[1; 252]).len(), trace::most());
}

#[test]
fn what_is_published_is_recorded_as_a_message_is() {
    let before = run()[..30].concat();
    assert_eq!(publish(0, &[9; 253], 1), publish(0, &[7; 253], 1));
    assert_eq!(verdict(&[&before[..], &publish(0, &[9; 253], 1)].concat()), Ok(31));
    assert_eq!(verdict(&[&before[..], &publish(0, &[9; 253], 0)].concat()), Bad(30));
    assert_eq!(verdict(&[&before[..], &publish(0, &[9; 252], 0)].concat()), Ok(31));
}

#[test]
fn a_start_inside_the_trace_begins_anew_or_changes_nothing() {
    let done = [run()[..4].concat(), start(40, 2_048, 0), call("spawn", &[0], &[0, 256])].concat();
    assert_eq!(verdict(&done), Ok(6));
    let refused = [run()[..4].concat(), start(40, 2_047, 1), call("spawn", &[0], &[0, 258])].concat();
    assert_eq!(verdict(&refused), Ok(6));
    assert_eq!(verdict(&[run()[..4].concat(), start(40, 2_047, 0)].concat()), Bad(4));
    assert_eq!(verdict(&[run()[..4].concat(), start(40, 2_048, 1)].concat()), Bad(4));
}

#[test]
fn a_later_start_is_judged_by_its_own_lengths() {
    let before = run()[..4].concat();
    assert_eq!(verdict(&[&before[..], &start(1 << 62, 1 << 62, 0)].concat()), Ok(5));
    assert_eq!(verdict(&[&before[..], &start(-1, -1, 0)].concat()), Ok(5));
    assert_eq!(verdict(&[&before[..], &start(0, 0, 1)].concat()), Ok(5));
}

#[test]
fn every_record_reads_back() {
    for bytes in run() {
        assert_eq!(Record::read(&bytes).unwrap().bytes(), bytes);
    }
}

#[test]
fn bytes_of_some_records() {
    assert_eq!(call("yield", &[], &[4]), [10, 0, 19, 0, 4, 0, 0, 0, 0, 0, 0, 0]);
    assert_eq!(show(b"a"), [11, 0, 22, 0, 1, 0, 0, 0, 0, 0, 0, 0, b'a']);
    let idle = call("next", &[], &[6, 0, 0, -1]);
    assert_eq!(idle[..12], [34, 0, 18, 0, 6, 0, 0, 0, 0, 0, 0, 0]);
    assert_eq!(idle[28..], [255; 8]);
    assert_eq!(trace::most(), 288);
}

#[test]
fn verdicts_in_words() {
    assert_eq!([Ok(0), Bad(1), Cut(22)].map(|v| v.to_string()), ["ok 0", "bad 1", "cut 22"]);
}
