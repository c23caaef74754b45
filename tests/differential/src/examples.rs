//! Document 01's bench examples, and those of the rules of the bus, through the C boundary, with the answers that the documents give.

use crate::call::{Answer, Call, Written};
use crate::compare::{make, Buffers, Difference};
use crate::ffi;
use model::limits::*;
use model::{Advanced, Copied, Ended, ExitRead, Made, Model, OldTickRead, Received, TickRead, Turn};
use model::{DONE, MALFORMED, NOTHING, NO_ROOM, WAITING};

/// A runtime that is led through an example.
struct Bench {
    name: &'static str,
    step: u64,
    buffers: Buffers,
    model: Model,
}

type Checked = Result<(), Difference>;

impl Bench {
    /// From a payload area of 65,536 zero bytes and a long zero table.
    fn start(name: &'static str, caps: Capacities) -> Result<Self, Difference> {
        let buffers = Buffers { words: vec![0; 8_192], bytes: vec![0; 65_536] };
        let mut bench = Bench { name, step: 0, buffers, model: Model::unsound() };
        bench.expect(Call::Start(caps), Answer::Number(DONE))?;
        Ok(bench)
    }

    /// With so many actors of priority 1, of which the first runs.
    fn running(name: &'static str, caps: Capacities, actors: u64) -> Result<Self, Difference> {
        let mut bench = Bench::start(name, caps)?;
        for i in 0..actors {
            bench.expect(Call::Spawn(1), made(256 + i))?;
        }
        bench.expect(Call::Next, turn(256))?;
        Ok(bench)
    }

    fn wrong(&self, call: String, what: String) -> Difference {
        Difference { number: self.step, call: format!("{call} of the example \"{}\"", self.name), what }
    }

    /// Library and model agree, and both give the document's answer.
    fn expect(&mut self, call: Call, answer: Answer) -> Checked {
        let lengths = (self.buffers.words.len(), self.buffers.bytes.len());
        let given = make(&call, &mut self.buffers, lengths, &mut self.model)
            .map_err(|what| self.wrong(format!("{call:?}"), what))?;
        self.step += 1;
        if given == answer {
            return Ok(());
        }
        Err(self.wrong(format!("{call:?}"), format!("library:  {given:?}\ndocument: {answer:?}")))
    }

    /// The payload in hand, by the place that the library gives.
    fn in_hand(&mut self) -> Vec<u8> {
        let place = ffi::shown(&mut self.buffers.words, &mut self.buffers.bytes);
        self.buffers.bytes[place.offset as usize..][..place.length as usize].to_vec()
    }

    fn same<T: PartialEq + std::fmt::Debug>(&self, what: &str, library: T, document: T) -> Checked {
        if library == document {
            return Ok(());
        }
        Err(self.wrong(what.to_string(), format!("library:  {library:?}\ndocument: {document:?}")))
    }
}

fn made(id: u64) -> Answer {
    Answer::Made(Made { no: DONE, id })
}

fn turn(id: u64) -> Answer {
    Answer::Turn(Turn { no: DONE, id, reason: 0, sleep: 0 })
}

fn sleep(sleep: i64) -> Answer {
    Answer::Turn(Turn { no: WAITING, id: 0, reason: 0, sleep })
}

fn ended(sent: u64, lost: u64) -> Answer {
    Answer::Ended(Ended { no: DONE, sent, lost })
}

fn receive_any(wait: i64) -> Call {
    Call::Receive(ANY_SENDER, ANY_CLASS, ANY_TAG, wait)
}

fn received(sender: u64, class: u64, tag: u64, length: u64) -> Answer {
    Answer::Received(Received { no: DONE, sender, class, tag, length })
}

fn nothing_received(no: u64) -> Answer {
    Answer::Received(Received { no, ..Default::default() })
}

fn notify(target: u64, tag: u64, length: usize) -> Call {
    Call::Notify(target, tag, vec![1; length])
}

fn publish(bus: u64, text: &str) -> Call {
    Call::Publish(bus, text.as_bytes().to_vec())
}

/// A read in a slice of eight dots.
fn read(bus: u64) -> Call {
    Call::Read(bus, b"........".to_vec())
}

/// What is in the slice then.
fn copied(no: u64, length: u64, slice: &str) -> Answer {
    Answer::Written(Written { copied: Copied { no, length }, slice: slice.as_bytes().to_vec() })
}

pub fn compare_examples() -> Checked {
    ids()?;
    headers_and_tick()?;
    one_mailbox()?;
    notice_lost()?;
    sleeps()?;
    metronome()?;
    limits()?;
    waits_and_intervals()?;
    bench_run()?;
    many_actors()?;
    twins()?;
    both_editions()?;
    no_history()?;
    oldest_evicted()
}

fn ids() -> Checked {
    let mut bench = Bench::running("ids", LARGEST, 2)?;
    bench.expect(Call::Exit(65_532), ended(0, 0))?;
    bench.expect(Call::Spawn(1), made(512))
}

fn headers_and_tick() -> Checked {
    let mut bench = Bench::running("headers", LARGEST, 2)?;
    bench.expect(notify(257, 5, 0), Answer::Number(DONE))?;
    bench.expect(Call::After(0), made(64))?;
    bench.expect(Call::Advance(0), Answer::Advanced(Advanced { no: DONE, fired: 1 }))?;
    bench.same("notify header", &bench.buffers.bytes[..4], &[0x05, 0, 0, 0])?;
    bench.same("tick header", &bench.buffers.bytes[256..260], &[0, 0, 0, 0x38])?;
    bench.expect(receive_any(0), received(0, TIMER, 0, 12))?;
    let tick = bench.in_hand();
    bench.same("tick", &tick[..], &[0x0A, 0, 0x03, 0, 0x40, 0, 0, 0, 0, 0, 0, 0])?;
    bench.same("read_tick", ffi::read_tick(&tick), TickRead { no: DONE, kind: 3, id: 64 })?;
    bench.expect(Call::Link(257), Answer::Number(DONE))?;
    bench.expect(Call::Exit(65_533), ended(1, 0))?;
    bench.same("exit header", &bench.buffers.bytes[256..260], &[0, 0, 0, 0x48])
}

fn one_mailbox() -> Checked {
    let mut bench = Bench::running("one mailbox, one data entry", [1, 1, 1, 0, 0, 0], 1)?;
    bench.expect(notify(256, 0, 3), Answer::Number(DONE))?;
    bench.expect(receive_any(0), received(256, NOTIFY, 0, 3))?;
    bench.expect(notify(256, 0, 3), Answer::Number(NO_ROOM))?;
    bench.expect(receive_any(0), nothing_received(NOTHING))?;
    bench.expect(notify(256, 0, 3), Answer::Number(DONE))
}

fn notice_lost() -> Checked {
    let mut bench = Bench::running("one notice sent, one lost", [3, 1, 1, 2, 0, 0], 3)?;
    bench.expect(Call::Link(257), Answer::Number(DONE))?;
    bench.expect(Call::Link(258), Answer::Number(DONE))?;
    bench.expect(notify(256, 0, 0), Answer::Number(DONE))?;
    bench.expect(Call::Exit(65_532), ended(1, 1))
}

fn sleeps() -> Checked {
    let mut bench = Bench::running("time to sleep", LARGEST, 1)?;
    bench.expect(Call::Advance(1_000), Answer::Advanced(Advanced { no: DONE, fired: 0 }))?;
    bench.expect(Call::After(500), made(64))?;
    bench.expect(receive_any(2), nothing_received(WAITING))?;
    bench.expect(Call::Next, sleep(500))?;
    let mut bench = Bench::running("nothing due", LARGEST, 1)?;
    bench.expect(receive_any(-1), nothing_received(WAITING))?;
    bench.expect(Call::Next, sleep(-1))
}

/// A timer armed at 0 with 10,000 that fires 3,000 late is next due at 20,000, and the beats of 30,000 and 40,000 give one tick.
fn metronome() -> Checked {
    let mut bench = Bench::running("a metronome without drift", LARGEST, 1)?;
    let ticked = Answer::Turn(Turn { no: DONE, id: 256, reason: 1, sleep: 0 });
    bench.expect(Call::Every(10_000), made(64))?;
    bench.expect(receive_any(-1), nothing_received(WAITING))?;
    for (step, until_next) in [(13_000, 7_000), (7_000, 10_000), (22_000, 8_000)] {
        bench.expect(Call::Advance(step), Answer::Advanced(Advanced { no: DONE, fired: 1 }))?;
        bench.expect(Call::Next, ticked.clone())?;
        bench.expect(receive_any(0), received(0, TIMER, 0, 12))?;
        bench.expect(receive_any(-1), nothing_received(WAITING))?;
        bench.expect(Call::Next, sleep(until_next))?;
    }
    Ok(())
}

fn limits() -> Checked {
    let mut bench = Bench::running("limits", LARGEST, 1)?;
    bench.expect(receive_any(-2), nothing_received(MALFORMED))?;
    bench.expect(notify(256, 0, 252), Answer::Number(DONE))?;
    bench.expect(notify(256, 0, 253), Answer::Number(MALFORMED))?;
    bench.expect(notify(256, 134_217_726, 0), Answer::Number(DONE))?;
    bench.expect(Call::Link(256), Answer::Number(MALFORMED))
}

/// A wait of a day and one without end pass, one a millisecond longer is malformed; an interval of 100 passes, one of 99 is malformed.
fn waits_and_intervals() -> Checked {
    let mut bench = Bench::running("waits and intervals at their limits", LARGEST, 2)?;
    let malformed = Answer::Made(Made { no: MALFORMED, id: 0 });
    bench.expect(Call::Every(99), malformed)?;
    bench.expect(Call::Every(100), made(64))?;
    bench.expect(Call::Cancel(64), Answer::Number(DONE))?;
    bench.expect(receive_any(86_400_001), nothing_received(MALFORMED))?;
    bench.expect(receive_any(86_400_000), nothing_received(WAITING))?;
    bench.expect(Call::Next, turn(257))?;
    bench.expect(receive_any(-1), nothing_received(WAITING))?;
    bench.expect(Call::Next, sleep(86_400_000_000))
}

fn bench_run() -> Checked {
    let mut bench = Bench::running("bench run", LARGEST, 2)?;
    bench.expect(Call::Link(257), Answer::Number(DONE))?;
    bench.expect(Call::Exit(65_533), ended(1, 0))?;
    bench.expect(Call::Next, turn(257))?;
    bench.expect(receive_any(0), received(256, EXIT, 0, 22))?;
    let notice = bench.in_hand();
    let exit_of_the_first = [0x14, 0, 0x04, 0, 0, 1, 0, 0, 0, 0, 0, 0, 0xFD, 0xFF, 0, 0, 0, 0, 0, 0, 0, 0];
    bench.same("notice", &notice[..], &exit_of_the_first)?;
    let read = ffi::read_exit(&notice);
    bench.same("read_exit", read, ExitRead { no: DONE, kind: 4, actor: 256, reason: 65_533, monitor: 0 })?;
    let word = ffi::reason_word(read.reason);
    bench.same("reason word", &word.bytes[..word.len], b"crash")
}

/// All 256 actors, of which the last is sent a message; then there is no room. A 257th is malformed to start.
fn many_actors() -> Checked {
    let mut bench = Bench::running("256 actors", [256, 1, 1, 0, 0, 0], 256)?;
    bench.expect(Call::Spawn(1), Answer::Made(Made { no: NO_ROOM, id: 0 }))?;
    bench.expect(notify(511, 0, 0), Answer::Number(DONE))?;
    bench.expect(Call::Exit(65_532), ended(0, 0))?;
    bench.expect(Call::Spawn(1), made(512))?;
    bench.expect(Call::Start([257, 1, 1, 0, 0, 0]), Answer::Number(MALFORMED))
}

/// Actors in slots that are the same modulo 64 are linked to one another, watch one another and sit on one bus.
fn twins() -> Checked {
    let mut bench = Bench::running("slots that are the same modulo 64", LARGEST, 256)?;
    bench.expect(Call::Bus(1, 32, 0, 0), made(0))?;
    for slot in 0..256 {
        let id = 256 + slot;
        for other in [0, 1, 64, 65, 128, 129, 192, 193].map(|slot| 256 + slot) {
            if slot % 64 == 0 && other != id {
                bench.expect(Call::Link(other), Answer::Number(DONE))?;
            }
        }
        if slot % 64 < 2 {
            bench.expect(Call::Subscribe(0), Answer::Number(DONE))?;
        }
        bench.expect(Call::Yield, Answer::Number(DONE))?;
        bench.expect(Call::Next, turn(256 + (slot + 1) % 256))?;
    }
    bench.expect(Call::Exit(65_532), ended(7, 0))
}

/// The readers of today take a tick of either edition, and those of the old edition theirs alone.
fn both_editions() -> Checked {
    let bench = Bench::start("both editions of a record", LARGEST)?;
    let (tick, old_tick) = ([0x0A, 0, 3, 0, 0x40, 0, 0, 0, 1, 0, 0, 0], [0x06, 0, 1, 0, 0x40, 0, 0, 0]);
    bench.same("read_tick", ffi::read_tick(&tick), TickRead { no: DONE, kind: 3, id: (1 << 32) + 64 })?;
    bench.same("read_tick", ffi::read_tick(&old_tick), TickRead { no: DONE, kind: 1, id: 64 })?;
    bench.same("read_old_tick", ffi::read_old_tick(&tick), OldTickRead { no: MALFORMED, id: 0 })?;
    bench.same("read_old_tick", ffi::read_old_tick(&old_tick), OldTickRead { no: DONE, id: 64 })
}

/// Rule 1 of the bus: E1, E2 and E3 stand on it when somebody subscribes, who cannot read them; E4 it can.
fn no_history() -> Checked {
    let mut bench = Bench::running("a new subscriber sees nothing published before", LARGEST, 1)?;
    bench.expect(Call::Bus(16, 32, 0, 0), made(0))?;
    for text in ["E1", "E2", "E3"] {
        bench.expect(publish(0, text), Answer::Number(DONE))?;
    }
    bench.expect(Call::Subscribe(0), Answer::Number(DONE))?;
    bench.expect(read(0), copied(NOTHING, 0, "........"))?;
    bench.expect(publish(0, "E4"), Answer::Number(DONE))?;
    bench.expect(read(0), copied(DONE, 2, "E4......"))?;
    bench.expect(read(0), copied(NOTHING, 0, "........"))
}

/// Rule 2 of the bus: E1, E2 and E3 fill it, so E4 evicts E1, which a slow subscriber has not read yet.
fn oldest_evicted() -> Checked {
    let mut bench = Bench::running("a full bus evicts its oldest entry", [1, 1, 3, 0, 0, 0], 1)?;
    bench.expect(Call::Bus(3, 1, 0, 0), made(0))?;
    bench.expect(Call::Bus(3, 1, 0, 0), made(1))?;
    bench.expect(Call::Subscribe(0), Answer::Number(DONE))?;
    for text in ["E1", "E2", "E3", "E4"] {
        bench.expect(publish(0, text), Answer::Number(DONE))?;
    }
    bench.expect(publish(1, "E5"), Answer::Number(NO_ROOM))?;
    for slice in ["E2......", "E3......", "E4......"] {
        bench.expect(read(0), copied(DONE, 2, slice))?;
    }
    bench.expect(read(0), copied(NOTHING, 0, "........"))
}
