//! The bench examples of document 01, and the rules that they leave out.

use model::limits::*;
use model::records;
use model::*;

const LARGE: Capacities = LARGEST;

fn started(caps: Capacities) -> Model {
    let mut m = Model::unsound();
    assert_eq!(m.start(true, bytes_needed(&caps), caps), DONE);
    m
}

/// A runtime with so many actors of priority 1, the first of them running.
fn running(caps: Capacities, actors: u64) -> Model {
    let mut m = started(caps);
    for i in 0..actors {
        assert_eq!(m.spawn(1), Made { no: DONE, id: 256 + i });
    }
    assert_eq!(m.next(), Turn { no: DONE, id: 256, reason: 0, sleep: 0 });
    m
}

fn any(m: &mut Model, wait: i64) -> Received {
    m.receive(ANY_SENDER, ANY_CLASS, ANY_TAG, wait)
}

#[test]
fn ids_of_the_first_spawns() {
    let mut m = running(LARGE, 2);
    assert_eq!(m.exit(65_532), Ended { no: DONE, sent: 0, lost: 0 });
    assert_eq!(m.spawn(0), Made { no: DONE, id: 512 });
}

#[test]
fn header_bytes() {
    assert_eq!(records::header(EXIT, true, 0), [0x00, 0x00, 0x00, 0x48]);
    assert_eq!(records::header(TIMER, true, 0), [0x00, 0x00, 0x00, 0x38]);
    assert_eq!(records::header(NOTIFY, false, 5), [0x05, 0x00, 0x00, 0x00]);
    assert_eq!(records::parts([0x00, 0x00, 0x00, 0x48]), (EXIT, true, 0));
    assert_eq!(records::parts([0x05, 0x00, 0x00, 0x00]), (NOTIFY, false, 5));
}

#[test]
fn one_mailbox_one_data_entry() {
    let mut m = running([1, 1, 1, 0, 0, 0], 1);
    assert_eq!(m.notify(256, 0, b"x"), DONE);
    assert_eq!(any(&mut m, 0), Received { no: DONE, sender: 256, class: 0, tag: 0, length: 1 });
    assert_eq!(m.notify(256, 0, b"x"), NO_ROOM);
    assert_eq!(any(&mut m, 0), Received { no: NOTHING, ..Default::default() });
    assert_eq!(m.notify(256, 0, b"x"), DONE);
}

#[test]
fn exit_frees_its_mailbox_before_it_sends() {
    let mut m = running([3, 1, 1, 2, 0, 0], 3);
    assert_eq!(m.link(257), DONE);
    assert_eq!(m.link(258), DONE);
    assert_eq!(m.notify(256, 1, &[]), DONE);
    assert_eq!(m.exit(65_533), Ended { no: DONE, sent: 1, lost: 1 });
    assert_eq!(m.next().id, 257);
    assert_eq!(any(&mut m, 0).sender, 256);
}

#[test]
fn time_to_sleep() {
    let mut m = running(LARGE, 1);
    assert_eq!(any(&mut m, -1).no, WAITING);
    assert_eq!(m.next(), Turn { no: WAITING, id: 0, reason: 0, sleep: -1 });

    let mut m = running(LARGE, 1);
    assert_eq!(m.advance(1_000), Advanced { no: DONE, fired: 0 });
    assert_eq!(m.after(500), Made { no: DONE, id: 64 });
    assert_eq!(m.receive(257, ANY_CLASS, ANY_TAG, 2).no, WAITING);
    assert_eq!(m.next(), Turn { no: WAITING, id: 0, reason: 0, sleep: 500 });
    assert_eq!(m.advance(500).fired, 1);
    assert_eq!(m.next().sleep, 1_500);
    assert_eq!(m.advance(1_500).fired, 0);
    assert_eq!(m.next(), Turn { no: DONE, id: 256, reason: 2, sleep: 0 });
}

#[test]
fn arguments_at_their_limits() {
    let mut m = running(LARGE, 1);
    assert_eq!(any(&mut m, -2).no, MALFORMED);
    assert_eq!(m.notify(256, 0, &[1; 252]), DONE);
    assert_eq!(m.notify(256, 0, &[1; 253]), MALFORMED);
    assert_eq!(m.notify(256, 134_217_726, &[]), DONE);
    assert_eq!(m.notify(256, 134_217_727, &[]), MALFORMED);
    assert_eq!(m.link(256), MALFORMED);
    assert_eq!(m.monitor(256).no, MALFORMED);
    assert_eq!(m.unlink(256), UNKNOWN);
    assert_eq!(m.every(0).no, MALFORMED);
    assert_eq!(m.after(1 << 32).no, MALFORMED);
    assert_eq!(m.exit(65_536).no, MALFORMED);
    assert_eq!(m.advance(1 << 32).no, MALFORMED);
    assert_eq!(m.spawn(4).no, MALFORMED);
}

#[test]
fn a_wait_ends_within_a_day_unless_it_is_for_ever() {
    let day = 86_400_000;
    let mut m = running(LARGE, 2);
    assert_eq!(any(&mut m, day + 1).no, MALFORMED);
    assert_eq!(any(&mut m, (1 << 31) - 1).no, MALFORMED);
    assert_eq!(any(&mut m, i64::MAX).no, MALFORMED);
    assert_eq!(any(&mut m, day).no, WAITING);
    assert_eq!(m.next().id, 257);
    assert_eq!(any(&mut m, -1).no, WAITING);
    assert_eq!(m.next().sleep, 1_000 * day);
    let mut slept = 0;
    while slept < 1_000 * day as u64 {
        let step = MAX_STEP.min(1_000 * day as u64 - slept);
        assert_eq!(m.advance(step).no, DONE);
        slept += step;
    }
    assert_eq!(m.next(), Turn { no: DONE, id: 256, reason: 2, sleep: 0 });
}

#[test]
fn an_interval_has_at_least_100_microseconds_and_a_delay_may_be_shorter() {
    let mut m = running(LARGE, 1);
    for short in [0, 1, 99] {
        assert_eq!(m.every(short).no, MALFORMED);
        assert_eq!(m.after(short).no, DONE);
    }
    assert_eq!(m.every(100).no, DONE);
    assert_eq!(m.every((1 << 32) - 1).no, DONE);
    assert_eq!(m.every(1 << 32).no, MALFORMED);
}

#[test]
fn the_bench_run() {
    let mut m = started(LARGE);
    let mut out = vec![m.spawn(1).id.to_string(), m.spawn(1).id.to_string(), m.next().id.to_string()];
    assert_eq!(m.link(257), DONE);
    let ended = m.exit(65_533);
    out.push(format!("sent {} lost {}", ended.sent, ended.lost));
    out.push(m.next().id.to_string());
    assert_eq!(any(&mut m, 0).no, DONE);
    let notice = records::read_exit(&m.show());
    out.push(format!("{} {}", records::reason_word(notice.reason), notice.actor));
    assert_eq!(out, ["256", "257", "256", "sent 1 lost 0", "257", "crash 256"]);
}

#[test]
fn a_message_to_an_ended_actor_does_not_reach_the_next_in_its_slot() {
    let mut m = running(LARGE, 2);
    m.exit(65_532);
    assert_eq!(m.spawn(1).id, 512);
    m.next();
    assert_eq!(m.notify(256, 0, &[]), UNKNOWN);
    assert_eq!(m.notify(512, 0, &[]), DONE);
    assert_eq!(m.notify(512 + (1 << 32), 0, &[]), UNKNOWN);
}

#[test]
fn only_a_matching_message_wakes_and_the_first_match_is_taken() {
    let mut m = running(LARGE, 2);
    assert_eq!(m.receive(ANY_SENDER, 0, 7, -1).no, WAITING);
    assert_eq!(m.next().id, 257);
    assert_eq!(m.notify(256, 6, b"six"), DONE);
    assert_eq!(m.yield_now(), DONE);
    assert_eq!(m.next().id, 257);
    assert_eq!(m.notify(256, 7, b"seven"), DONE);
    assert_eq!(m.yield_now(), DONE);
    assert_eq!(m.next(), Turn { no: DONE, id: 256, reason: 1, sleep: 0 });
    assert_eq!(m.receive(ANY_SENDER, 0, 7, -1), Received { no: DONE, sender: 257, class: 0, tag: 7, length: 5 });
    assert_eq!(m.shown(), Shown { no: DONE, offset: 256 + 4, length: 5 });
    assert_eq!(m.show(), b"seven");
}

#[test]
fn an_empty_payload_is_shown_with_its_place() {
    let mut m = running(LARGE, 1);
    assert_eq!(m.shown().no, UNKNOWN);
    assert_eq!(m.notify(256, 0, &[]), DONE);
    assert_eq!(any(&mut m, 0).no, DONE);
    assert_eq!(m.shown(), Shown { no: DONE, offset: 4, length: 0 });
}

#[test]
fn ticks_come_before_deadlines_and_a_periodic_timer_ticks_once() {
    let mut m = running(LARGE, 1);
    assert_eq!(m.every(100).id, 64);
    assert_eq!(any(&mut m, 1).no, WAITING);
    assert_eq!(m.advance(5_000), Advanced { no: DONE, fired: 1 });
    assert_eq!(m.next().reason, 1);
    assert_eq!(any(&mut m, 0), Received { no: DONE, sender: 0, class: 3, tag: 0, length: 12 });
    assert_eq!(due(&m, 0), 5_100);
    assert_eq!(m.cancel(64), DONE);
    assert_eq!(m.cancel(64), UNKNOWN);
}

fn due(m: &Model, slot: usize) -> u64 {
    m.state.as_ref().unwrap().timers.get(slot).unwrap().due
}

#[test]
fn a_metronome_that_fires_late_keeps_its_beat() {
    let mut m = running(LARGE, 1);
    assert_eq!(m.every(10_000).id, 64);
    let advances = [(13_000, 1, 20_000), (6_999, 0, 20_000), (1, 1, 30_000), (75_000, 1, 100_000), (4_999, 0, 100_000)];
    for (step, fired, next) in advances {
        assert_eq!(m.advance(step).fired, fired);
        assert_eq!(due(&m, 0), next);
    }
}

#[test]
fn a_metronome_without_room_stays_due_and_then_skips_to_its_beat() {
    let mut m = running([1, 1, 1, 0, 0, 1], 1);
    assert_eq!(m.every(1_000).id, 64);
    assert_eq!(m.notify(256, 0, &[]), DONE);
    assert_eq!(m.advance(3_500).fired, 0);
    assert_eq!(due(&m, 0), 1_000);
    assert_eq!(any(&mut m, 0).no, DONE);
    assert_eq!(any(&mut m, 0).no, NOTHING);
    assert_eq!(m.advance(0).fired, 1);
    assert_eq!(due(&m, 0), 4_000);
}

#[test]
fn no_due_time_is_past_the_limit() {
    let mut m = running(LARGE, 1);
    m.state.as_mut().unwrap().clock = MAX_CLOCK - MAX_STEP;
    assert_eq!(m.every(MAX_STEP).id, 64);
    assert_eq!(m.advance(MAX_STEP).fired, 1);
    assert_eq!(due(&m, 0), MAX_CLOCK + MAX_STEP);
    assert!(due(&m, 0) <= MAX_DUE);
}

#[test]
fn timers_stay_due_without_room() {
    let mut m = running([1, 1, 4, 0, 0, 3], 1);
    for delay in [30, 20, 20] {
        assert_eq!(m.after(delay).no, DONE);
    }
    assert_eq!(m.after(1).no, NO_ROOM);
    assert_eq!(m.advance(40).fired, 1);
    assert_eq!(any(&mut m, 0).no, DONE);
    assert_eq!(records::read_tick(&m.show()).id, 65);
    assert_eq!(m.advance(0).fired, 1);
    assert_eq!(any(&mut m, 0).no, DONE);
    assert_eq!(records::read_tick(&m.show()).id, 66);
}

#[test]
fn notices_of_links_then_of_monitors() {
    let mut m = running(LARGE, 3);
    m.yield_now();
    assert_eq!(m.next().id, 257);
    assert_eq!(m.monitor(256), Made { no: DONE, id: 128 });
    assert_eq!(m.monitor(256), Made { no: DONE, id: 129 });
    assert_eq!(m.link(256), DONE);
    assert_eq!(m.link(256), DONE);
    m.yield_now();
    assert_eq!(m.next().id, 258);
    m.yield_now();
    assert_eq!(m.next().id, 256);
    assert_eq!(m.exit(9), Ended { no: DONE, sent: 3, lost: 0 });
    assert_eq!(m.next().id, 257);
    let monitors: Vec<u64> = (0..3)
        .map(|_| {
            assert_eq!(any(&mut m, 0).class, EXIT);
            records::read_exit(&m.show()).monitor
        })
        .collect();
    assert_eq!(monitors, [0, 128, 129]);
    assert_eq!(m.demonitor(128), UNKNOWN);
    assert_eq!(m.report().free, [254, 256, 255, 128, 128, 64]);
}

#[test]
fn refusals_in_their_order() {
    let mut m = Model::unsound();
    assert_eq!(m.spawn(9).no, UNSOUND);
    assert_eq!(m.start(true, 65_536, [0, 1, 1, 0, 0, 0]), MALFORMED);
    assert_eq!(m.start(false, 65_536, [1, 1, 1, 0, 0, 0]), MALFORMED);
    assert_eq!(m.start(true, 255, [1, 1, 1, 0, 0, 0]), MALFORMED);
    assert_eq!(m.report().no, UNSOUND);
    let mut m = started([1, 1, 1, 0, 0, 0]);
    assert_eq!(m.notify(1, ANY_TAG, &[]), NOT_NOW);
    assert_eq!(m.spawn(0).id, 256);
    m.next();
    assert_eq!(m.next().no, NOT_NOW);
    assert_eq!(m.notify(1, ANY_TAG, &[]), MALFORMED);
    assert_eq!(m.notify(256, 0, &[]), DONE);
    assert_eq!(m.notify(1, 0, &[]), UNKNOWN);
    assert_eq!(m.notify(256, 0, &[]), NO_ROOM);
    assert_eq!(m.exit(0).no, DONE);
    assert_eq!(m.yield_now(), NOT_NOW);
}

#[test]
fn every_reason_has_its_word() {
    let words = [(0, "app"), (65_531, "app"), (65_532, "normal"), (65_533, "crash")];
    for (reason, word) in words.into_iter().chain([(65_534, "killed"), (65_535, "overflow")]) {
        assert_eq!(records::reason_word(reason), word);
    }
}
