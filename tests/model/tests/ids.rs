//! Ids of 64 bits and up to 256 actors, from request C-19: "Boxes that run all year".

use model::limits::*;
use model::records;
use model::*;

fn started(caps: Capacities) -> Model {
    let mut m = Model::unsound();
    assert_eq!(m.start(true, bytes_needed(&caps), caps), DONE);
    m
}

fn any(m: &mut Model, wait: i64) -> Received {
    m.receive(ANY_SENDER, ANY_CLASS, ANY_TAG, wait)
}

#[test]
fn last_id_of_slot_0() {
    let mut m = started([1, 1, 1, 0, 0, 0]);
    m.state.as_mut().unwrap().actors.slots[0].age = MAX_AGE - 1;
    assert_eq!(m.report().free[0], 1);
    assert_eq!(m.spawn(0).id, 281_474_976_710_656);
    assert_eq!(m.next().id, 281_474_976_710_656);
    assert_eq!(m.exit(0).no, DONE);
    assert_eq!(m.spawn(0), Made { no: NO_ROOM, id: 0 });
    assert_eq!(m.report().free, [0, 1, 1, 0, 0, 0]);
}

#[test]
fn a_worn_slot_is_passed_over() {
    let mut m = started([2, 1, 1, 0, 0, 0]);
    m.state.as_mut().unwrap().actors.slots[0].age = MAX_AGE;
    assert_eq!(m.spawn(0).id, 257);
    assert_eq!(m.spawn(0).no, NO_ROOM);
}

#[test]
fn the_last_timer_and_the_last_monitor_of_a_slot() {
    let mut m = started([2, 4, 4, 0, 1, 1]);
    let state = m.state.as_mut().unwrap();
    (state.timers.slots[0].age, state.monitors.slots[0].age) = (MAX_AGE - 1, MAX_AGE - 1);
    (m.spawn(0), m.spawn(0), m.next());
    assert_eq!(m.after(0), Made { no: DONE, id: 1 << 46 });
    assert_eq!(m.monitor(257), Made { no: DONE, id: 1 << 47 });
    assert_eq!(m.advance(0).fired, 1);
    assert_eq!(any(&mut m, 0).length, 12);
    assert_eq!(records::read_tick(&m.show()), TickRead { no: DONE, kind: 3, id: 1 << 46 });
    assert_eq!(m.after(0).no, NO_ROOM);
    assert_eq!(m.demonitor(1 << 47), DONE);
    assert_eq!(m.monitor(257).no, NO_ROOM);
}

#[test]
fn an_exit_notice_carries_ids_above_32_bits() {
    let mut m = started([2, 4, 4, 1, 1, 0]);
    let state = m.state.as_mut().unwrap();
    (state.actors.slots[0].age, state.monitors.slots[0].age) = (1 << 39, 1 << 39);
    let (first, monitor) = (((1 << 39) + 1) * 256, ((1 << 39) + 1) * 128);
    assert_eq!((m.spawn(0).id, m.spawn(0).id), (first, 257));
    assert_eq!((m.next().id, m.yield_now(), m.next().id), (first, DONE, 257));
    assert_eq!(m.monitor(first).id, monitor);
    assert_eq!((m.yield_now(), m.next().id), (DONE, first));
    assert_eq!(m.exit(9).sent, 1);
    assert_eq!(m.next().id, 257);
    assert_eq!(any(&mut m, 0), Received { no: DONE, sender: first, class: EXIT, tag: 0, length: 22 });
    let notice = ExitRead { no: DONE, kind: 4, actor: first, reason: 9, monitor };
    assert_eq!(records::read_exit(&m.show()), notice);
}

#[test]
fn two_hundred_and_fifty_six_actors() {
    let mut m = started([256, 1, 1, 0, 0, 0]);
    for slot in 0..256 {
        assert_eq!(m.spawn(3), Made { no: DONE, id: 256 + slot });
    }
    assert_eq!(m.spawn(3).no, NO_ROOM);
    assert_eq!(m.next().id, 256);
    assert_eq!(m.notify(511, 1, b"last"), DONE);
    assert_eq!(m.exit(0).no, DONE);
    assert_eq!(m.spawn(0).id, 512);
    assert_eq!(m.next().id, 512);
    assert_eq!(m.notify(256, 1, b""), UNKNOWN);
    assert_eq!(m.report().free, [0, 0, 0, 0, 0, 0]);
}

#[test]
fn at_most_256_actors_and_timers_as_before() {
    let mut m = Model::unsound();
    assert_eq!(m.start(true, 256, [257, 1, 1, 0, 0, 0]), MALFORMED);
    assert_eq!(m.start(true, 256, [1, 1, 1, 0, 0, 65]), MALFORMED);
    assert_eq!(m.start(true, 256, [1, 1, 1, 0, 129, 0]), MALFORMED);
    assert_eq!(m.start(true, 256, [256, 1, 1, 128, 128, 64]), DONE);
}

#[test]
fn no_sender_is_malformed() {
    let mut m = started([1, 1, 1, 0, 0, 0]);
    (m.spawn(0), m.next());
    for sender in [0, 1, 4_294_967_295, 4_294_967_296, 1 << 63, ANY_SENDER - 1, ANY_SENDER] {
        assert_eq!(m.receive(sender, ANY_CLASS, ANY_TAG, 0).no, NOTHING);
    }
    assert_eq!(m.notify(256, 1, b""), DONE);
    for sender in [4_294_967_295, ANY_SENDER - 1, 0] {
        assert_eq!(m.receive(sender, ANY_CLASS, ANY_TAG, 0).no, NOTHING);
    }
    assert_eq!(any(&mut m, 0).no, DONE);
}
