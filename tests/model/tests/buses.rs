//! Buses, from request C-11 and from rules 1 and 2 of the source document that it names.

use model::limits::*;
use model::*;

/// A thermometer, 256, which runs, and so many readers after it, all of one level.
fn lab(caps: Capacities, readers: u64) -> Model {
    let mut m = Model::unsound();
    assert_eq!(m.start(true, bytes_needed(&caps), caps), DONE);
    for i in 0..=readers {
        assert_eq!(m.spawn(1), Made { no: DONE, id: 256 + i });
    }
    assert_eq!(m.next().id, 256);
    m
}

const SMALL: Capacities = [4, 8, 8, 4, 4, 4];

/// Hands the turn on, to the actor of this id.
fn turn(m: &mut Model, id: u64) {
    assert_eq!(m.yield_now(), DONE);
    assert_eq!(m.next().id, id);
}

/// What a read of the caller gives in a slice that is long enough.
fn read(m: &mut Model, bus: u64) -> Result<String, u64> {
    let mut out = [b'.'; 252];
    match m.read(bus, &mut out) {
        Copied { no: DONE, length } => {
            assert!(out[length as usize..].iter().all(|&byte| byte == b'.'));
            Ok(String::from_utf8(out[..length as usize].to_vec()).unwrap())
        }
        Copied { no, length } => {
            assert_eq!((length, out), (0, [b'.'; 252]));
            Err(no)
        }
    }
}

fn reads(m: &mut Model, bus: u64, expected: &[&str]) {
    for &text in expected {
        assert_eq!(read(m, bus), Ok(text.to_string()));
    }
    assert_eq!(read(m, bus), Err(NOTHING));
}

fn free_data(m: &mut Model) -> u64 {
    m.report().free[2]
}

#[test]
fn buses_are_numbered_from_0_and_need_no_actor() {
    let mut m = Model::unsound();
    assert_eq!(m.bus(1, 1, 0, 0), Made { no: UNSOUND, id: 0 });
    assert_eq!(m.start(true, 256, [1, 1, 1, 0, 0, 0]), DONE);
    for number in 0..32 {
        assert_eq!(m.bus(16, 32, 32, MAX_BUS_AGE), Made { no: DONE, id: number });
    }
    assert_eq!(m.bus(1, 1, 0, 0), Made { no: NO_ROOM, id: 0 });
    assert_eq!(m.bus(0, 1, 0, 0), Made { no: MALFORMED, id: 0 });
    assert_eq!(m.start(true, 256, [1, 1, 1, 0, 0, 0]), DONE);
    assert_eq!(m.bus(1, 1, 0, 0), Made { no: DONE, id: 0 });
}

#[test]
fn settings_at_their_limits() {
    let mut m = lab(SMALL, 0);
    for settings in [(1, 1, 0, 0), (16, 32, 32, 2_147_483_647)] {
        assert_eq!(m.bus(settings.0, settings.1, settings.2, settings.3).no, DONE);
    }
    for settings in [(0, 1, 0, 0), (17, 1, 0, 0), (1, 0, 0, 0), (1, 33, 0, 0), (1, 1, 33, 0), (1, 1, 0, 2_147_483_648)]
    {
        assert_eq!(m.bus(settings.0, settings.1, settings.2, settings.3), Made { no: MALFORMED, id: 0 });
    }
}

#[test]
fn a_new_subscriber_sees_nothing_published_before() {
    let mut m = lab(SMALL, 0);
    m.bus(4, 2, 0, 0);
    assert_eq!(m.publish(0, b"E1"), DONE);
    assert_eq!(m.publish(0, b"E2"), DONE);
    assert_eq!(m.subscribe(0), DONE);
    assert_eq!(read(&mut m, 0), Err(NOTHING));
    assert_eq!(m.publish(0, b"E3"), DONE);
    reads(&mut m, 0, &["E3"]);
}

#[test]
fn each_has_its_own_cursor_and_reads_in_the_order_of_publishing() {
    let mut m = lab(SMALL, 2);
    m.bus(8, 4, 0, 0);
    turn(&mut m, 257);
    assert_eq!(m.subscribe(0), DONE);
    turn(&mut m, 258);
    assert_eq!(m.subscribe(0), DONE);
    turn(&mut m, 256);
    for text in ["20", "21", "22"] {
        assert_eq!(m.publish(0, text.as_bytes()), DONE);
    }
    turn(&mut m, 257);
    reads(&mut m, 0, &["20", "21", "22"]);
    turn(&mut m, 258);
    assert_eq!(read(&mut m, 0), Ok("20".to_string()));
    turn(&mut m, 256);
    assert_eq!(m.publish(0, b"23"), DONE);
    turn(&mut m, 257);
    reads(&mut m, 0, &["23"]);
    turn(&mut m, 258);
    reads(&mut m, 0, &["21", "22", "23"]);
    assert_eq!(free_data(&mut m), 4);
}

#[test]
fn a_full_bus_evicts_its_oldest_entry_and_needs_no_room() {
    let mut m = lab([2, 4, 3, 0, 0, 0], 1);
    m.bus(3, 2, 0, 0);
    m.bus(1, 1, 0, 0);
    turn(&mut m, 257);
    assert_eq!(m.subscribe(0), DONE);
    turn(&mut m, 256);
    for text in ["E1", "E2", "E3"] {
        assert_eq!(m.publish(0, text.as_bytes()), DONE);
    }
    assert_eq!(free_data(&mut m), 0);
    assert_eq!(m.publish(1, b"x"), NO_ROOM);
    assert_eq!(m.notify(257, 0, b"x"), NO_ROOM);
    assert_eq!(m.publish(0, b"E4"), DONE);
    turn(&mut m, 257);
    reads(&mut m, 0, &["E2", "E3", "E4"]);
}

#[test]
fn entries_of_other_buses_are_not_evicted() {
    let mut m = lab(SMALL, 0);
    m.bus(1, 1, 0, 0);
    m.bus(2, 1, 0, 0);
    assert_eq!((m.subscribe(0), m.subscribe(1)), (DONE, DONE));
    assert_eq!(m.publish(1, b"old"), DONE);
    assert_eq!(m.publish(0, b"a"), DONE);
    assert_eq!(m.publish(0, b"b"), DONE);
    reads(&mut m, 0, &["b"]);
    reads(&mut m, 1, &["old"]);
}

#[test]
fn the_lowest_free_data_entry_is_taken_after_the_eviction() {
    let mut m = lab(SMALL, 0);
    m.bus(2, 1, 0, 0);
    let data = |m: &Model| -> Vec<usize> { m.state.as_ref().unwrap().values.iter().map(|v| v.data).collect() };
    for text in ["a", "b"] {
        m.publish(0, text.as_bytes());
    }
    assert_eq!(data(&m), [0, 1]);
    m.publish(0, b"c");
    assert_eq!(data(&m), [1, 0]);
    assert_eq!(m.notify(256, 0, b"x"), DONE);
    assert_eq!(m.receive(ANY_SENDER, ANY_CLASS, ANY_TAG, 0).no, DONE);
    assert_eq!(m.shown().offset, 2 * 256 + 4);
}

#[test]
fn an_entry_ends_at_its_limit_of_reads() {
    let mut m = lab(SMALL, 2);
    m.bus(4, 3, 2, 0);
    for id in [257, 258, 256] {
        assert_eq!(m.subscribe(0), DONE);
        turn(&mut m, id);
    }
    assert_eq!(m.publish(0, b"once for two"), DONE);
    assert_eq!(free_data(&mut m), 7);
    reads(&mut m, 0, &["once for two"]);
    assert_eq!(free_data(&mut m), 7);
    turn(&mut m, 257);
    reads(&mut m, 0, &["once for two"]);
    assert_eq!(free_data(&mut m), 8);
    turn(&mut m, 258);
    assert_eq!(read(&mut m, 0), Err(NOTHING));
}

#[test]
fn a_read_of_one_who_left_counts() {
    let mut m = lab(SMALL, 1);
    m.bus(4, 2, 2, 0);
    assert_eq!(m.subscribe(0), DONE);
    turn(&mut m, 257);
    assert_eq!(m.subscribe(0), DONE);
    turn(&mut m, 256);
    assert_eq!(m.publish(0, b"x"), DONE);
    reads(&mut m, 0, &["x"]);
    assert_eq!(m.unsubscribe(0), DONE);
    assert_eq!(m.subscribe(0), DONE);
    assert_eq!(read(&mut m, 0), Err(NOTHING));
    turn(&mut m, 257);
    reads(&mut m, 0, &["x"]);
    assert_eq!(free_data(&mut m), 8);
}

#[test]
fn an_entry_ends_at_its_very_age() {
    let mut m = lab(SMALL, 0);
    m.bus(4, 1, 0, 5);
    m.bus(4, 1, 0, 0);
    assert_eq!((m.subscribe(0), m.subscribe(1)), (DONE, DONE));
    assert_eq!(m.advance(300).no, DONE);
    assert_eq!((m.publish(0, b"first"), m.publish(1, b"stays")), (DONE, DONE));
    assert_eq!(m.advance(1).no, DONE);
    assert_eq!(m.publish(0, b"second"), DONE);
    assert_eq!(m.advance(4_998).no, DONE);
    assert_eq!(free_data(&mut m), 5);
    assert_eq!(m.advance(1).no, DONE);
    assert_eq!(free_data(&mut m), 6);
    reads(&mut m, 0, &["second"]);
    assert_eq!(m.advance(1).no, DONE);
    assert_eq!(free_data(&mut m), 7);
    assert_eq!(m.advance(MAX_STEP).no, DONE);
    reads(&mut m, 1, &["stays"]);
}

#[test]
fn ages_come_after_ticks_and_deadlines() {
    let mut m = lab([1, 1, 1, 0, 0, 1], 0);
    m.bus(1, 1, 0, 1);
    assert_eq!(m.after(1_000).no, DONE);
    assert_eq!(m.publish(0, b"x"), DONE);
    assert_eq!(m.receive(ANY_SENDER, ANY_CLASS, ANY_TAG, 1).no, WAITING);
    // The only data entry is still the bus's when the timer is due, so the tick waits.
    assert_eq!(m.advance(1_000), Advanced { no: DONE, fired: 0 });
    assert_eq!(m.next(), Turn { no: DONE, id: 256, reason: 2, sleep: 0 });
    assert_eq!(free_data(&mut m), 1);
    assert_eq!(m.advance(0), Advanced { no: DONE, fired: 1 });
}

#[test]
fn a_full_list_and_a_second_subscription() {
    let mut m = lab(SMALL, 2);
    m.bus(1, 2, 0, 0);
    assert_eq!(m.subscribe(0), DONE);
    assert_eq!(m.subscribe(0), MALFORMED);
    turn(&mut m, 257);
    assert_eq!(m.subscribe(0), DONE);
    assert_eq!(m.subscribe(0), MALFORMED);
    turn(&mut m, 258);
    assert_eq!(m.subscribe(0), NO_ROOM);
    turn(&mut m, 256);
    assert_eq!(m.unsubscribe(0), DONE);
    turn(&mut m, 257);
    turn(&mut m, 258);
    assert_eq!(m.subscribe(0), DONE);
    assert_eq!(m.state.as_ref().unwrap().buses[0].seats, [Some(2), Some(1)]);
}

#[test]
fn a_slice_that_is_too_short_leaves_the_entry_unread() {
    let mut m = lab(SMALL, 0);
    m.bus(2, 1, 1, 0);
    assert_eq!(m.subscribe(0), DONE);
    assert_eq!(m.publish(0, b"21.5"), DONE);
    let before = m.clone();
    let mut out = [b'.'; 6];
    assert_eq!(m.read(0, &mut out[..3]), Copied { no: MALFORMED, length: 0 });
    assert_eq!((&out, &m), (b"......", &before));
    assert_eq!(m.read(0, &mut out[..4]), Copied { no: DONE, length: 4 });
    assert_eq!(&out, b"21.5..");
    assert_eq!(m.publish(0, b""), DONE);
    assert_eq!(m.read(0, &mut []), Copied { no: DONE, length: 0 });
    assert_eq!(m.read(0, &mut []), Copied { no: NOTHING, length: 0 });
}

#[test]
fn a_read_leaves_the_hand_alone_and_wakes_nobody() {
    let mut m = lab(SMALL, 1);
    m.bus(2, 2, 0, 0);
    turn(&mut m, 257);
    assert_eq!(m.subscribe(0), DONE);
    assert_eq!(m.receive(ANY_SENDER, ANY_CLASS, ANY_TAG, -1).no, WAITING);
    assert_eq!(m.next().id, 256);
    assert_eq!((m.subscribe(0), m.notify(256, 0, b"kept")), (DONE, DONE));
    assert_eq!(m.receive(ANY_SENDER, ANY_CLASS, ANY_TAG, 0).no, DONE);
    assert_eq!(m.publish(0, b"x"), DONE);
    reads(&mut m, 0, &["x"]);
    assert_eq!(m.show(), b"kept");
    assert_eq!(m.yield_now(), DONE);
    assert_eq!(m.next().id, 256);
}

#[test]
fn exit_removes_subscriptions_and_the_next_in_its_slot_has_none() {
    let mut m = lab([2, 8, 8, 0, 0, 0], 1);
    m.bus(4, 1, 0, 0);
    m.bus(4, 2, 0, 0);
    assert_eq!((m.subscribe(0), m.subscribe(1)), (DONE, DONE));
    assert_eq!((m.publish(0, b"old"), m.publish(1, b"old")), (DONE, DONE));
    assert_eq!(m.exit(65_532).no, DONE);
    assert_eq!(free_data(&mut m), 6);
    assert_eq!(m.spawn(1).id, 512);
    turn_of(&mut m, 257);
    assert_eq!(m.subscribe(0), DONE);
    turn(&mut m, 512);
    assert_eq!(read(&mut m, 1), Err(UNKNOWN));
    assert_eq!(m.unsubscribe(1), UNKNOWN);
    assert_eq!(m.subscribe(1), DONE);
    assert_eq!(read(&mut m, 1), Err(NOTHING));
    assert_eq!(m.publish(1, b"new"), DONE);
    reads(&mut m, 1, &["new"]);
}

/// Runs whose turn it is.
fn turn_of(m: &mut Model, id: u64) {
    assert_eq!(m.next().id, id);
}

#[test]
fn leaving_leaves_what_was_not_read() {
    let mut m = lab(SMALL, 0);
    m.bus(4, 1, 0, 0);
    assert_eq!(m.subscribe(0), DONE);
    assert_eq!(m.publish(0, b"x"), DONE);
    assert_eq!(m.unsubscribe(0), DONE);
    assert_eq!(m.unsubscribe(0), UNKNOWN);
    assert_eq!(read(&mut m, 0), Err(UNKNOWN));
    assert_eq!(m.subscribe(0), DONE);
    assert_eq!(read(&mut m, 0), Err(NOTHING));
    assert_eq!(free_data(&mut m), 7);
}

#[test]
fn refusals_in_their_order() {
    let mut m = Model::unsound();
    assert_eq!((m.publish(0, b""), m.subscribe(0), m.unsubscribe(0)), (UNSOUND, UNSOUND, UNSOUND));
    assert_eq!(read(&mut m, 0), Err(UNSOUND));
    assert_eq!(m.start(true, 256, [1, 1, 1, 0, 0, 0]), DONE);
    assert_eq!((m.publish(0, &[0; 253]), m.subscribe(0), m.unsubscribe(0)), (NOT_NOW, NOT_NOW, NOT_NOW));
    assert_eq!(read(&mut m, 0), Err(NOT_NOW));
    m.spawn(0);
    m.next();
    assert_eq!(m.publish(0, &[0; 253]), MALFORMED);
    assert_eq!((m.publish(0, &[0; 252]), m.subscribe(0), m.unsubscribe(0)), (UNKNOWN, UNKNOWN, UNKNOWN));
    assert_eq!(read(&mut m, 0), Err(UNKNOWN));
    assert_eq!(m.bus(2, 1, 0, 0).no, DONE);
    assert_eq!(m.notify(256, 0, b"x"), DONE);
    assert_eq!(m.publish(0, &[0; 253]), MALFORMED);
    assert_eq!(m.publish(1, &[0; 252]), UNKNOWN);
    assert_eq!(m.publish(1 << 32, &[0; 252]), UNKNOWN);
    assert_eq!(m.publish(0, &[0; 252]), NO_ROOM);
    assert_eq!(m.receive(ANY_SENDER, ANY_CLASS, ANY_TAG, 0).no, DONE);
    assert_eq!(m.publish(0, &[0; 252]), NO_ROOM);
    assert_eq!(m.receive(ANY_SENDER, ANY_CLASS, ANY_TAG, 0).no, NOTHING);
    assert_eq!(m.publish(0, &[0; 252]), DONE);
    assert_eq!(m.publish(0, &[0; 252]), NO_ROOM);
}

#[test]
fn bus_entries_take_the_room_of_notices_and_ticks() {
    let mut m = lab([3, 8, 3, 4, 0, 1], 2);
    m.bus(3, 1, 0, 0);
    assert_eq!((m.link(257), m.link(258)), (DONE, DONE));
    assert_eq!(m.after(0).no, DONE);
    for _ in 0..3 {
        assert_eq!(m.publish(0, b"x"), DONE);
    }
    assert_eq!(m.report().free, [0, 8, 0, 2, 0, 0]);
    assert_eq!(m.advance(0), Advanced { no: DONE, fired: 0 });
    assert_eq!(m.exit(65_533), Ended { no: DONE, sent: 0, lost: 2 });
}
