//! The records in runtime messages, of both editions: document 01's examples with the ids of request C-19, and who reads what.

use model::limits::*;
use model::records::*;
use model::*;

const ONES: u64 = u64::MAX;

#[test]
fn tick_of_timer_64() {
    let bytes = [0x0A, 0, 0x03, 0, 0x40, 0, 0, 0, 0, 0, 0, 0];
    assert_eq!(tick(64), bytes);
    assert_eq!(read_tick(&bytes), TickRead { no: DONE, kind: 3, id: 64 });
}

#[test]
fn link_notice_for_257() {
    let bytes = [0x14, 0, 0x04, 0, 0x01, 0x01, 0, 0, 0, 0, 0, 0, 0xFD, 0xFF, 0, 0, 0, 0, 0, 0, 0, 0];
    assert_eq!(exit(257, 65_533, 0), bytes);
    assert_eq!(read_exit(&bytes), ExitRead { no: DONE, kind: 4, actor: 257, reason: 65_533, monitor: 0 });
}

#[test]
fn records_of_the_old_edition() {
    let tick = [0x06, 0, 0x01, 0, 0x40, 0, 0, 0];
    assert_eq!(old_tick(64), tick);
    assert_eq!(read_old_tick(&tick), OldTickRead { no: DONE, id: 64 });
    assert_eq!(read_tick(&tick), TickRead { no: DONE, kind: 1, id: 64 });
    let exit = [0x0C, 0, 0x02, 0, 0x41, 0, 0, 0, 0xFD, 0xFF, 0x80, 0, 0, 0];
    assert_eq!(old_exit(65, 65_533, 128), exit);
    assert_eq!(read_old_exit(&exit), OldExitRead { no: DONE, actor: 65, reason: 65_533, monitor: 128 });
    assert_eq!(read_exit(&exit), ExitRead { no: DONE, kind: 2, actor: 65, reason: 65_533, monitor: 128 });
}

#[test]
fn a_reader_of_the_old_edition_refuses_the_new_kinds() {
    for id in [0, 1, 64, 1 << 32, MAX_AGE * TIMER_FACTOR, ONES] {
        assert_eq!(read_old_tick(&tick(id)), OldTickRead { no: MALFORMED, id: 0 });
        assert_eq!(read_old_tick(&tick(id)[..OLD_TICK_BYTES]), OldTickRead { no: MALFORMED, id: 0 });
        let refused = OldExitRead { no: MALFORMED, actor: 0, reason: 0, monitor: 0 };
        assert_eq!(read_old_exit(&exit(id, 7, id)), refused);
        assert_eq!(read_old_exit(&exit(id, 7, id)[..OLD_EXIT_BYTES]), refused);
    }
}

/// Which of the readers take these bytes: of ticks, of exit notices, of either in the old edition.
fn taken_by(bytes: &[u8]) -> [bool; 4] {
    [read_tick(bytes).no, read_exit(bytes).no, read_old_tick(bytes).no, read_old_exit(bytes).no].map(|no| no == DONE)
}

#[test]
fn no_bytes_are_two_records() {
    assert_eq!(taken_by(&tick(ONES)), [true, false, false, false]);
    assert_eq!(taken_by(&exit(ONES, 65_535, ONES)), [false, true, false, false]);
    assert_eq!(taken_by(&old_tick(u32::MAX)), [true, false, true, false]);
    assert_eq!(taken_by(&old_exit(u32::MAX, 65_535, u32::MAX)), [false, true, false, true]);
}

#[test]
fn another_length_kind_or_size_is_no_record() {
    for record in [tick(64), exit(257, 9, 128), old_tick(64), old_exit(65, 9, 128)] {
        for place in 0..4 {
            for bit in 0..8 {
                let mut bytes = record.clone();
                bytes[place] ^= 1 << bit;
                assert_eq!(taken_by(&bytes), [false; 4], "{bytes:02x?}");
            }
        }
        assert_eq!(taken_by(&record[..record.len() - 1]), [false; 4]);
        assert_eq!(taken_by(&[&record[..], &[0]].concat()), [false; 4]);
    }
    assert_eq!(read_tick(&[]), TickRead { no: MALFORMED, kind: 0, id: 0 });
    assert_eq!(read_exit(&[]), ExitRead { no: MALFORMED, kind: 0, actor: 0, reason: 0, monitor: 0 });
}

#[test]
fn large_ids_come_back_whole() {
    for id in [u64::from(u32::MAX), 1 << 32, (1 << 32) + 1, 1 << 48, ONES - 1, ONES] {
        assert_eq!(read_tick(&tick(id)), TickRead { no: DONE, kind: TICK_KIND, id });
        let read = read_exit(&exit(id, 65_532, !id));
        assert_eq!(read, ExitRead { no: DONE, kind: EXIT_KIND, actor: id, reason: 65_532, monitor: !id });
    }
}

#[test]
fn a_writer_needs_the_room_of_its_record() {
    let writers: [(usize, fn(&mut [u8]) -> u64); 4] = [
        (TICK_BYTES, |out| write_tick(out, 1)),
        (EXIT_BYTES, |out| write_exit(out, 1, 2, 3)),
        (OLD_TICK_BYTES, |out| write_old_tick(out, 1)),
        (OLD_EXIT_BYTES, |out| write_old_exit(out, 1, 2, 3)),
    ];
    for (size, write) in writers {
        let mut out = [9u8; 30];
        assert_eq!(write(&mut out[..size - 1]), MALFORMED);
        assert_eq!(out, [9; 30]);
        assert_eq!(write(&mut out), DONE);
        assert_eq!(taken_by(&out), [false; 4]);
        assert!(taken_by(&out[..size]).contains(&true));
        assert!(out[size..].iter().all(|&byte| byte == 9));
    }
}
