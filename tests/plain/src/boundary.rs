//! The C boundary: `plain_spawn` and so on, with the very signatures of include/foamgangway.h. This is all the unsafe code there is.
//! Each function makes slices of its pointers and lengths, and hands them on.

use crate::answer::{by_caller, on_sound};
use crate::messages::{self, Filter};
use crate::{actors, buses, ending, start, ties, timers};
use model::{Advanced, Copied, Ended, Made, Received, Report, Shown, Turn};
use std::slice::{from_raw_parts, from_raw_parts_mut};

/// Starts over in two buffers.
///
/// # Safety
/// Both pointers must be good for their lengths, and the buffers must not overlap.
#[export_name = "plain_start"]
pub unsafe extern "C" fn start(
    t: *mut u64,
    t_len: usize,
    p: *mut u8,
    p_len: usize,
    actors: u64,
    mailboxes: u64,
    data: u64,
    links: u64,
    monitors: u64,
    timers: u64,
) -> u64 {
    let capacities = [actors, mailboxes, data, links, monitors, timers];
    start::start(from_raw_parts_mut(t, t_len), from_raw_parts_mut(p, p_len), capacities)
}

/// Sends a message.
///
/// # Safety
/// As for all calls, and the payload's pointer must be good for its length too.
#[export_name = "plain_notify"]
pub unsafe extern "C" fn notify(
    t: *mut u64,
    t_len: usize,
    p: *mut u8,
    p_len: usize,
    target: u64,
    tag: u64,
    payload: *const u8,
    payload_len: usize,
) -> u64 {
    // C may lend nothing as a null pointer.
    let payload = if payload_len == 0 { &[] } else { from_raw_parts(payload, payload_len) };
    by_caller(from_raw_parts_mut(t, t_len), from_raw_parts_mut(p, p_len), |tables, me| {
        messages::notify(tables, me, target, tag, payload)
    })
}

/// Publishes on a bus.
///
/// # Safety
/// As for all calls, and the payload's pointer must be good for its length too.
#[export_name = "plain_publish"]
pub unsafe extern "C" fn publish(
    t: *mut u64,
    t_len: usize,
    p: *mut u8,
    p_len: usize,
    bus: u64,
    payload: *const u8,
    payload_len: usize,
) -> u64 {
    let payload = if payload_len == 0 { &[] } else { from_raw_parts(payload, payload_len) };
    by_caller(from_raw_parts_mut(t, t_len), from_raw_parts_mut(p, p_len), |tables, _| {
        buses::publish(tables, bus, payload)
    })
}

/// Reads from a bus.
///
/// # Safety
/// As for all calls, and the pointer of the slice that is written to must be good for its length too.
#[export_name = "plain_read"]
pub unsafe extern "C" fn read(
    t: *mut u64,
    t_len: usize,
    p: *mut u8,
    p_len: usize,
    bus: u64,
    out: *mut u8,
    out_len: usize,
) -> Copied {
    let out = if out_len == 0 { &mut [] } else { from_raw_parts_mut(out, out_len) };
    by_caller(from_raw_parts_mut(t, t_len), from_raw_parts_mut(p, p_len), |tables, me| {
        buses::read(tables, me, bus, out)
    })
}

/// Makes the functions of calls with numbers alone: the name in C, the name here, the arguments, who may call, the work.
macro_rules! calls {
    ($($c:literal $name:ident($($arg:ident: $ty:ty),*) -> $answer:ty, $by:ident: $work:expr;)*) => {
        $(
            /// The call of this name.
            ///
            /// # Safety
            /// Both pointers must be good for their lengths, and the buffers must not overlap.
            #[export_name = $c]
            pub unsafe extern "C" fn $name(
                t: *mut u64, t_len: usize, p: *mut u8, p_len: usize $(, $arg: $ty)*
            ) -> $answer {
                $by(from_raw_parts_mut(t, t_len), from_raw_parts_mut(p, p_len), $work)
            }
        )*
    };
}

calls! {
    "plain_spawn" spawn(priority: u64) -> Made, on_sound: |t| actors::spawn(t, priority);
    "plain_next" next() -> Turn, on_sound: actors::next;
    "plain_yield" yield_now() -> u64, by_caller: actors::yield_now;
    "plain_receive" receive(sender: u64, class: u64, tag: u64, wait: i64) -> Received, by_caller:
        |t, me| messages::receive(t, me, Filter { sender, class, tag }, wait);
    "plain_shown" shown() -> Shown, by_caller: messages::shown;
    "plain_after" after(delay: u64) -> Made, by_caller: |t, me| timers::after(t, me, delay);
    "plain_every" every(interval: u64) -> Made, by_caller: |t, me| timers::every(t, me, interval);
    "plain_cancel" cancel(timer: u64) -> u64, by_caller: |t, me| timers::cancel(t, me, timer);
    "plain_link" link(partner: u64) -> u64, by_caller: |t, me| ties::link(t, me, partner);
    "plain_unlink" unlink(partner: u64) -> u64, by_caller: |t, me| ties::unlink(t, me, partner);
    "plain_monitor" monitor(target: u64) -> Made, by_caller: |t, me| ties::monitor(t, me, target);
    "plain_demonitor" demonitor(monitor: u64) -> u64, by_caller: |t, me| ties::demonitor(t, me, monitor);
    "plain_exit" exit(reason: u64) -> Ended, by_caller: |t, me| ending::exit(t, me, reason);
    "plain_advance" advance(us: u64) -> Advanced, on_sound: |t| timers::advance(t, us);
    "plain_report" report() -> Report, on_sound: start::report;
    "plain_bus" bus(entries: u64, subscribers: u64, reads: u64, age_ms: u64) -> Made, on_sound:
        |t| buses::bus(t, entries, subscribers, reads, age_ms);
    "plain_subscribe" subscribe(bus: u64) -> u64, by_caller: |t, me| buses::subscribe(t, me, bus);
    "plain_unsubscribe" unsubscribe(bus: u64) -> u64, by_caller: |t, me| buses::unsubscribe(t, me, bus);
}
