//! The table of the calls, a row each. What the test says of every call is made from it: the call as a value (call.rs),
//! its functions in C (ffi.rs) and in the stand-in (stub.rs), how often it is made and with what arguments (generate.rs).
//!
//! A row: the call and its arguments; its function in C; its method in the model, and what both answer; how often it is made
//! in each of generate.rs' moods; a call with arguments that the generator chose. Start is none of these: it is made between runs,
//! and takes the capacities.

macro_rules! calls {
    ($make:ident) => {
        $make! {
            // Numbers alone.                                              mixed   full   flow   time   ties  lives   more  buses
            numbers {
                Spawn(priority: u64) = fg_spawn, spawn -> Made,           [    4,     3,     3,     3,    16,    25,    20,     8], |g| Call::Spawn(g.priority());
                Next = fg_next, next -> Turn,                             [   10,    10,    15,    10,    12,    20,    12,    12], |_| Call::Next;
                Yield = fg_yield, yield_now -> u64,                       [    6,     8,     5,     4,     6,     2,    10,    20], |_| Call::Yield;
                Receive(sender: u64, class: u64, tag: u64, wait: i64) =
                    fg_receive, receive -> Received,                      [   20,    10,    35,    20,     6,     6,     2,     3], |g| g.receive();
                Shown = fg_shown, shown -> Shown,                         [    4,     3,     6,     2,     2,     2,     1,     1], |_| Call::Shown;
                After(delay: u64) = fg_after, after -> Made,              [    4,     1,     1,    14,     3,     3,    10,     2], |g| Call::After(g.delay());
                Every(interval: u64) = fg_every, every -> Made,           [    3,     1,     1,    10,     2,     1,    10,     1], |g| Call::Every(g.interval());
                Cancel(timer: u64) = fg_cancel, cancel -> u64,            [    3,     1,     1,     5,     1,     1,     1,     1], |g| Call::Cancel(g.some_timer());
                Link(partner: u64) = fg_link, link -> u64,                [    4,     1,     1,     1,    18,     5,    14,     1], |g| Call::Link(g.actor());
                Unlink(partner: u64) = fg_unlink, unlink -> u64,          [    2,     1,     1,     1,     4,     1,     1,     1], |g| Call::Unlink(g.some_partner());
                Monitor(target: u64) = fg_monitor, monitor -> Made,       [    4,     1,     1,     1,    16,     5,    14,     1], |g| Call::Monitor(g.actor());
                Demonitor(monitor: u64) = fg_demonitor, demonitor -> u64, [    2,     1,     1,     1,     4,     1,     1,     1], |g| Call::Demonitor(g.some_monitor());
                Exit(reason: u64) = fg_exit, exit -> Ended,               [    3,     1,     1,     2,    10,    20,     1,     3], |g| Call::Exit(g.reason());
                Advance(us: u64) = fg_advance, advance -> Advanced,       [    8,     3,     4,    24,     3,     3,     1,     8], |g| Call::Advance(g.advance());
                Report = fg_report, report -> Report,                     [    2,     2,     1,     2,     2,     2,     2,     1], |_| Call::Report;
                Bus(entries: u64, subscribers: u64, reads: u64, age_ms: u64) =
                    fg_bus, bus -> Made,                                  [    1,     1,     1,     1,     1,     1,    12,     4], |g| g.new_bus();
                Subscribe(bus: u64) = fg_subscribe, subscribe -> u64,     [    4,     3,     2,     2,     2,     6,     8,    14], |g| Call::Subscribe(g.bus());
                Unsubscribe(bus: u64) = fg_unsubscribe, unsubscribe -> u64,
                                                                          [    1,     1,     1,     1,     1,     1,     1,     3], |g| Call::Unsubscribe(g.some_bus());
            }
            // Numbers, and then a payload.
            payloads {
                Notify(target: u64, tag: u64) = fg_notify, notify -> u64, [   20,    50,    25,     4,     6,     8,    10,     5], |g| g.notify();
                Publish(bus: u64) = fg_publish, publish -> u64,           [    6,     4,     3,     5,     1,     5,     6,    25], |g| g.publish();
            }
            // Numbers, and then a slice that is written to.
            slices {
                Read(bus: u64) = fg_read, read -> Copied,                 [    6,     3,     4,     4,     1,     5,     3,    35], |g| g.read();
            }
        }
    };
}

pub(crate) use calls;
