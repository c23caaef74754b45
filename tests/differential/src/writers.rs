//! The table of the writers of a trace's records, a row each: the function in C, with the numbers of the call and of its answer. The
//! functions in C (ffi.rs) and in the stand-in (trace_stub.rs) are made from it. How a record is written stands in the model's table of kinds.

macro_rules! writers {
    ($make:ident) => {
        $make! {
            numbers {
                fg_trace_start(
                    words: u64, bytes: u64, actors: u64, mailboxes: u64, data: u64, links: u64, monitors: u64, timers: u64, no: u64);
                fg_trace_spawn(priority: u64, no: u64, id: u64);
                fg_trace_next(no: u64, id: u64, reason: u64, sleep: i64);
                fg_trace_yield(no: u64);
                fg_trace_receive(
                    sender: u64, class: u64, tag: u64, wait: i64, no: u64, its_sender: u64, its_class: u64, its_tag: u64, length: u64);
                fg_trace_shown(no: u64, offset: u64, length: u64);
                fg_trace_after(delay: u64, no: u64, id: u64);
                fg_trace_every(interval: u64, no: u64, id: u64);
                fg_trace_cancel(timer: u64, no: u64);
                fg_trace_link(partner: u64, no: u64);
                fg_trace_unlink(partner: u64, no: u64);
                fg_trace_monitor(target: u64, no: u64, id: u64);
                fg_trace_demonitor(monitor: u64, no: u64);
                fg_trace_exit(reason: u64, no: u64, sent: u64, lost: u64);
                fg_trace_advance(us: u64, no: u64, fired: u64);
                fg_trace_report(
                    no: u64, actors: u64, mailboxes: u64, data: u64, links: u64, monitors: u64, timers: u64);
                fg_trace_bus(entries: u64, subscribers: u64, reads: u64, age_ms: u64, no: u64, id: u64);
                fg_trace_subscribe(bus: u64, no: u64);
                fg_trace_unsubscribe(bus: u64, no: u64);
            }
            // Numbers, a payload, numbers.
            payloads {
                fg_trace_notify(target: u64, tag: u64; no: u64);
                fg_trace_show(;);
                fg_trace_publish(bus: u64; no: u64);
                fg_trace_read(bus: u64, room: u64, no: u64;);
            }
        }
    };
}

/// The name of the call whose record a function writes.
macro_rules! recorded {
    ($c:ident) => {
        &stringify!($c)["fg_trace_".len()..]
    };
}

pub(crate) use {recorded, writers};
