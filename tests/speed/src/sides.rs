//! The two sides: the library and plain Rust, as tables of functions in C of equal form. A call is made through such a table, so nothing
//! is compiled into its caller on either side.

use crate::stage::Buffers;
use model::limits::Capacities;
use model::{Advanced, Copied, Ended, Made, Received, Report, Shown, Turn};

type Start = unsafe extern "C" fn(*mut u64, usize, *mut u8, usize, u64, u64, u64, u64, u64, u64) -> u64;
type Notify = unsafe extern "C" fn(*mut u64, usize, *mut u8, usize, u64, u64, *const u8, usize) -> u64;
type Publish = unsafe extern "C" fn(*mut u64, usize, *mut u8, usize, u64, *const u8, usize) -> u64;
type Read = unsafe extern "C" fn(*mut u64, usize, *mut u8, usize, u64, *mut u8, usize) -> Copied;

/// What the payload of every message begins with.
const PAYLOAD: [u8; 252] = [0x5A; 252];

/// Any answer, to be compared.
#[derive(Debug, Clone, Copy, PartialEq)]
pub enum Answer {
    Number(u64),
    Made(Made),
    Turn(Turn),
    Received(Received),
    Shown(Shown),
    Ended(Ended),
    Advanced(Advanced),
    Report(Report),
    Copied(Copied),
}

macro_rules! answers {
    ($($kind:ident)*) => {
        impl Answer {
            /// The number that every answer has.
            pub fn no(&self) -> u64 {
                match self {
                    Answer::Number(no) => *no,
                    $(Answer::$kind(answer) => answer.no,)*
                }
            }
        }

        $(impl From<$kind> for Answer {
            fn from(answer: $kind) -> Answer {
                Answer::$kind(answer)
            }
        })*
    };
}

answers!(Made Turn Received Shown Ended Advanced Report Copied);

impl From<u64> for Answer {
    fn from(no: u64) -> Answer {
        Answer::Number(no)
    }
}

/// Makes, of one row for each call with numbers alone, the sides and the calls: the call and its arguments, its function in C, its
/// function in plain Rust, what both answer.
macro_rules! calls {
    ($($call:ident $(($($arg:ident: $ty:ty),*))? = $c:ident, $plain:ident -> $answer:ty;)*) => {
        #[cfg(not(self_test))]
        mod library {
            use super::*;

            extern "C" {
                pub fn fg_start(
                    t: *mut u64, t_len: usize, p: *mut u8, p_len: usize, actors: u64, mailboxes: u64, data: u64, links: u64,
                    monitors: u64, timers: u64,
                ) -> u64;
                pub fn fg_notify(
                    t: *mut u64, t_len: usize, p: *mut u8, p_len: usize, target: u64, tag: u64, payload: *const u8, len: usize,
                ) -> u64;
                pub fn fg_publish(
                    t: *mut u64, t_len: usize, p: *mut u8, p_len: usize, bus: u64, payload: *const u8, len: usize,
                ) -> u64;
                pub fn fg_read(
                    t: *mut u64, t_len: usize, p: *mut u8, p_len: usize, bus: u64, out: *mut u8, len: usize,
                ) -> Copied;
                $(pub fn $c(t: *mut u64, t_len: usize, p: *mut u8, p_len: usize $($(, $arg: $ty)*)?) -> $answer;)*
            }
        }

        /// One side: all its functions.
        pub struct Side {
            pub name: &'static str,
            start: Start,
            notify: Notify,
            publish: Publish,
            read: Read,
            $($plain: unsafe extern "C" fn(*mut u64, usize, *mut u8, usize $($(, $ty)*)?) -> $answer,)*
        }

        pub static PLAIN: Side = Side {
            name: "plain",
            start: plain::boundary::start,
            notify: plain::boundary::notify,
            publish: plain::boundary::publish,
            read: plain::boundary::read,
            $($plain: plain::boundary::$plain,)*
        };

        #[cfg(not(self_test))]
        pub static LIBRARY: Side = Side {
            name: "library",
            start: library::fg_start,
            notify: library::fg_notify,
            publish: library::fg_publish,
            read: library::fg_read,
            $($plain: library::$c,)*
        };

        #[cfg(self_test)]
        pub static LIBRARY: Side = Side {
            name: "plain again",
            start: plain::boundary::start,
            notify: plain::boundary::notify,
            publish: plain::boundary::publish,
            read: plain::boundary::read,
            $($plain: plain::boundary::$plain,)*
        };

        /// A call as a value. A message, or what is published, is of so many bytes.
        #[derive(Debug, Clone, Copy)]
        pub enum Call {
            Start(Capacities),
            Notify(u64, u64, usize),
            Publish(u64, usize),
            Read(u64),
            $($call $(($($ty),*))?,)*
        }

        impl Call {
            /// Its name in C, without the prefix.
            pub fn name(&self) -> &'static str {
                match self {
                    Call::Start(_) => "start",
                    Call::Notify { .. } => "notify",
                    Call::Publish { .. } => "publish",
                    Call::Read { .. } => "read",
                    $(Call::$call { .. } => &stringify!($c)[3..],)*
                }
            }

            /// Makes the call on one side.
            #[inline]
            pub fn make(&self, side: &Side, buffers: &mut Buffers) -> Answer {
                let (words, bytes, out) = (&mut buffers.words[..], &mut buffers.bytes[..], &mut buffers.out[..]);
                let (t, t_len, p, p_len) = (words.as_mut_ptr(), words.len(), bytes.as_mut_ptr(), bytes.len());
                // SAFETY: pointers and lengths come from live slices that do not overlap.
                unsafe {
                    match *self {
                        Call::Start([a, m, d, l, w, e]) => (side.start)(t, t_len, p, p_len, a, m, d, l, w, e).into(),
                        Call::Notify(target, tag, length) => {
                            let payload = &PAYLOAD[..length];
                            (side.notify)(t, t_len, p, p_len, target, tag, payload.as_ptr(), payload.len()).into()
                        }
                        Call::Publish(bus, length) => {
                            let payload = &PAYLOAD[..length];
                            (side.publish)(t, t_len, p, p_len, bus, payload.as_ptr(), payload.len()).into()
                        }
                        Call::Read(bus) => (side.read)(t, t_len, p, p_len, bus, out.as_mut_ptr(), out.len()).into(),
                        $(Call::$call $(($($arg),*))? => (side.$plain)(t, t_len, p, p_len $($(, $arg)*)?).into(),)*
                    }
                }
            }
        }
    };
}

calls! {
    Spawn(priority: u64) = fg_spawn, spawn -> Made;
    Next = fg_next, next -> Turn;
    Yield = fg_yield, yield_now -> u64;
    Receive(sender: u64, class: u64, tag: u64, wait: i64) = fg_receive, receive -> Received;
    Shown = fg_shown, shown -> Shown;
    After(delay: u64) = fg_after, after -> Made;
    Every(interval: u64) = fg_every, every -> Made;
    Cancel(timer: u64) = fg_cancel, cancel -> u64;
    Link(partner: u64) = fg_link, link -> u64;
    Unlink(partner: u64) = fg_unlink, unlink -> u64;
    Monitor(target: u64) = fg_monitor, monitor -> Made;
    Demonitor(monitor: u64) = fg_demonitor, demonitor -> u64;
    Exit(reason: u64) = fg_exit, exit -> Ended;
    Advance(us: u64) = fg_advance, advance -> Advanced;
    Report = fg_report, report -> Report;
    Bus(entries: u64, subscribers: u64, reads: u64, age_ms: u64) = fg_bus, bus -> Made;
    Subscribe(bus: u64) = fg_subscribe, subscribe -> u64;
    Unsubscribe(bus: u64) = fg_unsubscribe, unsubscribe -> u64;
}
