//! Plain Rust in the library's place (FG_LIB=plain): the functions of the calls in C go to those of the crate `plain`.
//! With FG_FAULT one of the faults that bend a call's arguments, its answer or the buffers after it is put around them, and the
//! test must find it. Records and traces are the stand-in's.

use crate::call::{written, Answer, Call, Written};
use crate::calls::calls;
use crate::faults;
use model::{Advanced, Copied, Ended, Made, Model, Received, Report, Shown, Turn};
use plain::boundary;
use std::slice::{from_raw_parts, from_raw_parts_mut};

/// Makes one call by plain Rust on the two buffers, bent by the fault that was chosen.
fn bent(words: &mut [u64], bytes: &mut [u8], call: Call) -> Answer {
    let before = Model { state: faults::read(words, bytes) };
    let answer = by_plain(words, bytes, &faults::call(call, &before));
    let after = Model { state: faults::read(words, bytes) };
    faults::spoil(&before, &after, words, bytes);
    faults::answer(answer)
}

macro_rules! by_plain_rust {
    (
        numbers { $($call:ident $(($($arg:ident: $ty:ty),*))? = $c:ident, $method:ident -> $answer:ty, $chances:expr, $chosen:expr;)* }
        payloads { $($sent:ident($($with:ident: $kind:ty),*) = $sent_c:ident, $sent_method:ident -> $sent_answer:ty, $sent_chances:expr, $sent_chosen:expr;)* }
        slices { $($lent:ident($($by:ident: $sort:ty),*) = $lent_c:ident, $lent_method:ident -> $lent_answer:ty, $lent_chances:expr, $lent_chosen:expr;)* }
    ) => {
        /// The call as plain Rust makes it, through its own C boundary.
        fn by_plain(words: &mut [u64], bytes: &mut [u8], call: &Call) -> Answer {
            let (t, t_len, p, p_len) = (words.as_mut_ptr(), words.len(), bytes.as_mut_ptr(), bytes.len());
            match call {
                Call::Start(_) => unreachable!("a start is never bent"),
                // SAFETY: pointers and lengths come from live slices that do not overlap.
                $(Call::$call $(($($arg),*))? => unsafe {
                    boundary::$method(t, t_len, p, p_len $($(, *$arg)*)?)
                }.into(),)*
                $(Call::$sent($($with,)* payload) => unsafe {
                    boundary::$sent_method(t, t_len, p, p_len, $(*$with,)* payload.as_ptr(), payload.len())
                }.into(),)*
                $(Call::$lent($($by,)* slice) => written(slice, |out| unsafe {
                    boundary::$lent_method(t, t_len, p, p_len, $(*$by,)* out.as_mut_ptr(), out.len())
                }),)*
            }
        }

        $(
            #[no_mangle]
            unsafe extern "C" fn $c(t: *mut u64, t_len: usize, p: *mut u8, p_len: usize $($(, $arg: $ty)*)?) -> $answer {
                if faults::none() {
                    return boundary::$method(t, t_len, p, p_len $($(, $arg)*)?);
                }
                bent(from_raw_parts_mut(t, t_len), from_raw_parts_mut(p, p_len), Call::$call $(($($arg),*))?).into()
            }
        )*

        $(
            #[no_mangle]
            unsafe extern "C" fn $sent_c(
                t: *mut u64, t_len: usize, p: *mut u8, p_len: usize, $($with: $kind,)* payload: *const u8, payload_len: usize,
            ) -> $sent_answer {
                if faults::none() {
                    return boundary::$sent_method(t, t_len, p, p_len, $($with,)* payload, payload_len);
                }
                let payload = from_raw_parts(payload, payload_len).to_vec();
                bent(from_raw_parts_mut(t, t_len), from_raw_parts_mut(p, p_len), Call::$sent($($with,)* payload)).into()
            }
        )*

        $(
            #[no_mangle]
            unsafe extern "C" fn $lent_c(
                t: *mut u64, t_len: usize, p: *mut u8, p_len: usize, $($by: $sort,)* out: *mut u8, out_len: usize,
            ) -> $lent_answer {
                if faults::none() {
                    return boundary::$lent_method(t, t_len, p, p_len, $($by,)* out, out_len);
                }
                let (words, bytes) = (from_raw_parts_mut(t, t_len), from_raw_parts_mut(p, p_len));
                let out = from_raw_parts_mut(out, out_len);
                let written: Written = bent(words, bytes, Call::$lent($($by,)* out.to_vec())).into();
                out.copy_from_slice(&written.slice);
                written.copied
            }
        )*
    };
}

calls!(by_plain_rust);

#[no_mangle]
unsafe extern "C" fn fg_start(
    t: *mut u64,
    t_len: usize,
    p: *mut u8,
    p_len: usize,
    actors: u64,
    mailboxes: u64,
    data: u64,
    links: u64,
    monitors: u64,
    timers: u64,
) -> u64 {
    boundary::start(t, t_len, p, p_len, actors, mailboxes, data, links, monitors, timers)
}
