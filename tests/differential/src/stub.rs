//! A stand-in for the library: reads the buffers, lets the model make the call, writes the buffers.
//! With it the test compares the model with itself and so tests its own parts.
//! Only used where no archive of the library is linked (`cfg(self_test)`, and the archive `standin`).

use crate::call::{Answer, Call, Written};
use crate::calls::calls;
use crate::encode::store;
use crate::faults;
use crate::layout::table_suffices;
use model::limits::bytes_needed;
use model::{Advanced, Copied, Ended, Made, Model, Received, Report, Shown, Turn};
use std::slice::{from_raw_parts, from_raw_parts_mut};

/// Makes one call on the two buffers.
///
/// # Safety
/// Both pointers must be good for their lengths, and the buffers must not overlap.
unsafe fn on_buffers(t: *mut u64, t_len: usize, p: *mut u8, p_len: usize, call: Call) -> Answer {
    let (words, bytes) = (from_raw_parts_mut(t, t_len), from_raw_parts_mut(p, p_len));
    let before = Model { state: faults::read(words, bytes) };
    let mut bent = before.clone();
    bent.state.iter_mut().for_each(|state| faults::before(&call, state));
    let mut after = bent.clone();
    let answer = faults::call(call.clone(), &before).on_model(&mut after, t_len, p_len);
    if after == bent {
        after = before.clone();
    } else if let (Some(old), Some(new)) = (&before.state, &mut after.state) {
        faults::after(&call, old, new);
    }
    if after != before {
        store(&after, words, bytes);
    }
    faults::spoil(&before, &after, words, bytes);
    faults::answer(answer)
}

/// A start may find any buffers, so it always writes when it succeeds.
#[no_mangle]
unsafe extern "C" fn fg_start(
    t: *mut u64,
    t_len: usize,
    p: *mut u8,
    p_len: usize,
    actors: u64,
    mailboxes: u64,
    data: u64,
    links: u64,
    monitors: u64,
    timers: u64,
) -> u64 {
    let (words, bytes) = (from_raw_parts_mut(t, t_len), from_raw_parts_mut(p, p_len));
    let caps = [actors, mailboxes, data, links, monitors, timers];
    let mut m = Model::unsound();
    let wanted = if faults::is("start-wants-a-word-more") { 1 } else { 0 };
    let crowded = faults::is("start-refuses-65-actors") && actors > 64;
    let no = m.start(!crowded && table_suffices(t_len.saturating_sub(wanted), &caps), p_len as u64, caps);
    if no == 0 {
        bytes[..bytes_needed(&caps) as usize].fill(0);
        store(&m, words, bytes);
    }
    no
}

macro_rules! stand_ins {
    (
        numbers { $($call:ident $(($($arg:ident: $ty:ty),*))? = $c:ident, $method:ident -> $answer:ty, $chances:expr, $chosen:expr;)* }
        payloads { $($sent:ident($($with:ident: $kind:ty),*) = $sent_c:ident, $sent_method:ident -> $sent_answer:ty, $sent_chances:expr, $sent_chosen:expr;)* }
        slices { $($lent:ident($($by:ident: $sort:ty),*) = $lent_c:ident, $lent_method:ident -> $lent_answer:ty, $lent_chances:expr, $lent_chosen:expr;)* }
    ) => {
        $(
            #[no_mangle]
            unsafe extern "C" fn $c(t: *mut u64, t_len: usize, p: *mut u8, p_len: usize $($(, $arg: $ty)*)?) -> $answer {
                on_buffers(t, t_len, p, p_len, Call::$call $(($($arg),*))?).into()
            }
        )*

        $(
            #[no_mangle]
            unsafe extern "C" fn $sent_c(
                t: *mut u64, t_len: usize, p: *mut u8, p_len: usize, $($with: $kind,)* payload: *const u8, payload_len: usize,
            ) -> $sent_answer {
                let payload = from_raw_parts(payload, payload_len).to_vec();
                on_buffers(t, t_len, p, p_len, Call::$sent($($with,)* payload)).into()
            }
        )*

        $(
            #[no_mangle]
            unsafe extern "C" fn $lent_c(
                t: *mut u64, t_len: usize, p: *mut u8, p_len: usize, $($by: $sort,)* out: *mut u8, out_len: usize,
            ) -> $lent_answer {
                let out = from_raw_parts_mut(out, out_len);
                let written: Written = on_buffers(t, t_len, p, p_len, Call::$lent($($by,)* out.to_vec())).into();
                out.copy_from_slice(&written.slice);
                written.copied
            }
        )*
    };
}

calls!(stand_ins);
