//! The bench run with full pools: document 01's bench run among a round of all other calls, on a box of the largest capacities whose
//! pools are full. Beside each call stands the number that it must answer.

use crate::sides::Call;
use crate::stage::{receive_any, Stage};
use model::limits::*;
use model::{DONE, NO_ROOM};

const CRASH: u64 = 65_533;

/// A call and the number that it must answer.
type Step = (Call, u64);

/// Every pool is full; the first actor runs, and is subscribed to a bus.
pub fn stage() -> Stage {
    Stage::full(LARGEST, 0)
}

/// The running actor is refused what needs room.
fn refused() -> Vec<Step> {
    vec![
        (Call::Report, DONE),
        (Call::Spawn(1), NO_ROOM),
        (Call::Notify(Stage::id(1), 1, 8), NO_ROOM),
        (Call::After(1_000), NO_ROOM),
        (Call::Monitor(Stage::id(1)), NO_ROOM),
        (Call::Link(Stage::id(9)), NO_ROOM),
        (Call::Publish(0, 8), NO_ROOM),
    ]
}

/// It takes messages, reads what it publishes on a bus of its own, which ends with that read, and sends a message; its timer, its monitor and a link end
/// and begin again, so that the pools are full again; the clock moves, and the turn is handed on.
fn day() -> Vec<Step> {
    let (me, other) = (Stage::id(0), Stage::id(1));
    let calls = [
        Call::Link(other),
        receive_any(),
        Call::Shown,
        receive_any(),
        Call::Bus(1, 1, 1, 0),
        Call::Subscribe(1),
        Call::Publish(1, 8),
        Call::Read(1),
        Call::Unsubscribe(1),
        Call::Notify(me, 3, 100),
        Call::Cancel(TIMER_FACTOR),
        Call::Every(1_000_000),
        Call::Demonitor(MONITOR_FACTOR),
        Call::Monitor(other),
        Call::Unlink(other),
        Call::Link(other),
        Call::Advance(1_000),
        Call::Yield,
        Call::Next,
    ];
    calls.map(|call| (call, DONE)).to_vec()
}

/// Document 01's bench run, once two actors have ended and a third has taken two messages, which makes room: two are spawned, the first runs, is
/// linked to the second and crashes; the second runs and takes the notice.
fn bench_run() -> Vec<Step> {
    let second = 2 * ACTOR_FACTOR + SECOND;
    let calls = [
        Call::Exit(CRASH),
        Call::Next,
        Call::Exit(CRASH),
        Call::Next,
        receive_any(),
        receive_any(),
        Call::Yield,
        Call::Spawn(0),
        Call::Spawn(0),
        Call::Next,
        Call::Link(second),
        Call::Exit(CRASH),
        Call::Next,
        receive_any(),
        Call::Shown,
    ];
    calls.map(|call| (call, DONE)).to_vec()
}

/// The slot of the second actor of the bench run: the second and the fourth actor are the first whose turn it is.
const SECOND: u64 = 3;

/// All steps of a round.
pub fn steps() -> Vec<Step> {
    [refused(), day(), bench_run()].concat()
}
