//! What a box pays for its actors: the same calls on boxes that differ in the number of actors alone, with the other pools as large as can be and
//! with four of each, and with one actor there and with all. A box with few actors must not pay for those that it cannot have.

use crate::sides::Call;
use crate::stage::{receive_any, Stage};
use crate::{heading, row_of};
use model::limits::*;

/// How many actors the boxes have room for.
const ACTORS: [u64; 3] = [4, 64, 256];

/// The other pools of a box, by name.
const OTHERS: [(&str, Capacities); 2] = [("the rest largest", LARGEST), ("four of the rest", [4; 6])];

/// So many actors are there; the first runs, and has a message in its mailbox.
fn stage(capacities: Capacities, count: u64) -> Stage {
    let mut stage = Stage::with_actors(capacities, count);
    stage.done(Call::Notify(Stage::id(0), 1, 8));
    stage
}

/// The test alone, since there is no such timer; a message; the turn of the next actor; a message that is taken.
fn print_box(name: &str, capacities: Capacities) {
    for (pools, count) in [("one actor", 1), ("all actors", capacities[0])] {
        let stage = stage(capacities, count);
        for call in [Call::Cancel(1), Call::Notify(Stage::id(0), 1, 8), receive_any()] {
            row_of(&stage, name, pools, call);
        }
        let mut resting = stage;
        resting.done(Call::Yield);
        row_of(&resting, name, pools, Call::Next);
    }
}

pub fn print() {
    heading("What a box pays for its actors");
    for (others, capacities) in OTHERS {
        for actors in ACTORS {
            let mut capacities = capacities;
            capacities[0] = actors;
            print_box(&format!("{actors} actors, {others}"), capacities);
        }
    }
}
