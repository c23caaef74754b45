//! What a run has seen, to judge how far it got.

use crate::call::{Answer, Call};
use std::collections::BTreeMap;

#[derive(Default)]
pub struct Counts {
    pub calls: u64,
    pub sessions: u64,
    /// Records of traces that were replayed.
    pub records: u64,
    changed_right: u64,
    changed_wrong: u64,
    answers: BTreeMap<&'static str, [u64; 8]>,
    listed: BTreeMap<&'static str, u64>,
    still_sound: u64,
    not_sound: u64,
    sent: u64,
    lost: u64,
    fired: u64,
    by_message: u64,
    by_timeout: u64,
}

impl Counts {
    pub fn count(&mut self, call: &Call, answer: &Answer) {
        self.calls += 1;
        self.answers.entry(call.name()).or_default()[answer.no() as usize] += 1;
        match answer {
            Answer::Ended(ended) => {
                self.sent += ended.sent;
                self.lost += ended.lost;
            }
            Answer::Advanced(advanced) => self.fired += advanced.fired,
            Answer::Turn(turn) if turn.reason == 1 => self.by_message += 1,
            Answer::Turn(turn) if turn.reason == 2 => self.by_timeout += 1,
            _ => {}
        }
    }

    /// Damage of the list, after which the call had to answer 7.
    pub fn count_listed(&mut self, what: &'static str) {
        *self.listed.entry(what).or_default() += 1;
    }

    /// Damage anywhere.
    pub fn count_damage(&mut self, sound: bool) {
        if sound {
            self.still_sound += 1;
        } else {
            self.not_sound += 1;
        }
    }

    /// A changed record, which library and model judged alike.
    pub fn count_changed(&mut self, right: bool) {
        if right {
            self.changed_right += 1;
        } else {
            self.changed_wrong += 1;
        }
    }

    pub fn print(&self) {
        println!("{:10}{:>8}{:>8}{:>8}{:>8}{:>8}{:>8}{:>8}{:>8}", "answers", 0, 1, 2, 3, 4, 5, 6, 7);
        for (call, answers) in &self.answers {
            let columns: String = answers.iter().map(|n| format!("{n:>8}")).collect();
            println!("{call:10}{columns}");
        }
        println!("notices sent {}, lost {}; ticks {}", self.sent, self.lost, self.fired);
        println!("woken by a message {}, by a deadline {}", self.by_message, self.by_timeout);
        let listed: u64 = self.listed.values().sum();
        println!("damage of {} listed kinds {listed}, all refused with 7", self.listed.len());
        println!("damage anywhere: not sound {}, still sound {}", self.not_sound, self.still_sound);
        println!(
            "records replayed {}; changed ones: wrong {}, still right {}",
            self.records, self.changed_wrong, self.changed_right
        );
        println!("sessions: {}", self.sessions);
    }
}
