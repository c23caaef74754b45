//! Exit: hand and mailbox, links, monitors on the actor, its own monitors and timers, its subscriptions, its slot.

use crate::actors::FREE;
use crate::answer::{require, Outcome};
use crate::messages::Message;
use crate::pools;
use crate::rows::{Row, WIDE};
use crate::tables::{Tables, ARRIVED, RUNNING};
use model::limits::{EXIT, MAX_REASON, MONITOR_FACTOR};
use model::records::EXIT_BYTES;
use model::{Ended, DONE, MALFORMED};

/// Class 4, written by the runtime, tag 0.
pub const EXIT_HEADER: u32 = (EXIT as u32) << 28 | 1 << 27;
/// What every exit notice's record begins with: the length of what follows, and the kind.
const EXIT_OPENING: [u8; 4] = [0x14, 0, 0x04, 0];

/// Ends the running actor.
pub fn exit(tables: &mut Tables, me: usize, reason: u64) -> Outcome<Ended> {
    require(reason <= MAX_REASON, MALFORMED)?;
    tables.release_hand(me);
    empty_mailbox(tables, me as u64 + 1);
    let mut notices = Notices::new(tables.actor_id(me), reason);
    cut_links(tables, me as u64 + 1, &mut notices);
    cut_monitors(tables, me as u64 + 1, &mut notices);
    drop_timers(tables, me as u64 + 1);
    tables.leave_all(me as u64 + 1);
    tables.actors.state[me] = FREE;
    tables.actors.priority[me] = 0;
    tables.head[RUNNING] = 0;
    Ok(Ended { no: DONE, sent: notices.sent, lost: notices.lost })
}

/// Frees every message of an actor; the arrivals of others move up in one pass.
fn empty_mailbox(tables: &mut Tables, mine: u64) {
    let arrived = tables.head[ARRIVED] as usize;
    let mut kept = 0;
    for place in 0..arrived {
        let mail = tables.mails.arrival[place];
        if tables.mails.owner[mail as usize] == mine {
            free_mail(tables, mail as usize);
        } else {
            tables.mails.arrival[kept] = mail;
            kept += 1;
        }
    }
    tables.mails.arrival[kept..arrived].fill(0);
    tables.head[ARRIVED] = kept as u64;
}

/// Frees a mailbox entry and its message.
fn free_mail(tables: &mut Tables, mail: usize) {
    pools::give_back(tables.mail_free, mail);
    tables.mails.owner[mail] = 0;
    let data = std::mem::take(&mut tables.mails.data[mail]) as usize - 1;
    tables.free_data(data);
}

/// The exit notices of one actor: all but the monitor's id is the same in each.
struct Notices {
    sender: u64,
    record: [u8; EXIT_BYTES],
    sent: u64,
    lost: u64,
}

impl Notices {
    fn new(sender: u64, reason: u64) -> Self {
        let mut record = [0; EXIT_BYTES];
        record[..4].copy_from_slice(&EXIT_OPENING);
        record[4..12].copy_from_slice(&sender.to_le_bytes());
        record[12..14].copy_from_slice(&(reason as u16).to_le_bytes());
        Notices { sender, record, sent: 0, lost: 0 }
    }

    /// Tells the actor in a slot; the notice is lost where there is no room. The monitor is 0 for a link.
    fn tell(&mut self, tables: &mut Tables, slot: usize, monitor: u64) {
        self.record[14..].copy_from_slice(&monitor.to_le_bytes());
        let message = Message { sender: self.sender, header: EXIT_HEADER, payload: &self.record };
        if tables.deliver(slot, &message) {
            self.sent += 1;
        } else {
            self.lost += 1;
        }
    }
}

/// Removes an actor's links in one pass, then tells the partners by ascending slot.
fn cut_links(tables: &mut Tables, mine: u64, notices: &mut Notices) {
    let mut partners = Row::<WIDE>::EMPTY;
    for entry in 0..tables.links.one.len() {
        let (one, two) = (tables.links.one[entry], tables.links.two[entry]);
        if one == mine || two == mine {
            // The end that is not the actor's own.
            partners.add((one ^ two ^ mine) - 1);
            tables.links.remove(entry);
        }
    }
    partners.each(|slot| notices.tell(tables, slot, 0));
}

/// Removes the monitors on an actor, by ascending slot, telling each watcher, and those by which it watches.
fn cut_monitors(tables: &mut Tables, mine: u64, notices: &mut Notices) {
    for slot in 0..tables.monitors.watcher.len() {
        let (watcher, watched) = (tables.monitors.watcher[slot], tables.monitors.watched[slot]);
        if watched == mine {
            let id = tables.monitors.age[slot] * MONITOR_FACTOR + slot as u64;
            tables.monitors.remove(slot);
            notices.tell(tables, watcher as usize - 1, id);
        } else if watcher == mine {
            tables.monitors.remove(slot);
        }
    }
}

fn drop_timers(tables: &mut Tables, mine: u64) {
    for slot in 0..tables.timers.owner.len() {
        if tables.timers.owner[slot] == mine {
            tables.timers.disarm(slot);
        }
    }
}
