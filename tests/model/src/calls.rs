//! The host calls. Every call tests in the order 7, 4, 1, 3, 2 and changes nothing when it refuses.

use crate::answers::*;
use crate::buses::Bus;
use crate::limits::*;
use crate::records;
use crate::state::{Activity, Actor, Filter, Link, Message, Monitor, Reason, State, Timer};

/// The runtime as the host sees it. Without a state its buffers are not sound.
#[derive(Debug, Clone, PartialEq, Eq, Default)]
pub struct Model {
    pub state: Option<State>,
}

type Refused<T> = Result<T, u64>;

impl Model {
    /// Buffers that no start has made sound yet.
    pub fn unsound() -> Self {
        Model { state: None }
    }

    /// The state, or 7.
    fn sound(&mut self) -> Refused<&mut State> {
        self.state.as_mut().ok_or(UNSOUND)
    }

    /// The state and the running actor's slot, or 7, or 4.
    fn caller(&mut self) -> Refused<(&mut State, usize)> {
        let state = self.sound()?;
        let me = state.running().ok_or(NOT_NOW)?;
        Ok((state, me))
    }

    /// Starts over in a table that is long enough for the capacities or not, as its layout has it, and so many bytes.
    pub fn start(&mut self, table_suffices: bool, bytes: u64, caps: Capacities) -> u64 {
        if !in_range(&caps) || !table_suffices || bytes < bytes_needed(&caps) {
            return MALFORMED;
        }
        self.state = Some(State::fresh(&caps));
        DONE
    }

    pub fn spawn(&mut self, priority: u64) -> Made {
        made(self.try_spawn(priority))
    }

    fn try_spawn(&mut self, priority: u64) -> Refused<u64> {
        let state = self.sound()?;
        refuse_if(priority > MAX_PRIORITY, MALFORMED)?;
        let slot = state.actors.lowest_free().ok_or(NO_ROOM)?;
        let actor = Actor { priority, activity: Activity::Running, hand: None };
        let id = state.actors.take(actor).ok_or(NO_ROOM)?;
        state.make_runnable(slot, Reason::Ready);
        Ok(id)
    }

    pub fn next(&mut self) -> Turn {
        self.try_next().unwrap_or_else(|no| Turn { no, ..Default::default() })
    }

    fn try_next(&mut self) -> Refused<Turn> {
        let state = self.sound()?;
        refuse_if(state.running().is_some(), NOT_NOW)?;
        Ok(match head_of_queue(state) {
            Some(place) => run(state, place),
            None => Turn { no: WAITING, sleep: time_to_sleep(state), ..Default::default() },
        })
    }

    pub fn yield_now(&mut self) -> u64 {
        number(self.try_yield())
    }

    fn try_yield(&mut self) -> Refused<()> {
        let (state, me) = self.caller()?;
        state.make_runnable(me, Reason::Ready);
        Ok(())
    }

    pub fn notify(&mut self, target: u64, tag: u64, payload: &[u8]) -> u64 {
        number(self.try_notify(target, tag, payload))
    }

    fn try_notify(&mut self, target: u64, tag: u64, payload: &[u8]) -> Refused<()> {
        let (state, me) = self.caller()?;
        refuse_if(tag >= ANY_TAG || payload.len() > MAX_PAYLOAD, MALFORMED)?;
        let owner = state.actors.find(target).ok_or(UNKNOWN)?;
        let sender = state.actors.id(me);
        let message = Message { sender, class: NOTIFY, tag, payload: payload.to_vec() };
        refuse_if(!state.deliver(owner, message), NO_ROOM)
    }

    pub fn receive(&mut self, sender: u64, class: u64, tag: u64, wait: i64) -> Received {
        let filter = Filter { sender, class, tag };
        self.try_receive(filter, wait).unwrap_or_else(|no| Received { no, ..Default::default() })
    }

    fn try_receive(&mut self, filter: Filter, wait: i64) -> Refused<Received> {
        let (state, me) = self.caller()?;
        refuse_if(!filter.is_legal() || !(-1..=MAX_WAIT).contains(&wait), MALFORMED)?;
        state.release_hand(me);
        match state.first_match(me, &filter) {
            Some(place) => Ok(take_message(state, me, place)),
            None if wait == 0 => Err(NOTHING),
            None => {
                begin_wait(state, me, filter, wait);
                Err(WAITING)
            }
        }
    }

    /// The payload in hand; empty where there is none, or nobody runs, or the buffers are not sound.
    pub fn show(&mut self) -> Vec<u8> {
        match self.in_hand() {
            Ok((_, message)) => message.payload.clone(),
            Err(_) => Vec::new(),
        }
    }

    pub fn shown(&mut self) -> Shown {
        match self.in_hand() {
            Ok((data, message)) => Shown {
                no: DONE,
                offset: ENTRY_BYTES * data as u64 + HEADER_BYTES,
                length: message.payload.len() as u64,
            },
            Err(no) => Shown { no, ..Default::default() },
        }
    }

    fn in_hand(&mut self) -> Refused<(usize, &Message)> {
        let (state, me) = self.caller()?;
        let data = state.actors.get(me).and_then(|a| a.hand).ok_or(UNKNOWN)?;
        let message = state.data.get(data).ok_or(UNKNOWN)?;
        Ok((data, message))
    }

    /// A one-shot timer.
    pub fn after(&mut self, delay: u64) -> Made {
        made(self.arm(delay, delay <= MAX_STEP, None))
    }

    /// A periodic timer.
    pub fn every(&mut self, interval: u64) -> Made {
        made(self.arm(interval, (MIN_INTERVAL..=MAX_STEP).contains(&interval), Some(interval)))
    }

    fn arm(&mut self, step: u64, well_formed: bool, interval: Option<u64>) -> Refused<u64> {
        let (state, me) = self.caller()?;
        refuse_if(!well_formed, MALFORMED)?;
        let timer = Timer { owner: me, due: state.clock + step, interval };
        state.timers.take(timer).ok_or(NO_ROOM)
    }

    pub fn cancel(&mut self, timer: u64) -> u64 {
        number(self.try_cancel(timer))
    }

    fn try_cancel(&mut self, timer: u64) -> Refused<()> {
        let (state, me) = self.caller()?;
        let slot = state.timers.find(timer).ok_or(UNKNOWN)?;
        refuse_if(state.timers.get(slot).is_some_and(|t| t.owner != me), UNKNOWN)?;
        state.timers.release(slot);
        Ok(())
    }

    pub fn link(&mut self, partner: u64) -> u64 {
        number(self.try_link(partner))
    }

    fn try_link(&mut self, partner: u64) -> Refused<()> {
        let (state, me) = self.caller()?;
        refuse_if(partner == state.actors.id(me), MALFORMED)?;
        let other = state.actors.find(partner).ok_or(UNKNOWN)?;
        if state.link_between(me, other).is_some() {
            return Ok(());
        }
        state.links.take(Link::new(me, other)).map(|_| ()).ok_or(NO_ROOM)
    }

    pub fn unlink(&mut self, partner: u64) -> u64 {
        number(self.try_unlink(partner))
    }

    fn try_unlink(&mut self, partner: u64) -> Refused<()> {
        let (state, me) = self.caller()?;
        let other = state.actors.find(partner).ok_or(UNKNOWN)?;
        let entry = state.link_between(me, other).ok_or(UNKNOWN)?;
        state.links.release(entry);
        Ok(())
    }

    pub fn monitor(&mut self, target: u64) -> Made {
        made(self.try_monitor(target))
    }

    fn try_monitor(&mut self, target: u64) -> Refused<u64> {
        let (state, me) = self.caller()?;
        refuse_if(target == state.actors.id(me), MALFORMED)?;
        let watched = state.actors.find(target).ok_or(UNKNOWN)?;
        state.monitors.take(Monitor { watcher: me, watched }).ok_or(NO_ROOM)
    }

    pub fn demonitor(&mut self, monitor: u64) -> u64 {
        number(self.try_demonitor(monitor))
    }

    fn try_demonitor(&mut self, monitor: u64) -> Refused<()> {
        let (state, me) = self.caller()?;
        let slot = state.monitors.find(monitor).ok_or(UNKNOWN)?;
        refuse_if(state.monitors.get(slot).is_some_and(|m| m.watcher != me), UNKNOWN)?;
        state.monitors.release(slot);
        Ok(())
    }

    pub fn exit(&mut self, reason: u64) -> Ended {
        self.try_exit(reason).unwrap_or_else(|no| Ended { no, ..Default::default() })
    }

    fn try_exit(&mut self, reason: u64) -> Refused<Ended> {
        let (state, me) = self.caller()?;
        refuse_if(reason > MAX_REASON, MALFORMED)?;
        Ok(end(state, me, reason))
    }

    pub fn advance(&mut self, step: u64) -> Advanced {
        self.try_advance(step).unwrap_or_else(|no| Advanced { no, ..Default::default() })
    }

    fn try_advance(&mut self, step: u64) -> Refused<Advanced> {
        let state = self.sound()?;
        refuse_if(step > MAX_STEP || state.clock + step > MAX_CLOCK, MALFORMED)?;
        state.clock += step;
        let fired = fire_timers(state);
        end_waits(state);
        state.end_aged_values();
        Ok(Advanced { no: DONE, fired })
    }

    pub fn report(&mut self) -> Report {
        match self.sound() {
            Ok(state) => Report { no: DONE, free: free_counts(state) },
            Err(no) => Report { no, free: [0; 6] },
        }
    }

    /// Makes a bus, and answers its number. Entries and subscribers are from 1; 0 reads, or an age of 0, end no entry.
    pub fn bus(&mut self, entries: u64, subscribers: u64, reads: u64, age: u64) -> Made {
        made(self.try_bus(entries, subscribers, reads, age))
    }

    fn try_bus(&mut self, entries: u64, subscribers: u64, reads: u64, age: u64) -> Refused<u64> {
        let state = self.sound()?;
        refuse_if(!Bus::in_range(entries, subscribers, reads, age), MALFORMED)?;
        refuse_if(state.buses.len() == MAX_BUSES, NO_ROOM)?;
        state.buses.push(Bus::new(entries, subscribers, reads, age));
        Ok(state.buses.len() as u64 - 1)
    }

    pub fn publish(&mut self, bus: u64, payload: &[u8]) -> u64 {
        number(self.try_publish(bus, payload))
    }

    fn try_publish(&mut self, bus: u64, payload: &[u8]) -> Refused<()> {
        let (state, _) = self.caller()?;
        refuse_if(payload.len() > MAX_PAYLOAD, MALFORMED)?;
        let bus = state.find_bus(bus).ok_or(UNKNOWN)?;
        if state.is_full(bus) {
            state.end_oldest(bus);
        }
        refuse_if(!state.publish(bus, payload), NO_ROOM)
    }

    pub fn subscribe(&mut self, bus: u64) -> u64 {
        number(self.try_subscribe(bus))
    }

    fn try_subscribe(&mut self, bus: u64) -> Refused<()> {
        let (state, me) = self.caller()?;
        let bus = state.find_bus(bus).ok_or(UNKNOWN)?;
        refuse_if(state.buses[bus].seat_of(me).is_some(), MALFORMED)?;
        let seat = state.buses[bus].free_seat().ok_or(NO_ROOM)?;
        state.buses[bus].seats[seat] = Some(me);
        Ok(())
    }

    pub fn unsubscribe(&mut self, bus: u64) -> u64 {
        number(self.try_unsubscribe(bus))
    }

    fn try_unsubscribe(&mut self, bus: u64) -> Refused<()> {
        let (state, me) = self.caller()?;
        let bus = state.find_bus(bus).ok_or(UNKNOWN)?;
        let seat = state.buses[bus].seat_of(me).ok_or(UNKNOWN)?;
        state.leave(bus, seat);
        Ok(())
    }

    /// Copies the oldest entry of a bus that the caller has not read to the front of a slice.
    pub fn read(&mut self, bus: u64, out: &mut [u8]) -> Copied {
        let (no, payload) = self.read_within(bus, out.len() as u64);
        out[..payload.len()].copy_from_slice(&payload);
        Copied { no, length: payload.len() as u64 }
    }

    /// The same for a slice of so many bytes: the number, and the bytes that are copied.
    pub fn read_within(&mut self, bus: u64, room: u64) -> (u64, Vec<u8>) {
        match self.try_read(bus, room) {
            Ok(payload) => (DONE, payload),
            Err(no) => (no, Vec::new()),
        }
    }

    fn try_read(&mut self, bus: u64, room: u64) -> Refused<Vec<u8>> {
        let (state, me) = self.caller()?;
        let bus = state.find_bus(bus).ok_or(UNKNOWN)?;
        let seat = state.buses[bus].seat_of(me).ok_or(UNKNOWN)?;
        let place = state.oldest_unread(bus, seat).ok_or(NOTHING)?;
        refuse_if(state.payload(place).len() as u64 > room, MALFORMED)?;
        Ok(state.read(place, seat))
    }
}

fn refuse_if(condition: bool, no: u64) -> Refused<()> {
    if condition {
        Err(no)
    } else {
        Ok(())
    }
}

fn number(result: Refused<()>) -> u64 {
    result.err().unwrap_or(DONE)
}

fn made(result: Refused<u64>) -> Made {
    match result {
        Ok(id) => Made { no: DONE, id },
        Err(no) => Made { no, id: 0 },
    }
}

/// The place in the queue of the head of the first level that is not empty.
fn head_of_queue(state: &State) -> Option<usize> {
    let priority_at = |place: usize| state.actors.get(state.queue[place]).expect("queued actors live").priority;
    (0..state.queue.len()).min_by_key(|&place| (priority_at(place), place))
}

/// Runs the queued actor at this place.
fn run(state: &mut State, place: usize) -> Turn {
    let slot = state.queue.remove(place);
    let id = state.actors.id(slot);
    let actor = state.actors.get_mut(slot).expect("queued actors live");
    let reason = match actor.activity {
        Activity::Runnable(reason) => reason as u64,
        _ => unreachable!("queued actors are runnable"),
    };
    actor.activity = Activity::Running;
    Turn { no: DONE, id, reason, sleep: 0 }
}

fn deadline_of(actor: &Actor) -> Option<u64> {
    match actor.activity {
        Activity::Waiting { deadline, .. } => deadline,
        _ => None,
    }
}

/// The smallest due time or deadline less the clock, not below 0, or -1 if there is neither.
fn time_to_sleep(state: &State) -> i64 {
    let dues = state.timers.live().map(|(_, timer)| timer.due);
    let deadlines = state.actors.live().filter_map(|(_, actor)| deadline_of(actor));
    match dues.chain(deadlines).min() {
        Some(time) => time.saturating_sub(state.clock) as i64,
        None => -1,
    }
}

/// Takes the message at this place of the arrivals into the hand.
fn take_message(state: &mut State, me: usize, place: usize) -> Received {
    let entry = state.arrivals.remove(place);
    let letter = state.letters.release(entry).expect("arrivals are in use");
    state.actors.get_mut(me).expect("the caller lives").hand = Some(letter.data);
    let message = state.data.get(letter.data).expect("letters have messages");
    Received {
        no: DONE,
        sender: message.sender,
        class: message.class,
        tag: message.tag,
        length: message.payload.len() as u64,
    }
}

fn begin_wait(state: &mut State, me: usize, filter: Filter, wait: i64) {
    let deadline = (wait > 0).then(|| state.clock + 1_000 * wait as u64);
    state.actors.get_mut(me).expect("the caller lives").activity = Activity::Waiting { filter, deadline };
}

/// Fires what is due, by due time and slot, while there is room. Answers how many fired.
fn fire_timers(state: &mut State) -> u64 {
    let mut due: Vec<(u64, usize)> =
        state.timers.live().filter(|(_, t)| t.due <= state.clock).map(|(slot, t)| (t.due, slot)).collect();
    due.sort();
    let mut fired = 0;
    for (_, slot) in due {
        if !state.has_message_room() {
            break;
        }
        fire(state, slot);
        fired += 1;
    }
    fired
}

/// Queues one timer's tick; a one-shot ends, a periodic one is due again at its next beat.
fn fire(state: &mut State, slot: usize) {
    let id = state.timers.id(slot);
    let timer = *state.timers.get(slot).expect("due timers are live");
    let payload = records::tick(id);
    state.deliver(timer.owner, Message { sender: 0, class: TIMER, tag: 0, payload });
    match timer.interval {
        None => drop(state.timers.release(slot)),
        Some(interval) => {
            let clock = state.clock;
            state.timers.get_mut(slot).expect("due timers are live").due = next_beat(timer.due, interval, clock);
        }
    }
}

/// The first time past the clock that lies a whole number of intervals after a due time that has come.
fn next_beat(due: u64, interval: u64, clock: u64) -> u64 {
    let since_last_beat = (clock - due) % interval;
    clock - since_last_beat + interval
}

/// Makes those runnable whose deadline has come, by deadline and slot.
fn end_waits(state: &mut State) {
    let mut over: Vec<(u64, usize)> = state
        .actors
        .live()
        .filter_map(|(slot, actor)| deadline_of(actor).map(|deadline| (deadline, slot)))
        .filter(|(deadline, _)| *deadline <= state.clock)
        .collect();
    over.sort();
    for (_, slot) in over {
        state.make_runnable(slot, Reason::Timeout);
    }
}

/// Ends the running actor: hand and mailbox, links, monitors on it, its own monitors and timers, its subscriptions, its slot.
fn end(state: &mut State, me: usize, reason: u64) -> Ended {
    state.release_hand(me);
    state.clear_mailbox(me);
    let mut told = remove_links(state, me);
    told.extend(remove_monitors_on(state, me));
    // Removing all before telling all comes to the same: a notice takes no link and no monitor.
    let mut ended = Ended::default();
    let sender = state.actors.id(me);
    for (watcher, monitor) in told {
        let payload = records::exit(sender, reason as u16, monitor);
        if state.deliver(watcher, Message { sender, class: EXIT, tag: 0, payload }) {
            ended.sent += 1;
        } else {
            ended.lost += 1;
        }
    }
    remove_own(state, me);
    state.leave_all(me);
    state.actors.release(me);
    ended
}

/// Removes an actor's links; answers whom to tell, by ascending slot, with 0 for the monitor.
fn remove_links(state: &mut State, me: usize) -> Vec<(usize, u64)> {
    let mine: Vec<(usize, usize)> =
        state.links.used().filter_map(|(entry, link)| link.partner(me).map(|p| (p, entry))).collect();
    for (_, entry) in &mine {
        state.links.release(*entry);
    }
    let mut partners: Vec<(usize, u64)> = mine.iter().map(|(partner, _)| (*partner, 0)).collect();
    partners.sort();
    partners
}

/// Removes the monitors on an actor; answers whom to tell and by which monitor, by ascending monitor slot.
fn remove_monitors_on(state: &mut State, me: usize) -> Vec<(usize, u64)> {
    let on_me: Vec<(usize, Monitor)> =
        state.monitors.live().filter(|(_, m)| m.watched == me).map(|(slot, m)| (slot, *m)).collect();
    let told = on_me.iter().map(|(slot, m)| (m.watcher, state.monitors.id(*slot))).collect();
    for (slot, _) in on_me {
        state.monitors.release(slot);
    }
    told
}

/// Removes the monitors and timers that an actor owns.
fn remove_own(state: &mut State, me: usize) {
    let monitors: Vec<usize> = state.monitors.live().filter(|(_, m)| m.watcher == me).map(|(slot, _)| slot).collect();
    let timers: Vec<usize> = state.timers.live().filter(|(_, t)| t.owner == me).map(|(slot, _)| slot).collect();
    for slot in monitors {
        state.monitors.release(slot);
    }
    for slot in timers {
        state.timers.release(slot);
    }
}

fn free_counts(state: &State) -> [u64; 6] {
    [
        state.actors.free_count(),
        state.letters.free_count(),
        state.data.free_count(),
        state.links.free_count(),
        state.monitors.free_count(),
        state.timers.free_count(),
    ]
}
