//! Random calls: mostly sensible ones, so that runs get far, and every boundary value of document 01.

use crate::call::Call;
use crate::calls::calls;
use crate::random::Random;
use model::limits::*;
use model::pool::Slots;
use model::state::{Activity, State};

/// What stood for any sender in the old edition, where larger ones were malformed.
const OLD_ANY_SENDER: u64 = 4_294_967_295;

/// Ids that were answered at some time, the latest ones.
#[derive(Default)]
pub struct Seen {
    ids: Vec<u64>,
}

impl Seen {
    const KEPT: usize = 64;

    pub fn add(&mut self, id: u64) {
        if self.ids.len() == Self::KEPT {
            self.ids.remove(0);
        }
        self.ids.push(id);
    }
}

/// How one run goes.
#[derive(Debug, Clone)]
pub struct Mood {
    /// The column of the table's chances.
    kind: usize,
    /// Of a hundred numbers, how many are chosen to be odd.
    odd: u64,
    /// The largest payload that is sent often.
    payload: u64,
}

/// The moods, the columns of the table. Mixed: a bit of everything. Full: messages until the pools are full. Flow: messages that come and go.
/// Time: timers and deadlines. Ties: many links, monitors and ends. Lives: many short lives. More: everything is made and nothing ends.
/// Buses: much is published and read.
const MOODS: usize = 8;

/// How often a call is made in each mood, and how.
struct Chance {
    name: &'static str,
    weights: [u64; MOODS],
    choose: fn(&mut Generator) -> Call,
}

macro_rules! chances {
    (
        numbers { $($call:ident $(($($arg:ident: $ty:ty),*))? = $c:ident, $method:ident -> $answer:ty, $weights:expr, $choose:expr;)* }
        payloads { $($sent:ident($($with:ident: $kind:ty),*) = $sent_c:ident, $sent_method:ident -> $sent_answer:ty, $sent_weights:expr, $sent_choose:expr;)* }
        slices { $($lent:ident($($by:ident: $sort:ty),*) = $lent_c:ident, $lent_method:ident -> $lent_answer:ty, $lent_weights:expr, $lent_choose:expr;)* }
    ) => {
        const CHANCES: &[Chance] = &[
            $(Chance { name: stringify!($c), weights: $weights, choose: $choose },)*
            $(Chance { name: stringify!($sent_c), weights: $sent_weights, choose: $sent_choose },)*
            $(Chance { name: stringify!($lent_c), weights: $lent_weights, choose: $lent_choose },)*
        ];
    };
}

calls!(chances);

pub fn mood(random: &mut Random) -> Mood {
    Mood { kind: random.index(MOODS), odd: random.pick(&[2, 8, 30]), payload: random.pick(&[4, 20, 252]) }
}

/// Capacities for a start that succeeds in long enough buffers.
pub fn good_capacities(random: &mut Random) -> Capacities {
    match random.below(13) {
        0 => [1, 1, 1, 0, 0, 0],
        1 => LARGEST,
        2 => within(random, [3, 3, 3, 2, 2, 2]),
        3 => within(random, LARGEST),
        12 => [random.pick(&[63, 64, 65, 128, 129, 200, 255, 256]), 24, 24, 12, 8, 6],
        4..=6 => [8, 24, 24, 8, 8, 6],
        _ => within(random, [8, 12, 12, 8, 8, 6]),
    }
}

fn within(random: &mut Random, limit: Capacities) -> Capacities {
    std::array::from_fn(|i| random.between(SMALLEST[i], limit[i]))
}

/// Capacities of which one may be out of range.
fn any_capacities(random: &mut Random) -> Capacities {
    let mut caps = good_capacities(random);
    if random.percent(50) {
        let pool = random.index(6);
        caps[pool] = random.pick(&[0, 1, LARGEST[pool], LARGEST[pool] + 1, 1 << 32, u64::MAX]);
    }
    caps
}

/// The generator's view of one call: the random source, the state, what was seen, and the mood.
pub struct Generator<'a> {
    pub random: &'a mut Random,
    pub state: Option<&'a State>,
    pub actors: &'a Seen,
    pub timers: &'a Seen,
    pub monitors: &'a Seen,
    pub mood: &'a Mood,
}

impl Generator<'_> {
    pub fn call(&mut self) -> Call {
        if self.random.once_in(400) {
            return Call::Start(any_capacities(self.random));
        }
        if let Some(call) = self.likely() {
            return call;
        }
        let chosen = self.random.weighted(&self.weights());
        (CHANCES[chosen].choose)(self)
    }

    /// What a host would do when nobody runs, in most cases.
    fn likely(&mut self) -> Option<Call> {
        let state = self.state?;
        if self.random.percent(10) {
            return None;
        }
        if state.running().is_some() {
            return None;
        }
        if !state.queue.is_empty() {
            return Some(Call::Next);
        }
        let room = state.actors.free_count() > 0;
        if !room && self.time_ahead().is_none() && self.random.percent(20) {
            // Everybody waits for ever and nobody else can come.
            return Some(Call::Start(state.capacities()));
        }
        let spawns = if room { 50 } else { 10 };
        Some(if self.random.percent(spawns) { Call::Spawn(self.priority()) } else { Call::Advance(self.advance()) })
    }

    /// The mood's weights; next is seldom called while somebody runs.
    fn weights(&self) -> Vec<u64> {
        let busy = self.state.is_some_and(|s| s.running().is_some());
        let weight = |c: &Chance| if busy && c.name == "fg_next" { 1 } else { c.weights[self.mood.kind] };
        CHANCES.iter().map(weight).collect()
    }

    fn odd(&mut self) -> bool {
        self.random.percent(self.mood.odd)
    }

    fn priority(&mut self) -> u64 {
        if self.odd() {
            self.random.pick(&[3, 4, 255, 256, 1 << 32, 1 << 63, u64::MAX])
        } else {
            self.random.below(4)
        }
    }

    fn tag(&mut self) -> u64 {
        if self.odd() {
            self.random.pick(&[ANY_TAG - 1, ANY_TAG, ANY_TAG + 1, 1 << 28, 1 << 32, (1 << 32) + 1, u64::MAX])
        } else {
            self.random.below(3)
        }
    }

    /// In half the cases, one of these.
    fn half_of(&mut self, ids: Vec<u64>) -> Option<u64> {
        if self.random.percent(50) {
            self.random.pick_some(&ids)
        } else {
            None
        }
    }

    /// One of the running actor's in half the cases, or any.
    fn some_timer(&mut self) -> u64 {
        self.own_timer().unwrap_or_else(|| self.timer())
    }

    fn some_monitor(&mut self) -> u64 {
        self.own_monitor().unwrap_or_else(|| self.monitor())
    }

    fn some_partner(&mut self) -> u64 {
        self.partner().unwrap_or_else(|| self.actor())
    }

    fn own_timer(&mut self) -> Option<u64> {
        let state = self.state?;
        let me = state.running()?;
        let own = state.timers.live().filter(|(_, t)| t.owner == me);
        self.half_of(own.map(|(slot, _)| state.timers.id(slot)).collect())
    }

    fn own_monitor(&mut self) -> Option<u64> {
        let state = self.state?;
        let me = state.running()?;
        let own = state.monitors.live().filter(|(_, m)| m.watcher == me);
        self.half_of(own.map(|(slot, _)| state.monitors.id(slot)).collect())
    }

    /// An actor that the running one is linked to.
    fn partner(&mut self) -> Option<u64> {
        let state = self.state?;
        let me = state.running()?;
        let partners = state.links.used().filter_map(|(_, link)| link.partner(me));
        self.half_of(partners.map(|slot| state.actors.id(slot)).collect())
    }

    /// A waiting actor and the tag that it waits for.
    fn awaited(&mut self) -> Option<(u64, u64)> {
        let state = self.state?;
        let waiting: Vec<(u64, u64)> = state
            .actors
            .live()
            .filter_map(|(slot, actor)| match &actor.activity {
                Activity::Waiting { filter, .. } => Some((state.actors.id(slot), filter.tag % ANY_TAG)),
                _ => None,
            })
            .collect();
        self.random.pick_some(&waiting)
    }

    /// A filter for a message in the running actor's mailbox.
    fn fitting(&mut self) -> Option<(u64, u64, u64)> {
        let state = self.state?;
        let me = state.running()?;
        let mine: Vec<usize> = state.letters.used().filter(|(_, l)| l.owner == me).map(|(_, l)| l.data).collect();
        let message = state.data.get(self.random.pick_some(&mine)?)?;
        let sender = self.random.pick(&[message.sender, ANY_SENDER]);
        let class = self.random.pick(&[message.class, ANY_CLASS]);
        Some((sender, class, self.random.pick(&[message.tag, ANY_TAG])))
    }

    fn notify(&mut self) -> Call {
        if self.random.percent(25) {
            if let Some((target, tag)) = self.awaited() {
                let length = self.random.index(20);
                return Call::Notify(target, tag, self.random.bytes(length));
            }
        }
        Call::Notify(self.actor(), self.tag(), self.payload())
    }

    fn payload(&mut self) -> Vec<u8> {
        let length = if self.odd() {
            self.random.pick(&[0, 251, 252, 253, 256, 257, 300, 1_000])
        } else {
            self.random.between(0, self.mood.payload) as usize
        };
        self.random.bytes(length)
    }

    fn new_bus(&mut self) -> Call {
        let age = self.random.pick(&[0, 0, 0, 0, 1, 2, 5, 100]);
        let mut settings = [self.random.between(1, 4), self.random.between(1, 5), self.random.below(4), age];
        if self.random.once_in(4) {
            settings = [MAX_BUS_ENTRIES, MAX_SUBSCRIBERS, MAX_READS, MAX_BUS_AGE];
        }
        if self.odd() {
            let setting = self.random.index(4);
            settings[setting] = self.random.pick(&[0, 1, 16, 17, 32, 33, 1 << 31, 1 << 32, 1 << 63, u64::MAX]);
        }
        let [entries, subscribers, reads, age] = settings;
        Call::Bus(entries, subscribers, reads, age)
    }

    /// A bus that was made, one of the first in most cases, or any number.
    fn bus(&mut self) -> u64 {
        let made = self.state.map_or(0, |state| state.buses.len() as u64);
        if made == 0 || self.odd() {
            return self.random.pick(&[0, 1, made, made + 1, 31, 32, 33, 1 << 32, 1 << 59, u64::MAX]);
        }
        let among = if self.random.percent(70) { made.min(3) } else { made };
        self.random.below(among)
    }

    /// A bus to which the running actor is subscribed, in most cases.
    fn some_bus(&mut self) -> u64 {
        if self.random.percent(20) {
            return self.bus();
        }
        let own = self.own_buses();
        self.random.pick_some(&own).unwrap_or_else(|| self.bus())
    }

    fn own_buses(&self) -> Vec<u64> {
        let Some(state) = self.state else { return Vec::new() };
        let Some(me) = state.running() else { return Vec::new() };
        (0..state.buses.len()).filter(|&bus| state.buses[bus].seat_of(me).is_some()).map(|bus| bus as u64).collect()
    }

    /// On a bus with a subscriber, in half the cases.
    fn publish(&mut self) -> Call {
        let heard = self.state.map_or(Vec::new(), |state| {
            (0..state.buses.len() as u64).filter(|&bus| !state.buses[bus as usize].taken_seats().is_empty()).collect()
        });
        let bus = self.half_of(heard).unwrap_or_else(|| self.bus());
        Call::Publish(bus, self.payload())
    }

    /// A bus on which there is something new for the running actor, in most cases.
    fn bus_to_read(&mut self) -> u64 {
        let mut new = self.own_buses();
        new.retain(|&bus| self.length_of_unread(bus).is_some());
        if self.random.percent(20) {
            new.clear();
        }
        self.random.pick_some(&new).unwrap_or_else(|| self.some_bus())
    }

    /// With a slice that is long enough in most cases, or just as long as what is read, or a byte shorter. Who reads has to subscribe first.
    fn read(&mut self) -> Call {
        if self.own_buses().is_empty() && self.random.percent(70) {
            return Call::Subscribe(self.bus());
        }
        let bus = self.bus_to_read();
        let length = match self.length_of_unread(bus) {
            Some(length) if self.random.percent(40) => (length + self.random.index(3)).saturating_sub(1),
            _ => self.random.pick(&[0, 1, 20, 251, 252, 252, 252, 253, 300]),
        };
        Call::Read(bus, vec![0xA5; length])
    }

    fn length_of_unread(&self, bus: u64) -> Option<usize> {
        let state = self.state?;
        let (me, bus) = (state.running()?, state.find_bus(bus)?);
        let place = state.oldest_unread(bus, state.buses[bus].seat_of(me)?)?;
        Some(state.payload(place).len())
    }

    fn receive(&mut self) -> Call {
        if self.random.percent(50) {
            if let Some((sender, class, tag)) = self.fitting() {
                return Call::Receive(sender, class, tag, self.wait());
            }
        }
        Call::Receive(self.sender(), self.class(), self.wanted_tag(), self.wait())
    }

    fn sender(&mut self) -> u64 {
        if self.odd() {
            self.random.pick(&[0, 1, OLD_ANY_SENDER, OLD_ANY_SENDER + 1, 1 << 63, ANY_SENDER - 1, ANY_SENDER])
        } else if self.random.percent(60) {
            ANY_SENDER
        } else if self.random.percent(20) {
            0
        } else {
            self.actor()
        }
    }

    fn class(&mut self) -> u64 {
        if self.odd() {
            self.random.pick(&[1, 2, 4, 5, 9, 14, 16, 31, 1 << 32, u64::MAX])
        } else if self.random.percent(60) {
            ANY_CLASS
        } else {
            self.random.pick(&[NOTIFY, TIMER, EXIT])
        }
    }

    fn wanted_tag(&mut self) -> u64 {
        if self.random.percent(60) {
            ANY_TAG
        } else {
            self.tag()
        }
    }

    fn wait(&mut self) -> i64 {
        if self.odd() {
            self.random.pick(&[-2, -1_000, i64::MIN, i64::MAX, MAX_WAIT - 1, MAX_WAIT, MAX_WAIT + 1, 1 << 32])
        } else {
            self.random.pick(&[-1, 0, 0, 1, 1, 2, 3, 10, 100])
        }
    }

    fn delay(&mut self) -> u64 {
        if self.odd() {
            self.random.pick(&[0, 1, MAX_STEP - 1, MAX_STEP, MAX_STEP + 1, 1 << 62, u64::MAX])
        } else {
            self.random.pick(&[0, 1, 10, 500, 999, 1_000, 1_000, 1_001, 2_000, 10_000])
        }
    }

    fn interval(&mut self) -> u64 {
        if self.odd() {
            let around = [0, 1, MIN_INTERVAL - 1, MIN_INTERVAL, MIN_INTERVAL + 1];
            let above = [MAX_STEP - 1, MAX_STEP, MAX_STEP + 1, 1 << 62, u64::MAX];
            self.random.pick(&[around, above].concat())
        } else {
            self.random.pick(&[MIN_INTERVAL, MIN_INTERVAL, 101, 500, 999, 1_000, 1_000, 1_001, 2_000, 10_000])
        }
    }

    fn advance(&mut self) -> u64 {
        if self.odd() {
            return self.random.pick(&[0, MAX_STEP - 1, MAX_STEP, MAX_STEP + 1, 1 << 62, 1 << 63, u64::MAX]);
        }
        match self.time_ahead() {
            Some(us) if self.random.percent(50) => (us + self.random.below(3)).saturating_sub(1).min(MAX_STEP),
            _ => self.random.pick(&[0, 1, 10, 500, 1_000, 2_000, 5_000, 100_000]),
        }
    }

    /// The time to some deadline or due time, or to the end of what was published.
    fn time_ahead(&mut self) -> Option<u64> {
        let state = self.state?;
        let mut times: Vec<u64> = state.timers.live().map(|(_, t)| t.due).collect();
        times.extend(state.actors.live().filter_map(|(_, a)| match a.activity {
            Activity::Waiting { deadline, .. } => deadline,
            _ => None,
        }));
        times.extend((0..state.values.len()).filter_map(|place| state.end_of_value(place)));
        Some(self.random.pick_some(&times)?.saturating_sub(state.clock))
    }

    fn reason(&mut self) -> u64 {
        if self.odd() {
            self.random.pick(&[65_536, 65_537, 1 << 32, (1 << 32) + 65_533, u64::MAX])
        } else {
            self.random.pick(&[0, 1, 65_530, 65_531, 65_532, 65_533, 65_534, 65_535])
        }
    }

    fn actor(&mut self) -> u64 {
        let live = self.state.map(|s| live_ids(&s.actors)).unwrap_or_default();
        let twins = self.twins(&live);
        match self.random.pick_some(&twins) {
            Some(twin) if self.random.percent(40) => twin,
            _ => self.id(live, &self.actors.ids, ACTOR_FACTOR),
        }
    }

    /// In a box for more than 64 actors, the live ones in a few slots that are the same modulo 64: whoever keeps 64 bits takes one for the other.
    fn twins(&self, live: &[u64]) -> Vec<u64> {
        let crowd = self.state.is_some_and(|s| s.actors.slots.len() > 64);
        live.iter().copied().filter(|id| crowd && id % 64 < 2).collect()
    }

    fn timer(&mut self) -> u64 {
        let live = self.state.map(|s| live_ids(&s.timers)).unwrap_or_default();
        self.id(live, &self.timers.ids, TIMER_FACTOR)
    }

    fn monitor(&mut self) -> u64 {
        let live = self.state.map(|s| live_ids(&s.monitors)).unwrap_or_default();
        self.id(live, &self.monitors.ids, MONITOR_FACTOR)
    }

    /// A live id in most cases, an old one, one close by, or any number.
    fn id(&mut self, live: Vec<u64>, seen: &[u64], factor: u64) -> u64 {
        let from = if self.random.percent(80) { &live[..] } else { seen };
        let id = self.random.pick_some(from).unwrap_or(factor);
        if !self.odd() {
            return id;
        }
        match self.random.below(9) {
            0 => id + factor,
            1 => id.saturating_sub(factor),
            2 => id + (1 << 32),
            3 => id + (1 << 63),
            4 => id % (1 << 32),
            5 => id ^ self.random.pick(&[64, 128]),
            6 => self.random.pick(&[0, 1, 63, 64, 127, 128, 255, 256, MAX_AGE * factor, (MAX_AGE + 1) * factor]),
            7 => self.random.pick(&[OLD_ANY_SENDER, OLD_ANY_SENDER + 1, ANY_SENDER - 1, ANY_SENDER, 1 << 63]),
            _ => self.random.bits(),
        }
    }
}

fn live_ids<T>(pool: &Slots<T>) -> Vec<u64> {
    pool.live().map(|(slot, _)| pool.id(slot)).collect()
}
