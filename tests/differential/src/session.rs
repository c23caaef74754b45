//! One session: buffers, a start, and a run of calls with damage from time to time; or, in a traced session, without damage, and
//! with a trace that the library judges.

use crate::call::{Answer, Call};
use crate::compare::{make, Buffers, Difference};
use crate::counts::Counts;
use crate::damage::{self, Damage};
use crate::generate::{self, Generator, Mood, Seen};
use crate::layout::{self, words_needed, AGE, CLOCK, MONITOR_AGE, TIMER_AGE};
use crate::random::Random;
use crate::traced::{self, Trace};
use model::limits::*;
use model::state::State;
use model::{Model, DONE, UNSOUND};

pub struct Session<'a> {
    random: &'a mut Random,
    counts: &'a mut Counts,
    buffers: Buffers,
    model: Model,
    first: Capacities,
    mood: Mood,
    actors: Seen,
    timers: Seen,
    monitors: Seen,
    /// In a traced session: its calls so far.
    pub trace: Option<Trace>,
}

impl<'a> Session<'a> {
    /// Buffers for some capacities, somewhat longer than needed, filled with a pattern or zeros.
    pub fn new(random: &'a mut Random, counts: &'a mut Counts) -> Self {
        let first = generate::good_capacities(random);
        let buffers = fresh_buffers(random, &first);
        let model = Model { state: layout::decode(&buffers.words, &buffers.bytes) };
        let mood = generate::mood(random);
        counts.sessions += 1;
        let (actors, timers, monitors) = (Seen::default(), Seen::default(), Seen::default());
        Session { random, counts, buffers, model, first, mood, actors, timers, monitors, trace: None }
    }

    /// A session without damage, so that nobody but its calls writes to its buffers.
    pub fn traced(random: &'a mut Random, counts: &'a mut Counts) -> Self {
        let fill = random.pick(&[0, 0xFF, 1]);
        Session { trace: Some(Trace::new(fill)), ..Session::new(random, counts) }
    }

    pub fn run(&mut self) -> Result<(), Difference> {
        for _ in 0..3 {
            self.plain()?;
        }
        self.compare(&Call::Start(self.first))?;
        self.crowd()?;
        for _ in 0..self.random.between(100, 1_500) {
            if self.trace.is_some() {
                self.traced_step()?;
            } else {
                self.step()?;
            }
        }
        self.end_trace()
    }

    /// Half of the large boxes begin with more actors than a word has bits, which calls alone would seldom make.
    fn crowd(&mut self) -> Result<(), Difference> {
        let actors = self.first[0];
        if actors <= 64 || self.random.percent(50) {
            return Ok(());
        }
        for _ in 0..self.random.between(64, actors) {
            let priority = self.random.below(MAX_PRIORITY + 1);
            self.compare(&Call::Spawn(priority))?;
        }
        Ok(())
    }

    fn step(&mut self) -> Result<(), Difference> {
        match self.random.below(200) {
            0..=5 => self.listed_damage(),
            6..=15 => self.damage_anywhere(),
            16..=18 => self.short_buffers(),
            19 => {
                self.sound_edit();
                self.plain()
            }
            _ => self.plain(),
        }
    }

    fn traced_step(&mut self) -> Result<(), Difference> {
        if self.random.once_in(100) {
            return self.start_with_other_lengths();
        }
        self.plain()
    }

    /// A start on the first part of the buffers, refused or not.
    fn start_with_other_lengths(&mut self) -> Result<(), Difference> {
        let (call, lengths) = (Call::Start(self.first), self.shorter());
        let made = make(&call, &mut self.buffers, lengths, &mut self.model);
        let answer = self.counted(&call, made, " on a part of the buffers")?;
        self.record(&call, &answer, lengths)
    }

    /// Adds a call to the trace, where there is one; after the place of a payload, the payload too.
    fn record(&mut self, call: &Call, answer: &Answer, lengths: (usize, usize)) -> Result<(), Difference> {
        let Some(trace) = &mut self.trace else { return Ok(()) };
        let mut records = vec![traced::record(call, answer, lengths)];
        if let Answer::Shown(place) = answer {
            records.push(traced::shown(&self.buffers.bytes[place.offset as usize..][..place.length as usize]));
        }
        for record in records {
            let number = self.counts.calls;
            let wrong = |what| Difference { number, call: format!("{record:?}"), what };
            trace.add(self.random, self.counts, &record).map_err(wrong)?;
        }
        Ok(())
    }

    fn end_trace(&self) -> Result<(), Difference> {
        let Some(trace) = &self.trace else { return Ok(()) };
        let wrong = |what| Difference { number: self.counts.calls, call: "the end of a trace".to_string(), what };
        trace.compare_end().map_err(wrong)
    }

    fn lengths(&self) -> (usize, usize) {
        (self.buffers.words.len(), self.buffers.bytes.len())
    }

    fn call(&mut self) -> Call {
        Generator {
            random: self.random,
            state: self.model.state.as_ref(),
            actors: &self.actors,
            timers: &self.timers,
            monitors: &self.monitors,
            mood: &self.mood,
        }
        .call()
    }

    /// A call that is not a start.
    fn call_but_start(&mut self) -> Call {
        loop {
            let call = self.call();
            if !call.is_start() {
                return call;
            }
        }
    }

    fn plain(&mut self) -> Result<(), Difference> {
        let call = self.call();
        self.compare(&call)
    }

    /// One call on the whole buffers and on the model.
    fn compare(&mut self, call: &Call) -> Result<(), Difference> {
        let lengths = self.lengths();
        let made = make(call, &mut self.buffers, lengths, &mut self.model);
        let answer = self.counted(call, made, "")?;
        self.remember(call, &answer);
        self.record(call, &answer, lengths)
    }

    /// Counts a call that agreed, or says where and what differs.
    fn counted(&mut self, call: &Call, made: Result<Answer, String>, note: &str) -> Result<Answer, Difference> {
        let number = self.counts.calls;
        let answer = made.map_err(|what| Difference { number, call: format!("{call:?}{note}"), what })?;
        self.counts.count(call, &answer);
        Ok(answer)
    }

    fn remember(&mut self, call: &Call, answer: &Answer) {
        let Answer::Made(made) = answer else { return };
        if made.no != DONE {
            return;
        }
        match call {
            Call::Spawn(_) => self.actors.add(made.id),
            Call::Monitor(_) => self.monitors.add(made.id),
            Call::Bus(..) => {}
            _ => self.timers.add(made.id),
        }
    }

    /// Does damage of the list; the call must answer 7. Then the damage is undone.
    fn listed_damage(&mut self) -> Result<(), Difference> {
        let Some(state) = &self.model.state else { return self.plain() };
        let table = damage::must_refuse(state, &self.buffers.words, &self.buffers.bytes);
        let chosen = self.random.pick(&table);
        let call = self.call_but_start();
        let whole = self.buffers.clone();
        chosen.apply(&mut self.buffers.words, &mut self.buffers.bytes);
        self.must_agree_that_unsound(&call, &chosen)?;
        let lengths = self.lengths();
        let made = make(&call, &mut self.buffers, lengths, &mut Model::unsound());
        self.counted(&call, made, &format!(" after {chosen:?}"))?;
        self.counts.count_listed(chosen.what);
        self.buffers = whole;
        Ok(())
    }

    /// The list of damage and the test's own reading of the buffers must agree.
    fn must_agree_that_unsound(&self, call: &Call, damage: &Damage) -> Result<(), Difference> {
        if layout::decode(&self.buffers.words, &self.buffers.bytes).is_none() {
            return Ok(());
        }
        let what = "an error of the test: this damage is on the list and yet sound".to_string();
        Err(Difference { number: self.counts.calls, call: format!("{call:?} after {damage:?}"), what })
    }

    /// Does damage anywhere. Where the buffers are still sound the model follows them; else the
    /// call must answer 7. Sound buffers are sometimes kept as they are, others are restored.
    fn damage_anywhere(&mut self) -> Result<(), Difference> {
        let call = self.call_but_start();
        let (whole, model) = (self.buffers.clone(), self.model.clone());
        let chosen = damage::anywhere(self.random, &self.buffers.words, &self.buffers.bytes);
        chosen.apply(&mut self.buffers.words, &mut self.buffers.bytes);
        self.model = Model { state: layout::decode(&self.buffers.words, &self.buffers.bytes) };
        let sound = self.model.state.is_some();
        let lengths = self.lengths();
        let made = make(&call, &mut self.buffers, lengths, &mut self.model);
        self.counted(&call, made, &format!(" after {chosen:?}"))?;
        self.counts.count_damage(sound);
        if !sound || self.random.percent(50) {
            (self.buffers, self.model) = (whole, model);
        }
        Ok(())
    }

    /// Lends only the first part of the buffers: 7, or 1 from start, where that is too short.
    fn short_buffers(&mut self) -> Result<(), Difference> {
        let call = if self.random.percent(20) { Call::Start(self.first) } else { self.call() };
        let lengths = self.shorter();
        let enough = layout::decode(&self.buffers.words[..lengths.0], &self.buffers.bytes[..lengths.1]).is_some();
        let note = format!(" with {} words and {} bytes", lengths.0, lengths.1);
        let made = if enough || call.is_start() {
            make(&call, &mut self.buffers, lengths, &mut self.model)
        } else {
            make(&call, &mut self.buffers, lengths, &mut Model::unsound())
        };
        let answer = self.counted(&call, made, &note)?;
        if !enough && !call.is_start() {
            assert_eq!(answer.no(), UNSOUND);
        }
        self.remember(&call, &answer);
        Ok(())
    }

    /// Lengths around what is needed, or any.
    fn shorter(&mut self) -> (usize, usize) {
        let (words, bytes) = self.lengths();
        let caps = self.model.state.as_ref().map_or(self.first, State::capacities);
        let near = |random: &mut Random, needed: u64, all: usize| match random.below(4) {
            0 => random.index(all + 1),
            1 => (needed as usize - 1).min(all),
            2 => (needed as usize).min(all),
            _ => all,
        };
        (near(self.random, words_needed(&caps), words), near(self.random, bytes_needed(&caps), bytes))
    }

    /// Moves the clock close to its limit, or a slot's age to where its ids need more than 32 bits or close to its limit, which calls alone would
    /// take too long to do.
    fn sound_edit(&mut self) {
        let Some(state) = &self.model.state else { return };
        let Some((index, value)) = edit(self.random, state) else { return };
        let old = std::mem::replace(&mut self.buffers.words[index], value);
        match layout::decode(&self.buffers.words, &self.buffers.bytes) {
            Some(state) => self.model.state = Some(state),
            None => self.buffers.words[index] = old,
        }
    }
}

fn fresh_buffers(random: &mut Random, caps: &Capacities) -> Buffers {
    let fill = random.pick(&[0, 0xA5A5_A5A5_A5A5_A5A5, u64::MAX, 1]);
    let words = words_needed(caps) as usize + random.pick(&[0, 1, 7, 40]);
    let bytes = bytes_needed(caps) as usize + random.pick(&[0, 1, 255, 300]);
    Buffers { words: vec![fill; words], bytes: vec![fill as u8; bytes] }
}

/// The index and the new value of a clock or age word.
fn edit(random: &mut Random, state: &State) -> Option<(usize, u64)> {
    let starts = layout::starts(&state.capacities());
    if random.once_in(6) {
        let left = random.pick(&[0, 1, 1_000, 1_000_000, MAX_STEP]);
        return Some((starts[CLOCK], MAX_CLOCK - left));
    }
    let (column, pool) = random.pick(&[(AGE, 0), (MONITOR_AGE, 4), (TIMER_AGE, 5)]);
    let size = state.capacities()[pool] as usize;
    if size == 0 {
        return None;
    }
    let age =
        if random.percent(50) { MAX_AGE - random.below(3) } else { (1 << random.between(24, 39)) - random.below(2) };
    Some((starts[column] + random.index(size), age))
}
