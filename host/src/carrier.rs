//! The carrier: runs all gateways of a forecast in one process until every record is whole.
//!
//! Time goes in windows. In a window frames are brought, and the gateways work off what is due up to the horizon, the agreed time and the
//! window's length behind it, until nothing more moves; then a round finds the new agreed time, and what lies below it is committed.
//! Messages past the horizon wait at the carrier while the queue of their gateway is at least half full and less than half of their sender's
//! outstanding places are in use, and where that queue is full. A window in which places run out is taken back, from a copy of all memories, and done again with half its length;
//! so a forecast stops for want of places only where it would stop hour by hour.

use crate::frame::{frames, Frame};
use crate::places::{due, Places};
use crate::refusal::{named, NOTHING, NO_ROOM};
use crate::scenario::{more_places, Scenario};
use interface::{ample_output, memory_length, AgreedTime, Answer, Calls, MOST_PLACES, NOTHING_DUE};
use std::collections::VecDeque;
use std::fmt;

/// The longest window, in hours. In a longer one gateways run so far ahead that they undo more than they gain.
const LONGEST_WINDOW: u32 = 32;

/// A forecast that is run.
pub struct Forecast<C> {
    calls: C,
    output: Vec<u8>,
    carried: Carried,
}

/// All that there is of a forecast between two windows, but for its records: who has this can go on with it.
#[derive(Clone, Debug, PartialEq, Eq)]
pub struct Carried {
    /// A gateway's memory is all that there is of it.
    pub memories: Vec<Vec<u8>>,
    /// Written for the carrier and not yet accepted, oldest first.
    pub under_way: VecDeque<Frame>,
    /// The hours that gateways run ahead of the agreed time.
    pub window: u32,
    pub progress: Progress,
    pub trace: Trace,
    /// The most places that each gateway has used.
    pub most: Vec<Places>,
}

/// What has happened so far.
#[derive(Clone, Copy, Debug, Default, PartialEq, Eq)]
pub struct Progress {
    pub agreed: u32,
    /// Events that were worked off, those that were undone again included.
    pub worked: u64,
    pub committed: u64,
    pub frames: u64,
    pub rounds: u64,
    /// Windows that were taken back for want of places.
    pub taken_back: u64,
}

/// The most entries of a trace.
const LONGEST_TRACE: usize = 2_048;

/// The progress after every so many rounds: of every one, until there are too many; then of every second one, and so on.
#[derive(Clone, Debug, PartialEq, Eq)]
pub struct Trace {
    pub every: u64,
    pub entries: Vec<Progress>,
}

impl Trace {
    fn new() -> Trace {
        Trace { every: 1, entries: vec![Progress::default()] }
    }

    fn add(&mut self, progress: Progress) {
        if self.entries.len() == LONGEST_TRACE {
            self.every *= 2;
            self.entries.retain(|entry| entry.rounds.is_multiple_of(self.every));
        }
        if progress.rounds.is_multiple_of(self.every) {
            self.entries.push(progress);
        }
    }
}

/// Why a forecast cannot go on.
#[derive(Clone, Debug, PartialEq, Eq)]
pub enum Stopped {
    /// A call answered what it never should: the memory or a frame was damaged.
    Refused { gateway: usize, call: &'static str, number: u32 },
    /// Places are too few.
    WantOfPlaces(Vec<Want>),
}

/// The places that a gateway has too few of.
#[derive(Clone, Copy, Debug, PartialEq, Eq)]
pub struct Want {
    pub gateway: usize,
    pub outstanding: bool,
    pub places: u32,
    /// The hour that could not be passed.
    pub hour: u32,
}

impl fmt::Display for Stopped {
    fn fmt(&self, formatter: &mut fmt::Formatter) -> fmt::Result {
        match self {
            Stopped::Refused { gateway, call, number } => {
                write!(formatter, "gateway {gateway} answered {} to {call}", named(*number))
            }
            Stopped::WantOfPlaces(wants) => {
                write!(formatter, "the forecast cannot go on for want of places")?;
                for want in wants {
                    let setting = if want.outstanding { "outstanding" } else { "queue" };
                    let Want { gateway, places, hour, .. } = want;
                    let advice = more_places(setting, *places);
                    write!(
                        formatter,
                        "\n  gateway {gateway}: {places} {setting} places are too few at hour {hour}; {advice}"
                    )?;
                }
                Ok(())
            }
        }
    }
}

impl<C: Calls> Forecast<C> {
    /// Sets up every gateway of a scenario.
    pub fn new(calls: C, scenario: &Scenario) -> Result<Forecast<C>, Stopped> {
        let mut memories = Vec::new();
        for (gateway, plan) in scenario.gateways.iter().enumerate() {
            let opening = scenario.opening(gateway);
            let mut memory = vec![0; memory_length(plan.queue_places, plan.outstanding_places)];
            match calls.set_up(&mut memory, &plan.list, &opening) {
                0 => memories.push(memory),
                number => return Err(Stopped::Refused { gateway, call: "set up", number }),
            }
        }
        let carried = Carried {
            under_way: VecDeque::new(),
            window: LONGEST_WINDOW,
            progress: Progress::default(),
            trace: Trace::new(),
            most: memories.iter().map(|memory| Places::of(memory)).collect(),
            memories,
        };
        Ok(Forecast::going_on(calls, carried))
    }

    /// Goes on with a forecast.
    pub fn going_on(calls: C, carried: Carried) -> Forecast<C> {
        Forecast { calls, output: vec![0; ample_output(MOST_PLACES)], carried }
    }

    /// All that there is of it.
    pub fn carried(&self) -> &Carried {
        &self.carried
    }

    pub fn into_carried(self) -> Carried {
        self.carried
    }

    /// Whether every record is whole.
    pub fn is_over(&self) -> bool {
        self.carried.progress.agreed == NOTHING_DUE
    }

    /// Runs until every record is whole. `record` is given each gateway's committed bytes, event by event.
    pub fn run(&mut self, mut record: impl FnMut(usize, &[u8])) -> Result<Progress, Stopped> {
        while !self.is_over() {
            self.pass(&mut record)?;
        }
        Ok(self.carried.progress)
    }

    /// Runs through a window, with its round, and commits what lies below the new agreed time.
    pub fn pass(&mut self, record: &mut impl FnMut(usize, &[u8])) -> Result<(), Stopped> {
        self.pass_window()?;
        self.commit(record)?;
        self.carried.trace.add(self.carried.progress);
        Ok(())
    }

    /// One window, taken back and shortened as often as places run out.
    fn pass_window(&mut self) -> Result<(), Stopped> {
        loop {
            let Carried { memories, under_way, window, progress, .. } = &self.carried;
            let (memories, under_way) = (memories.clone(), under_way.clone());
            let horizon = progress.agreed.saturating_add(*window);
            self.settle(horizon, horizon)?;
            if self.wants(horizon, horizon).is_empty() {
                self.carried.window = (2 * self.carried.window).clamp(1, LONGEST_WINDOW);
                return self.round();
            }
            if self.carried.window == 0 {
                return self.pass_hour();
            }
            self.carried.memories = memories;
            self.carried.under_way = under_way;
            self.carried.window /= 2;
            self.carried.progress.taken_back += 1;
        }
    }

    /// With no window left to shorten: nothing waits at the carrier any more, as a message that waits there takes an outstanding
    /// place, and a round may let something be committed. If it does not, the forecast cannot go on.
    fn pass_hour(&mut self) -> Result<(), Stopped> {
        let hour = self.carried.progress.agreed;
        self.settle(hour, NOTHING_DUE)?;
        let wants = self.wants(hour, NOTHING_DUE);
        self.round()?;
        if !wants.is_empty() && self.carried.progress.agreed == hour {
            return Err(Stopped::WantOfPlaces(wants));
        }
        Ok(())
    }

    /// Bringing up to one hour and work up to another in turn, until nothing more moves. What has waited at the carrier and is now due is
    /// brought first, so that no work is undone for it.
    fn settle(&mut self, work: u32, carry: u32) -> Result<(), Stopped> {
        loop {
            let brought = self.bring(carry)?;
            self.note_places();
            let worked = self.work(work)?;
            self.note_places();
            if !brought && !worked {
                return Ok(());
            }
        }
    }

    fn note_places(&mut self) {
        for (most, memory) in self.carried.most.iter_mut().zip(&self.carried.memories) {
            let Places { queue_used, outstanding_used, .. } = Places::of(memory);
            most.queue_used = most.queue_used.max(queue_used);
            most.outstanding_used = most.outstanding_used.max(outstanding_used);
        }
    }

    /// Every gateway works off what is due; whether one did.
    fn work(&mut self, horizon: u32) -> Result<bool, Stopped> {
        let mut worked = false;
        for gateway in 0..self.carried.memories.len() {
            let budget = due(&self.carried.memories[gateway], horizon);
            if budget == 0 {
                continue;
            }
            let memory = &mut self.carried.memories[gateway];
            let answer = self.calls.work(memory, &mut self.output, budget);
            self.expect(gateway, "work", answer, &[0, NO_ROOM, NOTHING])?;
            self.write(answer);
            self.carried.progress.worked += u64::from(answer.events);
            worked |= answer.events > 0;
        }
        Ok(worked)
    }

    /// Brings every frame that is now under way, oldest first; whether one was accepted. A refused one goes to the end of
    /// the line.
    fn bring(&mut self, horizon: u32) -> Result<bool, Stopped> {
        let mut accepted = false;
        for _ in 0..self.carried.under_way.len() {
            let Some(frame) = self.carried.under_way.pop_front() else { break };
            if self.is_held(&frame, horizon) {
                self.carried.under_way.push_back(frame);
                continue;
            }
            if let Some(message) = self.pop_cancelled(&frame) {
                accepted |= self.take(message, &[0, NO_ROOM])? == 0;
            }
            accepted |= self.take(frame, &[0, NO_ROOM])? == 0;
        }
        Ok(accepted)
    }

    /// The message that a cancel cancels, if it is still under way, taken out to be brought before it: a cancel that overtook its message
    /// would wait for it in a queue place.
    fn pop_cancelled(&mut self, cancel: &Frame) -> Option<Frame> {
        let message = cancel.cancelled()?;
        let place = self.carried.under_way.iter().position(|frame| *frame == message)?;
        self.carried.under_way.remove(place)
    }

    /// A message past the horizon waits, to leave room for what is due before it: while the queue of its gateway is at least half full and
    /// its sender has many outstanding places left, as it may be years until it is due; and where there is no queue place for it.
    fn is_held(&self, frame: &Frame, horizon: u32) -> bool {
        if frame.plain_hour().is_none_or(|hour| hour <= horizon) {
            return false;
        }
        let to = Places::of(&self.carried.memories[frame.addressee()]);
        let from = Places::of(&self.carried.memories[frame.sender()]);
        to.queue_used == to.queue
            || 2 * to.queue_used >= to.queue && 2 * from.outstanding_used < from.outstanding
    }

    /// Brings a frame to its gateway, and what that answers; one that is not accepted stays under way.
    fn take(&mut self, frame: Frame, expected: &[u32]) -> Result<u32, Stopped> {
        let gateway = frame.addressee();
        let memory = &mut self.carried.memories[gateway];
        let answer = self.calls.take(memory, frame.bytes(), &mut self.output);
        if answer.number != 0 {
            self.carried.under_way.push_back(frame);
        }
        self.expect(gateway, "a frame", answer, expected)?;
        self.write(answer);
        Ok(answer.number)
    }

    /// A whole round: the start call, and its frames until none is left. It takes no queue place, and the output is long enough.
    fn round(&mut self) -> Result<(), Stopped> {
        let answer = self.calls.start(&mut self.carried.memories[0], &mut self.output);
        self.expect(0, "the start call", answer, &[0])?;
        let before = self.carried.under_way.len();
        self.write(answer);
        while self.carried.under_way.len() > before {
            let Some(frame) = self.carried.under_way.pop_back() else { break };
            self.take(frame, &[0])?;
        }
        self.carried.progress.rounds += 1;
        self.carried.progress.agreed = self.least_agreed()?;
        Ok(())
    }

    /// The least agreed time of all gateways.
    fn least_agreed(&self) -> Result<u32, Stopped> {
        let mut least = NOTHING_DUE;
        for (gateway, memory) in self.carried.memories.iter().enumerate() {
            let AgreedTime { number, hour } = self.calls.agreed_time(memory);
            if number != 0 {
                return Err(Stopped::Refused { gateway, call: "the agreed time", number });
            }
            least = least.min(hour);
        }
        Ok(least)
    }

    fn commit(&mut self, record: &mut impl FnMut(usize, &[u8])) -> Result<(), Stopped> {
        for gateway in 0..self.carried.memories.len() {
            loop {
                let memory = &mut self.carried.memories[gateway];
                let answer = self.calls.commit(memory, &mut self.output);
                self.expect(gateway, "commit", answer, &[0, NOTHING])?;
                if answer.number == NOTHING {
                    break;
                }
                record(gateway, &self.output[..answer.written]);
                self.carried.progress.committed += 1;
            }
        }
        Ok(())
    }

    /// The places that are lacking where nothing moves any more and something is still due.
    fn wants(&self, work: u32, carry: u32) -> Vec<Want> {
        let mut wants = Vec::new();
        for (gateway, memory) in self.carried.memories.iter().enumerate() {
            if due(memory, work) > 0 {
                let places = Places::of(memory);
                let (outstanding, places) = (true, places.outstanding as u32);
                wants.push(Want {
                    gateway,
                    outstanding,
                    places,
                    hour: self.carried.progress.agreed,
                });
            }
        }
        for frame in &self.carried.under_way {
            if self.is_held(frame, carry) {
                continue;
            }
            let gateway = frame.addressee();
            let places = Places::of(&self.carried.memories[gateway]);
            let outstanding = places.queue_used < places.queue;
            let places = if outstanding { places.outstanding } else { places.queue } as u32;
            let want = Want { gateway, outstanding, places, hour: self.carried.progress.agreed };
            if !wants.contains(&want) {
                wants.push(want);
            }
        }
        wants
    }

    /// What a call put out is under way.
    fn write(&mut self, answer: Answer) {
        for frame in frames(&self.output[..answer.written]) {
            self.carried.under_way.push_back(frame);
            self.carried.progress.frames += 1;
        }
    }

    fn expect(
        &self,
        gateway: usize,
        call: &'static str,
        answer: Answer,
        expected: &[u32],
    ) -> Result<(), Stopped> {
        if expected.contains(&answer.number) {
            return Ok(());
        }
        Err(Stopped::Refused { gateway, call, number: answer.number })
    }
}
