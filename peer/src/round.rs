//! A gateway's part in the rounds that find the agreed time (global virtual time).

use crate::frame::Frame;
use crate::model::{Hour, NOTHING_DUE};
use crate::refusal::Refusal;
use crate::routing::{self, Neighbours};

/// The round as one gateway knows it.
#[derive(Clone, Debug, PartialEq, Eq)]
pub struct Round {
    nodes: u8,
    own: u8,
    pub(crate) from: Vec<u8>,
    pub(crate) to: Vec<u8>,
    pub(crate) phase: Phase,
}

#[derive(Clone, Debug, PartialEq, Eq)]
pub(crate) enum Phase {
    /// Not started: the gateways whose Start has come.
    Ready { arrived: Vec<u8> },
    /// Started and not stopped.
    Noting { note: Hour },
    /// Stopped and waiting for Lvts: the least hour so far, and the gateways whose Lvt has come.
    Stopped { value: Hour, arrived: Vec<u8> },
}

const READY: Phase = Phase::Ready { arrived: Vec::new() };

/// What a gateway knows at a step of the round.
#[derive(Clone, Copy, Debug)]
pub struct Least {
    /// The least hour outstanding.
    pub outstanding: Hour,
    /// The least hour of the unprocessed messages and waiting cancels.
    pub waiting: Hour,
}

/// The agreed time that a step gives gateway 0, if it closes the round.
type Closed = Option<Hour>;

impl Round {
    /// Of gateway `own` among `nodes`, both in their ranges.
    pub fn new(nodes: u8, own: u8) -> Round {
        let neighbours = routing::neighbours(nodes.into(), own.into());
        let Neighbours { from, to } = neighbours.expect("the settings were checked");
        let numbers = |gateways: Vec<i32>| gateways.into_iter().map(|other| other as u8).collect();
        Round { nodes, own, from: numbers(from), to: numbers(to), phase: READY }
    }

    /// A plain message or a cancel is sent: until the stop its hour lowers the note.
    pub fn sent(&mut self, hour: Hour) {
        if let Phase::Noting { note } = &mut self.phase {
            *note = hour.min(*note);
        }
    }

    /// The start call.
    pub fn open(&mut self, least: Least, output: &mut Vec<Frame>) -> Result<Closed, Refusal> {
        if self.own != 0 || self.phase != READY {
            return Err(Refusal::OutOfTurn);
        }
        Ok(self.begin(least, output))
    }

    /// A Start comes.
    pub fn start(
        &mut self,
        sender: u8,
        least: Least,
        output: &mut Vec<Frame>,
    ) -> Result<(), Refusal> {
        let Phase::Ready { arrived } = &mut self.phase else {
            return Err(Refusal::OutOfTurn);
        };
        arrive(sender, &self.from, arrived)?;
        if arrived.len() == self.from.len() {
            self.begin(least, output);
        }
        Ok(())
    }

    /// An Lvt comes; the first one stops the noting.
    pub fn lvt(
        &mut self,
        sender: u8,
        hour: Hour,
        least: Least,
        output: &mut Vec<Frame>,
    ) -> Result<Closed, Refusal> {
        let (value, mut arrived) = match &self.phase {
            Phase::Ready { .. } => return Err(Refusal::OutOfTurn),
            Phase::Noting { note } => (least.waiting.min(*note), Vec::new()),
            Phase::Stopped { value, arrived } => (*value, arrived.clone()),
        };
        arrive(sender, &self.to, &mut arrived)?;
        let value = hour.min(value);
        if arrived.len() == self.to.len() {
            return Ok(self.finish(value, output));
        }
        self.phase = Phase::Stopped { value, arrived };
        Ok(None)
    }

    /// An Update comes; it is relayed as it came.
    pub fn update(&self, sender: u8, hour: Hour, output: &mut Vec<Frame>) -> Result<(), Refusal> {
        if self.own == 0 || sender != (self.own - 1) / 2 {
            return Err(Refusal::OutOfTurn);
        }
        self.pass_update(hour, output);
        Ok(())
    }

    /// All Starts are in. The last gateway stops as it starts.
    fn begin(&mut self, least: Least, output: &mut Vec<Frame>) -> Closed {
        let note = least.outstanding;
        if self.own == self.nodes - 1 {
            return self.finish(least.waiting.min(note), output);
        }
        self.phase = Phase::Noting { note };
        let from = self.own;
        output.extend(self.to.iter().map(|&to| Frame::Start { from, to }));
        None
    }

    /// All Lvts are in, and the gateway is ready for the next round.
    fn finish(&mut self, value: Hour, output: &mut Vec<Frame>) -> Closed {
        self.phase = READY;
        if self.own == 0 {
            self.pass_update(value, output);
            return Some(value);
        }
        let from = self.own;
        output.extend(self.from.iter().map(|&to| Frame::Lvt { from, to, hour: value }));
        None
    }

    fn pass_update(&self, hour: Hour, output: &mut Vec<Frame>) {
        let from = self.own;
        for to in [2 * u16::from(from) + 1, 2 * u16::from(from) + 2] {
            if to < u16::from(self.nodes) {
                output.push(Frame::Update { from, to: to as u8, hour });
            }
        }
    }
}

/// Notes an arrival; it must be along one of the arcs, and the first along it.
fn arrive(sender: u8, arcs: &[u8], arrived: &mut Vec<u8>) -> Result<(), Refusal> {
    if !arcs.contains(&sender) || arrived.contains(&sender) {
        return Err(Refusal::OutOfTurn);
    }
    arrived.push(sender);
    Ok(())
}

/// The least of some hours, nothing due if there are none.
pub fn least(hours: impl Iterator<Item = Hour>) -> Hour {
    hours.min().unwrap_or(NOTHING_DUE)
}
