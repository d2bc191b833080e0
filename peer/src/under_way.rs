//! The frames under way in a run, and what each round took.

use crate::frame::Frame;
use crate::model::{Hour, NOTHING_DUE};
use crate::round;
use crate::routing;

/// What went wrong.
pub type Wrong = String;

/// A frame written for the carrier and not yet accepted.
#[derive(Clone, Copy, Debug)]
pub struct Carried {
    pub frame: Frame,
    /// For the frames of a round, which one.
    pub round: Option<usize>,
    /// Counts what was written in the run: the smaller, the older.
    number: usize,
}

impl Carried {
    /// The hour of a message, cancel or acknowledgment; nothing due for the frames of a round.
    fn hour(&self) -> Hour {
        match self.frame {
            Frame::Event { message, .. } => message.hour,
            _ => NOTHING_DUE,
        }
    }
}

/// What a round took, and which gateways have accepted its Update.
#[derive(Default)]
struct RoundTaken {
    messages: usize,
    closed: bool,
    updated: Vec<u8>,
}

/// The frames under way, in the order in which they wait, and the rounds.
pub struct UnderWay {
    gateways: usize,
    carried: Vec<Carried>,
    rounds: Vec<RoundTaken>,
    written: usize,
    completed: usize,
}

impl UnderWay {
    pub fn new(gateways: usize) -> UnderWay {
        UnderWay { gateways, carried: Vec::new(), rounds: Vec::new(), written: 0, completed: 0 }
    }

    pub fn carried(&self) -> &[Carried] {
        &self.carried
    }

    /// Frames written in the run.
    pub fn written(&self) -> usize {
        self.written
    }

    /// Rounds that every gateway has taken the Update of.
    pub fn completed_rounds(&self) -> usize {
        self.completed
    }

    /// The least hour of a message, cancel or acknowledgment.
    pub fn least(&self) -> Hour {
        round::least(self.carried.iter().map(Carried::hour))
    }

    /// No round is open: gateway 0 may start one.
    pub fn may_start(&self) -> bool {
        self.rounds.last().is_none_or(|round| round.closed)
    }

    /// Takes out the frame in a place. Of equal frames the oldest counts as brought.
    pub fn take_out(&mut self, place: usize) -> Carried {
        let frame = self.carried[place].frame;
        let equal = (0..self.carried.len()).filter(|&at| self.carried[at].frame == frame);
        let oldest = equal.min_by_key(|&at| self.carried[at].number);
        self.carried.swap(place, oldest.unwrap_or(place));
        self.carried.remove(place)
    }

    /// A frame that was refused goes to the end of the line.
    pub fn put_back(&mut self, refused: Carried) {
        self.carried.push(refused);
    }

    /// Gateway 0's start call was accepted, and wrote these frames.
    pub fn start(&mut self, output: Vec<Frame>) -> Result<(), Wrong> {
        self.rounds.push(RoundTaken { closed: self.gateways == 1, ..RoundTaken::default() });
        self.write(0, output)?;
        self.count_if_completed(self.rounds.len() - 1)
    }

    /// Gateway `own` accepted a frame, and wrote these.
    pub fn accept(&mut self, own: u8, brought: Carried, output: Vec<Frame>) -> Result<(), Wrong> {
        self.write_for(own, output, brought.round)?;
        let (Frame::Update { .. }, Some(round)) = (brought.frame, brought.round) else {
            return Ok(());
        };
        if self.rounds[round].updated.contains(&own) {
            return Err(format!("{own} takes the Update of round {round} twice"));
        }
        self.rounds[round].updated.push(own);
        self.count_if_completed(round)
    }

    /// Gateway `own` wrote frames without taking one.
    pub fn write(&mut self, own: u8, output: Vec<Frame>) -> Result<(), Wrong> {
        self.write_for(own, output, None)
    }

    /// `taken` is the round of the frame that gateway `own` took; an Update that it relays counts for that round.
    fn write_for(
        &mut self,
        own: u8,
        output: Vec<Frame>,
        taken: Option<usize>,
    ) -> Result<(), Wrong> {
        let closes = own == 0 && output.iter().any(|frame| matches!(frame, Frame::Update { .. }));
        for frame in output {
            let round = match frame {
                Frame::Event { .. } => None,
                Frame::Update { .. } if own != 0 => taken,
                _ => Some(self.open_round()?),
            };
            if let Some(round) = round {
                self.rounds[round].messages += 1;
            }
            self.carried.push(Carried { frame, round, number: self.written });
            self.written += 1;
        }
        if closes {
            let round = self.open_round()?;
            self.rounds[round].closed = true;
        }
        Ok(())
    }

    fn open_round(&self) -> Result<usize, Wrong> {
        let open = self.rounds.iter().rposition(|round| !round.closed);
        open.ok_or_else(|| "a round's frame is written while none is open".into())
    }

    /// A completed round took two messages for each arc and an Update for each gateway but 0, below 4N.
    fn count_if_completed(&mut self, round: usize) -> Result<(), Wrong> {
        let RoundTaken { messages, closed, ref updated } = self.rounds[round];
        if !closed || updated.len() + 1 < self.gateways {
            return Ok(());
        }
        self.completed += 1;
        let gateways = self.gateways as i32;
        let arcs = routing::arcs(gateways).map_or(0, |arcs| arcs.len());
        let expected = routing::round_messages(gateways, arcs);
        if messages != expected || messages >= 4 * self.gateways {
            return Err(format!("round {round} took {messages} messages, not {expected}"));
        }
        Ok(())
    }
}

/// No agreed time has fallen, and none is past an hour that waits or is under way.
pub fn check_agreed(
    own: usize,
    before: Hour,
    agreed: Hour,
    waiting: Hour,
    under_way: Hour,
) -> Result<(), Wrong> {
    if agreed < before {
        return Err(format!("the agreed time of {own} fell from {before} to {agreed}"));
    }
    if agreed > under_way.min(waiting) {
        return Err(format!("{own} has {agreed}: {waiting} waits, {under_way} under way"));
    }
    Ok(())
}
