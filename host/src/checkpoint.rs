//! A copy of a whole forecast at one moment between calls, as bytes: what is needed to go on with it after a crash.
//!
//! Numbers have eight bytes, high byte first. The copy ends with the digest of all before it, so that one that is cut or damaged is
//! refused, and begins with the digests of the program and of the scenario, so that one of another build or scenario is.

use crate::carrier::{Carried, Progress, Trace};
use crate::digest::Digest;
use crate::frame::{Frame, LONGEST};
use crate::places::Places;
use crate::record_files::Extent;
use crate::scenario::Scenario;
use interface::memory_length;
use std::collections::VecDeque;
use std::fmt;

const BEGIN: &[u8; 16] = b"hurfaith copy 2\n";

/// What copies of earlier versions begin with: in their memories and records a stock has two bytes.
const EARLIER: &[u8; 16] = b"hurfaith copy 1\n";

const DIGEST_LENGTH: usize = 8;

/// What a copy must be of.
#[derive(Clone, Copy, Debug, PartialEq, Eq)]
pub struct Origin {
    /// The digest of the program.
    pub build: Digest,
    /// The digest of the scenario's text.
    pub scenario: Digest,
}

/// A copy of a forecast.
#[derive(Clone, Debug, PartialEq, Eq)]
pub struct Checkpoint {
    pub carried: Carried,
    /// How much of each gateway's record was written.
    pub records: Vec<Extent>,
}

/// Why bytes are no copy to go on from.
#[derive(Clone, Copy, Debug, PartialEq, Eq)]
pub enum Unusable {
    NoCopy,
    EarlierVersion,
    Damaged,
    OtherBuild,
    OtherScenario,
}

impl fmt::Display for Unusable {
    fn fmt(&self, formatter: &mut fmt::Formatter) -> fmt::Result {
        formatter.write_str(match self {
            Unusable::NoCopy => "this is no copy of a forecast",
            Unusable::EarlierVersion => {
                "the copy was written by an earlier version of this program, whose memories and records have stocks of two bytes"
            }
            Unusable::Damaged => "the copy is damaged or cut short",
            Unusable::OtherBuild => "the copy was written by another build of this program",
            Unusable::OtherScenario => "the copy is of another scenario",
        })
    }
}

/// The copy's bytes.
pub fn encode(origin: Origin, carried: &Carried, records: &[Extent]) -> Vec<u8> {
    let mut bytes = BEGIN.to_vec();
    put(&mut bytes, origin.build.number());
    put(&mut bytes, origin.scenario.number());
    let Carried { memories, under_way, window, progress, trace, most } = carried;
    put(&mut bytes, *window);
    put_progress(&mut bytes, progress);
    put(&mut bytes, trace.every);
    put(&mut bytes, trace.entries.len() as u64);
    trace.entries.iter().for_each(|entry| put_progress(&mut bytes, entry));
    for ((memory, places), record) in memories.iter().zip(most).zip(records) {
        put_bytes(&mut bytes, memory);
        put(&mut bytes, places.queue_used as u64);
        put(&mut bytes, places.outstanding_used as u64);
        put(&mut bytes, record.length);
        put(&mut bytes, record.digest.number());
    }
    put(&mut bytes, under_way.len() as u64);
    under_way.iter().for_each(|frame| put_bytes(&mut bytes, frame.bytes()));
    let digest = Digest::of(&bytes);
    put(&mut bytes, digest.number());
    bytes
}

fn put(bytes: &mut Vec<u8>, number: impl Into<u64>) {
    bytes.extend(number.into().to_be_bytes());
}

fn put_bytes(bytes: &mut Vec<u8>, more: &[u8]) {
    put(bytes, more.len() as u64);
    bytes.extend(more);
}

fn put_progress(bytes: &mut Vec<u8>, progress: &Progress) {
    let Progress { agreed, worked, committed, frames, rounds, taken_back } = *progress;
    for number in [agreed.into(), worked, committed, frames, rounds, taken_back] {
        put(bytes, number);
    }
}

/// The copy that these bytes are, if it is one of this build and scenario.
pub fn decode(bytes: &[u8], origin: Origin, scenario: &Scenario) -> Result<Checkpoint, Unusable> {
    if bytes.starts_with(EARLIER) {
        return Err(Unusable::EarlierVersion);
    }
    if !bytes.starts_with(BEGIN) {
        return Err(Unusable::NoCopy);
    }
    let (whole, digest) = bytes.split_at(bytes.len() - DIGEST_LENGTH);
    let found = Reader(digest).number().ok_or(Unusable::Damaged)?;
    if Digest::of(whole) != Digest::from_number(found) {
        return Err(Unusable::Damaged);
    }
    let mut reader = Reader(whole.get(BEGIN.len()..).ok_or(Unusable::Damaged)?);
    let [build, of] = [(); 2].map(|()| reader.number().map(Digest::from_number));
    if build != Some(origin.build) {
        return Err(Unusable::OtherBuild);
    }
    if of != Some(origin.scenario) {
        return Err(Unusable::OtherScenario);
    }
    let checkpoint = reader.checkpoint(scenario).ok_or(Unusable::Damaged)?;
    if reader.0.is_empty() {
        Ok(checkpoint)
    } else {
        Err(Unusable::Damaged)
    }
}

/// Reads from the beginning of the bytes that are left; `None` where there is not what should be there.
struct Reader<'a>(&'a [u8]);

impl<'a> Reader<'a> {
    fn take(&mut self, length: usize) -> Option<&'a [u8]> {
        let (taken, rest) = self.0.split_at_checked(length)?;
        self.0 = rest;
        Some(taken)
    }

    fn number(&mut self) -> Option<u64> {
        self.take(8)?.try_into().ok().map(u64::from_be_bytes)
    }

    /// A number that a narrower type holds.
    fn narrow<T: TryFrom<u64>>(&mut self) -> Option<T> {
        self.number()?.try_into().ok()
    }

    fn bytes(&mut self) -> Option<&'a [u8]> {
        let length = self.narrow()?;
        self.take(length)
    }

    fn progress(&mut self) -> Option<Progress> {
        Some(Progress {
            agreed: self.narrow()?,
            worked: self.number()?,
            committed: self.number()?,
            frames: self.number()?,
            rounds: self.number()?,
            taken_back: self.number()?,
        })
    }

    fn trace(&mut self) -> Option<Trace> {
        let every = self.number()?;
        let count = self.number()?;
        let entries = (0..count).map(|_| self.progress()).collect::<Option<_>>()?;
        Some(Trace { every, entries })
    }

    /// A frame between two of so many gateways.
    fn frame(&mut self, gateways: usize) -> Option<Frame> {
        let frame = self.bytes().filter(|frame| frame.len() <= LONGEST).map(Frame::new)?;
        (frame.addressee() < gateways && frame.sender() < gateways).then_some(frame)
    }

    fn frames(&mut self, gateways: usize) -> Option<VecDeque<Frame>> {
        let count = self.number()?;
        (0..count).map(|_| self.frame(gateways)).collect()
    }

    fn checkpoint(&mut self, scenario: &Scenario) -> Option<Checkpoint> {
        let window = self.narrow()?;
        let progress = self.progress()?;
        let trace = self.trace()?;
        let (mut memories, mut most, mut records) = (Vec::new(), Vec::new(), Vec::new());
        for gateway in &scenario.gateways {
            let memory = self.bytes()?;
            if memory.len() != memory_length(gateway.queue_places, gateway.outstanding_places) {
                return None;
            }
            memories.push(memory.to_vec());
            let (queue_used, outstanding_used) = (self.narrow()?, self.narrow()?);
            most.push(Places { queue_used, outstanding_used, ..Places::of(memory) });
            let (length, digest) = (self.number()?, Digest::from_number(self.number()?));
            records.push(Extent { length, digest });
        }
        let under_way = self.frames(memories.len())?;
        let carried = Carried { memories, under_way, window, progress, trace, most };
        Some(Checkpoint { carried, records })
    }
}

#[cfg(test)]
mod tests {
    use super::*;
    use crate::frame::failure;

    const TEXT: &str = "last-hour 9\ngateway 0 supplier 1 stock 0 queue 1 outstanding 2\n\
                        gateway 1 supplier 1 stock 1 queue 3 outstanding 1\n";

    fn progress(first: u64) -> Progress {
        let [worked, committed, frames, rounds, taken_back] =
            [1, 2, 3, 4, 5].map(|more| first + more);
        Progress { agreed: first as u32, worked, committed, frames, rounds, taken_back }
    }

    /// A copy in which no two things are alike.
    fn copy(scenario: &Scenario) -> (Origin, Checkpoint) {
        let (mut memories, mut most, mut records) = (Vec::new(), Vec::new(), Vec::new());
        for (own, gateway) in (1..).zip(&scenario.gateways) {
            let length = memory_length(gateway.queue_places, gateway.outstanding_places);
            let memory: Vec<u8> = (0..length).map(|place| (place * own) as u8).collect();
            let (queue_used, outstanding_used) = (10 + own, 20 + own);
            most.push(Places { queue_used, outstanding_used, ..Places::of(&memory) });
            records.push(Extent { length: 30 + own as u64, digest: Digest::of(&memory) });
            memories.push(memory);
        }
        let frames =
            [failure(0, 8, b"L00000000000000001"), vec![7, 4, 0, 1], vec![15, 5, 1, 0, 0, 0, 0, 9]];
        let carried = Carried {
            memories,
            under_way: frames.iter().map(|frame| Frame::new(frame)).collect(),
            window: 16,
            progress: progress(100),
            trace: Trace { every: 2, entries: vec![progress(200), progress(300)] },
            most,
        };
        let origin = Origin { build: Digest::of(b"build"), scenario: Digest::of(b"scenario") };
        (origin, Checkpoint { carried, records })
    }

    #[test]
    fn a_copy_is_read_back_as_it_was_written() {
        let scenario = Scenario::parse(TEXT).unwrap();
        let (origin, checkpoint) = copy(&scenario);
        let bytes = encode(origin, &checkpoint.carried, &checkpoint.records);
        assert_eq!(decode(&bytes, origin, &scenario), Ok(checkpoint));
    }

    /// Every byte of a copy counts, and so does its length.
    #[test]
    fn every_damage_is_found() {
        let scenario = Scenario::parse(TEXT).unwrap();
        let (origin, checkpoint) = copy(&scenario);
        let whole = encode(origin, &checkpoint.carried, &checkpoint.records);
        let mut damaged = whole.clone();
        for place in 0..whole.len() {
            let expected = if place < BEGIN.len() { Unusable::NoCopy } else { Unusable::Damaged };
            for bit in 0..8 {
                damaged[place] ^= 1 << bit;
                assert_eq!(decode(&damaged, origin, &scenario), Err(expected));
                damaged[place] = whole[place];
            }
            assert_eq!(decode(&whole[..place], origin, &scenario), Err(expected));
        }
        damaged.push(0);
        assert_eq!(decode(&damaged, origin, &scenario), Err(Unusable::Damaged));
    }

    #[test]
    fn a_copy_of_something_else_is_named() {
        let scenario = Scenario::parse(TEXT).unwrap();
        let (origin, Checkpoint { carried, records }) = copy(&scenario);
        let bytes = encode(origin, &carried, &records);
        let earlier = [EARLIER, &bytes[EARLIER.len()..]].concat();
        assert_eq!(decode(&earlier, origin, &scenario), Err(Unusable::EarlierVersion));
        let other = Digest::of(b"other");
        let build = Origin { build: other, ..origin };
        assert_eq!(decode(&bytes, build, &scenario), Err(Unusable::OtherBuild));
        let of_another = Origin { scenario: other, ..origin };
        assert_eq!(decode(&bytes, of_another, &scenario), Err(Unusable::OtherScenario));
        for nowhere in [[7, 4, 0, 2], [7, 4, 2, 0]] {
            let mut carried = carried.clone();
            carried.under_way.push_back(Frame::new(&nowhere));
            let bytes = encode(origin, &carried, &records);
            assert_eq!(decode(&bytes, origin, &scenario), Err(Unusable::Damaged));
        }
    }
}
