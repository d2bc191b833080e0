//! The round at a gateway: the start call, Start, Lvt and Update.

use crate::frame::Output;
use crate::memory::{
    hour_at, mark, queue_at, Header, COUNTING, IDLE, OUTSTANDING_PLACE, PROCESSED, STOPPED,
};
use crate::message::{Kind, Message};
use crate::refusal;
use crate::routing::{self, Arcs};
use interface::{NOTHING_DUE, NO_NEIGHBOUR};

/// What a step does: the header afterwards, and a frame to each receiver.
struct Step {
    header: Header,
    kind: Kind,
    hour: u32,
    receivers: [u16; 2],
}

impl Step {
    fn silent(header: Header) -> Step {
        Step { header, kind: Kind::Start, hour: 0, receivers: [NO_NEIGHBOUR; 2] }
    }

    /// Writes the step, or refuses with 5 where the output is too short.
    fn settle(self, memory: &mut [u8], output: &mut Output) -> Result<(), u32> {
        let length = if self.kind == Kind::Start { 4 } else { 8 };
        if output.room() < length * routing::count(self.receivers) {
            return Err(refusal::NO_ROOM);
        }
        for &to in self.receivers.iter().filter(|&&to| to != NO_NEIGHBOUR) {
            output.put_round(self.kind, self.header.own, to as u8, self.hour);
        }
        self.header.write(memory);
        Ok(())
    }
}

pub fn start(memory: &mut [u8], header: &Header, output: &mut Output) -> Result<(), u32> {
    if header.own != 0 || header.phase != IDLE {
        return Err(refusal::OUT_OF_TURN);
    }
    begun(memory, header).settle(memory, output)
}

pub fn take_start(
    memory: &mut [u8],
    header: &Header,
    sender: u8,
    output: &mut Output,
) -> Result<(), u32> {
    let heard = arcs(header).from;
    if header.phase != IDLE {
        return Err(refusal::OUT_OF_TURN);
    }
    let arrivals = arrived(sender, heard, header.arrivals)?;
    let step = if arrivals == all(heard) {
        begun(memory, header)
    } else {
        Step::silent(Header { arrivals, ..*header })
    };
    step.settle(memory, output)
}

pub fn take_lvt(
    memory: &mut [u8],
    header: &Header,
    lvt: &Message,
    output: &mut Output,
) -> Result<(), u32> {
    let told = arcs(header).to;
    if header.phase == IDLE {
        return Err(refusal::OUT_OF_TURN);
    }
    let arrivals = arrived(lvt.from, told, header.arrivals)?;
    let value = match header.phase {
        COUNTING => header.note.min(least_queued(memory, header)),
        _ => header.note,
    };
    let value = value.min(lvt.hour);
    let step = if arrivals == all(told) {
        finished(header, value)
    } else {
        Step::silent(Header { phase: STOPPED, arrivals, note: value, ..*header })
    };
    step.settle(memory, output)
}

pub fn take_update(
    memory: &mut [u8],
    header: &Header,
    update: &Message,
    output: &mut Output,
) -> Result<(), u32> {
    if header.own == 0 || update.from != (header.own - 1) / 2 {
        return Err(refusal::OUT_OF_TURN);
    }
    let agreed = header.agreed.max(update.hour);
    let step = Step {
        header: Header { agreed, ..*header },
        kind: Kind::Update,
        hour: update.hour,
        receivers: children(header),
    };
    step.settle(memory, output)
}

/// All Starts are in.
fn begun(memory: &[u8], header: &Header) -> Step {
    let note = least_outstanding(memory, header);
    if header.own + 1 == header.gateways {
        return finished(header, note.min(least_queued(memory, header)));
    }
    Step {
        header: Header { phase: COUNTING, arrivals: 0, note, ..*header },
        kind: Kind::Start,
        hour: 0,
        receivers: arcs(header).to,
    }
}

/// All Lvts are in.
fn finished(header: &Header, value: u32) -> Step {
    let idle = Header { phase: IDLE, arrivals: 0, note: 0, ..*header };
    if header.own == 0 {
        let header = Header { agreed: value, ..idle };
        return Step { header, kind: Kind::Update, hour: value, receivers: children(&idle) };
    }
    Step { header: idle, kind: Kind::Lvt, hour: value, receivers: arcs(&idle).from }
}

fn arcs(header: &Header) -> Arcs {
    routing::arcs(header.gateways.into(), header.own.into()).expect("the settings are sound")
}

fn children(header: &Header) -> [u16; 2] {
    let first = 2 * u16::from(header.own) + 1;
    [first, first + 1].map(
        |child| {
            if child < header.gateways.into() {
                child
            } else {
                NO_NEIGHBOUR
            }
        },
    )
}

/// The arrivals with one more; refused with 4 if it is not along an arc or not the first along it.
fn arrived(sender: u8, gateways: [u16; 2], arrivals: u8) -> Result<u8, u32> {
    let place = gateways.iter().position(|&gateway| gateway == sender.into());
    let bit = 1 << place.ok_or(refusal::OUT_OF_TURN)?;
    if arrivals & bit != 0 {
        return Err(refusal::OUT_OF_TURN);
    }
    Ok(arrivals | bit)
}

fn all(gateways: [u16; 2]) -> u8 {
    (1 << routing::count(gateways)) - 1
}

fn least_outstanding(memory: &[u8], header: &Header) -> u32 {
    let start = header.outstanding_at();
    let hours = (0..header.outstanding).map(|k| hour_at(memory, start + OUTSTANDING_PLACE * k));
    hours.min().unwrap_or(NOTHING_DUE)
}

/// The least hour of the unprocessed messages and waiting cancels: the queue is in event order.
fn least_queued(memory: &[u8], header: &Header) -> u32 {
    let first = (0..header.queued).find(|&k| mark(memory, k) != PROCESSED);
    first.map_or(NOTHING_DUE, |k| hour_at(memory, queue_at(k)))
}
