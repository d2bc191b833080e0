//! The calls in plain Rust: the same bytes, the same checks and the same answers as the proved library.
//!
//! Written as one would write them by hand, in place and without allocation. It proves nothing; it is
//! there to be measured beside the proved library, and to be compared with it.
#![no_std]
#![forbid(unsafe_code)]

mod balance;
mod frame;
mod memory;
mod message;
mod opening;
mod queue;
mod record;
mod round;
mod routing;
mod soundness;
mod view;

use frame::{Frame, Output, Sense};
use interface::{AgreedTime, Answer, Calls, LampPlace, Opening, ViewAnswer, NOTHING_DUE};
use memory::Header;
use message::Kind;

/// The numbers of refusals of documents 01 and 02.
pub(crate) mod refusal {
    pub const FORM: u32 = 1;
    pub const NUMBER: u32 = 2;
    pub const PAST_LAST_HOUR: u32 = 3;
    pub const OUT_OF_TURN: u32 = 4;
    pub const NO_ROOM: u32 = 5;
    pub const NOTHING: u32 = 6;
    pub const NOT_OUTSTANDING: u32 = 7;
    pub const SETTING: u32 = 8;
    pub const BELOW_AGREED: u32 = 9;
    pub const UNSOUND: u32 = 10;
    pub const LENGTH: u32 = 11;
    pub const LAMP: u32 = 12;
}

/// Plain Rust.
#[derive(Clone, Copy, Debug, Default)]
pub struct Plain;

impl Calls for Plain {
    fn route(&self, gateways: u32, own: u32, neighbours: &mut [u16]) -> u32 {
        let Some(arcs) = routing::arcs(gateways, own) else {
            return refusal::SETTING;
        };
        let Some(neighbours) = neighbours.first_chunk_mut::<4>() else {
            return refusal::NO_ROOM;
        };
        *neighbours = [arcs.from[0], arcs.from[1], arcs.to[0], arcs.to[1]];
        0
    }

    fn set_up(&self, memory: &mut [u8], list: &[u8], opening: &Opening) -> u32 {
        opening::set_up(memory, list, opening).err().unwrap_or(0)
    }

    fn work(&self, memory: &mut [u8], output: &mut [u8], budget: u32) -> Answer {
        let Some(mut header) = soundness::sound(memory) else {
            return refused(refusal::UNSOUND);
        };
        let mut output = Output::new(output);
        let (events, number) = queue::work(memory, &mut header, &mut output, budget);
        header.write(memory);
        Answer { number, written: output.written(), events }
    }

    fn take(&self, memory: &mut [u8], frame: &[u8], output: &mut [u8]) -> Answer {
        accepted(Output::new(output), |output| take(memory, frame, output))
    }

    fn start(&self, memory: &mut [u8], output: &mut [u8]) -> Answer {
        accepted(Output::new(output), |output| {
            let header = soundness::sound(memory).ok_or(refusal::UNSOUND)?;
            round::start(memory, &header, output)
        })
    }

    fn commit(&self, memory: &mut [u8], output: &mut [u8]) -> Answer {
        accepted(Output::new(output), |output| {
            let header = soundness::sound(memory).ok_or(refusal::UNSOUND)?;
            queue::commit(memory, header, output)
        })
    }

    fn agreed_time(&self, memory: &[u8]) -> AgreedTime {
        match soundness::sound(memory) {
            Some(header) => AgreedTime { number: 0, hour: header.agreed },
            None => AgreedTime { number: refusal::UNSOUND, hour: 0 },
        }
    }

    fn lamp(&self, frame: &[u8]) -> LampPlace {
        match frame::lamp_place(frame) {
            Ok(place) => LampPlace { number: 0, place },
            Err(number) => LampPlace { number, place: 0 },
        }
    }

    fn view(&self, record: &[u8], output: &mut [u8], reader: u32, old_stock: u32) -> ViewAnswer {
        match view::view(record, output, reader, old_stock) {
            Ok(written) => ViewAnswer { number: 0, written },
            Err(number) => ViewAnswer { number, written: 0 },
        }
    }

    fn balance(&self, record: &[u8], opening_stock: u32, figures: &mut [u64]) -> u32 {
        balance::balance(record, opening_stock, figures).err().unwrap_or(0)
    }
}

fn refused(number: u32) -> Answer {
    Answer { number, written: 0, events: 0 }
}

/// Runs a call that writes to the output only if it is accepted.
fn accepted<'a>(
    mut output: Output<'a>,
    call: impl FnOnce(&mut Output<'a>) -> Result<(), u32>,
) -> Answer {
    match call(&mut output) {
        Ok(()) => Answer { number: 0, written: output.written(), events: 0 },
        Err(number) => refused(number),
    }
}

fn take(memory: &mut [u8], bytes: &[u8], output: &mut Output) -> Result<(), u32> {
    let header = soundness::sound(memory).ok_or(refusal::UNSOUND)?;
    let frame = frame::read(bytes)?;
    if frame.message.kind == Kind::Restock {
        return Err(refusal::FORM);
    }
    check_limits(&header, &frame)?;
    let Frame { message, sense } = frame;
    match (message.kind, sense) {
        (Kind::Start, _) => round::take_start(memory, &header, message.from, output),
        (Kind::Update, _) => round::take_update(memory, &header, &message, output),
        (Kind::Lvt, _) => {
            check_agreed(&header, message.hour)?;
            round::take_lvt(memory, &header, &message, output)
        }
        (_, Sense::Plain) => {
            check_agreed(&header, message.hour)?;
            queue::take_plain(memory, header, &message, output)
        }
        (_, Sense::Cancel) => {
            check_agreed(&header, message.hour)?;
            queue::take_cancel(memory, header, &message, output)
        }
        (_, Sense::Acknowledgment) => queue::take_acknowledgment(memory, header, &message, false),
        (_, Sense::CancelAcknowledgment) => {
            queue::take_acknowledgment(memory, header, &message, true)
        }
    }
}

/// Refusals 2 and 3.
pub(crate) fn check_limits(header: &Header, frame: &Frame) -> Result<(), u32> {
    let message = &frame.message;
    if !message.numbers_below(header.gateways) || frame.addressee() != header.own {
        return Err(refusal::NUMBER);
    }
    let may_be_nothing_due = matches!(message.kind, Kind::Lvt | Kind::Update);
    if message.hour > header.last_hour && !(may_be_nothing_due && message.hour == NOTHING_DUE) {
        return Err(refusal::PAST_LAST_HOUR);
    }
    Ok(())
}

/// Refusal 9.
fn check_agreed(header: &Header, hour: u32) -> Result<(), u32> {
    if hour < header.agreed {
        return Err(refusal::BELOW_AGREED);
    }
    Ok(())
}
