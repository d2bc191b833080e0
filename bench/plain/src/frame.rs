//! Reading frames, and putting them one behind the other into an output.

use crate::memory::state_bytes;
use crate::message::{Kind, Message, State};
use crate::refusal;

#[derive(Clone, Copy, Debug, PartialEq, Eq)]
pub enum Sense {
    Plain,
    Cancel,
    Acknowledgment,
    CancelAcknowledgment,
}

#[derive(Clone, Copy, Debug)]
pub struct Frame {
    pub message: Message,
    pub sense: Sense,
}

impl Frame {
    pub fn addressee(&self) -> u8 {
        match self.sense {
            Sense::Plain | Sense::Cancel => self.message.to,
            Sense::Acknowledgment | Sense::CancelAcknowledgment => self.message.from,
        }
    }
}

/// The one map of each kind.
const MAPS: [u8; 7] = [63, 63, 63, 79, 7, 15, 15];
const SENSE_BIT: u8 = 128;

/// Where the lamp and the sense stand in frames that have them.
const LAMP_AT: usize = 9;
const SENSE_AT: usize = 27;

/// The widths of the fields, bit 0 first.
const WIDTHS: [usize; 8] = [1, 1, 1, 4, 1, 18, 2, 1];

/// The whole length of a frame with this map: the map's own byte and the fields whose bit stands.
pub fn length(map: u8) -> usize {
    let stands = |bit: &usize| map >> bit & 1 == 1;
    1 + (0..8).filter(stands).map(|bit| WIDTHS[bit]).sum::<usize>()
}

/// The bytes of a plain event's frame.
pub fn plain_length(kind: Kind) -> usize {
    length(MAPS[kind as usize])
}

/// The frame that bytes are, or the number of what is wrong with them first.
pub fn read(bytes: &[u8]) -> Result<Frame, u32> {
    let &[map, number, ..] = bytes else {
        return Err(refusal::LENGTH);
    };
    let kind = Kind::from_number(number).ok_or(refusal::FORM)?;
    let with_sense = map & SENSE_BIT != 0;
    if map & !SENSE_BIT != MAPS[kind as usize] || with_sense && !kind.has_lamp() {
        return Err(refusal::FORM);
    }
    if bytes.len() != length(map) {
        return Err(refusal::LENGTH);
    }
    let sense = match (with_sense, bytes.get(SENSE_AT)) {
        (false, _) => Sense::Plain,
        (true, Some(1)) => Sense::Cancel,
        (true, Some(2)) => Sense::Acknowledgment,
        (true, Some(3)) => Sense::CancelAcknowledgment,
        _ => return Err(refusal::FORM),
    };
    let message = message(kind, bytes);
    if !message.lamp_fits() {
        return Err(refusal::LAMP);
    }
    if !message.gateways_agree() {
        return Err(refusal::FORM);
    }
    Ok(Frame { message, sense })
}

/// The fields of a frame that is as long as its kind's.
fn message(kind: Kind, bytes: &[u8]) -> Message {
    let hour = match kind {
        Kind::Start => 0,
        _ => u32::from_be_bytes([bytes[4], bytes[5], bytes[6], bytes[7]]),
    };
    let (mut origin, mut lamp, mut quantity) = (0, [0; 18], 0);
    if kind.has_lamp() {
        origin = bytes[8];
        lamp.copy_from_slice(&bytes[LAMP_AT..SENSE_AT]);
    } else if kind == Kind::Restock {
        quantity = u16::from_be_bytes([bytes[8], bytes[9]]);
    }
    Message { hour, kind, origin, lamp, quantity, from: bytes[2], to: bytes[3] }
}

/// Where the lamp of a frame begins, or a number; a frame without a lamp is refused.
pub fn lamp_place(bytes: &[u8]) -> Result<usize, u32> {
    match read(bytes)?.message.kind.has_lamp() {
        true => Ok(LAMP_AT),
        false => Err(refusal::FORM),
    }
}

/// Frames one behind the other.
pub struct Output<'a> {
    bytes: &'a mut [u8],
    at: usize,
}

impl<'a> Output<'a> {
    pub fn new(bytes: &'a mut [u8]) -> Output<'a> {
        Output { bytes, at: 0 }
    }

    pub fn written(&self) -> usize {
        self.at
    }

    /// Bytes that are left.
    pub fn room(&self) -> usize {
        self.bytes.len() - self.at
    }

    pub fn put_event(&mut self, sense: Sense, message: &Message) {
        let map = MAPS[message.kind as usize];
        self.put_head(map | if sense == Sense::Plain { 0 } else { SENSE_BIT }, message);
        self.put(&message.hour.to_be_bytes());
        if message.kind == Kind::Restock {
            self.put(&message.quantity.to_be_bytes());
            return;
        }
        self.put(&[message.origin]);
        self.put(&message.lamp);
        if sense != Sense::Plain {
            self.put(&[sense as u8]);
        }
    }

    pub fn put_round(&mut self, kind: Kind, from: u8, to: u8, hour: u32) {
        self.put(&[MAPS[kind as usize], kind as u8, from, to]);
        if kind != Kind::Start {
            self.put(&hour.to_be_bytes());
        }
    }

    pub fn put_state(&mut self, state: &State) {
        self.put(&state_bytes(state));
    }

    fn put_head(&mut self, map: u8, message: &Message) {
        self.put(&[map, message.kind as u8, message.from, message.to]);
    }

    fn put(&mut self, bytes: &[u8]) {
        let end = self.at + bytes.len();
        self.bytes[self.at..end].copy_from_slice(bytes);
        self.at = end;
    }
}
