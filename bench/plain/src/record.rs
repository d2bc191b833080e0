//! The events of a record, read one by one.

use crate::frame::{self, Sense};
use crate::message::Kind;
use crate::refusal;
use interface::NOTHING_DUE;

/// A record of so many bytes or more is refused.
const RECORD_LIMIT: u64 = 1 << 48;

/// N is read as 255.
const GATEWAYS: u8 = 255;

/// The bytes of the frames of events: of a Failure, a Request or a Delivery, and of a Restock.
const OF_LAMP: usize = 27;
const RESTOCK: usize = 10;

/// An event of a record that is taken, in which states have so many bytes.
pub enum Event<'a, const STATE: usize> {
    OfLamp(&'a [u8; OF_LAMP], &'a [u8; STATE]),
    Restock(&'a [u8; RESTOCK], &'a [u8; STATE]),
}

/// Refuses a record that is too long, before it is read.
pub fn check_length(record: &[u8]) -> Result<(), u32> {
    if record.len() as u64 >= RECORD_LIMIT {
        return Err(refusal::SETTING);
    }
    Ok(())
}

/// The first event of a record, by its map, and the bytes behind it; `None` where there is none or it is cut.
pub fn cut<const STATE: usize>(record: &[u8]) -> Option<(Event<'_, STATE>, &[u8])> {
    match *record.first()? {
        63 => parts(record).map(|(frame, state, rest)| (Event::OfLamp(frame, state), rest)),
        79 => parts(record).map(|(frame, state, rest)| (Event::Restock(frame, state), rest)),
        _ => None,
    }
}

/// A frame and a state of so many bytes each, and the bytes behind them.
fn parts<const FRAME: usize, const STATE: usize>(
    record: &[u8],
) -> Option<(&[u8; FRAME], &[u8; STATE], &[u8])> {
    let (event, rest) = record.split_at_checked(FRAME + STATE)?;
    let (frame, state) = event.split_first_chunk()?;
    Some((frame, state.first_chunk()?, rest))
}

/// The first event of a record that has one, and the bytes behind it, or its refusal.
pub fn checked<const STATE: usize>(record: &[u8]) -> Result<(Event<'_, STATE>, &[u8]), u32> {
    match cut(record) {
        Some((event, rest)) if event.is_good() => Ok((event, rest)),
        _ => Err(refused(record)),
    }
}

impl<const STATE: usize> Event<'_, STATE> {
    /// Whether nothing is to be refused of it.
    fn is_good(&self) -> bool {
        let (kind, [from, to], hour) = match self {
            Event::OfLamp(frame, _) => (frame[1], [frame[2], frame[3]], hour(*frame)),
            Event::Restock(frame, _) => (frame[1], [frame[2], frame[3]], hour(*frame)),
        };
        let fields_are_good = match self {
            Event::OfLamp(frame, _) => {
                let origin = frame[8];
                let agree = match kind {
                    0 => from == to && to == origin,
                    1 => true,
                    2 => to == origin,
                    _ => false,
                };
                agree && origin < GATEWAYS && is_lamp(&frame[9..])
            }
            Event::Restock(..) => kind == 3 && from == to,
        };
        fields_are_good && from < GATEWAYS && to < GATEWAYS && hour != NOTHING_DUE
    }
}

fn hour(frame: &[u8]) -> u32 {
    u32::from_be_bytes([frame[4], frame[5], frame[6], frame[7]])
}

/// Whether all bytes are those of a lamp; all are looked at, which takes less time than to stop at the first other one.
fn is_lamp(bytes: &[u8]) -> bool {
    bytes.iter().fold(true, |good, byte| good & (33..=126).contains(byte))
}

/// The number of the first refusal of a record's first event, of which something is to be refused.
#[cold]
fn refused(record: &[u8]) -> u32 {
    let length = frame::length(record[0]).min(record.len());
    let frame = match frame::read(&record[..length]) {
        Ok(frame) => frame,
        Err(number) => return number,
    };
    let is_event = frame.message.kind.has_lamp() || frame.message.kind == Kind::Restock;
    if frame.sense != Sense::Plain || !is_event {
        refusal::FORM
    } else if !frame.message.numbers_below(GATEWAYS) {
        refusal::NUMBER
    } else if frame.message.hour == NOTHING_DUE {
        refusal::PAST_LAST_HOUR
    } else {
        refusal::LENGTH
    }
}
