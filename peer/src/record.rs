//! The record of a gateway: what its commits write, one event behind the other. Records from before request (f) of document 02 are read
//! too: their stocks have two bytes.

use crate::frame::{self, Frame, Sense};
use crate::model::{Done, Message, State, NOTHING_DUE};
use crate::refusal::{Reason, Refusal};

/// N, where a record is read: it is that of no forecast in particular.
const NODES: u32 = 255;

/// A record of so many bytes or more is outside the range.
const LIMIT: u64 = 1 << 48;

/// How many bytes a state has.
pub const STATE_LENGTH: usize = 16;

/// How wide the stocks of a record are.
#[derive(Clone, Copy, Debug, PartialEq, Eq)]
pub enum Stock {
    /// Four bytes.
    New,
    /// Two bytes.
    Old,
}

/// The bytes that a commit writes: the event's frame, then the state after it.
pub fn bytes(done: &Done) -> Vec<u8> {
    let mut bytes = frame::write(&plain(done));
    bytes.extend(state_bytes(&done.after));
    bytes
}

/// The bytes of a state, in records and in memory: stock, failed, fitted and short, high byte first.
pub fn state_bytes(state: &State) -> Vec<u8> {
    let State { stock, failed, fitted, short } = *state;
    [stock, failed, fitted, short].map(u32::to_be_bytes).concat()
}

/// The event as a frame is printed, then stock, failed, fitted and short.
pub fn line(done: &Done) -> String {
    let State { stock, failed, fitted, short } = done.after;
    format!("{} {stock} {failed} {fitted} {short}", frame::line(&plain(done)))
}

/// Refuses a record that is too long, before it is read.
pub fn check_length(record: &[u8]) -> Result<(), Refusal> {
    match record.len() as u64 {
        0..LIMIT => Ok(()),
        _ => Err(Refusal::Setting),
    }
}

/// The events of a whole record, or the refusal of the first one that is refused.
pub fn read(mut bytes: &[u8], stock: Stock) -> Result<Vec<Done>, Refusal> {
    let mut record = Vec::new();
    while !bytes.is_empty() {
        let (frame, rest) = frame::cut(bytes);
        let message = event(frame)?;
        let (after, rest) = state(rest, stock).ok_or(Refusal::CutState)?;
        record.push(Done { message, after });
        bytes = rest;
    }
    Ok(record)
}

/// The event of a frame in a record: a plain one, with numbers and an hour that some forecast has, to any addressee.
fn event(bytes: &[u8]) -> Result<Message, Refusal> {
    let frame = frame::read(bytes)?;
    let Frame::Event { sense: Sense::Plain, message } = frame else {
        return Err(Reason::FormNotTaken.into());
    };
    if u32::from(frame.largest_number()) >= NODES {
        return Err(Refusal::Number);
    }
    if message.hour == NOTHING_DUE {
        return Err(Refusal::PastLastHour);
    }
    Ok(message)
}

/// The state at the front of some bytes, and the bytes behind it; `None` where it is cut.
pub fn state(bytes: &[u8], stock: Stock) -> Option<(State, &[u8])> {
    let (stock, bytes) = match stock {
        Stock::New => word(bytes)?,
        Stock::Old => {
            let (half, bytes) = bytes.split_first_chunk()?;
            (u16::from_be_bytes(*half).into(), bytes)
        }
    };
    let (failed, bytes) = word(bytes)?;
    let (fitted, bytes) = word(bytes)?;
    let (short, bytes) = word(bytes)?;
    Some((State { stock, failed, fitted, short }, bytes))
}

fn word(bytes: &[u8]) -> Option<(u32, &[u8])> {
    let (word, bytes) = bytes.split_first_chunk()?;
    Some((u32::from_be_bytes(*word), bytes))
}

fn plain(done: &Done) -> Frame {
    Frame::Event { sense: Sense::Plain, message: done.message }
}

#[cfg(test)]
mod tests {
    use super::*;
    use crate::model::{Kind, MOST_STOCK};

    const LAMP: [u8; 18] = *b"L00000000000000001";

    fn done(kind: Kind, hour: u32, from: u8, to: u8, origin: u8) -> Done {
        let (lamp, quantity) = if kind == Kind::Restock { ([0; 18], 258) } else { (LAMP, 0) };
        let message = Message { hour, kind, origin, lamp, quantity, from, to };
        let stock = 0x0102;
        let after = State { stock, failed: 0x0304_0506, fitted: 7, short: 0x0800_0000 };
        Done { message, after }
    }

    /// The bytes of an event as they were before request (f).
    fn old_bytes(done: &Done) -> Vec<u8> {
        let mut bytes = bytes(done);
        let stock = bytes.len() - STATE_LENGTH;
        assert_eq!(bytes.drain(stock..stock + 2).collect::<Vec<u8>>(), [0, 0]);
        bytes
    }

    fn check_read(record: &[Done], whole: &[u8], stock: Stock, ends: [usize; 5]) {
        assert_eq!(read(whole, stock), Ok(record.to_vec()));
        assert_eq!(read(&[], stock), Ok(vec![]));
        assert_eq!(whole.len(), ends[4]);
        for length in 0..=whole.len() {
            let read = read(&whole[..length], stock).map(|record| record.len());
            match ends.iter().position(|&end| end == length) {
                Some(events) => assert_eq!(read, Ok(events)),
                None => assert_eq!(read.map_err(Refusal::number), Err(11), "{length}"),
            }
        }
    }

    #[test]
    fn what_is_written_is_read() {
        let mut record = [
            done(Kind::Failure, 10, 254, 254, 254),
            done(Kind::Restock, 10, 6, 6, 0),
            done(Kind::Request, NOTHING_DUE - 1, 0, 6, 3),
            done(Kind::Delivery, 5, 6, 254, 254),
        ];
        let old: Vec<u8> = record.iter().flat_map(old_bytes).collect();
        check_read(&record, &old, Stock::Old, [0, 41, 65, 106, 147]);
        for (done, stock) in record.iter_mut().zip([0, 65_536, MOST_STOCK, u32::MAX]) {
            done.after.stock = stock;
        }
        let new: Vec<u8> = record.iter().flat_map(bytes).collect();
        check_read(&record, &new, Stock::New, [0, 43, 69, 112, 155]);
    }

    /// Nothing in a record tells which stock it has. One that is read with the other is refused where its second event should begin, unless
    /// bytes of the first state happen to be those of a frame.
    #[test]
    fn a_record_read_with_the_other_stock() {
        let request = done(Kind::Request, 10, 8, 7, 3);
        let (new, old) = (bytes(&request), old_bytes(&request));
        assert_eq!(read(&old, Stock::New), Err(Refusal::CutState));
        assert_eq!(read(&old.repeat(2), Stock::New), Err(Reason::MapAndKind.into()));
        assert_eq!(read(&new, Stock::Old), Err(Reason::FewerThanTwoBytes.into()));
        assert_eq!(read(&new.repeat(2), Stock::Old), Err(Reason::FewerThanTwoBytes.into()));
    }

    /// Each event has two faults that are neighbours in the order.
    #[test]
    fn the_first_refusal_of_an_event() {
        let refusal = |bytes: &[u8]| read(bytes, Stock::New).unwrap_err();
        let number = bytes(&done(Kind::Request, NOTHING_DUE, 255, 3, 4));
        let sense = [&[191], &number[1..27], &[1], &number[27..]].concat();
        assert_eq!(refusal(&sense), Reason::FormNotTaken.into(), "and a number of 255");
        assert_eq!(refusal(&[7, 4, 255, 0]), Reason::FormNotTaken.into(), "and a number of 255");
        assert_eq!(refusal(&number), Refusal::Number, "and hour 4,294,967,295");
        let hour = bytes(&done(Kind::Request, NOTHING_DUE, 0, 3, 4));
        assert_eq!(refusal(&hour[..42]), Refusal::PastLastHour, "and a cut state");
        let good = bytes(&done(Kind::Request, 3, 0, 3, 4));
        for length in 27..43 {
            assert_eq!(refusal(&good[..length]), Refusal::CutState);
        }
        assert_eq!(refusal(&good[..26]), Reason::Length.into());
    }

    #[test]
    fn every_number_of_255_is_refused() {
        for (from, to, origin) in [(255, 0, 0), (0, 255, 0), (0, 0, 255)] {
            let event = bytes(&done(Kind::Request, 3, from, to, origin));
            assert_eq!(read(&event, Stock::New), Err(Refusal::Number));
        }
        let restock = bytes(&done(Kind::Restock, 3, 255, 255, 0));
        assert_eq!(read(&restock, Stock::New), Err(Refusal::Number));
    }

    #[test]
    fn the_state_stands_behind_the_frame() {
        let kind = Kind::Restock;
        let message =
            Message { hour: 5, kind, origin: 0, lamp: [0; 18], quantity: 258, from: 6, to: 6 };
        let stock = 0x0102_0304;
        let after = State { stock, failed: 0x0506_0708, fitted: 7, short: 0x0800_0000 };
        let done = Done { message, after };
        let frame = [79, 3, 6, 6, 0, 0, 0, 5, 1, 2];
        let state = [1, 2, 3, 4, 5, 6, 7, 8, 0, 0, 0, 7, 8, 0, 0, 0];
        assert_eq!(bytes(&done), [&frame[..], &state].concat());
        assert_eq!(line(&done), "3 6 6 5 0 258 0 - 16909060 84281096 7 134217728");
    }
}
