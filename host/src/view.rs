//! Views of records: who reads them, how they are made, and reading them.

use crate::bytes::{half, word};
use crate::events::{Events, Parser};
use crate::frame::LAMP_LENGTH;
use crate::record::{foreign_byte, kind, Kind, Lamp, State, Stock, NO_GATEWAY};
use crate::refusal;
use interface::{Calls, ViewAnswer, MAINTENANCE, NOTHING_DUE, PURCHASING, STATE_LENGTH};
use std::fmt;

/// Who reads a record by a view of it.
#[derive(Clone, Copy, Debug, PartialEq, Eq)]
pub enum Reader {
    Purchasing,
    Maintenance,
}

pub const READERS: [Reader; 2] = [Reader::Purchasing, Reader::Maintenance];

impl fmt::Display for Reader {
    fn fmt(&self, formatter: &mut fmt::Formatter) -> fmt::Result {
        formatter.pad(match self {
            Reader::Purchasing => "purchasing",
            Reader::Maintenance => "maintenance",
        })
    }
}

impl Reader {
    /// The reader's number in the call.
    fn number(self) -> u32 {
        match self {
            Reader::Purchasing => PURCHASING,
            Reader::Maintenance => MAINTENANCE,
        }
    }

    /// The name of the file with what the reader sees of a gateway's record.
    pub fn file_name(self, gateway: usize) -> String {
        format!("gateway-{gateway:03}.{self}")
    }

    /// What the reader sees of a whole record with this stock, or why it is refused.
    pub fn view(self, calls: &impl Calls, record: &[u8], stock: Stock) -> Result<Vec<u8>, String> {
        let mut output = vec![0; record.len()];
        let ViewAnswer { number, written } =
            calls.view(record, &mut output, self.number(), stock.number());
        if number != 0 {
            let number = refusal::named(number);
            return Err(format!("the view for {self} was answered with {number}"));
        }
        output.truncate(written);
        Ok(output)
    }
}

/// What a view tells of an event.
#[derive(Clone, Copy, Debug, PartialEq, Eq)]
pub struct Viewed {
    pub hour: u32,
    pub kind: Kind,
    pub fields: Fields,
}

/// The fields that only one of the readers sees; `None` where the kind has no such field.
#[derive(Clone, Copy, Debug, PartialEq, Eq)]
pub enum Fields {
    Purchasing { quantity: Option<u16>, after: State },
    Maintenance { lamp_and_origin: Option<(Lamp, u8)> },
}

/// The bytes of the map, the hour and the kind, which every event has.
const HEAD_LENGTH: usize = 6;

/// A map of a view: whose it is, whether it is that of a Restock, and the whole length of an event with it.
#[derive(Clone, Copy)]
struct Map {
    number: u8,
    reader: Reader,
    is_restock: bool,
    length: usize,
}

const MAPS: [Map; 4] = [
    Map { number: 123, reader: Reader::Purchasing, is_restock: false, length: 22 },
    Map { number: 127, reader: Reader::Purchasing, is_restock: true, length: 24 },
    Map { number: 15, reader: Reader::Maintenance, is_restock: false, length: 25 },
    Map { number: 3, reader: Reader::Maintenance, is_restock: true, length: HEAD_LENGTH },
];

/// Why an event is none of a view. The reasons are looked for in this order.
#[derive(Clone, Copy, Debug, PartialEq, Eq)]
pub enum Reason {
    Map(u8),
    /// The map of another reader than the events before have.
    OtherReader {
        map: u8,
        reader: Reader,
    },
    Cut {
        found: usize,
        length: usize,
    },
    Kind(u8),
    /// The map of another kind.
    MapOfOtherKind {
        map: u8,
        kind: Kind,
    },
    Hour,
    /// A byte of the lamp that no lamp has.
    Lamp(u8),
    Origin,
}

impl fmt::Display for Reason {
    fn fmt(&self, formatter: &mut fmt::Formatter) -> fmt::Result {
        match self {
            Reason::Map(map) => write!(formatter, "map {map}, which no view has"),
            Reason::OtherReader { map, reader } => {
                write!(formatter, "map {map}, which is for {reader}, behind events for another")
            }
            Reason::Cut { found, length } => {
                write!(formatter, "cut: {found} of an event's {length} bytes")
            }
            Reason::Kind(kind) => write!(formatter, "kind {kind}, which no event has"),
            Reason::MapOfOtherKind { map, kind } => {
                write!(formatter, "map {map}, which no {kind} has")
            }
            Reason::Hour => write!(formatter, "hour {NOTHING_DUE}"),
            Reason::Lamp(byte) => write!(formatter, "lamp: byte {byte} is outside 33 to 126"),
            Reason::Origin => write!(formatter, "origin {NO_GATEWAY}"),
        }
    }
}

/// Reads a view event by event.
pub type Views<R> = Events<R, ViewParser>;

#[derive(Default)]
pub struct ViewParser {
    /// Whose view it is, as its first event tells.
    reader: Option<Reader>,
}

impl ViewParser {
    /// The map of this number, if it is one for the view's reader.
    fn map_of(&self, number: u8) -> Result<Map, Reason> {
        let map = MAPS.into_iter().find(|map| map.number == number).ok_or(Reason::Map(number))?;
        match self.reader {
            Some(reader) if reader != map.reader => {
                Err(Reason::OtherReader { map: number, reader: map.reader })
            }
            _ => Ok(map),
        }
    }
}

impl Parser for ViewParser {
    const NAME: &'static str = "view";
    type Event = Viewed;
    type Reason = Reason;

    fn length(&self, map: u8) -> Result<usize, Reason> {
        self.map_of(map).map(|map| map.length)
    }

    fn parse(&mut self, bytes: &[u8]) -> Result<Viewed, Reason> {
        let map = self.map_of(bytes[0])?;
        self.reader = Some(map.reader);
        parsed(map, bytes)
    }
}

/// The event that these bytes with this map are, or the first reason why they are none.
fn parsed(map: Map, bytes: &[u8]) -> Result<Viewed, Reason> {
    if bytes.len() < map.length {
        return Err(Reason::Cut { found: bytes.len(), length: map.length });
    }
    let (hour, number) = (word(bytes, 1), bytes[5]);
    let kind = kind(number).ok_or(Reason::Kind(number))?;
    if map.is_restock != (kind == Kind::Restock) {
        return Err(Reason::MapOfOtherKind { map: map.number, kind });
    }
    if hour == NOTHING_DUE {
        return Err(Reason::Hour);
    }
    let fields = match map.reader {
        Reader::Purchasing => for_purchasing(map, bytes),
        Reader::Maintenance if map.is_restock => Fields::Maintenance { lamp_and_origin: None },
        Reader::Maintenance => for_maintenance(bytes)?,
    };
    Ok(Viewed { hour, kind, fields })
}

/// The quantity of a Restock, and the state.
fn for_purchasing(map: Map, bytes: &[u8]) -> Fields {
    let quantity = map.is_restock.then(|| half(bytes, HEAD_LENGTH));
    let mut state = [0; STATE_LENGTH];
    state.copy_from_slice(&bytes[map.length - STATE_LENGTH..]);
    Fields::Purchasing { quantity, after: State::of(&state) }
}

/// The lamp and the origin of what is no Restock, if these can be.
fn for_maintenance(bytes: &[u8]) -> Result<Fields, Reason> {
    let mut lamp = [0; LAMP_LENGTH];
    lamp.copy_from_slice(&bytes[HEAD_LENGTH..][..LAMP_LENGTH]);
    let origin = bytes[HEAD_LENGTH + LAMP_LENGTH];
    match foreign_byte(&lamp) {
        Some(byte) => Err(Reason::Lamp(byte)),
        None if origin == NO_GATEWAY => Err(Reason::Origin),
        None => Ok(Fields::Maintenance { lamp_and_origin: Some((lamp, origin)) }),
    }
}

#[cfg(test)]
mod tests {
    use super::*;
    use crate::events;

    const LAMP: &Lamp = b"L00000000000000001";
    const STATE: [u8; 16] = [0, 3, 1, 2, 0, 0, 0, 3, 0, 0, 0, 4, 0, 0, 1, 0];
    const AFTER: State = State { stock: 196_866, failed: 3, fitted: 4, short: 256 };

    /// A Request and a Restock as purchasing sees them.
    fn for_purchasing() -> Vec<u8> {
        [&[123, 0, 0, 1, 2, 1][..], &STATE, &[127, 0, 0, 1, 3, 3, 4, 5], &STATE].concat()
    }

    /// The same as maintenance sees them.
    fn for_maintenance() -> Vec<u8> {
        [&[15, 0, 0, 1, 2, 1][..], LAMP, &[7, 3, 0, 0, 1, 3, 3]].concat()
    }

    fn read(bytes: &[u8]) -> (Vec<Viewed>, Option<String>) {
        events::read::<ViewParser>(bytes)
    }

    fn with(mut bytes: Vec<u8>, changes: &[(usize, u8)]) -> Vec<u8> {
        for &(place, byte) in changes {
            bytes[place] = byte;
        }
        bytes
    }

    #[test]
    fn the_fields_of_each_reader() {
        let (events, why) = read(&for_purchasing());
        assert_eq!(why, None);
        let fields = |quantity| Fields::Purchasing { quantity, after: AFTER };
        assert_eq!(
            events,
            [
                Viewed { hour: 258, kind: Kind::Request, fields: fields(None) },
                Viewed { hour: 259, kind: Kind::Restock, fields: fields(Some(1029)) },
            ]
        );
        let (events, why) = read(&for_maintenance());
        assert_eq!(why, None);
        let fields = |lamp_and_origin| Fields::Maintenance { lamp_and_origin };
        assert_eq!(
            events,
            [
                Viewed { hour: 258, kind: Kind::Request, fields: fields(Some((*LAMP, 7))) },
                Viewed { hour: 259, kind: Kind::Restock, fields: fields(None) },
            ]
        );
        assert_eq!(read(&[]), (vec![], None));
    }

    #[test]
    fn every_cut_is_found() {
        for (bytes, first) in [(for_purchasing(), 22), (for_maintenance(), 25)] {
            for length in 1..bytes.len() {
                let (events, why) = read(&bytes[..length]);
                assert_eq!(events.len(), usize::from(length >= first));
                assert_eq!(why.is_none(), length == first, "{length}: {why:?}");
            }
        }
        let why = read(&for_purchasing()[..45]).1.unwrap();
        assert_eq!(why, "no view at byte 22: cut: 23 of an event's 24 bytes");
        let why = read(&for_maintenance()[..1]).1.unwrap();
        assert_eq!(why, "no view at byte 0: cut: 1 of an event's 25 bytes");
    }

    #[test]
    fn what_is_no_view_has_a_place_and_a_reason() {
        let why = |bytes: &[u8]| read(bytes).1.unwrap();
        let purchasing = |changes: &[(usize, u8)]| why(&with(for_purchasing(), changes));
        let maintenance = |changes: &[(usize, u8)]| why(&with(for_maintenance(), changes));
        assert_eq!(purchasing(&[(22, 63)]), "no view at byte 22: map 63, which no view has");
        assert_eq!(purchasing(&[(5, 4)]), "no view at byte 0: kind 4, which no event has");
        assert_eq!(purchasing(&[(5, 3)]), "no view at byte 0: map 123, which no Restock has");
        assert_eq!(purchasing(&[(27, 2)]), "no view at byte 22: map 127, which no Delivery has");
        assert_eq!(maintenance(&[(30, 0)]), "no view at byte 25: map 3, which no Failure has");
        assert_eq!(maintenance(&[(5, 3)]), "no view at byte 0: map 15, which no Restock has");
        let hour = [(1, 255), (2, 255), (3, 255), (4, 255)];
        assert_eq!(purchasing(&hour), "no view at byte 0: hour 4294967295");
        assert_eq!(maintenance(&hour), "no view at byte 0: hour 4294967295");
        for byte in [32, 127] {
            let lamp = format!("no view at byte 0: lamp: byte {byte} is outside 33 to 126");
            assert_eq!(maintenance(&[(6, byte)]), lamp);
            assert_eq!(maintenance(&[(23, byte)]), lamp);
        }
        assert_eq!(maintenance(&[(24, 255)]), "no view at byte 0: origin 255");
    }

    #[test]
    fn a_view_is_for_one_reader() {
        let why = |bytes: [Vec<u8>; 2]| read(&bytes.concat()).1.unwrap();
        assert_eq!(
            why([for_purchasing(), for_maintenance()]),
            "no view at byte 46: map 15, which is for maintenance, behind events for another"
        );
        assert_eq!(
            why([for_maintenance(), for_purchasing()]),
            "no view at byte 31: map 123, which is for purchasing, behind events for another"
        );
    }
}
