//! Reading records: the committed events of a gateway, each a frame and the state after it, one behind the other. Those of earlier versions
//! are read too: nothing in them tells that their stocks have two bytes, so whoever reads them says it.

use crate::bytes::{half, word};
use crate::events::{Events, Parser, Unreadable};
use crate::frame::{
    in_table, length, CANCEL, DELIVERY, FAILURE, LAMP_LENGTH, LONGEST, REQUEST, RESTOCK, SENSE_BIT,
};
use crate::refusal;
use interface::{NEW_STOCK, NOTHING_DUE, OLD_STATE_LENGTH, OLD_STOCK, STATE_LENGTH};
use std::fmt;
use std::io::Read;

/// N is read as 255, so that no gateway has this number.
pub(crate) const NO_GATEWAY: u8 = 255;

/// A lamp's number.
pub type Lamp = [u8; LAMP_LENGTH];

/// The kinds of events in their order within an hour: what comes in is booked before anything is handed out.
#[derive(Clone, Copy, Debug, PartialEq, Eq, PartialOrd, Ord)]
pub enum Kind {
    Failure,
    Restock,
    Request,
    Delivery,
}

pub const KINDS: [Kind; 4] = [Kind::Failure, Kind::Restock, Kind::Request, Kind::Delivery];

impl fmt::Display for Kind {
    fn fmt(&self, formatter: &mut fmt::Formatter) -> fmt::Result {
        formatter.pad(match self {
            Kind::Failure => "Failure",
            Kind::Request => "Request",
            Kind::Delivery => "Delivery",
            Kind::Restock => "Restock",
        })
    }
}

/// The state of a gateway.
#[derive(Clone, Copy, Debug, Default, PartialEq, Eq)]
pub struct State {
    pub stock: u32,
    pub failed: u32,
    pub fitted: u32,
    pub short: u32,
}

impl State {
    /// The state that these bytes are.
    pub(crate) fn of(bytes: &[u8; STATE_LENGTH]) -> State {
        let [stock, failed, fitted, short] = [0, 4, 8, 12].map(|at| word(bytes, at));
        State { stock, failed, fitted, short }
    }
}

/// The stock that the states of a record have.
#[derive(Clone, Copy, Debug, Default, PartialEq, Eq)]
pub enum Stock {
    /// Of four bytes, as gateways commit it.
    #[default]
    New,
    /// Of two bytes, as in records of earlier versions.
    Old,
}

impl Stock {
    /// Its number in the call that makes views.
    pub fn number(self) -> u32 {
        match self {
            Stock::New => NEW_STOCK,
            Stock::Old => OLD_STOCK,
        }
    }

    /// Why a record with this stock cannot be read, and what to do if it is one with the other; `again` is the whole of it once more.
    pub fn advised(self, why: Unreadable, again: impl Read) -> Unreadable {
        let Unreadable::NoEvent { name, place, mut reason } = why else { return why };
        let (other, advice) = match self {
            Stock::New => (Stock::Old, "it is a record with the old stock: add --old-stock"),
            Stock::Old => (Stock::New, "it is a record with the new stock: leave out --old-stock"),
        };
        if Records::with_stock(again, other).all(|record| record.is_ok()) {
            reason += &format!("; {advice}");
        }
        Unreadable::NoEvent { name, place, reason }
    }

    fn state_length(self) -> usize {
        match self {
            Stock::New => STATE_LENGTH,
            Stock::Old => OLD_STATE_LENGTH,
        }
    }

    /// The state that these bytes are; `None` where they are not as many as a state has.
    fn state(self, bytes: &[u8]) -> Option<State> {
        let mut whole = [0; STATE_LENGTH];
        let part = &mut whole[STATE_LENGTH - self.state_length()..];
        if bytes.len() != part.len() {
            return None;
        }
        part.copy_from_slice(bytes);
        Some(State::of(&whole))
    }
}

/// A committed event. The fields stand in event order; one that its kind lacks is zero.
#[derive(Clone, Copy, Debug, PartialEq, Eq, PartialOrd, Ord)]
pub struct Event {
    pub hour: u32,
    pub kind: Kind,
    pub origin: u8,
    pub lamp: Lamp,
    pub quantity: u16,
    pub from: u8,
    pub to: u8,
}

/// A committed event and the state after it.
#[derive(Clone, Copy, Debug, PartialEq, Eq)]
pub struct Record {
    pub event: Event,
    pub after: State,
}

/// Why an event is no record. The reasons are looked for in this order.
#[derive(Clone, Copy, Debug, PartialEq, Eq)]
pub enum Reason {
    FewerThanTwoBytes,
    MapAndKind {
        map: u8,
        kind: u8,
    },
    CutFrame {
        found: usize,
        length: usize,
    },
    /// A sense that there is not.
    Sense(u8),
    /// A byte of the lamp that no lamp has.
    Lamp(u8),
    /// Gateways that no event of its kind has.
    GatewayFields(Event),
    /// A frame of a round, which has no sense, or a cancel or an acknowledgment: none of them stands in a record.
    NotTaken {
        kind: u8,
        sense: Option<u8>,
    },
    GatewayNumber,
    Hour,
    CutState {
        found: usize,
        length: usize,
    },
    EventOrder,
}

impl Reason {
    /// The number of a refusal for this reason. No call refuses a record for the order of its events, so that reason has none.
    pub fn number(&self) -> Option<u32> {
        match self {
            Reason::FewerThanTwoBytes | Reason::CutFrame { .. } | Reason::CutState { .. } => {
                Some(refusal::LENGTH)
            }
            Reason::Lamp(_) => Some(refusal::LAMP),
            Reason::MapAndKind { .. }
            | Reason::Sense(_)
            | Reason::GatewayFields(_)
            | Reason::NotTaken { .. } => Some(refusal::FORM),
            Reason::GatewayNumber => Some(refusal::GATEWAY),
            Reason::Hour => Some(refusal::HOUR),
            Reason::EventOrder => None,
        }
    }
}

impl fmt::Display for Reason {
    fn fmt(&self, formatter: &mut fmt::Formatter) -> fmt::Result {
        if let Some(number) = self.number() {
            write!(formatter, "{}, ", refusal::named(number))?;
        }
        match self {
            Reason::FewerThanTwoBytes => write!(formatter, "a frame of fewer than two bytes"),
            Reason::MapAndKind { map, kind } => {
                write!(formatter, "map {map} with kind {kind}, which no frame has")
            }
            Reason::CutFrame { found, length } => {
                write!(formatter, "cut: {found} of a frame's {length} bytes")
            }
            Reason::Sense(sense) => write!(formatter, "sense {sense} is not 1 to 3"),
            Reason::Lamp(byte) => write!(formatter, "byte {byte} is outside 33 to 126"),
            Reason::GatewayFields(Event { kind, from, to, origin, .. }) => {
                write!(formatter, "gateways that no {kind} has: from {from} to {to}")?;
                match kind {
                    Kind::Restock => Ok(()),
                    _ => write!(formatter, ", origin {origin}"),
                }
            }
            Reason::NotTaken { kind, sense: None } => {
                write!(formatter, "kind {kind}, a frame of a round and no event")
            }
            Reason::NotTaken { sense: Some(CANCEL), .. } => {
                write!(formatter, "a cancel and no plain event")
            }
            Reason::NotTaken { .. } => write!(formatter, "an acknowledgment and no plain event"),
            Reason::GatewayNumber => write!(formatter, "gateway {NO_GATEWAY}"),
            Reason::Hour => write!(formatter, "hour {NOTHING_DUE}"),
            Reason::CutState { found, length } => {
                write!(formatter, "cut: {found} of a state's {length} bytes")
            }
            Reason::EventOrder => write!(formatter, "an event that is not in event order"),
        }
    }
}

/// Reads a record event by event.
pub type Records<R> = Events<R, RecordParser>;

impl<R: Read> Records<R> {
    /// Reads a record with this stock.
    pub fn with_stock(input: R, stock: Stock) -> Records<R> {
        Events::parsed_by(RecordParser { stock, last: None }, input)
    }
}

#[derive(Default)]
pub struct RecordParser {
    stock: Stock,
    last: Option<Event>,
}

impl Parser for RecordParser {
    const NAME: &'static str = "record";
    type Event = Record;
    type Reason = Reason;

    fn length(&self, map: u8) -> Result<usize, Reason> {
        Ok(length(map).min(LONGEST) + self.stock.state_length())
    }

    fn parse(&mut self, bytes: &[u8]) -> Result<Record, Reason> {
        let record = parsed(bytes, self.stock)?;
        if self.last.is_some_and(|last| record.event < last) {
            return Err(Reason::EventOrder);
        }
        self.last = Some(record.event);
        Ok(record)
    }
}

/// The record that these bytes are, or the first reason why they are none. There is at least one byte.
fn parsed(bytes: &[u8], stock: Stock) -> Result<Record, Reason> {
    let (frame, state) = bytes.split_at(length(bytes[0]).min(bytes.len()));
    let event = event(frame)?;
    check_limits(&event)?;
    let cut = Reason::CutState { found: state.len(), length: stock.state_length() };
    Ok(Record { event, after: stock.state(state).ok_or(cut)? })
}

/// The event of a plain frame, or the first reason why these bytes are none.
fn event(frame: &[u8]) -> Result<Event, Reason> {
    let &[map, number, ..] = frame else { return Err(Reason::FewerThanTwoBytes) };
    if !in_table(map, number) {
        return Err(Reason::MapAndKind { map, kind: number });
    }
    if frame.len() < length(map) {
        return Err(Reason::CutFrame { found: frame.len(), length: length(map) });
    }
    let sense = sense(map, frame)?;
    let not_taken = Reason::NotTaken { kind: number, sense };
    let event = fields(kind(number).ok_or(not_taken)?, frame);
    check_fields(&event)?;
    sense.map_or(Ok(event), |_| Err(not_taken))
}

/// The sense of a whole frame with this map, if it has one.
fn sense(map: u8, frame: &[u8]) -> Result<Option<u8>, Reason> {
    match frame.last() {
        _ if map & SENSE_BIT == 0 => Ok(None),
        Some(&sense @ 1..=3) => Ok(Some(sense)),
        sense => Err(Reason::Sense(sense.copied().unwrap_or(0))),
    }
}

/// The kind of an event with this number; `None` for a frame of a round.
pub(crate) fn kind(number: u8) -> Option<Kind> {
    match number {
        FAILURE => Some(Kind::Failure),
        REQUEST => Some(Kind::Request),
        DELIVERY => Some(Kind::Delivery),
        RESTOCK => Some(Kind::Restock),
        _ => None,
    }
}

/// The fields of a whole frame of an event.
fn fields(kind: Kind, frame: &[u8]) -> Event {
    let (from, to, hour) = (frame[2], frame[3], word(frame, 4));
    let (mut origin, mut lamp, mut quantity) = (0, [0; LAMP_LENGTH], 0);
    if kind == Kind::Restock {
        quantity = half(frame, 8);
    } else {
        origin = frame[8];
        lamp.copy_from_slice(&frame[9..][..LAMP_LENGTH]);
    }
    Event { hour, kind, origin, lamp, quantity, from, to }
}

/// Refuses an event whose lamp cannot be, or whose gateways do not agree.
fn check_fields(event: &Event) -> Result<(), Reason> {
    let &Event { kind, origin, ref lamp, from, to, .. } = event;
    if kind != Kind::Restock {
        check_lamp(lamp)?;
    }
    let agree = match kind {
        Kind::Failure => from == to && to == origin,
        Kind::Request => true,
        Kind::Delivery => to == origin,
        Kind::Restock => from == to,
    };
    match agree {
        true => Ok(()),
        false => Err(Reason::GatewayFields(*event)),
    }
}

/// Refuses an event of a gateway or an hour that there is not.
fn check_limits(event: &Event) -> Result<(), Reason> {
    let &Event { hour, origin, from, to, .. } = event;
    if [from, to, origin].contains(&NO_GATEWAY) {
        return Err(Reason::GatewayNumber);
    }
    if hour == NOTHING_DUE {
        return Err(Reason::Hour);
    }
    Ok(())
}

fn check_lamp(lamp: &Lamp) -> Result<(), Reason> {
    foreign_byte(lamp).map_or(Ok(()), |byte| Err(Reason::Lamp(byte)))
}

/// A byte of a lamp's number that no lamp has.
pub(crate) fn foreign_byte(lamp: &Lamp) -> Option<u8> {
    lamp.iter().copied().find(|byte| !(33..=126).contains(byte))
}

/// A lamp's number as text.
pub fn lamp_text(lamp: &Lamp) -> String {
    lamp.iter().copied().map(char::from).collect()
}

/// The lamp's number that a text is, or what is wrong with it.
pub fn lamp(text: &str) -> Result<Lamp, String> {
    let other = text.chars().find(|character| !('!'..='~').contains(character));
    let what = match (other, text.as_bytes().try_into()) {
        (None, Ok(lamp)) => return Ok(lamp),
        (None, Err(_)) => text.len().to_string(),
        (Some(character), _) => format!("{character:?}"),
    };
    Err(format!("a lamp has eighteen characters from ! to ~, \"{text}\" has {what}"))
}

#[cfg(test)]
mod tests {
    use super::*;
    use crate::events;
    use crate::frame::{failure, restock};

    const LAMP: &Lamp = b"L00000000000000001";
    const STATE: [u8; 16] = [0, 3, 1, 2, 0, 0, 0, 3, 0, 0, 0, 4, 0, 0, 1, 0];
    const START: [u8; 4] = [7, 4, 1, 2];

    fn recorded(frame: Vec<u8>) -> Vec<u8> {
        [&frame[..], &STATE].concat()
    }

    fn read(bytes: &[u8]) -> (Vec<Record>, Option<String>) {
        events::read::<RecordParser>(bytes)
    }

    #[test]
    fn events_and_states_are_read() {
        let bytes = [recorded(failure(3, 258, LAMP)), recorded(restock(6, 259, 772))].concat();
        let (records, why) = read(&bytes);
        assert_eq!(why, None);
        let after = State { stock: 196_866, failed: 3, fitted: 4, short: 256 };
        let event = Event {
            hour: 258,
            kind: Kind::Failure,
            origin: 3,
            lamp: *LAMP,
            quantity: 0,
            from: 3,
            to: 3,
        };
        assert_eq!(records[0], Record { event, after });
        let event = Event {
            hour: 259,
            kind: Kind::Restock,
            origin: 0,
            lamp: [0; 18],
            quantity: 772,
            from: 6,
            to: 6,
        };
        assert_eq!(records[1..], [Record { event, after }]);
        assert_eq!(read(&[]), (vec![], None));
    }

    /// Why these bytes are no record, behind a good one.
    fn why(second: &[u8]) -> String {
        let first = recorded(failure(3, 258, LAMP));
        let (records, why) = read(&[&first[..], second].concat());
        assert_eq!(records.len(), 1);
        why.unwrap().strip_prefix("no record at byte 43: ").unwrap().into()
    }

    /// A record with these bytes in these places.
    fn with(changes: &[(usize, u8)]) -> Vec<u8> {
        let mut bytes = recorded(failure(3, 300, LAMP));
        for &(place, byte) in changes {
            bytes[place] = byte;
        }
        bytes
    }

    /// A record of a frame with this sense, and these bytes in these places.
    fn with_sense(sense: u8, changes: &[(usize, u8)]) -> Vec<u8> {
        let mut bytes = with(changes);
        bytes[0] |= SENSE_BIT;
        bytes.insert(27, sense);
        bytes
    }

    #[test]
    fn what_is_no_record_has_a_place_and_a_number() {
        let fewer = "11 (length), a frame of fewer than two bytes";
        assert_eq!(why(&[63]), fewer);
        assert_eq!(why(&[0]), fewer);
        assert_eq!(why(&with(&[(0, 0)])), fewer);
        assert_eq!(why(&with(&[(0, 79)])), "1 (form), map 79 with kind 0, which no frame has");
        assert_eq!(
            why(&with(&[(0, 207), (1, 3)])),
            "1 (form), map 207 with kind 3, which no frame has"
        );
        assert_eq!(why(&with(&[(1, 4)])), "1 (form), map 63 with kind 4, which no frame has");
        assert_eq!(why(&with(&[])[..2]), "11 (length), cut: 2 of a frame's 27 bytes");
        assert_eq!(why(&with(&[])[..26]), "11 (length), cut: 26 of a frame's 27 bytes");
        assert_eq!(why(&restock(6, 300, 1)[..9]), "11 (length), cut: 9 of a frame's 10 bytes");
        assert_eq!(why(&with_sense(0, &[])), "1 (form), sense 0 is not 1 to 3");
        assert_eq!(why(&with_sense(4, &[])), "1 (form), sense 4 is not 1 to 3");
        assert_eq!(why(&with(&[(9, 32)])), "12 (lamp), byte 32 is outside 33 to 126");
        assert_eq!(why(&with(&[(26, 127)])), "12 (lamp), byte 127 is outside 33 to 126");
        assert_eq!(read(&with(&[(9, 33), (26, 126)])).1, None);
        let no_failure = "1 (form), gateways that no Failure has: from 3 to 4, origin 3";
        assert_eq!(why(&with(&[(3, 4)])), no_failure);
        let mut other_shelf = recorded(restock(6, 300, 1));
        other_shelf[3] = 7;
        assert_eq!(why(&other_shelf), "1 (form), gateways that no Restock has: from 6 to 7");
        assert_eq!(why(&with_sense(1, &[])), "1 (form), a cancel and no plain event");
        for sense in [2, 3] {
            let acknowledgment = "1 (form), an acknowledgment and no plain event";
            assert_eq!(why(&with_sense(sense, &[])), acknowledgment);
        }
        let start = "1 (form), kind 4, a frame of a round and no event";
        assert_eq!(why(&recorded(START.into())), start);
        let no_gateway = "2 (gateway number or addressee), gateway 255";
        assert_eq!(why(&recorded(failure(255, 300, LAMP))), no_gateway);
        let no_hour = "3 (hour past the last hour), hour 4294967295";
        assert_eq!(why(&recorded(failure(3, NOTHING_DUE, LAMP))), no_hour);
        assert_eq!(why(&with(&[])[..27]), "11 (length), cut: 0 of a state's 16 bytes");
        assert_eq!(why(&with(&[])[..42]), "11 (length), cut: 15 of a state's 16 bytes");
        assert_eq!(why(&with(&[(6, 0)])), "an event that is not in event order");
    }

    /// Of two neighbours in the order of the reasons, where both hold, the first is named.
    #[test]
    fn the_first_reason_is_named() {
        let number = |bytes: &[u8]| why(bytes).split_once(" ").unwrap().0.parse::<u32>().unwrap();
        let map_of_one_byte_and_no_kind = with(&[(0, 0), (1, 7)]);
        assert_eq!(number(&map_of_one_byte_and_no_kind), 11);
        let no_kind_and_cut_frame = &with(&[(1, 7)])[..2];
        assert_eq!(number(no_kind_and_cut_frame), 1);
        let cut_frame_and_lamp = &with(&[(9, 32)])[..26];
        assert_eq!(number(cut_frame_and_lamp), 11);
        let sense_and_lamp = with_sense(4, &[(9, 32)]);
        assert_eq!(number(&sense_and_lamp), 1);
        let lamp_and_gateway_fields = with(&[(9, 32), (3, 4)]);
        assert_eq!(number(&lamp_and_gateway_fields), 12);
        let lamp_and_cancel = with_sense(1, &[(9, 32)]);
        assert_eq!(number(&lamp_and_cancel), 12);
        let gateway_fields_and_cancel = with_sense(1, &[(3, 4)]);
        assert!(why(&gateway_fields_and_cancel).starts_with("1 (form), gateways"));
        let cut_cancel = &with_sense(1, &[])[..27];
        assert_eq!(number(cut_cancel), 11);
        let cut_start = &START[..3];
        assert_eq!(number(cut_start), 11);
        let cancel_and_gateway_number =
            recorded([&[191], &failure(255, 300, LAMP)[1..], &[1]].concat());
        assert_eq!(number(&cancel_and_gateway_number), 1);
        let gateway_fields_and_number = with(&[(3, 255)]);
        assert_eq!(number(&gateway_fields_and_number), 1);
        let gateway_number_and_hour = recorded(failure(255, NOTHING_DUE, LAMP));
        assert_eq!(number(&gateway_number_and_hour), 2);
        let hour_and_cut_state = &recorded(failure(3, NOTHING_DUE, LAMP))[..42];
        assert_eq!(number(hour_and_cut_state), 3);
        let cut_state_and_event_order = &with(&[(6, 0)])[..42];
        assert_eq!(number(cut_state_and_event_order), 11);
    }

    /// Within an hour: Failure, Restock, Request, Delivery.
    #[test]
    fn what_comes_in_stands_before_what_is_handed_out() {
        let of_lamp = |kind: u8| {
            let mut bytes = recorded(failure(3, 258, LAMP));
            bytes[1] = kind;
            bytes
        };
        let restock = recorded(restock(3, 258, 772));
        let hour = [of_lamp(FAILURE), restock, of_lamp(REQUEST), of_lamp(DELIVERY)];
        for (first_place, first) in hour.iter().enumerate() {
            for (second_place, second) in hour.iter().enumerate() {
                let (records, why) = read(&[&first[..], second].concat());
                if first_place <= second_place {
                    assert_eq!((records.len(), why), (2, None));
                } else {
                    assert_eq!(records.len(), 1);
                    assert!(why.unwrap().ends_with(": an event that is not in event order"));
                }
            }
        }
    }

    #[test]
    fn a_lamp_is_read_from_its_text() {
        assert_eq!(lamp(&lamp_text(LAMP)), Ok(*LAMP));
        let why = |text: &str| lamp(text).unwrap_err();
        let begin = "a lamp has eighteen characters from ! to ~,";
        assert_eq!(why("L1"), format!("{begin} \"L1\" has 2"));
        assert_eq!(why("L 0000000000000001"), format!("{begin} \"L 0000000000000001\" has ' '"));
        assert_eq!(why("ü00000000000000001"), format!("{begin} \"ü00000000000000001\" has 'ü'"));
    }

    #[test]
    fn every_cut_is_found() {
        let bytes = [recorded(restock(6, 5, 258)), recorded(failure(3, 258, LAMP))].concat();
        for length in 1..bytes.len() {
            let (records, why) = read(&bytes[..length]);
            assert_eq!(records.len(), usize::from(length >= 26));
            assert_eq!(why.is_none(), length == 26, "{length}: {why:?}");
        }
    }

    /// The states of a record with the old stock lack two bytes; all else is the same.
    #[test]
    fn the_old_stock_has_two_bytes() {
        let frames = [failure(3, 258, LAMP), restock(6, 259, 772)];
        let old = frames.clone().map(|frame| [&frame[..], &STATE[2..]].concat()).concat();
        let records = |length: usize| -> Vec<Result<Record, String>> {
            let records = Records::with_stock(&old[..length], Stock::Old);
            records.map(|record| record.map_err(|why| why.to_string())).collect()
        };
        let (mut expected, _) = read(&frames.map(recorded).concat());
        expected.iter_mut().for_each(|record| record.after.stock = 258);
        let expected: Vec<_> = expected.into_iter().map(Ok).collect();
        assert_eq!(old.len(), 65);
        assert_eq!(records(65), expected);
        assert_eq!(records(41), expected[..1]);
        let cut = Err("no record at byte 41: 11 (length), cut: 13 of a state's 14 bytes".into());
        assert_eq!(records(64), [expected[0].clone(), cut]);
    }
}
