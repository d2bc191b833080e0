//! Frames of document 01: one byte, the map; then the fields whose bit stands, in bit order.

use crate::model::{Hour, Kind, Lamp, Message};
use crate::refusal::Reason;

/// The width in bytes of the field of each bit: kind, from, to, hour, origin, lamp, quantity, sense.
const WIDTHS: [usize; 8] = [1, 1, 1, 4, 1, 18, 2, 1];

/// The one map of each kind, without the sense.
const MAPS: [u8; 7] = [63, 63, 63, 79, 7, 15, 15];

const LAMP_BIT: u8 = 1 << 5;
const SENSE_BIT: u8 = 1 << 7;

/// What a frame says of its message. The numbers are those of the field; a plain message has none.
#[derive(Clone, Copy, Debug, PartialEq, Eq)]
pub enum Sense {
    Plain = 0,
    Cancel = 1,
    Acknowledgment = 2,
    AcknowledgmentOfCancel = 3,
}

/// A frame of a valid form.
#[derive(Clone, Copy, Debug, PartialEq, Eq)]
pub enum Frame {
    /// Kinds 0 to 3.
    Event { sense: Sense, message: Message },
    /// Kind 4.
    Start { from: u8, to: u8 },
    /// Kind 5.
    Lvt { from: u8, to: u8, hour: Hour },
    /// Kind 6.
    Update { from: u8, to: u8, hour: Hour },
}

/// The eight fields as numbers; a field that a frame lacks is zero.
#[derive(Clone, Copy, Default)]
struct Fields {
    kind: u8,
    from: u8,
    to: u8,
    hour: Hour,
    origin: u8,
    lamp: Lamp,
    quantity: u16,
    sense: u8,
}

/// Reads a frame, or tells the first reason why the bytes are not exactly one of the forms.
pub fn read(bytes: &[u8]) -> Result<Frame, Reason> {
    let &[map, kind, ..] = bytes else {
        return Err(Reason::FewerThanTwoBytes);
    };
    if !in_table(map, kind) {
        return Err(Reason::MapAndKind);
    }
    let fields = Fields::read(map, &bytes[1..]).ok_or(Reason::Length)?;
    let sense = fields.sense_of(map).ok_or(Reason::Sense)?;
    if map & LAMP_BIT != 0 && !fields.lamp.iter().all(|byte| (33..=126).contains(byte)) {
        return Err(Reason::Lamp);
    }
    let frame = fields.frame(sense);
    match frame {
        Frame::Event { message, .. } if !message.gateways_agree() => Err(Reason::GatewayFields),
        _ => Ok(frame),
    }
}

/// The place of the lamp's first byte in a frame, behind the fields of the lower bits.
pub fn lamp_place(bytes: &[u8]) -> Result<usize, Reason> {
    let map = Fields::of(&read(bytes)?).map();
    if map & LAMP_BIT == 0 {
        return Err(Reason::FormNotTaken);
    }
    Ok(length(map & (LAMP_BIT - 1)))
}

/// The frames that stand one behind the other in a list, cut by the lengths of their maps.
pub fn list(mut bytes: &[u8]) -> Vec<Result<Frame, Reason>> {
    let mut frames = Vec::new();
    while !bytes.is_empty() {
        let (first, rest) = cut(bytes);
        frames.push(read(first));
        bytes = rest;
    }
    frames
}

/// The first frame of a list or of a record, by the length of its map or as much as is there, and the bytes behind it.
pub fn cut(bytes: &[u8]) -> (&[u8], &[u8]) {
    let length = bytes.first().map_or(0, |&map| length(map));
    bytes.split_at(length.min(bytes.len()))
}

/// The map is the kind's one map, with a sense only for kinds 0 to 2.
fn in_table(map: u8, kind: u8) -> bool {
    let without_sense = if kind <= 2 { map & !SENSE_BIT } else { map };
    MAPS.get(usize::from(kind)) == Some(&without_sense)
}

/// The whole length of a frame with this map.
fn length(map: u8) -> usize {
    let fields = WIDTHS.iter().enumerate().filter(|(bit, _)| map >> bit & 1 == 1);
    1 + fields.map(|(_, width)| width).sum::<usize>()
}

/// The bytes of a frame.
pub fn write(frame: &Frame) -> Vec<u8> {
    let fields = Fields::of(frame);
    let map = fields.map();
    let mut bytes = vec![map];
    for (bit, field) in fields.bytes().iter().enumerate() {
        if map >> bit & 1 == 1 {
            bytes.extend(field);
        }
    }
    bytes
}

/// The fields in decimal: kind, from, to, hour, origin, quantity, sense; then the lamp or `-`.
pub fn line(frame: &Frame) -> String {
    let fields = Fields::of(frame);
    let Fields { kind, from, to, hour, origin, lamp, quantity, sense } = fields;
    let has_lamp = fields.map() & LAMP_BIT != 0;
    let lamp = if has_lamp { String::from_utf8_lossy(&lamp) } else { "-".into() };
    format!("{kind} {from} {to} {hour} {origin} {quantity} {sense} {lamp}")
}

impl Frame {
    /// The gateway that the carrier brings it to. An acknowledgment goes back to its from.
    pub fn addressee(&self) -> u8 {
        match *self {
            Frame::Event { sense: Sense::Plain | Sense::Cancel, message } => message.to,
            Frame::Event { message, .. } => message.from,
            Frame::Start { to, .. } | Frame::Lvt { to, .. } | Frame::Update { to, .. } => to,
        }
    }

    /// The largest gateway number in it.
    pub fn largest_number(&self) -> u8 {
        let Fields { from, to, origin, .. } = Fields::of(self);
        from.max(to).max(origin)
    }
}

impl Fields {
    /// Takes the bytes behind the map apart; `None` if they are too few or too many.
    fn read(map: u8, mut rest: &[u8]) -> Option<Fields> {
        let mut parts: [&[u8]; 8] = [&[]; 8];
        for (bit, &width) in WIDTHS.iter().enumerate() {
            if map >> bit & 1 == 1 {
                (parts[bit], rest) = rest.split_at_checked(width)?;
            }
        }
        if !rest.is_empty() {
            return None;
        }
        let [kind, from, to, hour, origin, lamp, quantity, sense] = parts;
        Some(Fields {
            kind: number(kind) as u8,
            from: number(from) as u8,
            to: number(to) as u8,
            hour: number(hour),
            origin: number(origin) as u8,
            lamp: lamp.try_into().unwrap_or_default(),
            quantity: number(quantity) as u16,
            sense: number(sense) as u8,
        })
    }

    fn of(frame: &Frame) -> Fields {
        match *frame {
            Frame::Event { sense, message } => {
                let Message { hour, kind, origin, lamp, quantity, from, to } = message;
                let (kind, sense) = (kind.number(), sense as u8);
                Fields { kind, from, to, hour, origin, lamp, quantity, sense }
            }
            Frame::Start { from, to } => Fields { kind: 4, from, to, ..Fields::default() },
            Frame::Lvt { from, to, hour } => {
                Fields { kind: 5, from, to, hour, ..Fields::default() }
            }
            Frame::Update { from, to, hour } => {
                Fields { kind: 6, from, to, hour, ..Fields::default() }
            }
        }
    }

    fn map(&self) -> u8 {
        let sense_bit = if self.sense == 0 { 0 } else { SENSE_BIT };
        MAPS[usize::from(self.kind)] | sense_bit
    }

    /// The bytes of each field, high byte first.
    fn bytes(&self) -> [Vec<u8>; 8] {
        [
            vec![self.kind],
            vec![self.from],
            vec![self.to],
            self.hour.to_be_bytes().to_vec(),
            vec![self.origin],
            self.lamp.to_vec(),
            self.quantity.to_be_bytes().to_vec(),
            vec![self.sense],
        ]
    }

    /// The sense of a frame with this map, if it is one of the three where its bit stands.
    fn sense_of(&self, map: u8) -> Option<Sense> {
        match (map & SENSE_BIT != 0, self.sense) {
            (false, _) => Some(Sense::Plain),
            (true, 1) => Some(Sense::Cancel),
            (true, 2) => Some(Sense::Acknowledgment),
            (true, 3) => Some(Sense::AcknowledgmentOfCancel),
            (true, _) => None,
        }
    }

    /// The frame of a kind from 0 to 6.
    fn frame(&self, sense: Sense) -> Frame {
        let Fields { from, to, hour, origin, lamp, quantity, .. } = *self;
        let event = |kind| {
            let message = Message { hour, kind, origin, lamp, quantity, from, to };
            Frame::Event { sense, message }
        };
        match self.kind {
            0 => event(Kind::Failure),
            1 => event(Kind::Request),
            2 => event(Kind::Delivery),
            3 => event(Kind::Restock),
            4 => Frame::Start { from, to },
            5 => Frame::Lvt { from, to, hour },
            _ => Frame::Update { from, to, hour },
        }
    }
}

/// The number that bytes give, high byte first; no bytes give zero.
fn number(bytes: &[u8]) -> u32 {
    bytes.iter().fold(0, |value, &byte| value << 8 | u32::from(byte))
}

#[cfg(test)]
mod tests {
    use super::*;

    const LAMP: Lamp = *b"L00000000000000001";

    fn request() -> Message {
        let kind = Kind::Request;
        Message { hour: 0x0102_0304, kind, origin: 7, lamp: LAMP, quantity: 0, from: 8, to: 9 }
    }

    fn request_bytes() -> Vec<u8> {
        [&[63, 1, 8, 9, 1, 2, 3, 4, 7][..], &LAMP].concat()
    }

    fn with(mut bytes: Vec<u8>, at: usize, value: u8) -> Vec<u8> {
        bytes[at] = value;
        bytes
    }

    #[test]
    fn plain_request() {
        let frame = Frame::Event { sense: Sense::Plain, message: request() };
        assert_eq!(write(&frame), request_bytes());
        assert_eq!(read(&request_bytes()), Ok(frame));
        assert_eq!(line(&frame), "1 8 9 16909060 7 0 0 L00000000000000001");
    }

    #[test]
    fn senses() {
        let bytes = with([request_bytes(), vec![0]].concat(), 0, 63 + 128);
        let senses = [Sense::Cancel, Sense::Acknowledgment, Sense::AcknowledgmentOfCancel];
        for (sense, value) in senses.into_iter().zip(1..) {
            let frame = Frame::Event { sense, message: request() };
            assert_eq!(write(&frame), with(bytes.clone(), 27, value));
            assert_eq!(read(&with(bytes.clone(), 27, value)), Ok(frame));
        }
        for value in (0..=255).filter(|value| !(1..=3).contains(value)) {
            assert_eq!(read(&with(bytes.clone(), 27, value)), Err(Reason::Sense), "sense {value}");
        }
    }

    #[test]
    fn the_other_kinds() {
        let kind = Kind::Restock;
        let message =
            Message { hour: 5, kind, origin: 0, lamp: [0; 18], quantity: 258, from: 6, to: 6 };
        let cases: [(&[u8], Frame, &str); 4] = [
            (
                &[79, 3, 6, 6, 0, 0, 0, 5, 1, 2],
                Frame::Event { sense: Sense::Plain, message },
                "3 6 6 5 0 258 0 -",
            ),
            (&[7, 4, 1, 2], Frame::Start { from: 1, to: 2 }, "4 1 2 0 0 0 0 -"),
            (
                &[15, 5, 2, 1, 255, 255, 255, 255],
                Frame::Lvt { from: 2, to: 1, hour: 4_294_967_295 },
                "5 2 1 4294967295 0 0 0 -",
            ),
            (
                &[15, 6, 0, 2, 0, 0, 1, 0],
                Frame::Update { from: 0, to: 2, hour: 256 },
                "6 0 2 256 0 0 0 -",
            ),
        ];
        for (bytes, frame, text) in cases {
            assert_eq!(write(&frame), bytes);
            assert_eq!(read(bytes), Ok(frame));
            assert_eq!(line(&frame), text);
            let with_sense = [&[bytes[0] | 128], &bytes[1..], &[1]].concat();
            assert_eq!(read(&with_sense), Err(Reason::MapAndKind), "kinds 3 to 6 have no sense");
        }
    }

    #[test]
    fn frames_of_a_list() {
        let start = Frame::Start { from: 1, to: 2 };
        let request = Frame::Event { sense: Sense::Plain, message: request() };
        let bytes = [&request_bytes()[..], &[7, 4, 1, 2]].concat();
        assert_eq!(list(&bytes), [Ok(request), Ok(start)]);
        assert_eq!(list(&bytes[..30]), [Ok(request), Err(Reason::Length)], "a cut tail");
        let one_byte = Err(Reason::FewerThanTwoBytes);
        assert_eq!(list(&bytes[..28]), [Ok(request), one_byte], "a tail of one byte");
        assert_eq!(list(&[0, 7, 4, 1, 2]), [one_byte, Ok(start)], "a map of no field");
        let tail = [&request_bytes()[..], &[63, 3, 1]].concat();
        assert_eq!(list(&tail), [Ok(request), Err(Reason::MapAndKind)], "a cut tail of no kind");
        assert_eq!(list(&[]), []);
    }

    #[test]
    fn an_acknowledgment_is_addressed_to_from() {
        let addressee = |sense| Frame::Event { sense, message: request() }.addressee();
        assert_eq!((addressee(Sense::Plain), addressee(Sense::Cancel)), (9, 9));
        assert_eq!(addressee(Sense::Acknowledgment), 8);
        assert_eq!(addressee(Sense::AcknowledgmentOfCancel), 8);
        assert_eq!(Frame::Update { from: 1, to: 2, hour: 0 }.addressee(), 2);
    }

    #[test]
    fn every_other_length_is_refused() {
        let bytes = request_bytes();
        for length in 0..bytes.len() {
            let reason = if length < 2 { Reason::FewerThanTwoBytes } else { Reason::Length };
            assert_eq!(read(&bytes[..length]), Err(reason), "length {length}");
        }
        assert_eq!(read(&[&bytes[..], &[0]].concat()), Err(Reason::Length));
    }

    #[test]
    fn every_other_map_and_kind_is_refused() {
        let refused = Err(Reason::MapAndKind);
        for map in (0..=255).filter(|map| ![63, 63 + 128].contains(map)) {
            assert_eq!(read(&with(request_bytes(), 0, map)), refused, "map {map}");
        }
        assert_eq!(read(&with(request_bytes(), 0, 63 + 128)), Err(Reason::Length), "no sense");
        for kind in 3..=255 {
            assert_eq!(read(&with(request_bytes(), 1, kind)), refused, "kind {kind}");
        }
    }

    #[test]
    fn lamp_bytes_are_33_to_126() {
        for at in 9..27 {
            for value in 0..=255 {
                let reason = read(&with(request_bytes(), at, value)).err();
                let valid = (33..=126).contains(&value);
                assert_eq!(reason, (!valid).then_some(Reason::Lamp));
            }
        }
    }

    #[test]
    fn gateways_must_agree() {
        let agree = |bytes: &[u8]| match read(bytes) {
            Ok(_) => true,
            Err(reason) => {
                assert_eq!(reason, Reason::GatewayFields);
                false
            }
        };
        let agree_with = |kind, from, to, origin| {
            let head = [63, kind, from, to, 0, 0, 0, 1, origin];
            agree(&[&head[..], &LAMP].concat())
        };
        assert!(agree_with(0, 5, 5, 5));
        assert!(!agree_with(0, 6, 5, 5));
        assert!(!agree_with(0, 5, 6, 5));
        assert!(!agree_with(0, 5, 5, 6));
        assert!(agree_with(1, 255, 254, 0));
        assert!(agree_with(2, 6, 5, 5));
        assert!(!agree_with(2, 5, 5, 6));
        assert!(!agree_with(2, 6, 5, 6));
        assert!(agree(&[79, 3, 6, 6, 0, 0, 0, 5, 1, 2]));
        assert!(!agree(&[79, 3, 6, 7, 0, 0, 0, 5, 1, 2]));
    }

    /// Each frame has two faults that are neighbours in the order.
    #[test]
    fn the_first_reason_is_told() {
        let reason = |bytes: &[u8]| read(bytes).unwrap_err();
        assert_eq!(reason(&[9]), Reason::FewerThanTwoBytes, "and no map of a kind");
        assert_eq!(reason(&[63, 7]), Reason::MapAndKind, "and a length of no map");
        let failure = [&[63 + 128, 0, 5, 5, 0, 0, 0, 1, 5][..], &LAMP, &[1]].concat();
        assert!(read(&failure).is_ok());
        let sense_4 = with(failure.clone(), 27, 4);
        assert_eq!(reason(&[&sense_4[..], &[0]].concat()), Reason::Length, "and sense 4");
        assert_eq!(reason(&with(sense_4, 26, 32)), Reason::Sense, "and a bad lamp");
        let bad_lamp = with(failure, 26, 127);
        assert_eq!(reason(&with(bad_lamp, 2, 6)), Reason::Lamp, "and gateways that differ");
    }

    #[test]
    fn the_place_of_the_lamp() {
        let failure = [&[63, 0, 5, 5, 0, 0, 0, 1, 5][..], &LAMP].concat();
        let cancel = with([failure.clone(), vec![1]].concat(), 0, 63 + 128);
        for bytes in [&failure, &request_bytes(), &cancel] {
            let place = lamp_place(bytes).unwrap();
            assert_eq!(bytes[place..place + 18], LAMP);
        }
        assert_eq!(lamp_place(&[]), Err(Reason::FewerThanTwoBytes));
        assert_eq!(lamp_place(&with(failure.clone(), 1, 3)), Err(Reason::MapAndKind));
        assert_eq!(lamp_place(&failure[..26]), Err(Reason::Length));
        assert_eq!(lamp_place(&with(cancel, 27, 0)), Err(Reason::Sense));
        assert_eq!(lamp_place(&with(failure.clone(), 9, 32)), Err(Reason::Lamp));
        assert_eq!(lamp_place(&with(failure, 8, 6)), Err(Reason::GatewayFields));
        assert_eq!(lamp_place(&[79, 3, 6, 7, 0, 0, 0, 5, 1, 2]), Err(Reason::GatewayFields));
        assert_eq!(lamp_place(&[79, 3, 6, 6, 0, 0, 0, 5, 1, 2]), Err(Reason::FormNotTaken));
        assert_eq!(lamp_place(&[7, 4, 1, 2]), Err(Reason::FormNotTaken));
        assert_eq!(lamp_place(&[7, 4, 1, 2, 3]), Err(Reason::Length), "a long Start");
    }
}
