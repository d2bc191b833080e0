//! Sample streams of candidate frames: valid frames of all forms, and damaged ones.

use crate::frame::{self, Frame, Sense};
use crate::generator::Generator;
use crate::model::{Hour, Kind, Lamp, Message};
use crate::stream;

/// The forms: each of kinds 0 to 2 with each sense, then kinds 3 to 6.
const FORMS: usize = 16;

const HOURS: [Hour; 8] = [0, 1, 255, 256, 0x7fff_ffff, 0x8000_0000, u32::MAX - 1, u32::MAX];
const GATEWAYS: [u8; 6] = [0, 1, 127, 128, 254, 255];
const QUANTITIES: [u16; 5] = [0, 1, 255, 256, 65_535];
const LAMPS: [&Lamp; 5] =
    [&[33; 18], &[126; 18], b"L00000000000000001", b"L00000000000000002", b"M00000000000000001"];

/// Where the fields stand in frames of kinds 0 to 2; map, kind, from and to in all frames.
const MAP_AT: usize = 0;
const KIND_AT: usize = 1;
const FROM_AT: usize = 2;
const TO_AT: usize = 3;
const ORIGIN_AT: usize = 8;
const LAMP_AT: usize = 9;
const SENSE_AT: usize = 27;

/// The ways to damage a frame. Some leave some forms valid, or as they were.
#[derive(Clone, Copy)]
enum Damage {
    MapBit,
    Map,
    Kind,
    NextKind,
    From,
    To,
    Origin,
    LampByte(u8),
    Sense(u8),
    SenseAdded,
    SenseBitOnly,
    OneShort,
    OneLong,
    AnyByte,
    RandomFields,
    RandomBytes,
    Empty,
}

const DAMAGES: [Damage; 20] = [
    Damage::MapBit,
    Damage::Map,
    Damage::Kind,
    Damage::NextKind,
    Damage::From,
    Damage::To,
    Damage::Origin,
    Damage::LampByte(32),
    Damage::LampByte(127),
    Damage::LampByte(0),
    Damage::Sense(0),
    Damage::Sense(4),
    Damage::SenseAdded,
    Damage::SenseBitOnly,
    Damage::OneShort,
    Damage::OneLong,
    Damage::AnyByte,
    Damage::RandomFields,
    Damage::RandomBytes,
    Damage::Empty,
];

/// The least multiple of the numbers of forms and of ways of damage.
const BOTH: usize = 80;

/// Values for the fields of the next frame.
struct Values {
    hour: Hour,
    from: u8,
    to: u8,
    origin: u8,
    quantity: u16,
    lamp: Lamp,
}

/// A stream of `count` items, in threes: a valid frame, one that differs from it in a field or two,
/// and that one damaged. All forms come in turn, and all ways of damage. After 80 threes both begin
/// again together, and the ways go one further, so that 3 x 16 x 20 = 960 items damage every form in
/// every way.
pub fn frames(seed: u32, count: usize) -> Vec<u8> {
    let mut generator = Generator::new(seed);
    let mut values = Values { hour: 0, from: 0, to: 0, origin: 0, quantity: 0, lamp: *LAMPS[0] };
    let mut bytes = Vec::new();
    for number in 0..count {
        let three = number / 3;
        let form = three % FORMS;
        match number % 3 {
            0 => values.change_half(&mut generator),
            1 => values.change_few(&mut generator),
            _ => {}
        }
        let mut item = frame::write(&values.frame(form));
        if number % 3 == 2 {
            item = damage(DAMAGES[way(three)], item, &mut generator);
        }
        stream::append(&mut bytes, &item);
    }
    bytes
}

/// The place among the ways of damage for the third item of a three.
fn way(three: usize) -> usize {
    (three + three / BOTH) % DAMAGES.len()
}

impl Values {
    /// Draws about half of the values anew.
    fn change_half(&mut self, generator: &mut Generator) {
        for field in 0..6 {
            if generator.below(2) == 0 {
                self.change(field, generator);
            }
        }
    }

    /// Draws one value anew, or two.
    fn change_few(&mut self, generator: &mut Generator) {
        for _ in 0..=generator.below(2) {
            self.change(generator.below(6), generator);
        }
    }

    fn change(&mut self, field: u8, generator: &mut Generator) {
        match field {
            0 => self.hour = hour(generator),
            1 => self.lamp = lamp(generator),
            2 => self.quantity = generator.pick(&QUANTITIES),
            3 => self.from = generator.pick(&GATEWAYS),
            4 => self.to = generator.pick(&GATEWAYS),
            _ => self.origin = generator.pick(&GATEWAYS),
        }
    }

    fn frame(&self, form: usize) -> Frame {
        let &Values { hour, from, to, .. } = self;
        match form {
            13 => Frame::Start { from, to },
            14 => Frame::Lvt { from, to, hour },
            15 => Frame::Update { from, to, hour },
            _ => Frame::Event { sense: sense(form), message: self.message(form) },
        }
    }

    fn message(&self, form: usize) -> Message {
        let &Values { hour, from, to, origin, quantity, lamp } = self;
        let kind = [Kind::Failure, Kind::Request, Kind::Delivery, Kind::Restock][form / 4];
        let message = Message { hour, kind, origin, lamp, quantity: 0, from, to };
        match kind {
            Kind::Failure => Message { from: origin, to: origin, ..message },
            Kind::Request => message,
            Kind::Delivery => Message { to: origin, ..message },
            Kind::Restock => Message { origin: 0, lamp: [0; 18], quantity, to: from, ..message },
        }
    }
}

fn sense(form: usize) -> Sense {
    match form % 4 {
        0 => Sense::Plain,
        1 => Sense::Cancel,
        2 => Sense::Acknowledgment,
        _ => Sense::AcknowledgmentOfCancel,
    }
}

fn hour(generator: &mut Generator) -> Hour {
    if generator.below(4) == 0 {
        return generator.word();
    }
    generator.pick(&HOURS)
}

/// A listed lamp, sometimes with one byte, often a late one, changed to another valid one.
fn lamp(generator: &mut Generator) -> Lamp {
    let mut lamp = *generator.pick(&LAMPS);
    if generator.below(2) == 0 {
        let at = generator.pick(&[0, 7, 8, 15, 16, 17]);
        lamp[at] = 33 + generator.below(94);
    }
    lamp
}

fn damage(damage: Damage, mut item: Vec<u8>, generator: &mut Generator) -> Vec<u8> {
    match damage {
        Damage::MapBit => item[MAP_AT] ^= 1 << generator.below(8),
        Damage::Map => item[MAP_AT] = generator.byte(),
        Damage::Kind => item[KIND_AT] = generator.below(9),
        Damage::NextKind => item[KIND_AT] += 1,
        Damage::From => item[FROM_AT] ^= 1,
        Damage::To => item[TO_AT] ^= 128,
        Damage::Origin => set(&mut item, ORIGIN_AT, generator.byte()),
        Damage::LampByte(value) => {
            set(&mut item, LAMP_AT + usize::from(generator.below(18)), value);
        }
        Damage::Sense(value) => set(&mut item, SENSE_AT, value),
        Damage::SenseAdded => {
            item[MAP_AT] |= 128;
            item.push(1 + generator.below(3));
        }
        Damage::SenseBitOnly => item[MAP_AT] ^= 128,
        Damage::OneShort => item.truncate(item.len() - 1),
        Damage::OneLong => item.push(generator.byte()),
        Damage::AnyByte => {
            let at = usize::from(generator.below(item.len() as u8));
            item[at] = generator.byte();
        }
        Damage::RandomFields => item[FROM_AT..].fill_with(|| generator.byte()),
        Damage::RandomBytes => item = random_bytes(generator),
        Damage::Empty => item.clear(),
    }
    item
}

/// Sets a byte where the item has it.
fn set(item: &mut [u8], at: usize, value: u8) {
    if let Some(byte) = item.get_mut(at) {
        *byte = value;
    }
}

/// Up to 39 random bytes, now and then 255.
fn random_bytes(generator: &mut Generator) -> Vec<u8> {
    let length = if generator.below(8) == 0 { 255 } else { generator.below(40) };
    (0..length).map(|_| generator.byte()).collect()
}

#[cfg(test)]
mod tests {
    use super::*;
    use crate::refusal::{Reason, REASONS};
    use std::collections::BTreeSet;

    const WHOLE_SAMPLE: usize = 3 * FORMS * DAMAGES.len();

    #[test]
    fn all_forms_come_in_turn() {
        let lines = stream::frame_lines(&frames(1, 3 * FORMS));
        let column = |column| {
            let fields = |line: &str| line.split(' ').nth(column).unwrap().to_string();
            lines.lines().step_by(3).map(fields).collect::<Vec<_>>().join(" ")
        };
        assert_eq!(column(0), "0 0 0 0 1 1 1 1 2 2 2 2 3 4 5 6", "kinds");
        assert_eq!(column(6), "0 1 2 3 0 1 2 3 0 1 2 3 0 0 0 0", "senses");
    }

    #[test]
    fn undamaged_frames_are_accepted_and_written_again_alike() {
        for seed in 0..50 {
            let lines = stream::frame_lines(&frames(seed, WHOLE_SAMPLE));
            assert_eq!(lines.lines().count(), WHOLE_SAMPLE);
            assert!(!lines.contains("differs"));
            for (number, line) in lines.lines().enumerate() {
                assert!(number % 3 == 2 || !is_refused(line), "item {number} is valid");
            }
        }
    }

    #[test]
    fn every_form_is_damaged_in_every_way() {
        let pairs = (0..FORMS * DAMAGES.len()).map(|three| (three % FORMS, way(three)));
        assert_eq!(pairs.collect::<BTreeSet<_>>().len(), FORMS * DAMAGES.len());
    }

    #[test]
    fn many_damaged_frames_are_refused_and_for_every_reason() {
        let lines = stream::frame_lines(&frames(1, WHOLE_SAMPLE));
        assert!(lines.lines().filter(|line| is_refused(line)).count() > 150);
        for reason in REASONS.iter().filter(|&&reason| reason != Reason::FormNotTaken) {
            let text = reason.to_string();
            assert!(lines.lines().any(|line| line == text), "{text}");
        }
    }

    /// A reason has a colon and a blank in it, and no line of fields has.
    fn is_refused(line: &str) -> bool {
        line.contains(": ")
    }
}
