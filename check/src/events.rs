//! Two messages that differ in a field or two, done one after the other: the event order over the whole width of its
//! fields, and the lamp model in states and at hours near which something stops or is no longer sound.

use crate::compare::{check_number, Call, Comparison, AMPLE};
use crate::draw;
use crate::lead_times::LEADS;
use crate::peer_calls::UNSOUND;
use crate::Wrong;
use interface::{memory_length, Opening, MOST_STOCK};
use peer::frame::{self, Frame, Sense};
use peer::generator::Generator;
use peer::model::{Hour, Hours, Kind, Lamp, Message, State, MAX_LAST_HOUR, MOST_HOURS};
use peer::{memory, record};

const KINDS: [Kind; 4] = [Kind::Failure, Kind::Request, Kind::Delivery, Kind::Restock];
const GATEWAYS: [u8; 6] = [0, 1, 127, 128, 253, 254];
const QUANTITIES: [u16; 6] = [0, 1, 255, 256, 300, 65_535];

/// The last ones are as far before the largest last hour as what is sent may lie behind its cause, or at it.
const HOURS: [Hour; 11] = [
    0,
    255,
    256,
    65_535,
    0x8000_0000,
    MAX_LAST_HOUR - MOST_HOURS,
    MAX_LAST_HOUR - MOST_HOURS + 1,
    MAX_LAST_HOUR - 43_800,
    MAX_LAST_HOUR - 24,
    MAX_LAST_HOUR - 1,
    MAX_LAST_HOUR,
];

const STOCKS: [u32; 7] = [0, 0, 1, 2, 65_534, 65_535, 65_536];
const COUNTERS: [u32; 4] = [0, 1, u32::MAX - 1, u32::MAX];

/// Two messages at a gateway of 255, in its opening list or taken, and both done from a drawn state.
pub fn two_events(generator: &mut Generator, comparison: &mut Comparison) -> Result<(), Wrong> {
    let own = generator.pick(&GATEWAYS);
    let first = draw_fields(generator, own);
    let mut second = first;
    for _ in 0..=generator.below(2) {
        let field = generator.below(6);
        redraw(generator, &mut second, field);
    }
    let messages = [first, second].map(draw::agreeing);
    let opening = opening(generator, own, first.hour.max(second.hour));

    let mut memory = vec![0; memory_length(opening.queue_places, opening.outstanding_places)];
    let (listed, taken): (Vec<_>, Vec<_>) = messages.into_iter().partition(may_open);
    let list: Vec<u8> = listed.into_iter().flat_map(bytes).collect();
    check_number(comparison.set_up(&mut memory, &list, &opening)?, 0)?;
    for message in taken {
        let frame = bytes(message);
        let (answer, _) = comparison.call(Call::Take { frame: &frame }, &mut memory, AMPLE)?;
        check_number(answer.number, 0)?;
    }
    let restocks: u32 = messages.iter().map(|message| u32::from(message.quantity)).sum();
    let most = MOST_STOCK - restocks;
    let stock = match generator.below(3) {
        0 => generator.pick(&[most - 1, most, most + 1, MOST_STOCK, MOST_STOCK + 1, u32::MAX]),
        _ => generator.pick(&STOCKS),
    };
    write_state(generator, &mut memory, stock);
    let (answer, _) = comparison.call(Call::Work { budget: 2 }, &mut memory, AMPLE)?;
    check_number(answer.number, if stock > most { UNSOUND } else { 0 })
}

/// A message to gateway `own` whose fields are all drawn; they need not agree.
fn draw_fields(generator: &mut Generator, own: u8) -> Message {
    let lamp = *b"L00000000000000001";
    let kind = Kind::Failure;
    let mut message = Message { hour: 0, kind, origin: 0, lamp, quantity: 0, from: 0, to: own };
    for field in 0..6 {
        redraw(generator, &mut message, field);
    }
    message
}

fn redraw(generator: &mut Generator, message: &mut Message, field: u8) {
    match field {
        0 => message.hour = generator.pick(&HOURS),
        1 => message.kind = generator.pick(&KINDS),
        2 => message.origin = generator.pick(&GATEWAYS),
        3 => change_lamp(generator, &mut message.lamp),
        4 => message.quantity = generator.pick(&QUANTITIES),
        _ => message.from = generator.pick(&GATEWAYS),
    }
}

/// Draws one of the first or last bytes anew.
fn change_lamp(generator: &mut Generator, lamp: &mut Lamp) {
    let at = generator.pick(&[0, 1, 7, 8, 15, 16, 17]);
    lamp[at] = 33 + generator.below(94);
}

fn opening(generator: &mut Generator, own: u8, hour: Hour) -> Opening {
    let hours = draw::hours(generator, hour);
    let last_hour = hour.saturating_add(distance(generator, &hours)).min(MAX_LAST_HOUR);
    let Hours { request, delivery, life } = hours;
    Opening {
        gateways: 255,
        own: own.into(),
        supplier: generator.pick(&GATEWAYS).into(),
        stock: 0,
        last_hour,
        queue_places: 2,
        outstanding_places: 2,
        request_hours: request,
        delivery_hours: delivery,
        life_hours: life,
    }
}

/// Hours from the later message to the last hour: few, or a lead time, an hour more or an hour less.
fn distance(generator: &mut Generator, hours: &Hours) -> Hour {
    let lead_time = generator.pick(&LEADS).of(hours);
    generator.pick(&[0, 1, 2, lead_time - 1, lead_time, lead_time, lead_time + 1])
}

/// Writes a state with this stock into the header.
fn write_state(generator: &mut Generator, memory: &mut [u8], stock: u32) {
    let [failed, fitted, short] = [0; 3].map(|_| generator.pick(&COUNTERS));
    let state = State { stock, failed, fitted, short };
    memory[memory::STATE].copy_from_slice(&record::state_bytes(&state));
}

fn may_open(message: &Message) -> bool {
    matches!(message.kind, Kind::Failure | Kind::Restock)
}

fn bytes(message: Message) -> Vec<u8> {
    frame::write(&Frame::Event { sense: Sense::Plain, message })
}
