//! Hostile input: damaged frames and lists, records with a thing or two wrong, and memories with bytes changed.

use crate::draw::{self, Site};
use crate::lead_times::LEADS;
use crate::seen::RESTOCK;
use crate::stocks;
use peer::generator::Generator;
use peer::model::{MAX_LAST_HOUR, MOST_HOURS};

/// Bytes with one thing wrong, or none left, or more of them.
pub fn damaged(generator: &mut Generator, bytes: &[u8]) -> Vec<u8> {
    let mut bytes = bytes.to_vec();
    match generator.below(6) {
        0 => bytes.truncate(usize::from(generator.half()) % (bytes.len() + 1)),
        1 => bytes.push(generator.byte()),
        2 => bytes.iter_mut().for_each(|byte| *byte = generator.byte()),
        3 if !bytes.is_empty() => bytes[0] ^= 1 << generator.below(8),
        _ if !bytes.is_empty() => {
            let at = usize::from(generator.half()) % bytes.len();
            bytes[at] = generator.byte();
        }
        _ => {}
    }
    bytes
}

/// A frame with a thing or two wrong.
pub fn damaged_frame(generator: &mut Generator, frame: &[u8]) -> Vec<u8> {
    let mut bytes = frame.to_vec();
    for _ in 0..=generator.below(2) {
        match generator.below(2) {
            0 => bytes = damaged(generator, &bytes),
            _ => change_field(generator, &mut bytes),
        }
    }
    bytes
}

/// Changes a byte of the lamp, the sense or a gateway's number where a frame with a lamp and a sense has it.
fn change_field(generator: &mut Generator, frame: &mut [u8]) {
    let (at, value) = match generator.below(3) {
        0 => (9 + generator.below(18), generator.pick(&[0, 32, 127, 255])),
        1 => (27, generator.pick(&[0, 4, 255])),
        _ => (generator.pick(&[2, 3, 8]), generator.below(4)),
    };
    if let Some(byte) = frame.get_mut(usize::from(at)) {
        *byte = value;
    }
}

/// A few events of a record whose states have so many bytes, mostly with one or two of them wrong, and at times cut anywhere or with a byte
/// changed.
pub fn spoiled_record(
    generator: &mut Generator,
    mut events: Vec<Vec<u8>>,
    state_length: usize,
) -> Vec<u8> {
    let first = usize::from(generator.half()) % (events.len() + 1);
    events.drain(..first);
    events.truncate(generator.below(7).into());
    for event in &mut events {
        if generator.below(4) == 0 {
            spoil_event(generator, event, state_length);
        }
    }
    if generator.below(3) == 0 {
        let place = usize::from(generator.half()) % (events.len() + 1);
        events.insert(place, foreign_event(generator, state_length));
    }
    let mut bytes = events.concat();
    match generator.below(6) {
        0 | 1 => bytes.truncate(bytes.len().saturating_sub(generator.below(44).into())),
        2 => bytes = damaged(generator, &bytes),
        _ => {}
    }
    bytes
}

/// Records of a good event and another one, whose state has so many bytes, behind it: with each of the other's bytes set to other values.
pub fn every_byte_changed(event: &[u8], good: &[u8], state_length: usize) -> Vec<Vec<u8>> {
    let mut records = Vec::new();
    for at in 0..event.len() {
        for value in values(event, at, state_length) {
            let mut record = [good, event].concat();
            record[good.len() + at] = value;
            records.push(record);
        }
    }
    records
}

/// The values that a byte of an event is set to: all of them before the lamp, those near the ends of the range in the lamp, and few in
/// the state, which is never refused for a value.
fn values(event: &[u8], at: usize, state_length: usize) -> Vec<u8> {
    let lamp = if event[0] == RESTOCK { 0..0 } else { 9..27 };
    if lamp.contains(&at) {
        vec![0, 31, 32, 33, 34, 125, 126, 127, 128, 255]
    } else if at + state_length >= event.len() {
        vec![0, 255]
    } else {
        (0..=255).collect()
    }
}

/// A frame of any form, whole or damaged, and a state behind it.
fn foreign_event(generator: &mut Generator, state_length: usize) -> Vec<u8> {
    let gateways = generator.pick(&[2, 255]);
    let site = Site { gateways, own: generator.below(gateways), last_hour: MAX_LAST_HOUR };
    let mut event = draw::frame(generator, &site);
    if generator.below(3) == 0 {
        event = damaged_frame(generator, &event);
    }
    event.extend(vec![generator.byte(); state_length]);
    event
}

/// Changes an event of a record in one thing, often gateways' numbers or the hour.
fn spoil_event(generator: &mut Generator, event: &mut Vec<u8>, state_length: usize) {
    match generator.below(14) {
        0..=3 => change_numbers(generator, event),
        4..=7 => event[4..8].fill(255),
        8 => event[9 + usize::from(generator.below(14))] = generator.pick(&[0, 32, 127, 255]),
        9 => add_sense(generator, event, state_length),
        10 => event[3] ^= 1,
        11 => event.truncate(event.len() - 1 - usize::from(generator.below(20))),
        12 => event[0] = 0,
        _ => *event = damaged(generator, event),
    }
}

/// Makes gateway numbers of an event 255, such that they agree as its kind demands.
fn change_numbers(generator: &mut Generator, event: &mut [u8]) {
    let places: &[usize] = match event[1] {
        0 => &[2, 3, 8],
        1 => generator.pick(&[&[2][..], &[3], &[8]]),
        2 => generator.pick(&[&[2][..], &[3, 8]]),
        _ => &[2, 3],
    };
    places.iter().for_each(|&place| event[place] = 255);
}

/// Makes an event's frame one with a sense, at times one that there is not.
fn add_sense(generator: &mut Generator, event: &mut Vec<u8>, state_length: usize) {
    event[0] |= 128;
    event.insert(event.len() - state_length, generator.below(5));
}

/// Memory with one thing changed. It may still be sound.
pub fn spoiled(generator: &mut Generator, memory: &[u8]) -> Vec<u8> {
    let mut memory = memory.to_vec();
    let queued = half(&memory, 10);
    let sent_at = 256 + 64 * half(&memory, 6);
    match generator.below(18) {
        0 => memory.truncate(usize::from(generator.half()) % (memory.len() + 1)),
        1 => memory[usize::from(generator.below(56))] = generator.byte(),
        2 => memory[usize::from(generator.below(56))] ^= 1 << generator.below(8),
        3 => memory[3] = generator.below(4),
        4 => memory[4] = generator.below(4),
        5 => (memory[3], memory[4]) = (generator.below(3), generator.below(4)),
        6 => memory[11] = memory[11].wrapping_add(1),
        7 => memory[13] = memory[13].wrapping_add(1),
        8 => change_lead_time(generator, &mut memory),
        15..=17 => change_stock(generator, &mut memory),
        9 if queued > 1 => swap_neighbours(generator, &mut memory, queued),
        10 if queued > 1 => copy_neighbour(generator, &mut memory, queued),
        11 if queued > 0 => {
            let place = usize::from(generator.half()) % queued;
            memory[256 + 64 * place] = generator.below(4);
        }
        12 if half(&memory, 12) > 0 => {
            let place = usize::from(generator.half()) % half(&memory, 12);
            change_place(generator, &mut memory[sent_at + 32 * place..][..32]);
        }
        _ if queued > 0 => {
            let place = usize::from(generator.half()) % queued;
            change_place(generator, &mut memory[256 + 64 * place..][..64]);
        }
        _ => {}
    }
    memory
}

/// Writes hours in their range or out of it into the header.
fn change_lead_time(generator: &mut Generator, memory: &mut [u8]) {
    let hours = [0, 1, 2, 24, 700, MOST_HOURS, MOST_HOURS + 1, 1 << 24, u32::MAX];
    let place = generator.pick(&LEADS).place();
    memory[place].copy_from_slice(&generator.pick(&hours).to_be_bytes());
}

/// Writes a stock in the place of the one held or of one saved: a small one, one about where two bytes end, or one about as large as it may
/// be.
fn change_stock(generator: &mut Generator, memory: &mut [u8]) {
    let stocks = stocks::all(memory);
    let chosen = &stocks[usize::from(generator.half()) % stocks.len()];
    let stock = match generator.below(4) {
        0 => generator.pick(&[0, 1, 65_535, 65_536, 1 << 24, u32::MAX]),
        _ => generator.pick(&chosen.around()),
    };
    chosen.write(memory, stock);
}

/// Changes a byte of a place, often the hour's first or a gateway's number.
fn change_place(generator: &mut Generator, place: &mut [u8]) {
    match generator.below(4) {
        0 => place[4] = 255,
        1 => place[generator.pick(&[2, 3, 8])] = generator.byte(),
        _ => {
            let at = usize::from(generator.half()) % place.len();
            place[at] = generator.byte();
        }
    }
}

fn swap_neighbours(generator: &mut Generator, memory: &mut [u8], queued: usize) {
    let at = 256 + 64 * (usize::from(generator.half()) % (queued - 1));
    let (one, other) = memory[at..at + 128].split_at_mut(64);
    one.swap_with_slice(other);
}

/// Makes a place equal to its neighbour, but for the mark.
fn copy_neighbour(generator: &mut Generator, memory: &mut [u8], queued: usize) {
    let at = 256 + 64 * (usize::from(generator.half()) % (queued - 1));
    memory.copy_within(at..at + 64, at + 64);
    memory[at + 64] = generator.below(3);
    memory[at + 64 + 30..at + 128].fill(0);
}

fn half(bytes: &[u8], at: usize) -> usize {
    u16::from_be_bytes([bytes[at], bytes[at + 1]]).into()
}
