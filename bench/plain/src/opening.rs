//! Set up: the settings, then each frame of the opening list in turn, then the queue places.

use crate::frame::{self, Frame, Sense};
use crate::memory::{put_entry, queue_at, queued_message, Header, IDLE, PENDING, QUEUE_PLACE};
use crate::message::{Hours, Kind, State};
use crate::{check_limits, refusal};
use interface::{memory_length, Opening, MOST_AT_ONCE, MOST_PLACES, NOTHING_DUE};

pub fn set_up(memory: &mut [u8], list: &[u8], opening: &Opening) -> Result<(), u32> {
    if !in_range(opening, memory.len()) {
        return Err(refusal::SETTING);
    }
    let mut header = header(opening);
    let mut count = 0;
    for bytes in frames(list) {
        check(&header, bytes)?;
        count += 1;
    }
    if count > header.queue_places {
        return Err(refusal::NO_ROOM);
    }
    for bytes in frames(list) {
        enter(memory, &mut header, &frame::read(bytes)?);
    }
    header.write(memory);
    Ok(())
}

fn in_range(opening: &Opening, length: usize) -> bool {
    let places = 1..=MOST_PLACES;
    (1..=255).contains(&opening.gateways)
        && opening.own < opening.gateways
        && opening.supplier < opening.gateways
        && opening.stock <= MOST_AT_ONCE
        && opening.last_hour < NOTHING_DUE
        && places.contains(&opening.queue_places)
        && places.contains(&opening.outstanding_places)
        && hours(opening).in_range()
        && length >= memory_length(opening.queue_places, opening.outstanding_places)
}

fn hours(opening: &Opening) -> Hours {
    Hours {
        request: opening.request_hours,
        delivery: opening.delivery_hours,
        life: opening.life_hours,
    }
}

fn header(opening: &Opening) -> Header {
    Header {
        gateways: opening.gateways as u8,
        own: opening.own as u8,
        supplier: opening.supplier as u8,
        phase: IDLE,
        arrivals: 0,
        queue_places: opening.queue_places as usize,
        outstanding_places: opening.outstanding_places as usize,
        queued: 0,
        outstanding: 0,
        last_hour: opening.last_hour,
        agreed: 0,
        note: 0,
        hours: hours(opening),
        state: State { stock: opening.stock, ..State::default() },
    }
}

/// The list cut by the lengths of the maps; the last frame may be cut short.
fn frames(mut list: &[u8]) -> impl Iterator<Item = &[u8]> {
    core::iter::from_fn(move || {
        let length = frame::length(*list.first()?).min(list.len());
        let (frame, rest) = list.split_at(length);
        list = rest;
        Some(frame)
    })
}

fn check(header: &Header, bytes: &[u8]) -> Result<(), u32> {
    let frame = frame::read(bytes)?;
    if frame.sense != Sense::Plain || !matches!(frame.message.kind, Kind::Failure | Kind::Restock) {
        return Err(refusal::FORM);
    }
    check_limits(header, &frame)
}

/// Puts a message into the queue after its equals; opening lists are mostly in order.
fn enter(memory: &mut [u8], header: &mut Header, frame: &Frame) {
    let mut place = header.queued;
    while place > 0 && queued_message(memory, place - 1) > frame.message {
        place -= 1;
    }
    memory.copy_within(queue_at(place)..queue_at(header.queued), queue_at(place) + QUEUE_PLACE);
    put_entry(memory, place, PENDING, &frame.message);
    header.queued += 1;
}
