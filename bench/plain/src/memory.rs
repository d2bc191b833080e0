//! A gateway's bytes in the lent memory: the header and the places (docs/ARCHITECTURE.md has the layout).

use crate::message::{Hours, Kind, Message, Site, State};
use interface::STATE_LENGTH;

pub const HEADER: usize = 256;
pub const QUEUE_PLACE: usize = 64;
pub const OUTSTANDING_PLACE: usize = 32;

/// Where numbers stand in the header: four counts of places, then six hours, then the state.
const COUNTS_AT: usize = 6;
const HOURS_AT: usize = COUNTS_AT + 4 * 2;
const STATE_AT: usize = HOURS_AT + 6 * 4;

/// Where a message ends in a place. In a queue place the state before it follows, and then nothing.
pub const MESSAGE_END: usize = 30;
pub const BEFORE_END: usize = MESSAGE_END + STATE_LENGTH;

/// Phases of the round.
pub const IDLE: u8 = 0;
pub const COUNTING: u8 = 1;
pub const STOPPED: u8 = 2;

/// What a queue place holds.
pub const PENDING: u8 = 0;
pub const PROCESSED: u8 = 1;
pub const WAITING: u8 = 2;

#[derive(Clone, Copy, Debug)]
pub struct Header {
    pub gateways: u8,
    pub own: u8,
    pub supplier: u8,
    pub phase: u8,
    pub arrivals: u8,
    pub queue_places: usize,
    pub outstanding_places: usize,
    pub queued: usize,
    pub outstanding: usize,
    pub last_hour: u32,
    pub agreed: u32,
    /// The note; after the stop the value.
    pub note: u32,
    pub hours: Hours,
    pub state: State,
}

/// A queue place.
#[derive(Clone, Copy, Debug)]
pub struct Entry {
    pub mark: u8,
    pub message: Message,
    /// The state before a processed message.
    pub before: State,
}

fn half(bytes: &[u8], at: usize) -> u16 {
    u16::from_be_bytes([bytes[at], bytes[at + 1]])
}

fn word(bytes: &[u8], at: usize) -> u32 {
    u32::from_be_bytes([bytes[at], bytes[at + 1], bytes[at + 2], bytes[at + 3]])
}

impl Header {
    /// The header in the first bytes of a memory of at least 256.
    pub fn read(memory: &[u8]) -> Header {
        Header {
            gateways: memory[0],
            own: memory[1],
            supplier: memory[2],
            phase: memory[3],
            arrivals: memory[4],
            queue_places: half(memory, COUNTS_AT).into(),
            outstanding_places: half(memory, COUNTS_AT + 2).into(),
            queued: half(memory, COUNTS_AT + 4).into(),
            outstanding: half(memory, COUNTS_AT + 6).into(),
            last_hour: word(memory, HOURS_AT),
            agreed: word(memory, HOURS_AT + 4),
            note: word(memory, HOURS_AT + 8),
            hours: Hours {
                request: word(memory, HOURS_AT + 12),
                delivery: word(memory, HOURS_AT + 16),
                life: word(memory, HOURS_AT + 20),
            },
            state: state(&memory[STATE_AT..]),
        }
    }

    pub fn write(&self, memory: &mut [u8]) {
        let round = [self.gateways, self.own, self.supplier, self.phase, self.arrivals];
        memory[..5].copy_from_slice(&round);
        let places = [self.queue_places, self.outstanding_places, self.queued, self.outstanding];
        for (at, places) in (COUNTS_AT..).step_by(2).zip(places) {
            memory[at..at + 2].copy_from_slice(&(places as u16).to_be_bytes());
        }
        let Hours { request, delivery, life } = self.hours;
        let hours = [self.last_hour, self.agreed, self.note, request, delivery, life];
        for (at, hour) in (HOURS_AT..).step_by(4).zip(hours) {
            memory[at..at + 4].copy_from_slice(&hour.to_be_bytes());
        }
        memory[STATE_AT..][..STATE_LENGTH].copy_from_slice(&state_bytes(&self.state));
    }

    pub fn site(&self) -> Site {
        Site {
            own: self.own,
            supplier: self.supplier,
            last_hour: self.last_hour,
            hours: self.hours,
        }
    }

    pub fn outstanding_at(&self) -> usize {
        HEADER + QUEUE_PLACE * self.queue_places
    }
}

/// Where queue place `k` begins.
pub fn queue_at(k: usize) -> usize {
    HEADER + QUEUE_PLACE * k
}

/// The mark, the message and the state of a queue place that is sound.
pub fn entry(memory: &[u8], k: usize) -> Entry {
    let place = &memory[queue_at(k)..][..QUEUE_PLACE];
    Entry { mark: place[0], message: sound_message(place), before: state(&place[MESSAGE_END..]) }
}

pub fn mark(memory: &[u8], k: usize) -> u8 {
    memory[queue_at(k)]
}

/// The message of queue place `k`, which is sound.
pub fn queued_message(memory: &[u8], k: usize) -> Message {
    sound_message(&memory[queue_at(k)..][..QUEUE_PLACE])
}

/// The hour of the message in a place.
pub fn hour_at(memory: &[u8], at: usize) -> u32 {
    word(memory, at + 4)
}

/// The message in a place; `None` for a kind that none has.
pub fn message(place: &[u8]) -> Option<Message> {
    Some(Message {
        hour: word(place, 4),
        kind: Kind::from_number(place[1])?,
        origin: place[8],
        lamp: place[12..MESSAGE_END].try_into().ok()?,
        quantity: half(place, 10),
        from: place[2],
        to: place[3],
    })
}

/// The message in a place that is known to be sound.
pub fn sound_message(place: &[u8]) -> Message {
    message(place).expect("the memory is sound")
}

/// The state in the first bytes.
pub fn state(bytes: &[u8]) -> State {
    let [stock, failed, fitted, short] = [0, 4, 8, 12].map(|at| word(bytes, at));
    State { stock, failed, fitted, short }
}

/// The bytes of a state, as memory and records have them.
pub fn state_bytes(state: &State) -> [u8; STATE_LENGTH] {
    let mut bytes = [0; STATE_LENGTH];
    let numbers = [state.stock, state.failed, state.fitted, state.short];
    for (part, number) in bytes.as_chunks_mut().0.iter_mut().zip(numbers) {
        *part = number.to_be_bytes();
    }
    bytes
}

fn put_message(place: &mut [u8], mark: u8, message: &Message) {
    place[..4].copy_from_slice(&[mark, message.kind as u8, message.from, message.to]);
    place[4..8].copy_from_slice(&message.hour.to_be_bytes());
    place[8..10].copy_from_slice(&[message.origin, 0]);
    place[10..12].copy_from_slice(&message.quantity.to_be_bytes());
    place[12..MESSAGE_END].copy_from_slice(&message.lamp);
}

pub fn put_entry(memory: &mut [u8], k: usize, mark: u8, message: &Message) {
    let place = &mut memory[queue_at(k)..][..QUEUE_PLACE];
    put_message(place, mark, message);
    place[MESSAGE_END..].fill(0);
}

pub fn put_sent(memory: &mut [u8], at: usize, cancel: bool, message: &Message) {
    let place = &mut memory[at..][..OUTSTANDING_PLACE];
    put_message(place, cancel.into(), message);
    place[MESSAGE_END..].fill(0);
}

/// Marks queue place `k` as processed, with the state before it.
pub fn put_processed(memory: &mut [u8], k: usize, before: &State) {
    let place = &mut memory[queue_at(k)..][..QUEUE_PLACE];
    place[0] = PROCESSED;
    place[MESSAGE_END..BEFORE_END].copy_from_slice(&state_bytes(before));
}

/// Marks queue place `k` as pending, with no state.
pub fn put_pending(memory: &mut [u8], k: usize) {
    let place = &mut memory[queue_at(k)..][..QUEUE_PLACE];
    place[0] = PENDING;
    place[MESSAGE_END..BEFORE_END].fill(0);
}
