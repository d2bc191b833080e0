//! Whether lent memory is sound: refusal 10.

use crate::memory::{
    message, state, Header, BEFORE_END, COUNTING, HEADER, IDLE, MESSAGE_END, OUTSTANDING_PLACE,
    PENDING, PROCESSED, QUEUE_PLACE, STOPPED, WAITING,
};
use crate::message::{Kind, Message, State};
use crate::routing;
use interface::{memory_length, MOST_PLACES, MOST_STOCK, NOTHING_DUE};

/// The header of sound memory.
pub fn sound(memory: &[u8]) -> Option<Header> {
    if memory.len() < HEADER {
        return None;
    }
    let header = Header::read(memory);
    let sound = header_sound(&header, memory.len())
        && round_possible(&header)
        && queue_sound(&header, memory)
        && outstanding_sound(&header, memory);
    sound.then_some(header)
}

fn header_sound(header: &Header, length: usize) -> bool {
    let places = 1..=MOST_PLACES as usize;
    header.gateways >= 1
        && header.own < header.gateways
        && header.supplier < header.gateways
        && header.last_hour < NOTHING_DUE
        && places.contains(&header.queue_places)
        && places.contains(&header.outstanding_places)
        && header.hours.in_range()
        && length >= memory_length(header.queue_places as u32, header.outstanding_places as u32)
        && header.phase <= STOPPED
        && header.queued <= header.queue_places
        && header.outstanding <= header.outstanding_places
}

fn round_possible(header: &Header) -> bool {
    let Some(arcs) = routing::arcs(header.gateways.into(), header.own.into()) else {
        return false;
    };
    let (heard, told) = (routing::count(arcs.from), routing::count(arcs.to));
    let one_of_two = header.arrivals == 1 || header.arrivals == 2;
    match header.phase {
        IDLE => header.arrivals == 0 || heard == 2 && one_of_two,
        COUNTING => header.arrivals == 0 && told >= 1,
        _ => told == 2 && one_of_two,
    }
}

fn queue_sound(header: &Header, memory: &[u8]) -> bool {
    let places = &memory[HEADER..][..QUEUE_PLACE * header.queued];
    let mut before: Option<(u8, Message)> = None;
    let mut pending_seen = false;
    let mut stocks = Stocks::default();
    for place in places.as_chunks::<QUEUE_PLACE>().0 {
        let Some(message) = stored_message(header, place) else {
            return false;
        };
        let mark = place[0];
        let saved = state(&place[MESSAGE_END..]);
        let no_state = saved == State::default();
        let mark_fits = match mark {
            PENDING => no_state,
            PROCESSED => !pending_seen,
            WAITING => no_state && message.kind.has_lamp(),
            _ => false,
        };
        if !mark_fits
            || message.to != header.own
            || place[BEFORE_END..] != [0; QUEUE_PLACE - BEFORE_END]
        {
            return false;
        }
        if let Some((mark_before, message_before)) = before {
            let meet = (mark == WAITING) != (mark_before == WAITING) && message_before == message;
            if message_before > message || meet {
                return false;
            }
        }
        pending_seen |= mark == PENDING;
        stocks.add(mark, message.quantity, saved.stock);
        before = Some((mark, message));
    }
    stocks.in_range(header.state.stock)
}

/// What the stocks come to with the Restocks still to be done from them, place by place.
#[derive(Default)]
struct Stocks {
    /// What the Restocks bring, all of them and the pending ones.
    restocked: u32,
    pending: u32,
    /// The most that a saved stock has beyond what the Restocks before its place bring.
    saved_beyond: u32,
}

impl Stocks {
    /// Adds a place; the saved stock is 0 where the place is not processed.
    fn add(&mut self, mark: u8, quantity: u16, saved: u32) {
        self.saved_beyond = self.saved_beyond.max(saved.saturating_sub(self.restocked));
        self.restocked += u32::from(quantity);
        self.pending += if mark == PENDING { quantity.into() } else { 0 };
    }

    /// Whether no stock, held or saved, comes to more than it may have. A saved one with the Restocks from its place on is what it has
    /// beyond those before, with all of them; these alone are never too many.
    fn in_range(&self, held: u32) -> bool {
        let within = |stock: u32, restocks: u32| {
            u64::from(stock) + u64::from(restocks) <= u64::from(MOST_STOCK)
        };
        within(held, self.pending) && within(self.saved_beyond, self.restocked)
    }
}

fn outstanding_sound(header: &Header, memory: &[u8]) -> bool {
    let places = &memory[header.outstanding_at()..][..OUTSTANDING_PLACE * header.outstanding];
    places.as_chunks::<OUTSTANDING_PLACE>().0.iter().all(|place| {
        let Some(message) = stored_message(header, place) else {
            return false;
        };
        place[0] <= 1
            && message.kind.has_lamp()
            && message.from == header.own
            && place[MESSAGE_END..] == [0; OUTSTANDING_PLACE - MESSAGE_END]
    })
}

/// The message of a place, if it is of a valid form, number and hour, and the bytes it does not use are zero.
fn stored_message(header: &Header, place: &[u8]) -> Option<Message> {
    let message = message(place)?;
    let unused_zero = match message.kind {
        Kind::Failure | Kind::Request | Kind::Delivery => message.quantity == 0,
        Kind::Restock => message.origin == 0,
        _ => return None,
    };
    let sound = unused_zero
        && place[9] == 0
        && message.lamp_fits()
        && message.gateways_agree()
        && message.numbers_below(header.gateways)
        && message.hour <= header.last_hour;
    sound.then_some(message)
}
