//! Memories in the situations that calls are measured in. All have 512 queue places and 512 outstanding places.

use host::frame::restock;
use host::scenario::{DELIVERY_HOURS, LIFE_HOURS, REQUEST_HOURS};
use interface::{ample_output, memory_length, Calls, Opening, MOST_AT_ONCE, MOST_PLACES};
use library::Library;

/// An output length that is enough for every call.
pub const AMPLE: usize = ample_output(MOST_PLACES);

/// Gateway 1 of two, which has stock, just set up.
pub fn set_up() -> Vec<u8> {
    gateway(2, 1, &[])
}

/// A gateway with an opening list.
pub fn gateway(gateways: u32, own: u32, list: &[u8]) -> Vec<u8> {
    let opening = Opening {
        gateways,
        own,
        supplier: 0,
        stock: 60_000,
        last_hour: 1_000_000,
        queue_places: MOST_PLACES,
        outstanding_places: MOST_PLACES,
        request_hours: REQUEST_HOURS,
        delivery_hours: DELIVERY_HOURS,
        life_hours: LIFE_HOURS,
    };
    let mut memory = vec![0; memory_length(MOST_PLACES, MOST_PLACES)];
    assert_eq!(Library.set_up(&mut memory, list, &opening), 0);
    memory
}

/// So many Requests in the queue, unprocessed, at the hours 10, 20 and so on.
pub fn queued(count: u32) -> Vec<u8> {
    let mut memory = set_up();
    for number in 1..=count {
        take(&mut memory, &request(10 * number, number));
    }
    memory
}

/// So many Requests in the queue, unprocessed, all at hour 10: neighbours differ first at the end of their lamps.
pub fn queued_in_one_hour(count: u32) -> Vec<u8> {
    let mut memory = set_up();
    for number in 1..=count {
        take(&mut memory, &request(10, number));
    }
    memory
}

/// So many Requests in the queue, processed, and all that they sent acknowledged.
pub fn processed(count: u32) -> Vec<u8> {
    let mut memory = queued(count);
    let mut output = vec![0; AMPLE];
    let answer = Library.work(&mut memory, &mut output, count);
    assert_eq!((answer.number, answer.events), (0, count));
    for sent in output[..answer.written].chunks(27) {
        take(&mut memory, &with_sense(sent, 2));
    }
    memory
}

/// So many Restocks in the queue, of the most that one brings, at the hours 10, 20 and so on; the first so many of them processed.
pub fn restocked(count: u32, done: u32) -> Vec<u8> {
    let most = MOST_AT_ONCE as u16;
    let list: Vec<u8> = (1..=count).flat_map(|number| restock(1, 10 * number, most)).collect();
    let mut memory = gateway(2, 1, &list);
    let answer = Library.work(&mut memory, &mut [], done);
    assert_eq!((answer.number, answer.events), (0, done));
    memory
}

/// Processed Requests that all may be committed.
pub fn to_commit(count: u32) -> Vec<u8> {
    let mut memory = processed(count);
    take(&mut memory, &[15, 6, 0, 1, 255, 255, 255, 255]);
    memory
}

/// A Request from gateway 0 to gateway 1.
pub fn request(hour: u32, lamp: u32) -> Vec<u8> {
    let head = [&[63, 1, 0, 1][..], &hour.to_be_bytes(), &[0]].concat();
    [head, format!("L{lamp:017}").into_bytes()].concat()
}

/// The frame of a plain message with a sense: 1 cancel, 2 acknowledgment.
pub fn with_sense(plain: &[u8], sense: u8) -> Vec<u8> {
    [&[plain[0] | 128], &plain[1..], &[sense]].concat()
}

fn take(memory: &mut [u8], frame: &[u8]) {
    let answer = Library.take(memory, frame, &mut vec![0; AMPLE]);
    assert_eq!(answer.number, 0, "{frame:?}");
}
