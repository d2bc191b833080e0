//! What a host may look up in a gateway's memory (docs/ARCHITECTURE.md has the layout): places in use, and what is due.
//! Scheduling and messages rest on it, no result does.

use crate::bytes::{half, word};

/// How many places a gateway has and how many are in use.
#[derive(Clone, Copy, Debug, PartialEq, Eq)]
pub struct Places {
    pub queue: usize,
    pub queue_used: usize,
    pub outstanding: usize,
    pub outstanding_used: usize,
}

impl Places {
    pub fn of(memory: &[u8]) -> Places {
        Places {
            queue: half(memory, 6).into(),
            outstanding: half(memory, 8).into(),
            queue_used: half(memory, 10).into(),
            outstanding_used: half(memory, 12).into(),
        }
    }
}

/// The number of unprocessed messages up to an hour.
pub fn due(memory: &[u8], hour: u32) -> u32 {
    let places = memory[256..].chunks_exact(64).take(half(memory, 10).into());
    let unprocessed = places.filter(|place| place[0] == 0);
    unprocessed.take_while(|place| word(place, 4) <= hour).count() as u32
}
