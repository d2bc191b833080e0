//! The records of all gateways as one history, in order of the hours.

use crate::events::Unreadable;
use crate::record::{Kind, Record, Records};
use std::cmp::Reverse;
use std::collections::BinaryHeap;
use std::io::Read;

/// Reads several records side by side, always on in the one whose next event is earliest by the hour and the kinds' order within it.
pub struct History<R> {
    records: Vec<Records<R>>,
    /// The next event of each record that is not at its end.
    next: Vec<Option<Record>>,
    order: BinaryHeap<Reverse<(u32, Kind, usize)>>,
}

/// A record that cannot be read, and whose it is.
#[derive(Debug)]
pub struct BadRecord {
    pub gateway: usize,
    pub why: Unreadable,
}

impl<R: Read> History<R> {
    /// The records of gateways 0, 1 and so on.
    pub fn new(inputs: impl IntoIterator<Item = R>) -> Result<History<R>, BadRecord> {
        let records: Vec<Records<R>> = inputs.into_iter().map(Records::new).collect();
        let next = vec![None; records.len()];
        let mut history = History { records, next, order: BinaryHeap::new() };
        for gateway in 0..history.records.len() {
            history.advance(gateway)?;
        }
        Ok(history)
    }

    /// The earliest event that is left, and the gateway that committed it.
    pub fn read(&mut self) -> Result<Option<(usize, Record)>, BadRecord> {
        let Some(Reverse((_, _, gateway))) = self.order.pop() else { return Ok(None) };
        let record = self.next[gateway].take();
        self.advance(gateway)?;
        Ok(record.map(|record| (gateway, record)))
    }

    fn advance(&mut self, gateway: usize) -> Result<(), BadRecord> {
        if let Some(record) = self.records[gateway].next() {
            let record = record.map_err(|why| BadRecord { gateway, why })?;
            self.order.push(Reverse((record.event.hour, record.event.kind, gateway)));
            self.next[gateway] = Some(record);
        }
        Ok(())
    }
}
