//! A record of a megabyte, as a forecast makes it, or made it before the stock had four bytes.

use host::frame::{failure, restock, DELIVERY, FAILURE, REQUEST};
use host::generator::Generator;
use host::record::Stock;
use host::scenario::{DELIVERY_HOURS, REQUEST_HOURS};
use std::collections::BTreeSet;

/// The length that a record is to come near, from below.
const MEGABYTE: usize = 1_000_000;

/// The gateway of the record, which is its own supplier.
const OWN: u8 = 7;

/// The stock that it begins with.
pub const OPENING_STOCK: u32 = 100;

/// Hours at which a Request or a Delivery is due, and the lamps, in event order.
type Due = BTreeSet<(u32, u32)>;

/// What the gateway has, and what it has written.
struct Gateway {
    stock: u32,
    failed: u32,
    fitted: u32,
    short: u32,
    record: Vec<u8>,
    /// The stock that is written, and where each event begins.
    written: Stock,
    begins: Vec<usize>,
}

/// The record of a gateway that is its own supplier, whose lamps fail and whose shelf is filled at drawn hours, and whose drivers outlive
/// the record: as many of its events as a megabyte has room for.
pub fn record(written: Stock) -> Vec<u8> {
    let mut generator = Generator(1);
    let (record, begins) = (Vec::new(), Vec::new());
    let stock = OPENING_STOCK;
    let mut gateway = Gateway { stock, failed: 0, fitted: 0, short: 0, record, written, begins };
    let (mut requests, mut deliveries) = (Due::new(), Due::new());
    let mut lamps = 0;
    for hour in 0.. {
        for _ in 0..generator.below(3) {
            lamps += 1;
            gateway.fail(hour, lamps);
            requests.insert((hour + REQUEST_HOURS, lamps));
        }
        if generator.below(6) == 0 {
            gateway.restock(hour, generator.below(16) as u16);
        }
        while let Some(lamp) = due(&mut requests, hour) {
            let (waiting, hours) = match gateway.serve(hour, lamp) {
                true => (&mut deliveries, DELIVERY_HOURS),
                false => (&mut requests, REQUEST_HOURS),
            };
            waiting.insert((hour + hours, lamp));
        }
        while let Some(lamp) = due(&mut deliveries, hour) {
            gateway.fit(hour, lamp);
        }
        if gateway.record.len() > MEGABYTE {
            break;
        }
    }
    gateway.cut()
}

/// The next lamp whose hour has come.
fn due(waiting: &mut Due, hour: u32) -> Option<u32> {
    let first = waiting.first().copied().filter(|&(due, _)| due == hour)?;
    waiting.remove(&first);
    Some(first.1)
}

impl Gateway {
    fn fail(&mut self, hour: u32, lamp: u32) {
        self.failed += 1;
        self.add(&of_lamp(FAILURE, hour, lamp));
    }

    fn restock(&mut self, hour: u32, quantity: u16) {
        self.stock += u32::from(quantity);
        self.add(&restock(OWN, hour, quantity));
    }

    /// Whether there was a driver for the lamp.
    fn serve(&mut self, hour: u32, lamp: u32) -> bool {
        let served = self.stock > 0;
        match served {
            true => self.stock -= 1,
            false => self.short += 1,
        }
        self.add(&of_lamp(REQUEST, hour, lamp));
        served
    }

    fn fit(&mut self, hour: u32, lamp: u32) {
        self.fitted += 1;
        self.add(&of_lamp(DELIVERY, hour, lamp));
    }

    /// Adds an event's frame and the state after it.
    fn add(&mut self, frame: &[u8]) {
        self.begins.push(self.record.len());
        self.record.extend(frame);
        let left_out = match self.written {
            Stock::New => 0,
            Stock::Old => 2,
        };
        self.record.extend(&self.stock.to_be_bytes()[left_out..]);
        for counter in [self.failed, self.fitted, self.short] {
            self.record.extend(counter.to_be_bytes());
        }
    }

    /// The whole events that a megabyte has room for.
    fn cut(mut self) -> Vec<u8> {
        let end = self.begins.into_iter().rfind(|&begin| begin <= MEGABYTE);
        self.record.truncate(end.unwrap_or(0));
        self.record
    }
}

/// The frame of an event of a kind with a lamp.
fn of_lamp(kind: u8, hour: u32, lamp: u32) -> Vec<u8> {
    let lamp = format!("L{lamp:017}").into_bytes().try_into().expect("eighteen characters");
    let mut frame = failure(OWN, hour, &lamp);
    frame[1] = kind;
    frame
}

#[cfg(test)]
mod tests {
    use super::*;
    use host::record::{Record, Records, KINDS};
    use interface::{Balance, Calls};
    use library::Library;

    #[test]
    fn it_is_a_record_of_a_megabyte_with_all_kinds() {
        for stock in [Stock::New, Stock::Old] {
            let record = record(stock);
            assert!(record.len() <= MEGABYTE && record.len() > MEGABYTE - 43, "{}", record.len());
            let events: Vec<Record> =
                Records::with_stock(&record[..], stock).map(Result::unwrap).collect();
            for kind in KINDS {
                let count = events.iter().filter(|record| record.event.kind == kind).count();
                assert!(count > 1_000, "{count} of {kind}");
            }
        }
    }

    #[test]
    fn it_balances() {
        let mut figures = [0; 3];
        assert_eq!(Library.balance(&record(Stock::New), OPENING_STOCK, &mut figures), 0);
        let balance = Balance::of(figures);
        assert!(balance.balances(OPENING_STOCK) && balance.served > 1_000, "{balance:?}");
    }
}
