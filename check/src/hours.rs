//! The order within an hour, held to and counted in the events that a gateway commits: a Restock stands before that hour's Requests and
//! Deliveries. All that it brings comes to the shelf, however much is there.

use crate::tally::Situation;
use crate::Wrong;
use peer::model::{Hour, Kind, Message};

/// The most that a stock had before request (f) of document 02.
const MOST_OF_TWO_BYTES: u32 = 65_535;

/// The hour that a gateway's record has come to.
#[derive(Clone, Copy, Debug)]
pub struct HourSoFar {
    hour: Hour,
    stock: u32,
    /// Drivers that were on the shelf when the hour began and still are.
    from_before: u32,
    restocked: bool,
    /// A Request or a Delivery of the hour is committed.
    handed_out: bool,
}

impl HourSoFar {
    /// Before the first event, with the opening stock.
    pub fn new(stock: u32) -> HourSoFar {
        HourSoFar::begun(0, stock)
    }

    fn begun(hour: Hour, stock: u32) -> HourSoFar {
        HourSoFar { hour, stock, from_before: stock, restocked: false, handed_out: false }
    }

    /// Adds the next committed event, with the stock after it; what it shows of the order within its hour and of large stocks.
    pub fn add(&mut self, message: &Message, stock_after: u32) -> Result<Vec<Situation>, Wrong> {
        if message.hour != self.hour {
            *self = HourSoFar::begun(message.hour, self.stock);
        }
        let shown = self.shown(message.kind, stock_after);
        match message.kind {
            Kind::Failure => {}
            Kind::Restock if self.handed_out => {
                return Err(format!(
                    "{message:?} is committed behind a Request or a Delivery of its hour"
                ));
            }
            Kind::Restock if self.stock + u32::from(message.quantity) != stock_after => {
                let stock = self.stock;
                return Err(format!("{message:?} takes a stock of {stock} to {stock_after}"));
            }
            Kind::Restock => self.restocked = true,
            Kind::Request => {
                self.handed_out = true;
                self.from_before = self.from_before.saturating_sub(1);
            }
            Kind::Delivery => self.handed_out = true,
        }
        self.stock = stock_after;
        Ok(shown)
    }

    /// What an event of that kind shows now, with the stock after it.
    fn shown(&self, kind: Kind, stock_after: u32) -> Vec<Situation> {
        let mut shown = Vec::new();
        if stock_after > MOST_OF_TWO_BYTES {
            shown.push(Situation::EventsWithAStockAbove65535);
            if kind == Kind::Restock && self.stock <= MOST_OF_TWO_BYTES {
                shown.push(Situation::RestocksThatTakeAStockAbove65535);
            }
        }
        if self.restocked && kind == Kind::Delivery {
            shown.push(Situation::DeliveriesBehindARestockOfTheirHour);
        }
        if self.restocked && kind == Kind::Request {
            shown.push(Situation::RequestsBehindARestockOfTheirHour);
            if self.stock > 0 && self.from_before == 0 {
                shown.push(Situation::RequestsServedByARestockOfTheirHour);
            }
        }
        shown
    }
}

#[cfg(test)]
mod tests {
    use super::*;

    fn message(hour: Hour, kind: Kind, quantity: u16) -> Message {
        Message { hour, kind, origin: 0, lamp: [0; 18], quantity, from: 0, to: 0 }
    }

    /// What the events show, each with its hour, kind, quantity and the stock after it.
    fn shown(opening: u32, events: &[(Hour, Kind, u16, u32)]) -> Vec<Vec<Situation>> {
        let mut record = HourSoFar::new(opening);
        let add =
            |&(hour, kind, quantity, stock)| record.add(&message(hour, kind, quantity), stock);
        events.iter().map(add).collect::<Result<_, _>>().unwrap()
    }

    #[test]
    fn what_an_hour_shows() {
        let behind = Situation::RequestsBehindARestockOfTheirHour;
        let served = Situation::RequestsServedByARestockOfTheirHour;
        let events = [
            (5, Kind::Failure, 0, 1),
            (5, Kind::Restock, 1, 2),
            (5, Kind::Request, 0, 1),
            (5, Kind::Request, 0, 0),
            (5, Kind::Request, 0, 0),
            (5, Kind::Delivery, 0, 0),
            (6, Kind::Request, 0, 0),
            (6, Kind::Delivery, 0, 0),
        ];
        let expected = [
            vec![],
            vec![],
            vec![behind],
            vec![behind, served],
            vec![behind],
            vec![Situation::DeliveriesBehindARestockOfTheirHour],
            vec![],
            vec![],
        ];
        assert_eq!(shown(1, &events), expected);
    }

    #[test]
    fn a_stock_above_two_bytes_is_shown() {
        let behind = Situation::RequestsBehindARestockOfTheirHour;
        let above = Situation::EventsWithAStockAbove65535;
        let taken_above = Situation::RestocksThatTakeAStockAbove65535;
        let events = [
            (0, Kind::Restock, 1, 65_535),
            (0, Kind::Restock, 2, 65_537),
            (0, Kind::Restock, 0, 65_537),
            (0, Kind::Request, 0, 65_536),
            (0, Kind::Request, 0, 65_535),
            (1, Kind::Restock, 65_535, 131_070),
        ];
        let expected = [
            vec![],
            vec![above, taken_above],
            vec![above],
            vec![above, behind],
            vec![behind],
            vec![above, taken_above],
        ];
        assert_eq!(shown(65_534, &events), expected);
    }

    #[test]
    fn a_restock_of_which_not_all_comes_is_wrong() {
        for (stock, quantity, wrong) in
            [(65_534, 2, 65_535), (65_535, 1, 0), (7, 3, 9), (7, 3, 11), (0, 0, 1)]
        {
            let mut record = HourSoFar::new(stock);
            assert!(record.add(&message(5, Kind::Restock, quantity), wrong).is_err());
            let right = stock + u32::from(quantity);
            record.add(&message(5, Kind::Restock, quantity), right).unwrap();
        }
    }

    #[test]
    fn a_restock_behind_what_is_handed_out_is_wrong() {
        for kind in [Kind::Request, Kind::Delivery] {
            let mut record = HourSoFar::new(1);
            record.add(&message(5, kind, 0), 0).unwrap();
            assert!(record.add(&message(5, Kind::Restock, 1), 1).is_err());
            let mut record = HourSoFar::new(1);
            record.add(&message(5, kind, 0), 0).unwrap();
            record.add(&message(6, Kind::Restock, 1), 1).unwrap();
        }
    }
}
