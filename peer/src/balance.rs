//! The balance of a shelf, by request (g) of document 02: the opening stock and the quantities of all committed Restocks are the Requests
//! that found stock and the stock in the last record. Which Requests found stock is told by the events alone, followed from the opening stock.

use crate::model::{Done, Kind, MOST_OPENING_STOCK};
use crate::record::{self, Stock};
use crate::refusal::Refusal;

/// How many figures a balance has.
const FIGURES: usize = 3;

/// The stock book of a gateway.
#[derive(Clone, Copy, Debug, PartialEq, Eq)]
pub struct Book {
    opening_stock: u32,
    /// The quantities of all Restocks so far.
    pub received: u64,
    /// Requests that found stock so far.
    pub served: u64,
    /// The stock in the last record, before the first the opening stock.
    pub stock: u32,
}

impl Book {
    /// Before the first event.
    pub fn new(opening_stock: u32) -> Book {
        Book { opening_stock, received: 0, served: 0, stock: opening_stock }
    }

    /// Adds the next event of the record.
    pub fn add(&mut self, done: &Done) {
        match done.message.kind {
            Kind::Restock => self.received += u64::from(done.message.quantity),
            Kind::Request if self.on_the_shelf() > 0 => self.served += 1,
            Kind::Request | Kind::Failure | Kind::Delivery => {}
        }
        self.stock = done.after.stock;
    }

    /// What the events have left of the opening stock and all that came.
    fn on_the_shelf(&self) -> u64 {
        u64::from(self.opening_stock) + self.received - self.served
    }

    pub fn balances(&self) -> bool {
        self.on_the_shelf() == u64::from(self.stock)
    }
}

/// The book of a whole record, where so many figures can be written.
pub fn balance(record: &[u8], opening_stock: u32, room: usize) -> Result<Book, Refusal> {
    if opening_stock > MOST_OPENING_STOCK {
        return Err(Refusal::Setting);
    }
    record::check_length(record)?;
    let mut book = Book::new(opening_stock);
    record::read(record, Stock::New)?.iter().for_each(|done| book.add(done));
    if room < FIGURES {
        return Err(Refusal::NoRoom);
    }
    Ok(book)
}

#[cfg(test)]
mod tests {
    use super::*;
    use crate::forecast;
    use crate::model::{Message, State};
    use crate::queue;

    fn done(kind: Kind, quantity: u16, stock: u32) -> Vec<u8> {
        let lamp = if kind == Kind::Restock { [0; 18] } else { *b"L00000000000000001" };
        let message = Message { hour: 5, kind, origin: 0, lamp, quantity, from: 0, to: 0 };
        record::bytes(&Done { message, after: State { stock, ..State::default() } })
    }

    /// Received, served and the last stock.
    fn figures(record: &[u8], opening_stock: u32) -> (u64, u64, u32) {
        let Book { received, served, stock, .. } = balance(record, opening_stock, 3).unwrap();
        (received, served, stock)
    }

    /// What is on the shelf is followed: the states here tell of other stocks.
    #[test]
    fn requests_are_counted_by_following_the_events() {
        let record = [
            done(Kind::Request, 0, 9),
            done(Kind::Failure, 0, 9),
            done(Kind::Request, 0, 8),
            done(Kind::Restock, 2, 0),
            done(Kind::Delivery, 0, 0),
            done(Kind::Request, 0, 0),
            done(Kind::Request, 0, 0),
            done(Kind::Request, 0, 77),
        ]
        .concat();
        assert_eq!(figures(&record, 0), (2, 2, 77));
        assert_eq!(figures(&record, 1), (2, 3, 77));
        assert_eq!(figures(&record, 3), (2, 5, 77));
        assert_eq!(figures(&record, 65_535), (2, 5, 77));
        assert!(!balance(&record, 3, 3).unwrap().balances());
        assert_eq!(figures(&[], 65_535), (0, 0, 65_535));
    }

    /// What is on the shelf has more than 32 bits, and no Restock of a committed record can bring so much.
    #[test]
    fn nothing_wraps() {
        let record = [done(Kind::Restock, 65_535, 7).repeat(65_537), done(Kind::Request, 0, 7)];
        assert_eq!(figures(&record.concat(), 1), (u32::MAX.into(), 1, 7));
    }

    #[test]
    fn the_records_of_the_single_queue_balance() {
        let setups = forecast::example();
        let figures = [(0, 0, 0), (0, 1, 0)];
        for ((record, setup), expected) in queue::records(&setups).iter().zip(&setups).zip(figures)
        {
            let mut book = Book::new(setup.stock);
            assert!(book.balances());
            for done in record {
                book.add(done);
                assert!(book.balances());
            }
            assert_eq!((book.received, book.served, book.stock), expected);
        }
    }

    #[test]
    fn the_order_of_refusals() {
        let good = done(Kind::Restock, 1, 1);
        let bad = [&good[..], &[9]].concat();
        for opening_stock in [65_536, u32::MAX] {
            for record in [&[][..], &good, &bad] {
                assert_eq!(balance(record, opening_stock, 0), Err(Refusal::Setting));
            }
        }
        for room in 0..4 {
            let refused = balance(&bad, 65_535, room).map_err(Refusal::number);
            assert_eq!(refused, Err(11));
            assert_eq!(balance(&good[..25], 0, room), Err(Refusal::CutState));
            let refused = balance(&good, 65_535, room).err();
            assert_eq!(refused, (room < 3).then_some(Refusal::NoRoom));
        }
    }
}
