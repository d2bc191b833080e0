//! Balances of records: held after each commit of the runs, beside a count by the states; and asked of records with other states, from other
//! opening stocks, and of spoiled ones.

use crate::compare::{check_number, Comparison};
use crate::seen::{event, split};
use crate::tally::Situation;
use crate::{hostile, stocks, Wrong};
use interface::{Balance, BALANCE_FIGURES, MOST_AT_ONCE, MOST_STOCK, STATE_LENGTH};
use peer::balance;
use peer::frame::Sense;
use peer::generator::Generator;
use peer::model::{Done, Hour, Kind, State};
use peer::record::{self, Stock};
use peer::refusal::Refusal;

/// Opening stocks in their range and above it.
const OPENING_STOCKS: [u32; 8] =
    [0, 1, 2, MOST_AT_ONCE - 1, MOST_AT_ONCE, MOST_AT_ONCE + 1, MOST_STOCK, u32::MAX];

/// A gateway's stock book, kept by the states of the events that it commits: a Request found stock where the stock fell.
#[derive(Clone, Copy, Debug)]
pub struct Book {
    opening_stock: u32,
    balance: Balance,
    is_empty: bool,
    found_no_stock: bool,
    /// The hour of the last Restock.
    restocked: Option<Hour>,
    /// Whether a Request shares its hour with a Restock.
    shares_hour: bool,
}

impl Book {
    /// Before the first event.
    pub fn new(opening_stock: u32) -> Book {
        Book {
            opening_stock,
            balance: Balance { stock: opening_stock.into(), ..Balance::default() },
            is_empty: true,
            found_no_stock: false,
            restocked: None,
            shares_hour: false,
        }
    }

    /// Adds the next committed event.
    pub fn add(&mut self, done: &Done) {
        let Done { message, after } = done;
        let stock = u64::from(after.stock);
        let fell = stock < self.balance.stock;
        self.is_empty = false;
        match message.kind {
            Kind::Failure | Kind::Delivery => {}
            Kind::Restock => {
                self.balance.received += u64::from(message.quantity);
                self.restocked = Some(message.hour);
            }
            Kind::Request => {
                self.balance.served += u64::from(fell);
                self.found_no_stock |= !fell;
                self.shares_hour |= self.restocked == Some(message.hour);
            }
        }
        self.balance.stock = stock;
    }

    /// Holds that the record of these events has the figures of the book, and that they balance.
    pub fn hold(&self, record: &[u8], comparison: &mut Comparison) -> Result<(), Wrong> {
        let found = taken(record, self.opening_stock, comparison)?;
        if found != self.balance || !found.balances(self.opening_stock) {
            return Err(format!("balance of {record:?}: {found:?}, by its states {self:?}"));
        }
        for situation in self.situations() {
            comparison.tally.count_situation(situation);
        }
        Ok(())
    }

    /// What is to be counted of the balance when it is held.
    fn situations(&self) -> Vec<Situation> {
        let is_above = self.balance.stock > MOST_AT_ONCE.into();
        met(&[
            (self.is_empty, Situation::BalancesHeldBeforeTheFirstCommit),
            (self.found_no_stock, Situation::BalancesHeldWithARequestThatFoundNoStock),
            (self.shares_hour, Situation::BalancesHeldWithARequestInTheHourOfARestock),
            (is_above, Situation::BalancesHeldWithAStockAbove65535),
        ])
    }
}

/// The balance of a record that must be taken.
fn taken(record: &[u8], opening_stock: u32, comparison: &mut Comparison) -> Result<Balance, Wrong> {
    let (number, found) = comparison.balance(record, opening_stock, BALANCE_FIGURES)?;
    found.ok_or_else(|| format!("balance of {record:?}: answered with {number}"))
}

/// Holds that the balance of a record is this one.
fn expect(
    expected: Balance,
    record: &[u8],
    opening_stock: u32,
    comparison: &mut Comparison,
) -> Result<(), Wrong> {
    let found = taken(record, opening_stock, comparison)?;
    if found != expected {
        let from = format!("from {opening_stock}, {} bytes of record", record.len());
        return Err(format!("{from}: {found:?} in place of {expected:?}"));
    }
    Ok(())
}

/// Balances of a committed record with other states, and of spoiled ones.
pub fn of_record(
    record: &[u8],
    generator: &mut Generator,
    comparison: &mut Comparison,
) -> Result<(), Wrong> {
    with_other_states(record, generator, comparison)?;
    for _ in 0..30 {
        let spoiled = hostile::spoiled_record(generator, split(record), STATE_LENGTH);
        let opening_stock = generator.pick(&OPENING_STOCKS);
        comparison.balance(&spoiled, opening_stock, generator.below(6).into())?;
    }
    Ok(())
}

/// Of the states only the last stock counts; which Requests found stock is told by the events alone.
fn with_other_states(
    record: &[u8],
    generator: &mut Generator,
    comparison: &mut Comparison,
) -> Result<(), Wrong> {
    let opening_stock = generator.pick(&[0, 1, 2, MOST_AT_ONCE]);
    let mut expected = taken(record, opening_stock, comparison)?;
    let mut events = split(record);
    for event in &mut events {
        let (_, state) = event.split_last_chunk_mut::<STATE_LENGTH>().expect("a state");
        *state = [0; STATE_LENGTH].map(|_| generator.byte());
        expected.stock = u32::from_be_bytes([state[0], state[1], state[2], state[3]]).into();
    }
    expect(expected, &events.concat(), opening_stock, comparison)
}

/// An event of each kind with each of its bytes set to other values, with another event before it, whole and with a cut state, and with
/// enough figures lent and too few; and each length of a record.
pub fn of_every_byte(comparison: &mut Comparison) -> Result<(), Wrong> {
    let events = [0, 1, 2, 3].map(|kind| event(kind, Stock::New));
    for event in &events {
        for record in hostile::every_byte_changed(event, &events[3], STATE_LENGTH) {
            comparison.balance(&record, 1, BALANCE_FIGURES + 1)?;
            comparison.balance(&record[..record.len() - 1], 1, BALANCE_FIGURES - 1)?;
        }
    }
    let whole = events.concat();
    for length in 0..=whole.len() {
        for count in [0, BALANCE_FIGURES] {
            comparison.balance(&whole[..length], MOST_AT_ONCE, count)?;
        }
    }
    Ok(())
}

/// An opening stock above 65,535 is refused before all else, a record before too few figures.
pub fn from_opening_stocks(comparison: &mut Comparison) -> Result<(), Wrong> {
    let whole = [3, 1, 1].map(|kind| event(kind, Stock::New)).concat();
    let cut = &whole[..whole.len() - 1];
    for opening_stock in OPENING_STOCKS {
        for (record, of_record) in [(&[][..], 0), (&[9], 11), (&whole, 0), (cut, 11)] {
            check_first_refusal(record, opening_stock, of_record, comparison)?;
        }
    }
    Ok(())
}

/// Whatever is lent, the first refusal is answered; `of_record` is the number of the record's own, or 0.
fn check_first_refusal(
    record: &[u8],
    opening_stock: u32,
    of_record: u32,
    comparison: &mut Comparison,
) -> Result<(), Wrong> {
    for count in 0..=BALANCE_FIGURES + 2 {
        let expected = match of_record {
            _ if opening_stock > MOST_AT_ONCE => 8,
            0 if count < BALANCE_FIGURES => 5,
            number => number,
        };
        let (number, _) = comparison.balance(record, opening_stock, count)?;
        check_number(number, expected)?;
    }
    Ok(())
}

/// Requests where the state before tells of stock and there is none, and where it tells of none and there is.
pub fn against_the_states(comparison: &mut Comparison) -> Result<(), Wrong> {
    let record = [request(9), request(9), restock(2, 0), request(0), request(0), request(7)];
    for (opening_stock, served) in [(0, 2), (1, 3), (2, 4), (3, 5), (4, 5)] {
        let expected = Balance { received: 2, served, stock: 7 };
        expect(expected, &record.concat(), opening_stock, comparison)?;
    }
    Ok(())
}

/// Restocks that bring 2^32 drivers and more, as no gateway has them: neither what was received nor what is followed has only 32 bits.
pub fn past_32_bits(comparison: &mut Comparison) -> Result<(), Wrong> {
    for (restocks, opening_stock) in [(65_537, 0), (65_537, 1), (65_537, 2), (65_538, 0)] {
        let record = [restock(u16::MAX, 7).repeat(restocks), request(7).repeat(2)].concat();
        let received = restocks as u64 * u64::from(u16::MAX);
        let expected = Balance { received, served: 2, stock: 7 };
        expect(expected, &record, opening_stock, comparison)?;
    }
    Ok(())
}

/// A Restock with this stock in the state after it.
fn restock(quantity: u16, stock: u32) -> Vec<u8> {
    [stocks::restock(5, quantity), state(stock)].concat()
}

/// A Request with this stock in the state after it.
fn request(stock: u32) -> Vec<u8> {
    [stocks::request(Sense::Plain, 5), state(stock)].concat()
}

fn state(stock: u32) -> Vec<u8> {
    record::state_bytes(&State { stock, ..State::default() })
}

/// What is to be counted of a balance with so many figures lent, beside its answer; the second implementation found this.
pub fn situations(
    record: &[u8],
    count: usize,
    found: Result<balance::Book, Refusal>,
) -> Vec<Situation> {
    match found {
        Ok(book) => met(&[(!book.balances(), Situation::BalancesThatDoNotHold)]),
        Err(Refusal::Setting) => {
            let is_bad = record::read(record, Stock::New).is_err();
            met(&[(is_bad, Situation::BalancesOfABadRecordFromTooMuchStock)])
        }
        Err(Refusal::NoRoom) => vec![],
        Err(refusal) => {
            let are_few = count < BALANCE_FIGURES;
            met(&[
                (refusal == Refusal::CutState, Situation::BalancesOfACutState),
                (are_few, Situation::BalancesOfABadRecordWithTooFewFigures),
            ])
        }
    }
}

/// The situations that are met.
fn met(situations: &[(bool, Situation)]) -> Vec<Situation> {
    situations.iter().filter(|(is_met, _)| *is_met).map(|&(_, situation)| situation).collect()
}

#[cfg(test)]
mod tests {
    use super::*;
    use peer::model::Message;

    fn done(hour: Hour, kind: Kind, quantity: u16, stock: u32) -> Done {
        let message = Message { hour, kind, origin: 0, lamp: [b'L'; 18], quantity, from: 0, to: 0 };
        Done { message, after: State { stock, ..State::default() } }
    }

    /// The book of these events, each with its hour, kind, quantity and the stock after it, and what is counted of it.
    fn book(opening_stock: u32, events: &[(Hour, Kind, u16, u32)]) -> (Balance, Vec<Situation>) {
        let mut book = Book::new(opening_stock);
        for &(hour, kind, quantity, stock) in events {
            book.add(&done(hour, kind, quantity, stock));
        }
        (book.balance, book.situations())
    }

    #[test]
    fn the_states_tell_what_was_served() {
        let events = [
            (1, Kind::Failure, 0, 1),
            (2, Kind::Request, 0, 0),
            (3, Kind::Request, 0, 0),
            (4, Kind::Restock, 65_535, 65_535),
            (4, Kind::Delivery, 0, 65_535),
            (5, Kind::Restock, 3, 65_538),
            (5, Kind::Request, 0, 65_537),
        ];
        let none = Situation::BalancesHeldWithARequestThatFoundNoStock;
        let shared = Situation::BalancesHeldWithARequestInTheHourOfARestock;
        let above = Situation::BalancesHeldWithAStockAbove65535;
        let empty = vec![Situation::BalancesHeldBeforeTheFirstCommit];
        assert_eq!(book(1, &[]), (Balance::of([0, 0, 1]), empty));
        assert_eq!(book(1, &events[..2]), (Balance::of([0, 1, 0]), vec![]));
        assert_eq!(book(1, &events[..5]), (Balance::of([65_535, 1, 65_535]), vec![none]));
        let (balance, situations) = book(1, &events);
        assert_eq!(balance, Balance::of([65_538, 2, 65_537]));
        assert_eq!(situations, [none, shared, above]);
        assert!(balance.balances(1));
    }

    #[test]
    fn a_record_that_does_not_balance_is_wrong() {
        let mut book = Book::new(3);
        let event = done(5, Kind::Request, 0, 1);
        book.add(&event);
        let held = book.hold(&record::bytes(&event), &mut Comparison::default());
        assert!(held.is_err_and(|wrong| wrong.contains("by its states")));
    }

    #[test]
    fn situations_are_told_apart() {
        let found = |record: &[u8], opening_stock, count| {
            situations(record, count, balance::balance(record, opening_stock, count))
        };
        let restock = event(3, Stock::New);
        let cut = &restock[..25];
        assert_eq!(found(&[], 5, 3), []);
        assert_eq!(found(&restock, 5, 3), [Situation::BalancesThatDoNotHold]);
        assert_eq!(found(&restock, 5, 2), []);
        assert_eq!(found(&restock, 65_536, 2), []);
        assert_eq!(found(cut, 65_536, 2), [Situation::BalancesOfABadRecordFromTooMuchStock]);
        assert_eq!(found(cut, 5, 3), [Situation::BalancesOfACutState]);
        let few = Situation::BalancesOfABadRecordWithTooFewFigures;
        assert_eq!(found(cut, 5, 2), [Situation::BalancesOfACutState, few]);
        assert_eq!(found(&[9], 5, 0), [few]);
    }
}
