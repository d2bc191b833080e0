//! The stock book of each gateway, year by year: what was on the shelf and what came is what left and what is on the shelf. The figures are
//! those of the library's call, each time for the record from its first event to a year's end.

use crate::command::Ending;
use crate::figures::{period, YEAR};
use crate::record::Records;
use crate::refusal;
use interface::{Balance, Calls, BALANCE_FIGURES};
use std::collections::BTreeMap;
use std::fmt;

/// The status where a record does not balance.
pub const NOT_BALANCED: u8 = 4;

/// A line of the stock book. The figures of a right call are never less than 0.
#[derive(Clone, Copy, Debug, Default, PartialEq, Eq)]
pub struct Line {
    /// The stock when the year begins.
    pub opening_stock: i128,
    /// Drivers that came to the shelf in the year.
    pub received: i128,
    /// Requests that found stock in it.
    pub served: i128,
    /// The stock at the year's end.
    pub stock: i128,
}

impl Line {
    /// Of the year between two balances that are followed from the record's first event.
    fn between(before: &Balance, after: &Balance) -> Line {
        let more = |after: u64, before: u64| i128::from(after) - i128::from(before);
        Line {
            opening_stock: before.stock.into(),
            received: more(after.received, before.received),
            served: more(after.served, before.served),
            stock: after.stock.into(),
        }
    }

    pub fn balances(&self) -> bool {
        self.opening_stock + self.received == self.served + self.stock
    }

    fn add(&mut self, other: &Line) {
        self.opening_stock += other.opening_stock;
        self.received += other.received;
        self.served += other.served;
        self.stock += other.stock;
    }
}

/// The lines of a year, by gateway and in all.
#[derive(Clone, Debug, PartialEq, Eq)]
pub struct Year {
    /// Counted from 1.
    pub number: u32,
    pub gateways: Vec<Line>,
    pub all: Line,
}

/// A line that does not balance.
#[derive(Clone, Copy, Debug, PartialEq, Eq)]
pub struct Unbalanced {
    pub year: u32,
    pub gateway: usize,
    pub line: Line,
}

impl fmt::Display for Unbalanced {
    fn fmt(&self, formatter: &mut fmt::Formatter) -> fmt::Result {
        let Unbalanced { year, gateway, line } = self;
        let Line { opening_stock, received, served, stock } = line;
        write!(formatter, "gateway {gateway} does not balance in year {year}: ")?;
        write!(formatter, "opening stock {opening_stock} and received {received}, ")?;
        write!(formatter, "but served {served} and stock {stock}")
    }
}

/// The balances of a gateway's record, each followed from its opening stock: before the first event, and at the end of each year in which it
/// has events.
pub struct Balances {
    opening: Balance,
    at_ends: BTreeMap<u32, Balance>,
}

impl Balances {
    /// Those of a record, or why it is refused.
    pub fn of(calls: &impl Calls, record: &[u8], opening_stock: u16) -> Result<Balances, String> {
        let opening = Balance { stock: opening_stock.into(), ..Balance::default() };
        let mut at_ends = BTreeMap::new();
        for (year, end) in ends(record)? {
            at_ends.insert(year, balance(calls, &record[..end], opening_stock)?);
        }
        Ok(Balances { opening, at_ends })
    }

    /// The balance at the end of a year.
    fn at_end(&self, year: u32) -> Balance {
        let last = self.at_ends.range(..=year).next_back();
        last.map_or(self.opening, |(_, &balance)| balance)
    }
}

/// Where the last event of each year ends in a record.
fn ends(record: &[u8]) -> Result<BTreeMap<u32, usize>, String> {
    let mut ends = BTreeMap::new();
    let mut records = Records::new(record);
    while let Some(event) = records.next() {
        let hour = event.map_err(|why| why.to_string())?.event.hour;
        ends.insert(period(hour, YEAR), records.place() as usize);
    }
    Ok(ends)
}

/// The balance of a record, or why it is refused.
fn balance(calls: &impl Calls, record: &[u8], opening_stock: u16) -> Result<Balance, String> {
    let mut figures = [0; BALANCE_FIGURES];
    match calls.balance(record, opening_stock.into(), &mut figures) {
        0 => Ok(Balance::of(figures)),
        number => Err(format!("the balance was answered with {}", refusal::named(number))),
    }
}

/// The stock book of all gateways in these years, which stand in their order.
pub fn years(gateways: &[Balances], numbers: impl Iterator<Item = u32>) -> Vec<Year> {
    let mut before: Vec<Balance> = gateways.iter().map(|balances| balances.opening).collect();
    let year = |number| {
        let after: Vec<Balance> = gateways.iter().map(|balances| balances.at_end(number)).collect();
        let between = before.iter().zip(&after).map(|(before, after)| Line::between(before, after));
        let gateways: Vec<Line> = between.collect();
        before = after;
        let mut all = Line::default();
        gateways.iter().for_each(|line| all.add(line));
        Year { number, gateways, all }
    };
    numbers.map(year).collect()
}

/// The gateways' lines that do not balance.
pub fn unbalanced(years: &[Year]) -> Vec<Unbalanced> {
    let lines = years.iter().flat_map(|&Year { number: year, ref gateways, .. }| {
        gateways.iter().enumerate().map(move |(gateway, &line)| Unbalanced { year, gateway, line })
    });
    lines.filter(|unbalanced| !unbalanced.line.balances()).collect()
}

/// Ends a program that has written a stock book to this directory, where lines of it do not balance.
pub fn check(directory: &str, unbalanced: &[Unbalanced]) -> Result<(), Ending> {
    if unbalanced.is_empty() {
        return Ok(());
    }
    let lines = unbalanced.iter().map(|unbalanced| format!("{directory}: {unbalanced}\n"));
    let advice = "Do not order by these results; docs/OPERATING.md says what to do.";
    Err(Ending::Failed(NOT_BALANCED, lines.collect::<String>() + advice))
}
