//! Stocks and the Restocks still to be done from them: what they come to in memory, held to the bound and counted in the calls, and calls
//! made with stocks around it.

use crate::compare::{check_number, Call, Comparison, AMPLE};
use crate::peer_calls::UNSOUND;
use crate::tally::Situation;
use crate::Wrong;
use interface::{
    memory_length, Opening, LONGEST_RECORD, MOST_AT_ONCE, MOST_PLACES, MOST_STOCK, NOTHING_DUE,
};
use peer::frame::{self, Frame, Sense};
use peer::memory::{self, Unsound};
use peer::model::{Hour, Kind, Lamp, Message};
use std::collections::BTreeSet;

/// The header and a queue place, and where in a place the quantity and the stock saved stand.
const HEADER: usize = 256;
const QUEUE_PLACE: usize = 64;
const QUANTITY: usize = 10;
const SAVED: usize = 30;

/// The marks of queue places.
const PENDING: u8 = 0;
const PROCESSED: u8 = 1;

const LAMP: Lamp = *b"L00000000000000001";

/// A stock in a memory.
#[derive(Clone, Copy, Debug, PartialEq, Eq)]
pub struct Stock {
    /// Where it stands.
    at: usize,
    is_held: bool,
    stock: u64,
    /// What the Restocks bring that are still to be done from it.
    to_come: u64,
    /// What all Restocks of the queue bring.
    all: u64,
}

impl Stock {
    /// Writes another one in its place.
    pub fn write(&self, memory: &mut [u8], stock: u32) {
        memory[self.at..self.at + 4].copy_from_slice(&stock.to_be_bytes());
    }

    fn comes_to(&self) -> u64 {
        self.stock + self.to_come
    }

    /// The most that it may be.
    fn most(&self) -> u32 {
        MOST_STOCK - self.to_come as u32
    }

    /// Values around the most that it may be, and around what that would be if all Restocks, or none, were still to be done.
    pub fn around(&self) -> [u32; 7] {
        let with_all = MOST_STOCK - self.all as u32;
        let most = self.most();
        [most - 1, most, most + 1, with_all, with_all + 1, MOST_STOCK, MOST_STOCK + 1]
    }
}

/// The stock held in a memory, and those saved before processed messages. The counts and the messages of the memory are sound.
pub fn all(memory: &[u8]) -> Vec<Stock> {
    let number = |at: usize, length: usize| u64::from(memory::number(&memory[at..at + length]));
    let places = (0..number(10, 2) as usize).map(|place| HEADER + QUEUE_PLACE * place);
    let brings = |at: usize| number(at + QUANTITY, 2);
    let all = places.clone().map(brings).sum();
    let pending = places.clone().filter(|&at| memory[at] == PENDING).map(brings).sum();
    let held = memory::STATE.start;
    let mut stocks =
        vec![Stock { at: held, is_held: true, stock: number(held, 4), to_come: pending, all }];
    let mut to_come = all;
    for place in places {
        if memory[place] == PROCESSED {
            let at = place + SAVED;
            stocks.push(Stock { at, is_held: false, stock: number(at, 4), to_come, all });
        }
        to_come -= brings(place);
    }
    stocks
}

/// What is to be counted of the stocks of a memory that a call was made on, and whether it was refused for them, as it must be exactly where
/// one comes to more than the bound. In memory that is refused for something else they are not looked at.
pub fn situations(memory: &[u8], unsound: Option<Unsound>) -> Result<BTreeSet<Situation>, Wrong> {
    let mut situations = BTreeSet::new();
    let refused = match unsound {
        None => false,
        Some(Unsound::StockHeld | Unsound::StockSaved) => true,
        Some(_) => return Ok(situations),
    };
    let bound = u64::from(MOST_STOCK);
    let stocks = all(memory);
    if refused != stocks.iter().any(|stock| stock.comes_to() > bound) {
        return Err(format!("memory with {stocks:?} is refused for a stock: {refused}"));
    }
    for stock in stocks {
        let (comes_to, with_all) = (stock.comes_to(), stock.stock + stock.all);
        let met = [
            (!refused && comes_to == bound, AT_THE_BOUND),
            (!refused && with_all > bound, OVER_WITH_ALL_RESTOCKS),
            (comes_to == bound + 1, ONE_OVER),
            (comes_to > bound && stock.stock <= bound, OVER_BY_RESTOCKS),
        ];
        let of = |(held, saved)| if stock.is_held { held } else { saved };
        situations.extend(met.into_iter().filter(|(is_met, _)| *is_met).map(|(_, met)| of(met)));
    }
    Ok(situations)
}

/// What is counted of the stock held, and of stocks saved.
const AT_THE_BOUND: (Situation, Situation) =
    (Situation::HeldStocksAtTheBound, Situation::SavedStocksAtTheBound);
const ONE_OVER: (Situation, Situation) =
    (Situation::HeldStocksOneOverTheBound, Situation::SavedStocksOneOverTheBound);
const OVER_BY_RESTOCKS: (Situation, Situation) =
    (Situation::HeldStocksOverTheBoundByRestocks, Situation::SavedStocksOverTheBoundByRestocks);
const OVER_WITH_ALL_RESTOCKS: (Situation, Situation) = (
    Situation::HeldStocksOverTheBoundWithAllRestocks,
    Situation::SavedStocksOverTheBoundWithAllRestocks,
);

/// An opening stock of more than 65,535 is refused, before all that is wrong with the list.
pub fn opening_stocks(comparison: &mut Comparison) -> Result<(), Wrong> {
    for stock in [0, MOST_AT_ONCE, MOST_AT_ONCE + 1, MOST_STOCK, MOST_STOCK + 1, u32::MAX] {
        let opening = opening(1, stock);
        for (list, of_list) in [(&[][..], 0), (&[9], 11)] {
            let expected = if stock <= MOST_AT_ONCE { of_list } else { 8 };
            let mut memory = memory_for(&opening);
            check_number(comparison.set_up(&mut memory, list, &opening)?, expected)?;
        }
    }
    Ok(())
}

/// The opening stock and the opening list that bring the most: every stock comes to the bound, held and saved, before, while and after the
/// Restocks are done, and what is committed has all of it.
pub fn most(comparison: &mut Comparison) -> Result<(), Wrong> {
    let restocks: Vec<u8> = (1..=MOST_PLACES).flat_map(|hour| restock(hour, u16::MAX)).collect();
    let mut memory = set_up(comparison, MOST_PLACES, MOST_AT_ONCE, &restocks)?;
    for more in [0, 1, 299, 211, 1] {
        let (answer, _) = comparison.call(Call::Work { budget: more }, &mut memory, 0)?;
        check_number(answer.number, 0)?;
        let stocks = all(&memory);
        for number in [0, 1, stocks.len() / 2, stocks.len() - 1] {
            stocks.get(number).map_or(Ok(()), |stock| around(comparison, &memory, stock))?;
        }
    }
    let update = frame::write(&Frame::Update { from: 0, to: 1, hour: NOTHING_DUE });
    comparison.call(Call::Take { frame: &update }, &mut memory, 0)?;
    for number in 1..=MOST_PLACES {
        let (answer, event) = comparison.call(Call::Commit, &mut memory, LONGEST_RECORD)?;
        check_number(answer.number, 0)?;
        let stock = MOST_AT_ONCE * (1 + number);
        let state = [stock, 0, 0, 0].map(u32::to_be_bytes).concat();
        if event != [restock(number, u16::MAX), state].concat() {
            return Err(format!("{event:?} is committed, with a stock of {stock} expected"));
        }
    }
    Ok(())
}

/// What a queue has, hour by hour from 1 on: the quantities of Restocks, messages that bring nothing, and a cancel that waits.
const QUEUE: [Place; 8] = [
    Place::Restock(300),
    Place::Waiting,
    Place::Request,
    Place::Restock(u16::MAX),
    Place::Restock(0),
    Place::Request,
    Place::Restock(7),
    Place::Request,
];

#[derive(Clone, Copy)]
enum Place {
    Restock(u16),
    Request,
    Waiting,
}

/// Stocks around the bound, held and saved, in a queue in which Restocks are done and pending.
pub fn around_the_bound(comparison: &mut Comparison) -> Result<(), Wrong> {
    let (mut list, mut taken) = (Vec::new(), Vec::new());
    for (hour, place) in (1..).zip(QUEUE) {
        match place {
            Place::Restock(quantity) => list.extend(restock(hour, quantity)),
            Place::Request => taken.push(request(Sense::Plain, hour)),
            Place::Waiting => taken.push(request(Sense::Cancel, hour)),
        }
    }
    let mut memory = set_up(comparison, QUEUE.len() as u32 + 1, 2, &list)?;
    for frame in taken {
        let (answer, _) = comparison.call(Call::Take { frame: &frame }, &mut memory, AMPLE)?;
        check_number(answer.number, 0)?;
    }
    let update = frame::write(&Frame::Update { from: 0, to: 1, hour: 1 });
    comparison.call(Call::Take { frame: &update }, &mut memory, 0)?;
    loop {
        all(&memory).iter().try_for_each(|stock| around(comparison, &memory, stock))?;
        let (answer, _) = comparison.call(Call::Work { budget: 1 }, &mut memory, AMPLE)?;
        match answer.number {
            0 => {}
            6 => return Ok(()),
            number => return Err(format!("work of a Restock or a Request answered {number}")),
        }
    }
}

/// Makes every call on copies of a memory in which one of its stocks is about as large as it may be, or far from it.
fn around(comparison: &mut Comparison, memory: &[u8], stock: &Stock) -> Result<(), Wrong> {
    for value in stock.around().into_iter().chain([0, u32::MAX]) {
        let mut memory = memory.to_vec();
        stock.write(&mut memory, value);
        let unsound = value > stock.most();
        let early = request(Sense::Plain, 1);
        let calls = [
            Call::Work { budget: 0 },
            Call::Work { budget: 600 },
            Call::Take { frame: &early },
            Call::Take { frame: &[] },
            Call::Start,
            Call::Commit,
        ];
        let mut numbers = vec![comparison.agreed_time(&memory)?.number];
        for call in calls {
            numbers.push(comparison.would_answer(call, &memory)?);
        }
        if numbers.iter().any(|&number| (number == UNSOUND) != unsound) {
            return Err(format!("with {value} in the place of {stock:?}: {numbers:?}"));
        }
    }
    Ok(())
}

/// A gateway just set up.
fn set_up(
    comparison: &mut Comparison,
    queue_places: u32,
    stock: u32,
    list: &[u8],
) -> Result<Vec<u8>, Wrong> {
    let opening = opening(queue_places, stock);
    let mut memory = memory_for(&opening);
    check_number(comparison.set_up(&mut memory, list, &opening)?, 0)?;
    Ok(memory)
}

fn memory_for(opening: &Opening) -> Vec<u8> {
    vec![0x5a; memory_length(opening.queue_places, opening.outstanding_places)]
}

/// Gateway 1 of two with so many queue places.
fn opening(queue_places: u32, stock: u32) -> Opening {
    Opening {
        gateways: 2,
        own: 1,
        supplier: 0,
        stock,
        last_hour: 1_000,
        queue_places,
        outstanding_places: 20,
        request_hours: 1,
        delivery_hours: 24,
        life_hours: 500,
    }
}

/// The frame of a Restock of gateway 1.
pub fn restock(hour: Hour, quantity: u16) -> Vec<u8> {
    let kind = Kind::Restock;
    let message = Message { hour, kind, origin: 0, lamp: [0; 18], quantity, from: 1, to: 1 };
    frame::write(&Frame::Event { sense: Sense::Plain, message })
}

/// The frame of a Request of gateway 0 to gateway 1, or one that goes with it.
pub fn request(sense: Sense, hour: Hour) -> Vec<u8> {
    let kind = Kind::Request;
    let message = Message { hour, kind, origin: 0, lamp: LAMP, quantity: 0, from: 0, to: 1 };
    frame::write(&Frame::Event { sense, message })
}

#[cfg(test)]
mod tests {
    use super::*;

    /// A memory with this stock and places of these marks, quantities and saved stocks; nothing else in it counts here.
    fn memory_of(held: u32, places: &[(u8, u16, u32)]) -> Vec<u8> {
        let mut memory = vec![0; HEADER + QUEUE_PLACE * places.len()];
        memory[11] = places.len() as u8;
        memory[memory::STATE.start..][..4].copy_from_slice(&held.to_be_bytes());
        for (place, (mark, quantity, saved)) in memory[HEADER..].chunks_mut(QUEUE_PLACE).zip(places)
        {
            place[0] = *mark;
            place[10..12].copy_from_slice(&quantity.to_be_bytes());
            place[30..34].copy_from_slice(&saved.to_be_bytes());
        }
        memory
    }

    #[test]
    fn what_is_still_to_come() {
        let places = [(1, 100, 5), (2, 0, 0), (1, 0, 6), (1, 20, 7), (0, 3, 0), (0, 4, 0)];
        let stocks = all(&memory_of(9, &places));
        let found: Vec<_> =
            stocks.iter().map(|stock| (stock.is_held, stock.stock, stock.to_come)).collect();
        assert_eq!(found, [(true, 9, 7), (false, 5, 127), (false, 6, 27), (false, 7, 27)]);
        assert!(stocks.iter().all(|stock| stock.all == 127));
    }

    #[test]
    fn stocks_are_held_to_the_bound() {
        let places = |saved| [(1, 100, 0), (1, 20, saved), (0, 3, 0)];
        let found = |held, saved, unsound| {
            let found = situations(&memory_of(held, &places(saved)), unsound);
            found.ok().map(|met| met.into_iter().collect::<Vec<_>>())
        };
        assert_eq!(found(9, 9, None), Some(vec![]));
        assert_eq!(found(9, 9, Some(Unsound::Order)), Some(vec![]));
        assert_eq!(found(9, 9, Some(Unsound::StockHeld)), None);
        let (at, over) = (MOST_STOCK - 3, MOST_STOCK - 2);
        assert_eq!(found(at, 9, None), Some(vec![AT_THE_BOUND.0, OVER_WITH_ALL_RESTOCKS.0]));
        assert_eq!(found(over, 9, None), None);
        let one_over = Some(vec![ONE_OVER.0, OVER_BY_RESTOCKS.0]);
        assert_eq!(found(over, 9, Some(Unsound::StockHeld)), one_over);
        assert_eq!(found(u32::MAX, 9, Some(Unsound::StockHeld)), Some(vec![]));
        let (at, over) = (MOST_STOCK - 23, MOST_STOCK - 22);
        assert_eq!(found(9, at, None), Some(vec![AT_THE_BOUND.1, OVER_WITH_ALL_RESTOCKS.1]));
        assert_eq!(found(9, over, None), None);
        let one_over = Some(vec![ONE_OVER.1, OVER_BY_RESTOCKS.1]);
        assert_eq!(found(9, over, Some(Unsound::StockSaved)), one_over);
    }
}
