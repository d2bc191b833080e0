//! Events of records, with the new stock and with the old one, and what is to be seen of them: fields that a reader sees, and those that it
//! does not, changed such that the event stays good. Places of bytes are counted from the event's first.

use interface::{MAINTENANCE, NEW_STOCK, OLD_STATE_LENGTH, OLD_STOCK, PURCHASING, STATE_LENGTH};
use peer::generator::Generator;
use peer::record::Stock;

/// The map of a Restock in a record; the other kinds have a lamp and one map.
pub const RESTOCK: u8 = 79;

/// A change of an event, which stays good.
type Change = fn(&mut Generator, &mut [u8]);

/// For each reader a change of all that it is not to see.
pub const UNSEEN: [(u32, Change); 2] =
    [(PURCHASING, change_lamp_and_gateways), (MAINTENANCE, change_quantity_and_state)];

pub const STOCKS: [Stock; 2] = [Stock::New, Stock::Old];

/// The bytes of the counters, behind the stock.
const COUNTERS_LENGTH: usize = 3 * 4;

/// The stock of this number in the call that makes views.
pub fn stock(number: u32) -> Option<Stock> {
    STOCKS.into_iter().find(|&stock| stock_number(stock) == number)
}

pub fn stock_number(stock: Stock) -> u32 {
    match stock {
        Stock::New => NEW_STOCK,
        Stock::Old => OLD_STOCK,
    }
}

pub fn other(stock: Stock) -> Stock {
    match stock {
        Stock::New => Stock::Old,
        Stock::Old => Stock::New,
    }
}

/// The bytes of a state with this stock.
pub fn state_length(stock: Stock) -> usize {
    match stock {
        Stock::New => STATE_LENGTH,
        Stock::Old => OLD_STATE_LENGTH,
    }
}

/// A good event of a kind.
pub fn event(kind: u8, stock: Stock) -> Vec<u8> {
    let head = match kind {
        3 => vec![RESTOCK, kind, 6, 6, 0, 0, 1, 3, 4, 5],
        1 => [&[63, kind, 8, 9, 0, 0, 1, 2, 7][..], b"L00000000000000001"].concat(),
        _ => [&[63, kind, 7, 7, 0, 0, 1, 2, 7][..], b"L00000000000000001"].concat(),
    };
    head.into_iter().chain(1..=state_length(stock) as u8).collect()
}

/// The events of a record that gateways wrote.
pub fn split(mut record: &[u8]) -> Vec<Vec<u8>> {
    let mut events = Vec::new();
    while !record.is_empty() {
        let (event, rest) = record.split_at(if record[0] == RESTOCK { 26 } else { 43 });
        events.push(event.to_vec());
        record = rest;
    }
    events
}

/// The event with the old stock, the low half of the new one.
pub fn old(event: &[u8]) -> Vec<u8> {
    let (frame, state) = event.split_at(event.len() - STATE_LENGTH);
    [frame, &state[STATE_LENGTH - OLD_STATE_LENGTH..]].concat()
}

/// Another lamp, and other gateways as the kind demands.
fn change_lamp_and_gateways(generator: &mut Generator, event: &mut [u8]) {
    let [one, two, three] = [0; 3].map(|_| generator.below(255));
    if event[0] == RESTOCK {
        (event[2], event[3]) = (one, one);
        return;
    }
    (event[2], event[3], event[8]) = match event[1] {
        0 => (one, one, one),
        1 => (one, two, three),
        _ => (one, two, two),
    };
    for byte in &mut event[9..27] {
        *byte = 33 + generator.below(94);
    }
}

/// Another state and quantity, and other gateways, as the kind demands, with the same origin.
fn change_quantity_and_state(generator: &mut Generator, event: &mut [u8]) {
    let [one, two] = [0; 2].map(|_| generator.below(255));
    match event[1] {
        0 => {}
        1 => (event[2], event[3]) = (one, two),
        2 => event[2] = one,
        _ => (event[2], event[3]) = (one, one),
    }
    let from = if event[0] == RESTOCK { 8 } else { 27 };
    event[from..].iter_mut().for_each(|byte| *byte = generator.byte());
}

/// A field that a reader sees.
#[derive(Clone, Copy, Debug)]
pub enum Field {
    Hour,
    Kind,
    Quantity,
    Stock,
    Failed,
    Fitted,
    Short,
    Lamp,
    Origin,
}

/// What each reader is to see.
pub const SEEN: [(u32, &[Field]); 2] = [
    (
        PURCHASING,
        &[
            Field::Hour,
            Field::Kind,
            Field::Quantity,
            Field::Stock,
            Field::Failed,
            Field::Fitted,
            Field::Short,
        ],
    ),
    (MAINTENANCE, &[Field::Hour, Field::Kind, Field::Lamp, Field::Origin]),
];

/// Changes a field of an event with this stock, which stays good; `false` where its kind has no such field, or a Restock would be another
/// kind.
pub fn change_field(
    generator: &mut Generator,
    event: &mut [u8],
    stock: Stock,
    field: Field,
) -> bool {
    let is_restock = event[0] == RESTOCK;
    let state = event.len() - state_length(stock);
    let counters = event.len() - COUNTERS_LENGTH;
    let number = match field {
        Field::Quantity if is_restock => 8..10,
        Field::Stock => state..counters,
        Field::Failed => counters..counters + 4,
        Field::Fitted => counters + 4..counters + 8,
        Field::Short => counters + 8..counters + 12,
        Field::Hour => {
            let hour = u32::from_be_bytes([event[4], event[5], event[6], event[7]]);
            let other = if hour == 0 { 1 } else { hour - 1 };
            event[4..8].copy_from_slice(&other.to_be_bytes());
            return true;
        }
        _ if is_restock => return false,
        Field::Kind => {
            (event[2], event[3]) = (event[8], event[8]);
            event[1] = (event[1] + 1) % 3;
            return true;
        }
        Field::Lamp => {
            let byte = &mut event[9 + usize::from(generator.below(18))];
            *byte = if *byte == 33 { 34 } else { *byte - 1 };
            return true;
        }
        Field::Origin => {
            let other = (event[8] + 1) % 255;
            (event[2], event[3], event[8]) = (other, other, other);
            return true;
        }
        Field::Quantity => return false,
    };
    event[number.start + usize::from(generator.below(number.len() as u8))] ^=
        1 << generator.below(8);
    true
}

#[cfg(test)]
mod tests {
    use super::*;
    use peer::record;
    use std::collections::BTreeSet;

    const KINDS: [u8; 4] = [0, 1, 2, 3];

    /// The bytes in which two events differ; each is good.
    fn changed(one: &[u8], other: &[u8], stock: Stock) -> Vec<usize> {
        assert!([one, other].iter().all(|event| record::read(event, stock).is_ok()), "{other:?}");
        (0..one.len()).filter(|&at| one[at] != other[at]).collect()
    }

    /// The bytes of a good event of each kind that a change reaches.
    fn reached(change: fn(&mut Generator, &mut [u8]), stock: Stock) -> [Vec<usize>; 4] {
        let mut generator = Generator::new(1);
        KINDS.map(|kind| {
            let mut reached = BTreeSet::new();
            for _ in 0..100 {
                let mut other = event(kind, stock);
                change(&mut generator, &mut other);
                reached.extend(changed(&event(kind, stock), &other, stock));
            }
            reached.into_iter().collect()
        })
    }

    #[test]
    fn what_a_reader_does_not_see_is_changed() {
        let lamp_and_gateways: Vec<usize> = [2, 3].into_iter().chain(8..27).collect();
        for (stock, length) in [(Stock::New, 16), (Stock::Old, 14)] {
            let [failure, request, delivery, restock] = reached(change_lamp_and_gateways, stock);
            assert_eq!([failure, request, delivery], [0; 3].map(|_| lamp_and_gateways.clone()));
            assert_eq!(restock, [2, 3]);

            let and_state = |gateways: &[usize], from, to| -> Vec<usize> {
                gateways.iter().copied().chain(from..to).collect()
            };
            let [failure, request, delivery, restock] = reached(change_quantity_and_state, stock);
            assert_eq!(failure, and_state(&[], 27, 27 + length));
            assert_eq!(request, and_state(&[2, 3], 27, 27 + length));
            assert_eq!(delivery, and_state(&[2], 27, 27 + length));
            assert_eq!(restock, and_state(&[2, 3], 8, 10 + length));
        }
    }

    /// The bytes of an event of a kind that changing each field of a reader reaches, field by field.
    fn reached_by_fields((_, fields): (u32, &[Field]), kind: u8, stock: Stock) -> Vec<Vec<usize>> {
        let mut generator = Generator::new(1);
        let mut reached = |&field: &Field| {
            let mut reached = BTreeSet::new();
            for _ in 0..400 {
                let mut other = event(kind, stock);
                if change_field(&mut generator, &mut other, stock, field) {
                    assert_ne!(event(kind, stock), other);
                    reached.extend(changed(&event(kind, stock), &other, stock));
                }
            }
            reached.into_iter().collect()
        };
        fields.iter().map(&mut reached).collect()
    }

    #[test]
    fn each_seen_field_is_changed() {
        let [purchasing, maintenance] = SEEN;
        let all = |range: std::ops::Range<usize>| range.collect::<Vec<_>>();
        for (stock, width) in [(Stock::New, 4), (Stock::Old, 2)] {
            let state = |from: usize| {
                let failed = from + width;
                let counters =
                    [failed..failed + 4, failed + 4..failed + 8, failed + 8..failed + 12];
                [&[all(from..failed)], &counters.map(all)[..]].concat()
            };
            let delivery = [&[vec![7], vec![1], vec![]], &state(27)[..]].concat();
            assert_eq!(reached_by_fields(purchasing, 2, stock), delivery);
            let restock = [&[vec![7], vec![], vec![8, 9]], &state(10)[..]].concat();
            assert_eq!(reached_by_fields(purchasing, 3, stock), restock);
            let delivery = [vec![7], vec![1], all(9..27), vec![2, 3, 8]];
            assert_eq!(reached_by_fields(maintenance, 2, stock), delivery);
            let restock = [vec![7], vec![], vec![], vec![]];
            assert_eq!(reached_by_fields(maintenance, 3, stock), restock);
        }
    }

    #[test]
    fn an_event_loses_the_high_half_of_its_stock() {
        let event = event(3, Stock::New);
        assert_eq!(old(&event), [&event[..10], &event[12..]].concat());
        assert_eq!(STOCKS.map(stock_number).map(stock), STOCKS.map(Some));
        assert_eq!(stock(2), None);
    }
}
