//! Views of records: those that the runs commit must be taken, whole and by both readers, with the new stock and with the old one, and
//! spoiled ones are refused alike.

use crate::compare::{check_number, Comparison};
use crate::hostile;
use crate::seen::{
    change_field, event, old, other, split, state_length, stock_number, RESTOCK, SEEN, STOCKS,
    UNSEEN,
};
use crate::tally::Situation;
use crate::Wrong;
use interface::{MAINTENANCE, PURCHASING, STATE_LENGTH};
use peer::generator::Generator;
use peer::record::Stock;
use peer::refusal::Refusal;
use peer::{frame, record, view};

const READERS: [u32; 2] = [PURCHASING, MAINTENANCE];

/// Readers, and stocks, other than 0 and 1.
const OTHERS: [u32; 5] = [2, 3, 255, 256, u32::MAX];

/// The most events of a record of which a view is tried with every length of the output.
const FEW: usize = 3;

/// Views of the committed records of a forecast, and of spoiled ones.
pub fn of_records(
    records: &[Vec<u8>],
    generator: &mut Generator,
    comparison: &mut Comparison,
) -> Result<(), Wrong> {
    for record in records {
        for stock in STOCKS {
            let events = with_stock(record, stock);
            for reader in READERS {
                committed(&events, reader, stock, generator, comparison)?;
            }
            unseen(&events, stock, generator, comparison)?;
            seen(&events, stock, generator, comparison)?;
        }
        old_and_new(record, comparison)?;
    }
    for _ in 0..350 {
        let record = &records[usize::from(generator.half()) % records.len()];
        spoiled(record, generator, comparison)?;
    }
    Ok(())
}

/// The events of a record that gateways wrote, with this stock.
fn with_stock(record: &[u8], stock: Stock) -> Vec<Vec<u8>> {
    let events = split(record);
    match stock {
        Stock::New => events,
        Stock::Old => events.iter().map(|event| old(event)).collect(),
    }
}

/// Of a record with the old stock readers see what they see of the same with the new one.
fn old_and_new(record: &[u8], comparison: &mut Comparison) -> Result<(), Wrong> {
    let mut events = split(record);
    for event in &mut events {
        let state = event.len() - STATE_LENGTH;
        event[state..state + 2].fill(0);
    }
    let olds: Vec<u8> = events.iter().flat_map(|event| old(event)).collect();
    for reader in READERS {
        let seen = taken(&events.concat(), reader, Stock::New, comparison)?;
        if taken(&olds, reader, Stock::Old, comparison)? != seen {
            return Err(format!(
                "reader {reader} sees other things of {olds:?} with its old stock"
            ));
        }
    }
    Ok(())
}

/// A committed record is taken, with an output that is long enough; a shorter one is all that it is refused for.
fn committed(
    events: &[Vec<u8>],
    reader: u32,
    stock: Stock,
    generator: &mut Generator,
    comparison: &mut Comparison,
) -> Result<(), Wrong> {
    let record = &events.concat();
    let length: usize = events.iter().map(|event| seen_length(event, reader)).sum();
    let seen = taken(record, reader, stock, comparison)?;
    if seen.len() != length {
        let found = seen.len();
        return Err(format!("view for {reader} of {record:?}: {found} bytes in place of {length}"));
    }
    let rooms = [length, length + 1, length.saturating_sub(1), 0, below(generator, length + 1)];
    check_rooms(record, length, reader, stock, &rooms, comparison)?;
    let first = below(generator, events.len() + 1);
    let few = &events[first..events.len().min(first + FEW)];
    let length: usize = few.iter().map(|event| seen_length(event, reader)).sum();
    let rooms: Vec<usize> = (0..=length).collect();
    check_rooms(&few.concat(), length, reader, stock, &rooms, comparison)
}

/// What a reader sees of a record that must be taken.
fn taken(
    record: &[u8],
    reader: u32,
    stock: Stock,
    comparison: &mut Comparison,
) -> Result<Vec<u8>, Wrong> {
    let (number, seen) = comparison.view(record, record.len(), reader, stock_number(stock))?;
    check_number(number, 0).map_err(|wrong| format!("view for {reader} of {record:?}: {wrong}"))?;
    Ok(seen)
}

/// Outputs shorter than a view are refused with 5, and no others.
fn check_rooms(
    record: &[u8],
    length: usize,
    reader: u32,
    stock: Stock,
    rooms: &[usize],
    comparison: &mut Comparison,
) -> Result<(), Wrong> {
    for &room in rooms {
        let (number, _) = comparison.view(record, room, reader, stock_number(stock))?;
        let expected = if room < length { 5 } else { 0 };
        check_number(number, expected)
            .map_err(|wrong| format!("view for {reader} with {room} of {length} bytes: {wrong}"))?;
    }
    Ok(())
}

/// The bytes that a reader sees of a committed event, whichever stock it has.
fn seen_length(event: &[u8], reader: u32) -> usize {
    match (reader, event[0] == RESTOCK) {
        (PURCHASING, false) => 22,
        (PURCHASING, true) => 24,
        (_, false) => 25,
        (_, true) => 6,
    }
}

/// What a reader is not to see changes nothing for it: purchasing no lamp and no gateway, maintenance no quantity, no state and no
/// gateway but the origin.
fn unseen(
    events: &[Vec<u8>],
    stock: Stock,
    generator: &mut Generator,
    comparison: &mut Comparison,
) -> Result<(), Wrong> {
    let record = &events.concat();
    for (reader, change) in UNSEEN {
        let mut events = events.to_vec();
        events.iter_mut().for_each(|event| change(generator, event));
        let seen = taken(record, reader, stock, comparison)?;
        if taken(&events.concat(), reader, stock, comparison)? != seen {
            return Err(format!("reader {reader} sees what it is not to see of {record:?}"));
        }
    }
    Ok(())
}

/// Every field that a reader is to see changes something for it.
fn seen(
    events: &[Vec<u8>],
    stock: Stock,
    generator: &mut Generator,
    comparison: &mut Comparison,
) -> Result<(), Wrong> {
    if events.is_empty() {
        return Ok(());
    }
    let record = &events.concat();
    for (reader, fields) in SEEN {
        let seen = taken(record, reader, stock, comparison)?;
        for &field in fields {
            let mut events = events.to_vec();
            let chosen = below(generator, events.len());
            if change_field(generator, &mut events[chosen], stock, field)
                && taken(&events.concat(), reader, stock, comparison)? == seen
            {
                return Err(format!("reader {reader} does not see the {field:?} in {record:?}"));
            }
        }
    }
    Ok(())
}

/// A view of a part of a record in which something is wrong, mostly. At times it is read with the other stock.
fn spoiled(
    record: &[u8],
    generator: &mut Generator,
    comparison: &mut Comparison,
) -> Result<(), Wrong> {
    let stock = generator.pick(&STOCKS);
    let events = with_stock(record, stock);
    let bytes = hostile::spoiled_record(generator, events, state_length(stock));
    let reader = match generator.below(12) {
        0 => generator.pick(&OTHERS),
        _ => generator.pick(&READERS),
    };
    let old_stock = match generator.below(16) {
        0 => generator.pick(&OTHERS),
        1 | 2 => stock_number(other(stock)),
        _ => stock_number(stock),
    };
    let room = match generator.below(4) {
        0 => below(generator, 60),
        1 => below(generator, bytes.len() + 1),
        _ => bytes.len(),
    };
    comparison.view(&bytes, room, reader, old_stock).map(drop)
}

/// An event of each kind with each of its bytes set to other values, with another event before it, whole and with a cut state, and
/// with enough room and too little; each length of a record, also where it is read with the other stock; and readers and stocks other
/// than 0 and 1.
pub fn of_every_byte(comparison: &mut Comparison) -> Result<(), Wrong> {
    for stock in STOCKS {
        let events = [0, 1, 2, 3].map(|kind| event(kind, stock));
        let whole = events.concat();
        for reader in READERS {
            for event in &events {
                of_every_byte_of(event, &events[3], reader, stock, comparison)?;
            }
            for length in 0..=whole.len() {
                for old_stock in [0, 1] {
                    comparison.view(&whole[..length], length, reader, old_stock)?;
                    comparison.view(&whole[..length], 0, reader, old_stock)?;
                }
            }
        }
        for other in OTHERS {
            for (reader, old_stock) in
                [(other, 0), (other, 1), (0, other), (1, other), (other, other)]
            {
                for record in [&[][..], &[0], &whole] {
                    let (number, _) = comparison.view(record, record.len(), reader, old_stock)?;
                    check_number(number, 8)?;
                }
            }
        }
    }
    Ok(())
}

/// An event with each of its bytes set to other values, behind a good one.
fn of_every_byte_of(
    event: &[u8],
    good: &[u8],
    reader: u32,
    stock: Stock,
    comparison: &mut Comparison,
) -> Result<(), Wrong> {
    let old_stock = stock_number(stock);
    for record in hostile::every_byte_changed(event, good, state_length(stock)) {
        comparison.view(&record, record.len(), reader, old_stock)?;
        comparison.view(&record[..record.len() - 1], 0, reader, old_stock)?;
    }
    Ok(())
}

/// What is to be counted of a view of a record with this stock that was refused, beside its answer.
pub fn situations(
    record: &[u8],
    room: usize,
    reader: u32,
    stock: Stock,
    refusal: Refusal,
) -> Vec<Situation> {
    let mut situations = Vec::new();
    if matches!(refusal, Refusal::Setting | Refusal::NoRoom) {
        return situations;
    }
    let (good, bad) = record.split_at(good_length(record, stock));
    if view::view(good, room, reader, stock_number(stock)).is_err() {
        situations.push(Situation::ViewsOfABadEventWithTooLittleRoom);
    }
    let (_, behind) = frame::cut(bad);
    if refusal == Refusal::CutState {
        situations.push(Situation::ViewsOfACutState);
        match (stock, behind.len()) {
            (Stock::New, 15) => situations.push(Situation::ViewsOfAStateOf15Bytes),
            (Stock::Old, 13) => situations.push(Situation::ViewsOfAnOldStateOf13Bytes),
            _ => {}
        }
    }
    match behind.get(state_length(stock)..) {
        // A frame that is cut has nothing behind it.
        None if refusal.number() != 11 => {
            situations.push(Situation::ViewsOfABadFrameWithACutState);
        }
        Some(rest) if ends_in_a_state(rest, stock) => {
            situations.push(Situation::ViewsOfABadEventBeforeACutState);
        }
        _ => {}
    }
    if record::read(record, other(stock)).is_ok() {
        situations.push(match stock {
            Stock::New => Situation::ViewsOfAnOldRecordAsANewOne,
            Stock::Old => Situation::ViewsOfANewRecordAsAnOldOne,
        });
    }
    situations
}

/// The length of the events before the first that is refused.
fn good_length(record: &[u8], stock: Stock) -> usize {
    let mut good = 0;
    while good < record.len() {
        let (frame, _) = frame::cut(&record[good..]);
        let end = good + frame.len() + state_length(stock);
        match record.get(good..end).map(|event| record::read(event, stock)) {
            Some(Ok(_)) => good = end,
            _ => break,
        }
    }
    good
}

/// Whether the last of some events, cut by their maps, has some bytes of a state and not all.
fn ends_in_a_state(mut events: &[u8], stock: Stock) -> bool {
    while !events.is_empty() {
        let (_, behind) = frame::cut(events);
        match behind.get(state_length(stock)..) {
            Some(rest) => events = rest,
            None => return !behind.is_empty(),
        }
    }
    false
}

/// A number below a limit.
fn below(generator: &mut Generator, limit: usize) -> usize {
    usize::from(generator.half()) % limit
}

#[cfg(test)]
mod tests {
    use super::*;

    #[test]
    fn situations_are_told_apart() {
        for stock in STOCKS {
            let refusal = |record: &[u8], room| {
                view::view(record, room, PURCHASING, stock_number(stock)).unwrap_err()
            };
            let found = |record: &[u8], room| {
                situations(record, room, PURCHASING, stock, refusal(record, 1_000))
            };
            let bad = |mut event: Vec<u8>| {
                event[3] ^= 1;
                event
            };
            let good = event(3, stock);
            let [failure, request] = [0, 1].map(|kind| event(kind, stock));
            let one_byte_less = |event: &[u8]| event[..event.len() - 1].to_vec();
            let with_a_cut_state = [good.clone(), bad(failure.clone())[..30].to_vec()].concat();
            assert_eq!(found(&with_a_cut_state, 24), [Situation::ViewsOfABadFrameWithACutState]);
            let before_a_cut_state = [bad(failure.clone()), one_byte_less(&request)].concat();
            assert_eq!(found(&before_a_cut_state, 0), [Situation::ViewsOfABadEventBeforeACutState]);
            let without_room = [good.clone(), bad(failure.clone())].concat();
            assert_eq!(found(&without_room, 23), [Situation::ViewsOfABadEventWithTooLittleRoom]);
            assert_eq!(found(&without_room, 24), []);
            let one_less = match stock {
                Stock::New => Situation::ViewsOfAStateOf15Bytes,
                Stock::Old => Situation::ViewsOfAnOldStateOf13Bytes,
            };
            let cut = [good.clone(), one_byte_less(&failure)].concat();
            assert_eq!(found(&cut, 24), [Situation::ViewsOfACutState, one_less]);
            let cut = [&good[..], &failure[..30]].concat();
            assert_eq!(found(&cut, 24), [Situation::ViewsOfACutState]);
            assert_eq!(situations(&good, 0, PURCHASING, stock, refusal(&good, 0)), []);
            assert_eq!(situations(&without_room, 0, 2, stock, Refusal::Setting), []);
        }
    }

    #[test]
    fn a_record_with_the_other_stock_is_told() {
        let found = |event: &[u8], stock: Stock| {
            let refusal = view::view(event, 100, PURCHASING, stock_number(stock)).unwrap_err();
            situations(event, 100, PURCHASING, stock, refusal)
        };
        let as_new = found(&event(3, Stock::Old), Stock::New);
        assert!(as_new.contains(&Situation::ViewsOfAnOldRecordAsANewOne));
        let as_old = found(&event(3, Stock::New), Stock::Old);
        assert!(as_old.contains(&Situation::ViewsOfANewRecordAsAnOldOne));
    }
}
