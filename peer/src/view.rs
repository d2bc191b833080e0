//! Views of a record, by request (c) of document 02: what purchasing sees of it, and what maintenance does. Of a record with the old stock,
//! of which request (f) tells, the stock has four bytes in the view too.

use crate::model::{Done, Kind, Message, State};
use crate::record::{self, Stock};
use crate::refusal::Refusal;

/// Who reads a record.
#[derive(Clone, Copy, Debug, PartialEq, Eq)]
pub enum Reader {
    Purchasing,
    Maintenance,
}

impl Reader {
    fn of(number: u32) -> Option<Reader> {
        match number {
            0 => Some(Reader::Purchasing),
            1 => Some(Reader::Maintenance),
            _ => None,
        }
    }

    /// The fields of an event that the reader sees, in bit order; `None` where the kind lacks the field.
    fn fields(self, done: &Done) -> Vec<Option<Vec<u8>>> {
        let Message { hour, kind, origin, lamp, quantity, .. } = done.message;
        let State { stock, failed, fitted, short } = done.after;
        let is_restock = kind == Kind::Restock;
        let has = |stands: bool, bytes: &[u8]| stands.then(|| bytes.to_vec());
        match self {
            Reader::Purchasing => vec![
                has(true, &hour.to_be_bytes()),
                has(true, &[kind.number()]),
                has(is_restock, &quantity.to_be_bytes()),
                has(true, &stock.to_be_bytes()),
                has(true, &failed.to_be_bytes()),
                has(true, &fitted.to_be_bytes()),
                has(true, &short.to_be_bytes()),
            ],
            Reader::Maintenance => vec![
                has(true, &hour.to_be_bytes()),
                has(true, &[kind.number()]),
                has(!is_restock, &lamp),
                has(!is_restock, &[origin]),
            ],
        }
    }
}

/// What a reader sees of a whole record, with an output of so many bytes; `old_stock` is 1 for a record with the old stock, else 0.
pub fn view(record: &[u8], room: usize, reader: u32, old_stock: u32) -> Result<Vec<u8>, Refusal> {
    let reader = Reader::of(reader).ok_or(Refusal::Setting)?;
    let stock = match old_stock {
        0 => Stock::New,
        1 => Stock::Old,
        _ => return Err(Refusal::Setting),
    };
    record::check_length(record)?;
    let bytes: Vec<u8> =
        record::read(record, stock)?.iter().flat_map(|done| event(&reader.fields(done))).collect();
    if bytes.len() > room {
        return Err(Refusal::NoRoom);
    }
    Ok(bytes)
}

/// The map of these fields, then those that stand.
fn event(fields: &[Option<Vec<u8>>]) -> Vec<u8> {
    let bit = |(place, field): (usize, &Option<Vec<u8>>)| u8::from(field.is_some()) << place;
    let map = fields.iter().enumerate().map(bit).sum();
    let standing = fields.iter().flatten().flatten().copied();
    std::iter::once(map).chain(standing).collect()
}

#[cfg(test)]
mod tests {
    use super::*;

    const AMPLE: usize = 1_000;
    const LAMP: &[u8; 18] = b"L00000000000000001";
    const STATE: [u8; 16] = [1, 2, 3, 4, 5, 6, 7, 8, 9, 10, 11, 12, 13, 14, 15, 16];
    const READERS: [u32; 2] = [0, 1];
    const STOCKS: [u32; 2] = [0, 1];

    /// The state in a record, and what purchasing sees of it.
    fn states(old_stock: u32) -> (Vec<u8>, Vec<u8>) {
        match old_stock {
            0 => (STATE.to_vec(), STATE.to_vec()),
            _ => (STATE[2..].to_vec(), [&[0, 0], &STATE[2..]].concat()),
        }
    }

    fn of_lamp(kind: u8, from: u8, to: u8, origin: u8, old_stock: u32) -> Vec<u8> {
        let (state, _) = states(old_stock);
        [&[63, kind, from, to, 0, 0, 1, 2, origin][..], LAMP, &state].concat()
    }

    fn restock(old_stock: u32) -> Vec<u8> {
        [&[79, 3, 6, 6, 0, 0, 1, 3, 4, 5][..], &states(old_stock).0].concat()
    }

    fn number(record: &[u8], old_stock: u32) -> u32 {
        let numbers = READERS.map(|reader| {
            view(record, AMPLE, reader, old_stock).map_or_else(Refusal::number, |_| 0)
        });
        assert_eq!(numbers[0], numbers[1]);
        numbers[0]
    }

    #[test]
    fn the_fields_of_each_kind() {
        for old in STOCKS {
            let (_, state) = states(old);
            let events =
                [of_lamp(0, 7, 7, 7, old), of_lamp(1, 8, 9, 7, old), of_lamp(2, 8, 7, 7, old)];
            for (kind, event) in events.iter().enumerate() {
                let begin = [0, 0, 1, 2, kind as u8];
                let purchasing = [&[123], &begin[..], &state].concat();
                assert_eq!(view(event, 22, 0, old), Ok(purchasing));
                let maintenance = [&[15], &begin[..], LAMP, &[7]].concat();
                assert_eq!(view(event, 25, 1, old), Ok(maintenance));
            }
            let purchasing = [&[127, 0, 0, 1, 3, 3, 4, 5][..], &state].concat();
            assert_eq!(view(&restock(old), 24, 0, old), Ok(purchasing));
            assert_eq!(view(&restock(old), 6, 1, old), Ok(vec![3, 0, 0, 1, 3, 3]));
        }
    }

    #[test]
    fn events_stand_one_behind_the_other() {
        for old in STOCKS {
            let (failure, restock) = (of_lamp(0, 7, 7, 7, old), restock(old));
            let both = [&failure[..], &restock].concat();
            for reader in READERS {
                let one_by_one =
                    [&failure, &restock].map(|event| view(event, AMPLE, reader, old).unwrap());
                let whole = one_by_one.concat();
                assert_eq!(view(&both, whole.len(), reader, old), Ok(whole.clone()));
                for room in 0..whole.len() {
                    assert_eq!(view(&both, room, reader, old), Err(Refusal::NoRoom));
                }
                assert_eq!(view(&[], 0, reader, old), Ok(vec![]));
            }
        }
    }

    #[test]
    fn another_reader_or_stock_comes_first() {
        let others = [2, 3, 255, 256, u32::MAX];
        for other in others {
            for (reader, old) in [(other, 0), (other, 1), (0, other), (1, other), (other, other)] {
                for record in [&[][..], &[9], &restock(0), &restock(1)] {
                    assert_eq!(view(record, 0, reader, old), Err(Refusal::Setting));
                }
            }
        }
    }

    #[test]
    fn room_comes_last() {
        for old in STOCKS {
            let cut = restock(old).len() - 1;
            for last in [
                vec![9],
                vec![63, 7],
                of_lamp(0, 7, 8, 7, old),
                of_lamp(1, 255, 8, 7, old),
                restock(old)[..cut].to_vec(),
            ] {
                let record = [restock(old), last].concat();
                for reader in READERS {
                    let refusal = view(&record, AMPLE, reader, old).unwrap_err();
                    assert_ne!(refusal, Refusal::NoRoom);
                    assert_eq!(view(&record, 0, reader, old), Err(refusal));
                }
            }
        }
    }

    #[test]
    fn the_first_event_decides() {
        for old in STOCKS {
            let cut_state = restock(old)[..20].to_vec();
            assert_eq!(number(&[of_lamp(1, 255, 8, 7, old), cut_state.clone()].concat(), old), 2);
            assert_eq!(number(&[restock(old), cut_state].concat(), old), 11);
        }
    }

    /// Fewer than sixteen bytes of state are cut, and where the stock is the old one fewer than fourteen.
    #[test]
    fn a_cut_state() {
        for (old, length) in [(0, 16), (1, 14)] {
            for found in 0..length {
                assert_eq!(number(&restock(old)[..10 + found], old), 11);
                assert_eq!(number(&of_lamp(1, 8, 9, 7, old)[..27 + found], old), 11);
            }
            assert_eq!((restock(old).len(), number(&restock(old), old)), (10 + length, 0));
        }
    }
}
