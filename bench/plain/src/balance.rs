//! The balance of a record: one pass that checks and counts.

use crate::record::{check_length, checked, Event};
use crate::refusal;
use interface::{BALANCE_FIGURES, MOST_AT_ONCE, STATE_LENGTH};

/// The number of a Request.
const REQUEST: u8 = 1;

/// Fills in what was received, what was served and the last stock of a record, or gives the number of a refusal.
pub fn balance(record: &[u8], opening_stock: u32, figures: &mut [u64]) -> Result<(), u32> {
    if opening_stock > MOST_AT_ONCE {
        return Err(refusal::SETTING);
    }
    check_length(record)?;
    let (mut received, mut served, mut stock) = (0, 0, opening_stock);
    let mut rest = record;
    while !rest.is_empty() {
        let (event, behind) = checked::<STATE_LENGTH>(rest)?;
        let state = match event {
            Event::Restock(frame, state) => {
                received += u64::from(u16::from_be_bytes([frame[8], frame[9]]));
                state
            }
            Event::OfLamp(frame, state) => {
                let finds_stock = served < u64::from(opening_stock) + received;
                served += u64::from(frame[1] == REQUEST && finds_stock);
                state
            }
        };
        stock = u32::from_be_bytes([state[0], state[1], state[2], state[3]]);
        rest = behind;
    }
    let figures = figures.first_chunk_mut::<BALANCE_FIGURES>().ok_or(refusal::NO_ROOM)?;
    *figures = [received, served, stock.into()];
    Ok(())
}

#[cfg(test)]
mod tests {
    use super::*;

    /// A Request and a Restock of 1,029 drivers, each with a stock of 6 behind it.
    const REQUEST: &[u8; 43] =
        b"\x3f\x01\x07\x07\x00\x00\x01\x02\x07L00000000000000001\0\0\0\x06FGHIJKLMNOPQ";
    const RESTOCK: &[u8; 26] = b"\x4f\x03\x06\x06\x00\x00\x01\x03\x04\x05\0\0\0\x06FGHIJKLMNOPQ";

    /// A Request, a Restock and another Request.
    fn record() -> [u8; 112] {
        let mut record = [0; 112];
        record[..43].copy_from_slice(REQUEST);
        record[43..69].copy_from_slice(RESTOCK);
        record[69..].copy_from_slice(REQUEST);
        record
    }

    /// The figures of a record, with one number more lent.
    fn figures(record: &[u8], opening_stock: u32) -> Result<[u64; 4], u32> {
        let mut figures = [9; 4];
        balance(record, opening_stock, &mut figures).map(|()| figures)
    }

    #[test]
    fn what_came_and_what_left() {
        assert_eq!(figures(&record(), 0), Ok([1029, 1, 6, 9]));
        assert_eq!(figures(&record(), 1), Ok([1029, 2, 6, 9]));
        assert_eq!(figures(&record()[..69], 1), Ok([1029, 1, 6, 9]));
        assert_eq!(figures(&[], 65_535), Ok([0, 0, 65_535, 9]));
    }

    #[test]
    fn a_refusal_writes_nothing() {
        let mut few = [9; 2];
        assert_eq!(balance(&record(), 0, &mut few), Err(refusal::NO_ROOM));
        assert_eq!(balance(&record()[..111], 0, &mut few), Err(refusal::LENGTH));
        assert_eq!(balance(&record()[..111], 65_536, &mut few), Err(refusal::SETTING));
        assert_eq!(few, [9; 2]);
    }
}
