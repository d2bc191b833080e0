//! Views of a record: one pass that checks and measures, one that writes.

use crate::record::{check_length, checked, cut, Event};
use crate::refusal;
use interface::{MAINTENANCE, NEW_STOCK, OLD_STATE_LENGTH, OLD_STOCK, PURCHASING, STATE_LENGTH};

/// Writes what a reader sees of a record; how many bytes that is, or the number of a refusal.
pub fn view(record: &[u8], output: &mut [u8], reader: u32, old_stock: u32) -> Result<usize, u32> {
    check_length(record)?;
    match old_stock {
        NEW_STOCK => view_by::<STATE_LENGTH>(record, output, reader),
        OLD_STOCK => view_by::<OLD_STATE_LENGTH>(record, output, reader),
        _ => Err(refusal::SETTING),
    }
}

/// The view of a record in which states have so many bytes.
fn view_by<const STATE: usize>(
    record: &[u8],
    output: &mut [u8],
    reader: u32,
) -> Result<usize, u32> {
    match reader {
        PURCHASING => written::<STATE>(record, output, [22, 24], put_for_purchasing),
        MAINTENANCE => written::<STATE>(record, output, [25, 6], put_for_maintenance),
        _ => Err(refusal::SETTING),
    }
}

/// Checks the whole record, then writes: an event with a lamp, and a Restock, have so many bytes in the view.
fn written<const STATE: usize>(
    record: &[u8],
    output: &mut [u8],
    [of_lamp, restock]: [usize; 2],
    put: impl for<'a> Fn(&Event<STATE>, &'a mut [u8]) -> Option<&'a mut [u8]>,
) -> Result<usize, u32> {
    let mut length = 0;
    let mut rest = record;
    while !rest.is_empty() {
        let (event, behind) = checked::<STATE>(rest)?;
        length += match event {
            Event::OfLamp(..) => of_lamp,
            Event::Restock(..) => restock,
        };
        rest = behind;
    }
    let mut output = output.get_mut(..length).ok_or(refusal::NO_ROOM)?;
    rest = record;
    while let Some((event, behind)) = cut(rest) {
        output = put(&event, output).ok_or(refusal::NO_ROOM)?;
        rest = behind;
    }
    Ok(length)
}

/// Hour, kind, the quantity of a Restock, and the state; what is left of the output.
fn put_for_purchasing<'a, const STATE: usize>(
    event: &Event<STATE>,
    output: &'a mut [u8],
) -> Option<&'a mut [u8]> {
    match event {
        Event::OfLamp(frame, state) => {
            let (seen, rest) = output.split_first_chunk_mut::<22>()?;
            seen[0] = 123;
            seen[1..5].copy_from_slice(&frame[4..8]);
            seen[5] = frame[1];
            put_state(state, &mut seen[6..]);
            Some(rest)
        }
        Event::Restock(frame, state) => {
            let (seen, rest) = output.split_first_chunk_mut::<24>()?;
            seen[0] = 127;
            seen[1..5].copy_from_slice(&frame[4..8]);
            seen[5] = frame[1];
            seen[6..8].copy_from_slice(&frame[8..]);
            put_state(state, &mut seen[8..]);
            Some(rest)
        }
    }
}

/// The state with a stock of four bytes.
fn put_state<const STATE: usize>(state: &[u8; STATE], seen: &mut [u8]) {
    let (high, low) = seen.split_at_mut(STATE_LENGTH - STATE);
    high.fill(0);
    low.copy_from_slice(state);
}

/// Hour, kind, and the lamp and the origin of what is no Restock; what is left of the output.
fn put_for_maintenance<'a, const STATE: usize>(
    event: &Event<STATE>,
    output: &'a mut [u8],
) -> Option<&'a mut [u8]> {
    match event {
        Event::OfLamp(frame, _) => {
            let (seen, rest) = output.split_first_chunk_mut::<25>()?;
            seen[0] = 15;
            seen[1..5].copy_from_slice(&frame[4..8]);
            seen[5] = frame[1];
            seen[6..24].copy_from_slice(&frame[9..]);
            seen[24] = frame[8];
            Some(rest)
        }
        Event::Restock(frame, _) => {
            let (seen, rest) = output.split_first_chunk_mut::<6>()?;
            seen[0] = 3;
            seen[1..5].copy_from_slice(&frame[4..8]);
            seen[5] = frame[1];
            Some(rest)
        }
    }
}

#[cfg(test)]
mod tests {
    use super::*;

    const FAILURE: &[u8; 43] =
        b"\x3f\x00\x07\x07\x00\x00\x01\x02\x07L00000000000000001ABCDEFGHIJKLMNOP";
    const RESTOCK: &[u8; 26] = b"\x4f\x03\x06\x06\x00\x00\x01\x03\x04\x05ABCDEFGHIJKLMNOP";

    /// A Restock and a Failure, each with the last bytes of its state as its whole one.
    fn record(state_length: usize) -> ([u8; 69], usize) {
        let mut record = [0; 69];
        let mut end = 0;
        for (event, frame) in [(&RESTOCK[..], 10), (FAILURE, 27)] {
            let (frame, state) = event.split_at(frame);
            for part in [frame, &state[STATE_LENGTH - state_length..]] {
                record[end..][..part.len()].copy_from_slice(part);
                end += part.len();
            }
        }
        (record, end)
    }

    /// A view of a Restock and a Failure, in an output that was full of `.`.
    fn check_view(reader: u32, old_stock: u32, seen: &[u8]) {
        let (record, end) = record(if old_stock == OLD_STOCK { 14 } else { 16 });
        let record = &record[..end];
        let view = |record: &[u8], output: &mut [u8]| view(record, output, reader, old_stock);
        let mut output = [b'.'; 60];
        let room = seen.len() - 1;
        assert_eq!(view(record, &mut output[..room]), Err(refusal::NO_ROOM));
        assert_eq!(view(&record[..end - 1], &mut output[..room]), Err(refusal::LENGTH));
        assert_eq!(output, [b'.'; 60]);
        assert_eq!(view(record, &mut output), Ok(seen.len()));
        assert_eq!(output[..seen.len()], *seen);
        assert!(output[seen.len()..].iter().all(|&byte| byte == b'.'));
        assert_eq!(view(&[], &mut []), Ok(0));
    }

    #[test]
    fn each_reader_sees_its_fields() {
        let seen =
            b"\x7f\x00\x00\x01\x03\x03\x04\x05ABCDEFGHIJKLMNOP\x7b\x00\x00\x01\x02\x00ABCDEFGHIJKLMNOP";
        check_view(PURCHASING, NEW_STOCK, seen);
        let seen =
            b"\x7f\x00\x00\x01\x03\x03\x04\x05\0\0CDEFGHIJKLMNOP\x7b\x00\x00\x01\x02\x00\0\0CDEFGHIJKLMNOP";
        check_view(PURCHASING, OLD_STOCK, seen);
        let seen = b"\x03\x00\x00\x01\x03\x03\x0f\x00\x00\x01\x02\x00L00000000000000001\x07";
        check_view(MAINTENANCE, NEW_STOCK, seen);
        check_view(MAINTENANCE, OLD_STOCK, seen);
    }

    #[test]
    fn another_reader_or_stock_comes_first() {
        for (reader, old_stock) in [(2, NEW_STOCK), (2, OLD_STOCK), (PURCHASING, 2), (2, 2)] {
            for record in [&[][..], &[9], FAILURE] {
                assert_eq!(view(record, &mut [], reader, old_stock), Err(refusal::SETTING));
            }
        }
    }
}
