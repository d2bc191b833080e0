//! What a carrier must know of frames: their lengths and where they go; and the frames of opening lists.

use crate::bytes::word;

/// The most bytes that a frame has.
pub const LONGEST: usize = 28;

/// Widths of the fields, bit 0 of the map first.
const WIDTHS: [usize; 8] = [1, 1, 1, 4, 1, 18, 2, 1];

/// The maps of plain events: of a Failure, a Request and a Delivery, and of a Restock.
pub const PLAIN_EVENT: u8 = 63;
pub const PLAIN_RESTOCK: u8 = 79;

/// Added to the map of a Failure, a Request or a Delivery where the frame has a sense: a cancel or an acknowledgment.
pub const SENSE_BIT: u8 = 128;

/// The sense of a cancel; 2 and 3 are those of the acknowledgments of a message and of a cancel.
pub const CANCEL: u8 = 1;

/// The one map of each kind, without the sense.
const MAPS: [u8; 7] = [PLAIN_EVENT, PLAIN_EVENT, PLAIN_EVENT, PLAIN_RESTOCK, 7, 15, 15];

/// Kinds of events, as in the second byte of a frame.
pub const FAILURE: u8 = 0;
pub const REQUEST: u8 = 1;
pub const DELIVERY: u8 = 2;
pub const RESTOCK: u8 = 3;

/// The characters of a lamp's number.
pub const LAMP_LENGTH: usize = 18;

/// A frame under way.
#[derive(Clone, Copy, Debug, PartialEq, Eq)]
pub struct Frame {
    bytes: [u8; LONGEST],
    length: u8,
}

impl Frame {
    /// The frame of these bytes, of which there are at most [`LONGEST`].
    pub fn new(frame: &[u8]) -> Frame {
        let mut bytes = [0; LONGEST];
        bytes[..frame.len()].copy_from_slice(frame);
        Frame { bytes, length: frame.len() as u8 }
    }

    pub fn bytes(&self) -> &[u8] {
        &self.bytes[..self.length.into()]
    }

    /// The gateway that it is brought to: an acknowledgment goes back to its from.
    pub fn addressee(&self) -> usize {
        let acknowledges = self.length == 28 && self.bytes[27] >= 2;
        self.bytes[if acknowledges { 2 } else { 3 }].into()
    }

    /// The gateway in its from: of a plain message or a cancel the one that sent it.
    pub fn sender(&self) -> usize {
        self.bytes[2].into()
    }

    /// The plain message that a cancel cancels; `None` for every other frame.
    pub fn cancelled(&self) -> Option<Frame> {
        let [map, .., sense] = self.bytes;
        let plain = [&[PLAIN_EVENT], &self.bytes[1..27]].concat();
        (map == PLAIN_EVENT | SENSE_BIT && sense == CANCEL).then(|| Frame::new(&plain))
    }

    /// The hour of a plain message; `None` for every other frame.
    pub fn plain_hour(&self) -> Option<u32> {
        (self.bytes[0] == PLAIN_EVENT).then(|| word(&self.bytes, 4))
    }
}

/// The frames that stand one behind the other in the output of a call.
pub fn frames(mut output: &[u8]) -> impl Iterator<Item = Frame> + '_ {
    std::iter::from_fn(move || {
        let length = length(*output.first()?).min(output.len());
        let (frame, rest) = output.split_at(length);
        output = rest;
        Some(Frame::new(frame))
    })
}

/// The whole length of a frame with this map.
pub fn length(map: u8) -> usize {
    let stands = |bit: &usize| map >> bit & 1 == 1;
    1 + (0..8).filter(stands).map(|bit| WIDTHS[bit]).sum::<usize>()
}

/// Whether the map is that of the kind, with a sense only for a kind with a lamp.
pub fn in_table(map: u8, kind: u8) -> bool {
    let without_sense = if kind <= DELIVERY { map & !SENSE_BIT } else { map };
    MAPS.get(usize::from(kind)) == Some(&without_sense)
}

/// The frame of an opening Failure.
pub fn failure(own: u8, hour: u32, lamp: &[u8; LAMP_LENGTH]) -> Vec<u8> {
    [&[PLAIN_EVENT, FAILURE, own, own][..], &hour.to_be_bytes(), &[own], lamp].concat()
}

/// The frame of an opening Restock.
pub fn restock(own: u8, hour: u32, quantity: u16) -> Vec<u8> {
    [&[PLAIN_RESTOCK, RESTOCK, own, own][..], &hour.to_be_bytes(), &quantity.to_be_bytes()].concat()
}

#[cfg(test)]
mod tests {
    use super::*;

    #[test]
    fn a_cancel_names_its_message() {
        let failure = failure(3, 258, b"L00000000000000001");
        let with_sense = |sense| Frame::new(&[&[191], &failure[1..], &[sense]].concat());
        assert_eq!(with_sense(CANCEL).cancelled(), Some(Frame::new(&failure)));
        for other in [with_sense(2), with_sense(3), Frame::new(&failure), Frame::new(&[7, 4, 1, 2])]
        {
            assert_eq!(other.cancelled(), None);
        }
    }

    #[test]
    fn frames_are_cut_by_their_maps() {
        let lamp = b"L00000000000000001";
        let failure = failure(3, 258, lamp);
        let acknowledgment = [&[191, 1, 3, 4], &failure[4..], &[2]].concat();
        let output = [&failure[..], &[7, 4, 1, 2], &acknowledgment].concat();
        let frames: Vec<Frame> = frames(&output).collect();
        let found: Vec<_> =
            frames.iter().map(|f| (f.sender(), f.addressee(), f.plain_hour())).collect();
        assert_eq!(found, [(3, 3, Some(258)), (1, 2, None), (3, 3, None)]);
        assert_eq!(frames.iter().map(|f| f.bytes().len()).collect::<Vec<_>>(), [27, 4, 28]);
    }
}
