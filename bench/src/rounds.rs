//! A full round of N gateways, each with so many messages in its queue.

use crate::situations::gateway;
use host::frame::{failure, frames, Frame};
use interface::Calls;

/// The memories of N gateways with so many Failures each.
pub fn memories(gateways: u32, queued: u32) -> Vec<Vec<u8>> {
    let lamp = |number: u32| format!("L{number:017}").into_bytes().try_into().expect("eighteen");
    let list = |own: u32| -> Vec<u8> {
        (1..=queued).flat_map(|number| failure(own as u8, 10 * number, &lamp(number))).collect()
    };
    (0..gateways).map(|own| gateway(gateways, own, &list(own))).collect()
}

/// From the start call until no frame is left; the number of frames.
pub fn round(calls: &dyn Calls, memories: &mut [Vec<u8>], output: &mut [u8]) -> usize {
    let answer = calls.start(&mut memories[0], output);
    let mut under_way: Vec<Frame> = frames(&output[..answer.written]).collect();
    let mut count = under_way.len();
    while let Some(frame) = under_way.pop() {
        let answer = calls.take(&mut memories[frame.addressee()], frame.bytes(), output);
        assert_eq!(answer.number, 0);
        under_way.extend(frames(&output[..answer.written]));
        count += frames(&output[..answer.written]).count();
    }
    count
}
