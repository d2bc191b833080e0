//! One call made three times, on copies of one memory and one output: all answers, memories and outputs must be equal.

use crate::peer_calls::{setup, Peer, UNSOUND};
use crate::tally::{Called, FrameCall, Lacking, Tally};
use crate::{balances, lead_times, seen, stocks, views, Wrong};
use interface::{
    ample_output, AgreedTime, Answer, Balance, Calls, Opening, ViewAnswer, BALANCE_FIGURES,
    MOST_PLACES, OLD_STOCK,
};
use library::Library;
use peer::gateway::{self, Gateway};
use peer::refusal::{Reason, Refusal, REASONS};
use peer::{balance, frame, memory, view};
use plain::Plain;
use std::fmt::Debug;

/// What unwritten output bytes hold, so that a stray write shows.
const FILL: u8 = 0xa5;

/// An output length that is enough for every call.
pub const AMPLE: usize = ample_output(MOST_PLACES);

/// What the library is compared with.
const OTHERS: [(&str, &dyn Calls); 2] =
    [("plain Rust", &Plain), ("the second implementation", &Peer)];

/// Makes calls and counts them.
#[derive(Default)]
pub struct Comparison {
    pub tally: Tally,
}

/// What a call left.
#[derive(PartialEq, Eq)]
struct Left {
    answer: Answer,
    memory: Vec<u8>,
    output: Vec<u8>,
}

/// The calls on memory and output.
#[derive(Clone, Copy, Debug)]
pub enum Call<'a> {
    Work { budget: u32 },
    Take { frame: &'a [u8] },
    Start,
    Commit,
}

impl Call<'_> {
    fn make(self, calls: &impl Calls, memory: &mut [u8], output: &mut [u8]) -> Answer {
        match self {
            Call::Work { budget } => calls.work(memory, output, budget),
            Call::Take { frame } => calls.take(memory, frame, output),
            Call::Start => calls.start(memory, output),
            Call::Commit => calls.commit(memory, output),
        }
    }

    fn called(self) -> Called {
        match self {
            Call::Work { .. } => Called::Work,
            Call::Take { frame } => Called::taking(frame),
            Call::Start => Called::Start,
            Call::Commit => Called::Commit,
        }
    }
}

impl Comparison {
    /// Makes a call with an output of `room` bytes; the answer and what was written.
    pub fn call(
        &mut self,
        call: Call,
        memory: &mut [u8],
        room: usize,
    ) -> Result<(Answer, Vec<u8>), Wrong> {
        let by_library = left(&Library, call, memory, room);
        let by_plain = left(&Plain, call, memory, room);
        let mut by_peer = left(&Peer, call, memory, room);
        pass_over_unused_note(memory, &by_library, &mut by_peer);
        equal(call, "plain Rust", &by_library, &by_plain)?;
        equal(call, "the second implementation", &by_library, &by_peer)?;
        check_promises(call, memory, &by_library)?;

        self.tally.count(call.called(), by_library.answer.number);
        self.count_reason(call, memory, &by_library.answer)?;
        self.count_lead_times(call, &by_library)?;
        if let Call::Take { frame } = call {
            self.count_taken(frame, by_library.answer.number)?;
            self.lamp(frame)?;
        }
        let Left { answer, memory: after, output } = by_library;
        memory.copy_from_slice(&after);
        Ok((answer, output[..answer.written].to_vec()))
    }

    /// What a call with an ample output would answer: it is made on a copy of the memory.
    pub fn would_answer(&mut self, call: Call, memory: &[u8]) -> Result<u32, Wrong> {
        self.call(call, &mut memory.to_vec(), AMPLE).map(|(answer, _)| answer.number)
    }

    pub fn set_up(
        &mut self,
        memory: &mut [u8],
        list: &[u8],
        opening: &Opening,
    ) -> Result<u32, Wrong> {
        let before = memory.to_vec();
        let number = Library.set_up(memory, list, opening);
        for (name, other) in OTHERS {
            let mut copy = before.clone();
            let other_number = other.set_up(&mut copy, list, opening);
            if number != other_number {
                return Err(format!("set up {opening:?}: {number}, by {name} {other_number}"));
            }
            if let Some(at) = first_difference(memory, &copy) {
                return Err(format!("set up {opening:?}: memory differs from {name} at {at}"));
            }
        }
        if number != 0 && before != memory {
            return Err(format!("set up refused with {number} changed the memory"));
        }
        self.tally.count(Called::SetUp, number);
        if number == 5 {
            self.tally.count_lacking(Lacking::QueuePlaces);
        }
        let setup = setup(opening, list, before.len());
        self.tally.count_lead_times(lead_times::refused(&setup));
        let reason = match Gateway::set_up(&setup) {
            Err(Refusal::Frame(reason)) => Some(reason),
            _ => None,
        };
        self.count_refused_frame(FrameCall::SetUp, reason, number)?;
        Ok(number)
    }

    pub fn agreed_time(&mut self, memory: &[u8]) -> Result<AgreedTime, Wrong> {
        let time = alike(|| "agreed time".into(), |calls| calls.agreed_time(memory))?;
        self.tally.count(Called::AgreedTime, time.number);
        Ok(time)
    }

    /// Reads the lamp of a frame.
    pub fn lamp(&mut self, frame: &[u8]) -> Result<(), Wrong> {
        let found = alike(|| format!("lamp of {frame:?}"), |calls| calls.lamp(frame))?;
        self.tally.count(Called::Lamp, found.number);
        self.count_refused_frame(FrameCall::Lamp, frame::lamp_place(frame).err(), found.number)
    }

    /// Writes what a reader sees of a record, as its stock is said to be, to an output of `room` bytes; the number, and what was written.
    pub fn view(
        &mut self,
        record: &[u8],
        room: usize,
        reader: u32,
        old_stock: u32,
    ) -> Result<(u32, Vec<u8>), Wrong> {
        let left = |calls: &dyn Calls| {
            let mut output = vec![FILL; room];
            (calls.view(record, &mut output, reader, old_stock), output)
        };
        let what =
            || format!("view for {reader}, stock {old_stock}, of {record:?} with {room} bytes");
        let (found, mut output) = left(&Library);
        for (name, other) in OTHERS {
            let (other_found, other_output) = left(other);
            if found != other_found {
                return Err(format!("{}: {found:?}, by {name} {other_found:?}", what()));
            }
            if let Some(at) = first_difference(&output, &other_output) {
                return Err(format!("{}: output differs from {name} at {at}", what()));
            }
        }
        let ViewAnswer { number, written } = found;
        if number != 0 && written != 0 || written > room {
            return Err(format!("{}: answered {number} and wrote {written} bytes", what()));
        }
        if output[written..].iter().any(|&byte| byte != FILL) {
            return Err(format!("{}: wrote past its {written} bytes", what()));
        }
        self.tally.count(Called::viewing(reader, old_stock), number);
        self.count_viewed(record, room, reader, old_stock, number)?;
        output.truncate(written);
        Ok((number, output))
    }

    pub fn route(&mut self, gateways: u32, own: u32, count: usize) -> Result<(), Wrong> {
        let what = || format!("route of {own} of {gateways}");
        let lent = vec![u16::from_ne_bytes([FILL; 2]); count];
        let route = |calls: &dyn Calls, lent: &mut [u16]| calls.route(gateways, own, lent);
        let (number, _) = filled::<u16, 4>(what, &lent, route)?;
        self.tally.count(Called::Route, number);
        Ok(())
    }

    /// Balances a record from an opening stock, with so many numbers lent; the number, and the balance where it is 0.
    pub fn balance(
        &mut self,
        record: &[u8],
        opening_stock: u32,
        count: usize,
    ) -> Result<(u32, Option<Balance>), Wrong> {
        let what = || format!("balance from {opening_stock} of {record:?}");
        let lent = vec![u64::from_ne_bytes([FILL; 8]); count];
        let balance =
            |calls: &dyn Calls, lent: &mut [u64]| calls.balance(record, opening_stock, lent);
        let (number, figures) = filled::<u64, BALANCE_FIGURES>(what, &lent, balance)?;
        self.tally.count(Called::Balance, number);
        let by_peer = balance::balance(record, opening_stock, count);
        for situation in balances::situations(record, count, by_peer) {
            self.tally.count_situation(situation);
        }
        self.count_refused_record(FrameCall::Balance, by_peer.err(), number)?;
        Ok((number, figures.map(Balance::of)))
    }

    /// Counts why a frame was not taken; in memory that is not sound it is not read.
    fn count_taken(&mut self, frame: &[u8], number: u32) -> Result<(), Wrong> {
        if number == UNSOUND {
            return Ok(());
        }
        self.count_refused_frame(FrameCall::Take, gateway::carried(frame).err(), number)
    }

    /// Counts why a record had no view, and what else was wrong with it.
    fn count_viewed(
        &mut self,
        record: &[u8],
        room: usize,
        reader: u32,
        old_stock: u32,
        number: u32,
    ) -> Result<(), Wrong> {
        let refusal = view::view(record, room, reader, old_stock).err();
        if let (Some(stock), Some(refusal)) = (seen::stock(old_stock), refusal) {
            for situation in views::situations(record, room, reader, stock, refusal) {
                self.tally.count_situation(situation);
            }
        }
        let call = if old_stock == OLD_STOCK { FrameCall::OldView } else { FrameCall::View };
        self.count_refused_record(call, refusal, number)
    }

    /// Counts the reason why a call refused a frame of a record; the answer must be its number, and for a cut state that of one.
    fn count_refused_record(
        &mut self,
        call: FrameCall,
        refusal: Option<Refusal>,
        number: u32,
    ) -> Result<(), Wrong> {
        match refusal {
            Some(Refusal::CutState) => check_number(number, Refusal::CutState.number()),
            Some(Refusal::Frame(reason)) => self.count_refused_frame(call, Some(reason), number),
            _ => self.count_refused_frame(call, None, number),
        }
    }

    /// Counts the reason why a call refused a frame, whose number the answer must be.
    fn count_refused_frame(
        &mut self,
        call: FrameCall,
        reason: Option<Reason>,
        number: u32,
    ) -> Result<(), Wrong> {
        match reason {
            Some(reason) if reason.number() == number => {
                self.tally.count_refused_frame(call, reason);
                Ok(())
            }
            Some(reason) => Err(format!("{call:?} answered {number} in place of {reason}")),
            None if REASONS.iter().any(|reason| reason.number() == number) => {
                Err(format!("{call:?} answered {number} for no reason"))
            }
            None => Ok(()),
        }
    }

    /// Counts what a call that was made shows of the lead times.
    fn count_lead_times(&mut self, call: Call, left: &Left) -> Result<(), Wrong> {
        let Left { answer, memory, output } = left;
        match call {
            Call::Work { .. } if answer.events > 0 => {
                self.tally.count_lead_times(lead_times::worked(memory, answer.events)?);
            }
            Call::Take { .. } if answer.number == 0 => {
                let output = &output[..answer.written];
                self.tally.count_lead_times(lead_times::cancelled(memory, output));
            }
            _ => {}
        }
        Ok(())
    }

    /// Counts why memory was not sound, what its stocks come to, and what was too little.
    fn count_reason(&mut self, call: Call, before: &[u8], answer: &Answer) -> Result<(), Wrong> {
        let unsound = match answer.number {
            UNSOUND => memory::read(before).err(),
            _ => None,
        };
        if let Some(reason) = unsound {
            self.tally.count_unsound(reason);
        }
        for situation in stocks::situations(before, unsound)? {
            self.tally.count_situation(situation);
        }
        if answer.number == 5 {
            self.tally.count_lacking(lacking(call, before));
        }
        Ok(())
    }
}

/// What the library answers to a call that only reads; the others must answer it too.
fn alike<T: PartialEq + Debug>(
    what: impl Fn() -> String,
    answer: impl Fn(&dyn Calls) -> T,
) -> Result<T, Wrong> {
    let found = answer(&Library);
    for (name, other) in OTHERS {
        let other_found = answer(other);
        if found != other_found {
            return Err(format!("{}: {found:?}, by {name} {other_found:?}", what()));
        }
    }
    Ok(found)
}

/// The number of a call that fills in the first few of the numbers that it is lent and no others, and where it does not refuse these few.
fn filled<T: Copy + PartialEq + Debug, const COUNT: usize>(
    what: impl Fn() -> String,
    lent: &[T],
    call: impl Fn(&dyn Calls, &mut [T]) -> u32,
) -> Result<(u32, Option<[T; COUNT]>), Wrong> {
    let (number, numbers) = alike(&what, |calls| {
        let mut numbers = lent.to_vec();
        (call(calls, &mut numbers), numbers)
    })?;
    let filled = if number == 0 { COUNT } else { 0 };
    if numbers.get(filled..).is_none_or(|behind| *behind != lent[filled..]) {
        return Err(format!("{}: answered {number} and left {numbers:?}", what()));
    }
    Ok((number, numbers.first_chunk().copied().filter(|_| number == 0)))
}

/// What a call that was answered with 5 lacked, to be counted: output bytes where an ample output helps it on, else queue
/// places where a frame was brought to a full queue, else outstanding places.
fn lacking(call: Call, before: &[u8]) -> Lacking {
    let enough = left(&Plain, call, before, AMPLE);
    if enough.answer.number != 5 {
        return Lacking::OutputBytes;
    }
    let takes_place = matches!(call, Call::Take { .. }) && before[6..8] == before[10..12];
    if takes_place {
        Lacking::QueuePlaces
    } else {
        Lacking::OutstandingPlaces
    }
}

/// An error where a call's number is not the expected one.
pub fn check_number(number: u32, expected: u32) -> Result<(), Wrong> {
    if number == expected {
        return Ok(());
    }
    Err(format!("answered with {number} in place of {expected}"))
}

fn left(calls: &impl Calls, call: Call, memory: &[u8], room: usize) -> Left {
    let mut memory = memory.to_vec();
    let mut output = vec![FILL; room];
    let answer = call.make(calls, &mut memory, &mut output);
    Left { answer, memory, output }
}

fn equal(call: Call, name: &str, one: &Left, other: &Left) -> Result<(), Wrong> {
    if one.answer != other.answer {
        return Err(format!("{call:?}: {:?}, by {name} {:?}", one.answer, other.answer));
    }
    if let Some(at) = first_difference(&one.output, &other.output) {
        return Err(format!("{call:?}: output differs from {name} at {at}"));
    }
    if let Some(at) = first_difference(&one.memory, &other.memory) {
        return Err(format!("{call:?}: memory differs from {name} at {at}"));
    }
    Ok(())
}

/// The second implementation has no note while the gateway is idle, and writes zero there; the library leaves one that
/// stands. Where one stood, these four bytes are the library's in both and all others are compared.
fn pass_over_unused_note(before: &[u8], by_library: &Left, by_peer: &mut Left) {
    if memory::has_unused_note(before) && memory::is_idle(&by_library.memory) {
        by_peer.memory[memory::NOTE].copy_from_slice(&by_library.memory[memory::NOTE]);
    }
}

/// A refusal writes nothing, nor does work without an event, and bytes past the written ones stay.
fn check_promises(call: Call, before: &[u8], left: &Left) -> Result<(), Wrong> {
    let Answer { number, written, events } = left.answer;
    let nothing_done = match call {
        Call::Work { .. } => events == 0,
        _ => number != 0,
    };
    if nothing_done && (written != 0 || left.memory != before) {
        return Err(format!("{call:?} answered {number}, did nothing and changed something"));
    }
    if left.output[written..].iter().any(|&byte| byte != FILL) {
        return Err(format!("{call:?} wrote past its {written} bytes"));
    }
    Ok(())
}

fn first_difference(one: &[u8], other: &[u8]) -> Option<usize> {
    one.iter().zip(other).position(|(a, b)| a != b)
}

#[cfg(test)]
mod tests {
    use super::*;

    /// What a call left of a gateway in some phase and with some note.
    fn left_of(phase: u8, note: u8) -> Left {
        let mut memory = vec![0; 352];
        memory[3] = phase;
        memory[memory::NOTE].fill(note);
        Left { answer: Answer::default(), memory, output: Vec::new() }
    }

    /// The bytes of the memory in which the second implementation may differ, after the same phase and note.
    fn passed_over(phase: u8, note: u8) -> Vec<usize> {
        let by_library = left_of(phase, note);
        let may_differ = |at: &usize| {
            let mut by_peer = left_of(phase, note);
            by_peer.memory[*at] ^= 1;
            pass_over_unused_note(&by_library.memory, &by_library, &mut by_peer);
            equal(Call::Start, "peer", &by_library, &by_peer).is_ok()
        };
        (0..by_library.memory.len()).filter(may_differ).collect()
    }

    #[test]
    fn a_refused_frame_is_answered_with_the_number_of_its_reason() {
        let mut comparison = Comparison::default();
        let mut count = |reason, number| {
            comparison.count_refused_frame(FrameCall::Take, reason, number).is_ok()
        };
        for reason in REASONS {
            for number in [0, 1, 2, 11, 12] {
                assert_eq!(count(Some(reason), number), number == reason.number());
            }
        }
        assert_eq!(
            [0, 1, 2, 5, 11, 12].map(|number| count(None, number)),
            [true, false, true, true, false, false]
        );
    }

    #[test]
    fn only_an_unused_note_is_passed_over() {
        assert_eq!(passed_over(0, 7), [22, 23, 24, 25]);
        assert_eq!(passed_over(0, 0), []);
        assert_eq!(passed_over(1, 7), []);
        assert_eq!(passed_over(2, 7), []);
    }
}
