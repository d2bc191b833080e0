//! A gateway: its calls, the order in which they turn things down, and undoing (rollback).

use crate::frame::{self, Frame, Sense};
use crate::model::{
    self, Done, Hour, Hours, Kind, Message, Settings, State, MAX_LAST_HOUR, MOST_OPENING_STOCK,
    NOTHING_DUE,
};
use crate::record;
use crate::refusal::{Reason, Refusal};
use crate::round::{self, Least, Round};
use std::collections::VecDeque;

/// What set up is given. Settings are wider than their ranges.
#[derive(Clone, Debug)]
pub struct Setup {
    pub nodes: u32,
    pub own: u32,
    pub supplier: u32,
    pub stock: u32,
    pub last_hour: Hour,
    pub queue_places: u32,
    pub outstanding_places: u32,
    pub hours: Hours,
    /// Whole frames, one behind the other.
    pub opening: Vec<u8>,
    /// The length of the memory that is lent.
    pub memory: usize,
}

#[derive(Clone, Debug, PartialEq, Eq)]
pub struct Gateway {
    pub(crate) nodes: u8,
    pub(crate) settings: Settings,
    pub(crate) queue_places: usize,
    pub(crate) outstanding_places: usize,
    pub(crate) state: State,
    pub(crate) agreed: Hour,
    /// The queue's plain messages that are processed, in event order; none is later than a pending one.
    pub(crate) processed: VecDeque<Processed>,
    /// The queue's plain messages that are unprocessed, in event order.
    pub(crate) pending: Vec<Message>,
    /// The queue's waiting cancels.
    pub(crate) waiting: Vec<Message>,
    pub(crate) outstanding: Vec<Sent>,
    pub(crate) round: Round,
}

/// A processed event and what undoing it needs.
#[derive(Clone, Debug, PartialEq, Eq)]
pub struct Processed {
    pub done: Done,
    pub before: State,
    pub sent: Option<Message>,
}

/// A message that no acknowledgment has come for.
#[derive(Clone, Copy, Debug, PartialEq, Eq)]
pub(crate) struct Sent {
    pub(crate) cancel: bool,
    pub(crate) message: Message,
}

/// The answer of work: the count done, why it stopped (`None` for 0), and the output.
#[derive(Debug)]
pub struct Worked {
    pub count: u32,
    pub why: Option<Refusal>,
    pub output: Vec<Frame>,
}

impl Setup {
    fn in_range(&self) -> bool {
        let places = 1..=512;
        let Hours { request, delivery, life } = self.hours;
        (1..=255).contains(&self.nodes)
            && self.own < self.nodes
            && self.supplier < self.nodes
            && self.stock <= MOST_OPENING_STOCK
            && self.last_hour <= MAX_LAST_HOUR
            && places.contains(&self.queue_places)
            && places.contains(&self.outstanding_places)
            && [request, delivery, life].into_iter().all(model::is_lead_time)
            && self.memory >= memory_needed(self.queue_places, self.outstanding_places)
    }
}

/// The least length of the memory that set up is lent.
pub fn memory_needed(queue_places: u32, outstanding_places: u32) -> usize {
    256 + 64 * queue_places as usize + 32 * outstanding_places as usize
}

impl Gateway {
    pub fn set_up(setup: &Setup) -> Result<Gateway, Refusal> {
        if !setup.in_range() {
            return Err(Refusal::Setting);
        }
        let (nodes, own, supplier) = (setup.nodes as u8, setup.own as u8, setup.supplier as u8);
        let mut gateway = Gateway {
            nodes,
            settings: Settings { own, supplier, last_hour: setup.last_hour, hours: setup.hours },
            queue_places: setup.queue_places as usize,
            outstanding_places: setup.outstanding_places as usize,
            state: State { stock: setup.stock, ..State::default() },
            agreed: 0,
            processed: VecDeque::new(),
            pending: Vec::new(),
            waiting: Vec::new(),
            outstanding: Vec::new(),
            round: Round::new(nodes, own),
        };
        for frame in frame::list(&setup.opening) {
            let frame = frame?;
            let message = opening_message(&frame)?;
            gateway.check_limits(&frame)?;
            gateway.enter(message);
        }
        if gateway.fits() {
            Ok(gateway)
        } else {
            Err(Refusal::NoRoom)
        }
    }

    /// Works off up to `budget` events, earliest first.
    pub fn work(&mut self, budget: u32, room: usize) -> Worked {
        let mut output = Vec::new();
        for count in 0..budget {
            let left = room - length(&output);
            match self.attempt(left, Gateway::process_next) {
                Ok(frames) => output.extend(frames),
                Err(why) => return Worked { count, why: Some(why), output },
            }
        }
        Worked { count: budget, why: None, output }
    }

    /// Takes a frame that the carrier brings.
    pub fn take(&mut self, bytes: &[u8], room: usize) -> Result<Vec<Frame>, Refusal> {
        let frame = carried(bytes)?;
        self.check_limits(&frame)?;
        self.check_agreed(&frame)?;
        self.attempt(room, |next, output| match frame {
            Frame::Event { sense: Sense::Plain, message } => {
                next.take_plain(message, output);
                Ok(())
            }
            Frame::Event { sense: Sense::Cancel, message } => {
                next.take_cancel(message, output);
                Ok(())
            }
            Frame::Event { sense: Sense::Acknowledgment, message } => {
                next.take_acknowledgment(Sent { cancel: false, message })
            }
            Frame::Event { sense: Sense::AcknowledgmentOfCancel, message } => {
                next.take_acknowledgment(Sent { cancel: true, message })
            }
            Frame::Start { from, .. } => next.round.start(from, next.least(), output),
            Frame::Lvt { from, hour, .. } => next.take_lvt(from, hour, output),
            Frame::Update { from, hour, .. } => next.take_update(from, hour, output),
        })
    }

    /// The start call.
    pub fn start(&mut self, room: usize) -> Result<Vec<Frame>, Refusal> {
        self.attempt(room, |next, output| {
            let closed = next.round.open(next.least(), output)?;
            next.agreed = closed.unwrap_or(next.agreed);
            Ok(())
        })
    }

    /// The oldest processed event leaves the queue; what is returned is written as a record.
    pub fn commit(&mut self, room: usize) -> Result<Done, Refusal> {
        let done = match self.processed.front() {
            Some(oldest) if oldest.done.message.hour < self.agreed => oldest.done,
            _ => return Err(Refusal::Nothing),
        };
        if record::bytes(&done).len() > room {
            return Err(Refusal::NoRoom);
        }
        self.processed.pop_front();
        Ok(done)
    }

    pub fn agreed(&self) -> Hour {
        self.agreed
    }

    pub fn settings(&self) -> Settings {
        self.settings
    }

    /// The processed events in event order.
    pub fn processed(&self) -> &VecDeque<Processed> {
        &self.processed
    }

    /// The least hour of the unprocessed messages and waiting cancels in the queue.
    pub fn least_waiting(&self) -> Hour {
        round::least(self.pending.iter().chain(&self.waiting).map(|message| message.hour))
    }

    pub fn has_waiting_cancel(&self) -> bool {
        !self.waiting.is_empty()
    }

    /// Runs one step on a copy, and keeps the copy only if the places and the output suffice, so
    /// that a refusal changes nothing.
    fn attempt(
        &mut self,
        room: usize,
        step: impl FnOnce(&mut Gateway, &mut Vec<Frame>) -> Result<(), Refusal>,
    ) -> Result<Vec<Frame>, Refusal> {
        let mut next = self.clone();
        let mut output = Vec::new();
        step(&mut next, &mut output)?;
        if !next.fits() || length(&output) > room {
            return Err(Refusal::NoRoom);
        }
        *self = next;
        Ok(output)
    }

    fn fits(&self) -> bool {
        let queue = self.processed.len() + self.pending.len() + self.waiting.len();
        queue <= self.queue_places && self.outstanding.len() <= self.outstanding_places
    }

    /// Refusals 2 and 3.
    fn check_limits(&self, frame: &Frame) -> Result<(), Refusal> {
        let Settings { own, last_hour, .. } = self.settings;
        if frame.largest_number() >= self.nodes || frame.addressee() != own {
            return Err(Refusal::Number);
        }
        let allowed = match *frame {
            Frame::Event { message, .. } => message.hour <= last_hour,
            Frame::Start { .. } => true,
            Frame::Lvt { hour, .. } | Frame::Update { hour, .. } => {
                hour <= last_hour || hour == NOTHING_DUE
            }
        };
        if allowed {
            Ok(())
        } else {
            Err(Refusal::PastLastHour)
        }
    }

    /// Refusal 9.
    fn check_agreed(&self, frame: &Frame) -> Result<(), Refusal> {
        let below = match *frame {
            Frame::Event { sense: Sense::Plain | Sense::Cancel, message } => {
                message.hour < self.agreed
            }
            Frame::Lvt { hour, .. } => hour < self.agreed,
            _ => false,
        };
        if below {
            Err(Refusal::BelowAgreed)
        } else {
            Ok(())
        }
    }

    fn process_next(&mut self, output: &mut Vec<Frame>) -> Result<(), Refusal> {
        if self.pending.is_empty() {
            return Err(Refusal::Nothing);
        }
        let message = self.pending.remove(0);
        let before = self.state;
        let (after, sent) = model::perform(self.settings, before, &message);
        self.state = after;
        self.processed.push_back(Processed { done: Done { message, after }, before, sent });
        if let Some(message) = sent {
            self.send(Sent { cancel: false, message }, output);
        }
        Ok(())
    }

    fn take_plain(&mut self, message: Message, output: &mut Vec<Frame>) {
        output.push(Frame::Event { sense: Sense::Acknowledgment, message });
        if let Some(place) = self.waiting.iter().position(|cancel| *cancel == message) {
            self.waiting.remove(place);
            return;
        }
        while self.processed.back().is_some_and(|last| last.done.message > message) {
            self.undo_last(output);
        }
        self.enter(message);
    }

    fn take_cancel(&mut self, message: Message, output: &mut Vec<Frame>) {
        output.push(Frame::Event { sense: Sense::AcknowledgmentOfCancel, message });
        let is_processed = self.processed.iter().any(|event| event.done.message == message);
        while is_processed && !self.pending.contains(&message) {
            self.undo_last(output);
        }
        match self.pending.iter().rposition(|plain| *plain == message) {
            Some(place) => {
                self.pending.remove(place);
            }
            None => self.waiting.push(message),
        }
    }

    fn take_acknowledgment(&mut self, acknowledged: Sent) -> Result<(), Refusal> {
        let place = self.outstanding.iter().position(|sent| *sent == acknowledged);
        self.outstanding.remove(place.ok_or(Refusal::NotOutstanding)?);
        Ok(())
    }

    fn take_lvt(&mut self, from: u8, hour: Hour, output: &mut Vec<Frame>) -> Result<(), Refusal> {
        let closed = self.round.lvt(from, hour, self.least(), output)?;
        self.agreed = closed.unwrap_or(self.agreed);
        Ok(())
    }

    fn take_update(
        &mut self,
        from: u8,
        hour: Hour,
        output: &mut Vec<Frame>,
    ) -> Result<(), Refusal> {
        self.round.update(from, hour, output)?;
        self.agreed = hour.max(self.agreed);
        Ok(())
    }

    /// Puts an unprocessed message into the queue after its equals.
    fn enter(&mut self, message: Message) {
        let place = self.pending.partition_point(|earlier| *earlier <= message);
        self.pending.insert(place, message);
    }

    /// Undoes the latest processed event.
    fn undo_last(&mut self, output: &mut Vec<Frame>) {
        let Some(Processed { done, before, sent }) = self.processed.pop_back() else {
            return;
        };
        self.state = before;
        self.pending.insert(0, done.message);
        if let Some(message) = sent {
            self.send(Sent { cancel: true, message }, output);
        }
    }

    /// A plain message or a cancel takes an outstanding place and goes to the output.
    fn send(&mut self, sent: Sent, output: &mut Vec<Frame>) {
        let Sent { cancel, message } = sent;
        let sense = if cancel { Sense::Cancel } else { Sense::Plain };
        self.outstanding.push(sent);
        self.round.sent(message.hour);
        output.push(Frame::Event { sense, message });
    }

    fn least(&self) -> Least {
        let outstanding = round::least(self.outstanding.iter().map(|sent| sent.message.hour));
        Least { outstanding, waiting: self.least_waiting() }
    }
}

/// Reads a frame that the carrier brings: every form but a Restock.
pub fn carried(bytes: &[u8]) -> Result<Frame, Reason> {
    match frame::read(bytes)? {
        Frame::Event { message, .. } if message.kind == Kind::Restock => Err(Reason::FormNotTaken),
        frame => Ok(frame),
    }
}

/// The message of a frame that an opening list may hold.
fn opening_message(frame: &Frame) -> Result<Message, Reason> {
    match *frame {
        Frame::Event { sense: Sense::Plain, message }
            if matches!(message.kind, Kind::Failure | Kind::Restock) =>
        {
            Ok(message)
        }
        _ => Err(Reason::FormNotTaken),
    }
}

/// The bytes that frames take in the output.
pub fn length(frames: &[Frame]) -> usize {
    frames.iter().map(|frame| frame::write(frame).len()).sum()
}

#[cfg(test)]
mod tests {
    use super::*;
    use crate::forecast::{failure, restock, setup};
    use crate::model::Lamp;

    const AMPLE: usize = 10_000;
    const LAMP_1: Lamp = *b"L00000000000000001";
    const LAMP_2: Lamp = *b"L00000000000000002";

    fn event(sense: Sense, message: Message) -> Frame {
        Frame::Event { sense, message }
    }

    fn plain(message: Message) -> Frame {
        event(Sense::Plain, message)
    }

    fn request(hour: Hour, lamp: Lamp, from: u8, to: u8) -> Message {
        Message { hour, kind: Kind::Request, origin: 0, lamp, quantity: 0, from, to }
    }

    /// Gateway `own` of two, supplied by the other, H = 100.
    fn gateway(own: u8, stock: u32, opening: &[Message]) -> Gateway {
        Gateway::set_up(&setup(2, own, 1 - own, stock, 100, opening)).unwrap()
    }

    fn take(gateway: &mut Gateway, frame: Frame) -> Result<Vec<Frame>, Refusal> {
        gateway.take(&frame::write(&frame), AMPLE)
    }

    /// The call's answer is a refusal, and the gateway is unchanged.
    fn refuses(gateway: &Gateway, frame: Frame) -> Refusal {
        let mut after = gateway.clone();
        let refusal = take(&mut after, frame).expect_err("a refusal");
        assert_eq!(&after, gateway, "a refusal writes nothing");
        refusal
    }

    /// A round of two gateways; the agreed time that both have after it.
    fn round_of_two(gateways: &mut [Gateway; 2]) -> Hour {
        let start = gateways[0].start(AMPLE).unwrap();
        assert_eq!(start, [Frame::Start { from: 0, to: 1 }]);
        let lvt = take(&mut gateways[1], start[0]).unwrap();
        let update = take(&mut gateways[0], lvt[0]).unwrap();
        assert_eq!((lvt.len(), update.len()), (1, 1));
        assert_eq!(take(&mut gateways[1], update[0]), Ok(vec![]));
        assert_eq!(gateways[0].agreed(), gateways[1].agreed());
        gateways[0].agreed()
    }

    #[test]
    fn an_unacknowledged_message_lowers_the_agreed_time() {
        let due_at_7 = failure(0, 7, LAMP_1);
        let due_at_9 = failure(1, 9, LAMP_1);
        let mut without = [gateway(0, 0, &[due_at_7]), gateway(1, 0, &[due_at_9])];
        assert_eq!(round_of_two(&mut without), 7);

        let sends_5 = failure(1, 4, LAMP_2);
        let mut with = [gateway(0, 0, &[due_at_7]), gateway(1, 0, &[due_at_9, sends_5])];
        let Worked { count, why, output } = with[1].work(1, AMPLE);
        assert_eq!((count, why), (1, None));
        assert_eq!(output, [plain(Message { origin: 1, ..request(5, LAMP_2, 1, 0) })]);
        assert_eq!(round_of_two(&mut with), 5);
    }

    #[test]
    fn an_unacknowledged_cancel_lowers_the_agreed_time() {
        let mut gateways = [gateway(0, 0, &[]), gateway(1, 0, &[])];
        let message = request(5, LAMP_1, 0, 1);
        take(&mut gateways[1], plain(message)).unwrap();
        let Frame::Event { message: sent, .. } = gateways[1].work(1, AMPLE).output[0] else {
            panic!("a Request is passed on");
        };
        take(&mut gateways[1], event(Sense::Acknowledgment, sent)).unwrap();
        assert_eq!(round_of_two(&mut gateways.clone()), NOTHING_DUE);
        take(&mut gateways[1], event(Sense::Cancel, message)).unwrap();
        assert_eq!(round_of_two(&mut gateways), 6);
    }

    #[test]
    fn the_note_is_taken_at_the_start() {
        let mut gateway = gateway(0, 0, &[failure(0, 4, LAMP_1)]);
        gateway.work(1, AMPLE);
        gateway.start(AMPLE).unwrap();
        let acknowledgment = event(Sense::Acknowledgment, request(5, LAMP_1, 0, 1));
        take(&mut gateway, acknowledgment).unwrap();
        take(&mut gateway, Frame::Lvt { from: 1, to: 0, hour: NOTHING_DUE }).unwrap();
        assert_eq!(gateway.agreed(), 5, "it was outstanding at the start");
    }

    #[test]
    fn the_value_is_taken_at_the_first_lvt() {
        let setup = setup(4, 0, 1, 0, 100, &[failure(0, 4, LAMP_1)]);
        let mut gateway = Gateway::set_up(&setup).unwrap();
        let lvt = |from| Frame::Lvt { from, to: 0, hour: NOTHING_DUE };
        gateway.start(AMPLE).unwrap();
        take(&mut gateway, lvt(1)).unwrap();
        gateway.work(1, AMPLE);
        take(&mut gateway, lvt(2)).unwrap();
        assert_eq!(gateway.agreed(), 4, "it was unprocessed at the stop");
    }

    #[test]
    fn events_below_the_agreed_time_commit() {
        let mut gateway = gateway(1, 0, &[failure(1, 12, LAMP_1), failure(1, 11, LAMP_1)]);
        assert_eq!(gateway.work(9, AMPLE).count, 2);
        assert_eq!(gateway.commit(AMPLE), Err(Refusal::Nothing));
        take(&mut gateway, Frame::Update { from: 0, to: 1, hour: 12 }).unwrap();
        assert_eq!(gateway.commit(42), Err(Refusal::NoRoom));
        let after = State { failed: 1, ..State::default() };
        assert_eq!(gateway.commit(43), Ok(Done { message: failure(1, 11, LAMP_1), after }));
        assert_eq!(gateway.commit(0), Err(Refusal::Nothing), "12 stays; 6 comes before 5");
    }

    #[test]
    fn a_late_update_does_not_lower_the_agreed_time() {
        let mut gateway = gateway(1, 0, &[]);
        for hour in [12, 5, 12] {
            take(&mut gateway, Frame::Update { from: 0, to: 1, hour }).unwrap();
            assert_eq!(gateway.agreed(), 12);
        }
    }

    #[test]
    fn a_cancel_compares_all_eighteen_bytes_of_the_lamp() {
        let (first, second) = (request(5, LAMP_1, 0, 1), request(5, LAMP_2, 0, 1));
        assert_eq!(first.lamp[..16], second.lamp[..16]);
        let mut gateway = gateway(1, 0, &[]);
        take(&mut gateway, plain(first)).unwrap();
        take(&mut gateway, plain(second)).unwrap();
        let output = take(&mut gateway, event(Sense::Cancel, second)).unwrap();
        assert_eq!(output, [event(Sense::AcknowledgmentOfCancel, second)]);
        assert_eq!((gateway.pending, gateway.waiting), (vec![first], vec![]));
    }

    #[test]
    fn undoing_goes_from_the_latest_event_back() {
        let mut gateway = gateway(1, 1, &[]);
        let (early, middle, late) =
            (request(5, LAMP_1, 0, 1), request(6, LAMP_1, 0, 1), request(7, LAMP_1, 0, 1));
        take(&mut gateway, plain(middle)).unwrap();
        take(&mut gateway, plain(late)).unwrap();
        let unworked = gateway.clone();
        let sent = gateway.work(2, AMPLE).output;
        assert_eq!(gateway.state, State { short: 1, ..State::default() });

        let output = take(&mut gateway, plain(early)).unwrap();
        let cancel = |frame| {
            let Frame::Event { message, .. } = frame else { panic!("no message: {frame:?}") };
            event(Sense::Cancel, message)
        };
        let acknowledgment = event(Sense::Acknowledgment, early);
        assert_eq!(output, [acknowledgment, cancel(sent[1]), cancel(sent[0])]);
        assert_eq!(gateway.state, unworked.state);
        assert_eq!(gateway.pending, [early, middle, late]);
        assert_eq!(gateway.outstanding.len(), 4, "the cancels take places of their own");
    }

    #[test]
    fn processed_equals_stay_and_the_last_equal_is_cancelled() {
        let mut gateway = gateway(1, 0, &[]);
        let message = request(5, LAMP_1, 0, 1);
        take(&mut gateway, plain(message)).unwrap();
        gateway.work(1, AMPLE);
        let output = take(&mut gateway, plain(message)).unwrap();
        assert_eq!(output.len(), 1, "nothing is undone");
        assert_eq!((gateway.processed.len(), gateway.pending.len()), (1, 1));
        let output = take(&mut gateway, event(Sense::Cancel, message)).unwrap();
        assert_eq!(output.len(), 1, "the unprocessed one goes");
        let output = take(&mut gateway, event(Sense::Cancel, message)).unwrap();
        assert_eq!(output.len(), 2, "the processed one is undone and goes");
        assert_eq!((gateway.processed.len(), gateway.pending.len()), (0, 0));
    }

    #[test]
    fn a_cancel_waits_for_its_message() {
        let mut gateway = gateway(1, 0, &[]);
        let message = request(5, LAMP_1, 0, 1);
        for waiting in 1..=2 {
            take(&mut gateway, event(Sense::Cancel, message)).unwrap();
            assert_eq!(gateway.waiting.len(), waiting);
        }
        assert_eq!(gateway.least_waiting(), 5);
        assert_eq!(gateway.work(1, AMPLE).why, Some(Refusal::Nothing));
        for waiting in [1, 0] {
            let output = take(&mut gateway, plain(message)).unwrap();
            assert_eq!(output, [event(Sense::Acknowledgment, message)]);
            assert_eq!((gateway.waiting.len(), gateway.pending.len()), (waiting, 0));
        }
    }

    #[test]
    fn an_acknowledgment_removes_one_equal_message() {
        let mut gateway = gateway(0, 0, &[failure(0, 4, LAMP_1), failure(0, 4, LAMP_1)]);
        gateway.work(2, AMPLE);
        let sent = request(5, LAMP_1, 0, 1);
        let acknowledgment = event(Sense::Acknowledgment, sent);
        let of_cancel = event(Sense::AcknowledgmentOfCancel, sent);
        assert_eq!(refuses(&gateway, of_cancel), Refusal::NotOutstanding);
        for outstanding in [1, 0] {
            assert_eq!(take(&mut gateway, acknowledgment), Ok(vec![]));
            assert_eq!(gateway.outstanding.len(), outstanding);
        }
        assert_eq!(refuses(&gateway, acknowledgment), Refusal::NotOutstanding);
    }

    #[test]
    fn work_stops_for_its_budget_then_6_then_5() {
        let opening = [failure(0, 4, LAMP_1), restock(0, 3, 1), failure(0, 6, LAMP_1)];
        let worked = |budget, room| {
            let Worked { count, why, output } = gateway(0, 0, &opening).work(budget, room);
            (count, why, output.len())
        };
        assert_eq!(worked(0, 0), (0, None, 0));
        assert_eq!(worked(1, 0), (1, None, 0), "a Restock needs no room");
        assert_eq!(worked(2, 26), (1, Some(Refusal::NoRoom), 0));
        assert_eq!(worked(3, 53), (2, Some(Refusal::NoRoom), 1), "room is for the whole call");
        assert_eq!(worked(3, 54), (3, None, 2));
        assert_eq!(worked(4, 54), (3, Some(Refusal::Nothing), 2));

        let mut setup = setup(2, 0, 1, 0, 100, &opening);
        setup.outstanding_places = 1;
        let mut gateway = Gateway::set_up(&setup).unwrap();
        let Worked { count, why, .. } = gateway.work(9, AMPLE);
        assert_eq!((count, why), (2, Some(Refusal::NoRoom)));
    }

    #[test]
    fn a_take_counts_all_its_needs_first() {
        let mut setup = setup(2, 1, 0, 0, 100, &[]);
        (setup.queue_places, setup.outstanding_places) = (3, 3);
        let mut gateway = Gateway::set_up(&setup).unwrap();
        for hour in [6, 7] {
            take(&mut gateway, plain(request(hour, LAMP_1, 0, 1))).unwrap();
        }
        gateway.work(2, AMPLE);
        let early = plain(request(5, LAMP_1, 0, 1));
        assert_eq!(refuses(&gateway, early), Refusal::NoRoom, "two cancels, one place");
        gateway.outstanding.pop();
        let bytes = frame::write(&early);
        let mut copy = gateway.clone();
        assert_eq!(copy.take(&bytes, 83), Err(Refusal::NoRoom), "three times 28 bytes");
        assert_eq!(copy, gateway);
        assert_eq!(copy.take(&bytes, 84).map(|output| output.len()), Ok(3));

        let third = event(Sense::Cancel, request(9, LAMP_1, 0, 1));
        take(&mut gateway, third).unwrap();
        let fourth = plain(request(8, LAMP_1, 0, 1));
        assert_eq!(refuses(&gateway, fourth), Refusal::NoRoom, "the queue is full");
        assert_eq!(refuses(&gateway, third), Refusal::NoRoom);
        take(&mut gateway, plain(request(9, LAMP_1, 0, 1))).expect("it needs no queue place");
    }

    #[test]
    fn refusals_come_in_their_order() {
        let mut gateway = gateway(1, 0, &[]);
        take(&mut gateway, Frame::Update { from: 0, to: 1, hour: 50 }).unwrap();
        gateway.queue_places = 0;
        let message = request(60, LAMP_1, 0, 1);
        let of = |gateway: &Gateway, message| refuses(gateway, plain(message));

        assert_eq!(of(&gateway, restock(7, 900, 1)), Refusal::Frame(Reason::FormNotTaken));
        assert_eq!(of(&gateway, Message { from: 2, hour: 900, ..message }), Refusal::Number);
        assert_eq!(of(&gateway, Message { origin: 2, hour: 900, ..message }), Refusal::Number);
        assert_eq!(of(&gateway, Message { to: 0, hour: 900, ..message }), Refusal::Number);
        assert_eq!(of(&gateway, Message { hour: 101, ..message }), Refusal::PastLastHour);
        assert_eq!(of(&gateway, Message { hour: 49, ..message }), Refusal::BelowAgreed);
        assert_eq!(of(&gateway, Message { hour: 50, ..message }), Refusal::NoRoom);

        let cancel = |hour| event(Sense::Cancel, Message { hour, ..message });
        assert_eq!(refuses(&gateway, cancel(49)), Refusal::BelowAgreed);
        let acknowledgment =
            |hour| event(Sense::Acknowledgment, Message { hour, from: 1, to: 0, ..message });
        assert_eq!(refuses(&gateway, acknowledgment(101)), Refusal::PastLastHour);
        assert_eq!(refuses(&gateway, acknowledgment(49)), Refusal::NotOutstanding);
        let elsewhere = event(Sense::Acknowledgment, message);
        assert_eq!(refuses(&gateway, elsewhere), Refusal::Number, "addressed to from");
    }

    #[test]
    fn round_frames_out_of_turn() {
        let mut setup = setup(4, 3, 0, 0, 100, &[]);
        let mut last = Gateway::set_up(&setup).unwrap();
        let start = |from, to| Frame::Start { from, to };
        let lvt = |from, to, hour| Frame::Lvt { from, to, hour };
        let update = |from, to, hour| Frame::Update { from, to, hour };

        assert_eq!(last.start(AMPLE), Err(Refusal::OutOfTurn));
        assert_eq!(refuses(&last, start(0, 3)), Refusal::OutOfTurn, "no arc");
        assert_eq!(take(&mut last, start(1, 3)), Ok(vec![]));
        assert_eq!(refuses(&last, start(1, 3)), Refusal::OutOfTurn, "twice");
        let lvts = [lvt(3, 2, NOTHING_DUE), lvt(3, 1, NOTHING_DUE)];
        assert_eq!(last.clone().take(&frame::write(&start(2, 3)), 15), Err(Refusal::NoRoom));
        assert_eq!(take(&mut last, start(2, 3)), Ok(lvts.to_vec()), "in the order of from");

        assert_eq!(refuses(&last, update(0, 3, 5)), Refusal::OutOfTurn, "the parent is 1");
        assert_eq!(refuses(&last, update(1, 3, 101)), Refusal::PastLastHour);
        assert_eq!(take(&mut last, update(1, 3, NOTHING_DUE)), Ok(vec![]));

        (setup.own, setup.opening) = (0, vec![]);
        let mut first = Gateway::set_up(&setup).unwrap();
        assert_eq!(refuses(&first, lvt(1, 0, 5)), Refusal::OutOfTurn, "no round");
        assert_eq!(refuses(&first, update(0, 0, 5)), Refusal::OutOfTurn, "no parent");
        assert_eq!(refuses(&first, start(0, 0)), Refusal::OutOfTurn);
        assert_eq!(first.start(7), Err(Refusal::NoRoom));
        assert_eq!(first.start(8), Ok(vec![start(0, 1), start(0, 2)]));
        assert_eq!(first.start(8), Err(Refusal::OutOfTurn), "a round is open");
        assert_eq!(take(&mut first, lvt(2, 0, 9)), Ok(vec![]));
        assert_eq!(refuses(&first, lvt(2, 0, 9)), Refusal::OutOfTurn, "twice");
        assert_eq!(refuses(&first, lvt(3, 0, 9)), Refusal::OutOfTurn, "no arc");
        assert_eq!(take(&mut first, lvt(1, 0, 8)), Ok(vec![update(0, 1, 8), update(0, 2, 8)]));
        assert_eq!(first.agreed(), 8);
        first.start(8).unwrap();
        assert_eq!(refuses(&first, lvt(3, 0, 7)), Refusal::BelowAgreed, "9 comes before 4");
    }

    #[test]
    fn a_round_of_one_gateway_takes_no_frame() {
        let opening = [failure(0, 7, LAMP_1), failure(0, 9, LAMP_1)];
        let mut gateway = Gateway::set_up(&setup(1, 0, 0, 0, 100, &opening)).unwrap();
        for agreed in [7, 8, 8] {
            assert_eq!(gateway.start(0), Ok(vec![]));
            assert_eq!(gateway.agreed(), agreed);
            gateway.work(1, AMPLE);
        }
    }

    #[test]
    fn set_up_refuses_settings_then_frames_then_places() {
        let opening = [failure(0, 7, LAMP_1), restock(0, 100, 9)];
        let base = setup(2, 0, 1, 65_535, 100, &opening);
        let answer = |change: &dyn Fn(&mut Setup)| {
            let mut setup = base.clone();
            change(&mut setup);
            Gateway::set_up(&setup).err()
        };
        assert_eq!(answer(&|_| {}), None);
        let settings: [&dyn Fn(&mut Setup); 17] = [
            &|setup| setup.nodes = 0,
            &|setup| setup.nodes = 256,
            &|setup| setup.own = 2,
            &|setup| setup.supplier = 2,
            &|setup| setup.stock = 65_536,
            &|setup| setup.last_hour = NOTHING_DUE,
            &|setup| setup.queue_places = 0,
            &|setup| setup.queue_places = 513,
            &|setup| setup.outstanding_places = 0,
            &|setup| setup.outstanding_places = 513,
            &|setup| setup.hours.request = 0,
            &|setup| setup.hours.request = 1_000_001,
            &|setup| setup.hours.delivery = 0,
            &|setup| setup.hours.delivery = 1_000_001,
            &|setup| setup.hours.life = 0,
            &|setup| setup.hours.life = 1_000_001,
            &|setup| setup.memory -= 1,
        ];
        for change in settings {
            assert_eq!(answer(&|setup| change(setup)), Some(Refusal::Setting));
        }
        let ends: [&dyn Fn(&mut Setup); 2] =
            [&|setup| setup.hours = Hours { request: 1, delivery: 1, life: 1 }, &|setup| {
                let most = 1_000_000;
                setup.hours = Hours { request: most, delivery: most, life: most };
            }];
        for change in ends {
            assert_eq!(answer(&|setup| change(setup)), None);
        }
        let both = answer(&|setup| {
            setup.hours.life = 0;
            setup.opening.truncate(36);
        });
        assert_eq!(both, Some(Refusal::Setting), "8 comes before the frames");
        let cut = answer(&|setup| setup.opening.truncate(36));
        assert_eq!(cut, Some(Refusal::Frame(Reason::Length)));
        assert_eq!(answer(&|setup| setup.own = 1), Some(Refusal::Number));
        assert_eq!(answer(&|setup| setup.last_hour = 99), Some(Refusal::PastLastHour));
        assert_eq!(answer(&|setup| setup.queue_places = 1), Some(Refusal::NoRoom));

        let with = |frame: Frame| {
            answer(&|setup| {
                setup.queue_places = 1;
                setup.opening.extend(frame::write(&frame));
            })
        };
        let not_taken = Some(Refusal::Frame(Reason::FormNotTaken));
        assert_eq!(with(plain(request(7, LAMP_1, 0, 0))), not_taken);
        assert_eq!(with(event(Sense::Cancel, opening[0])), not_taken);
        assert_eq!(with(Frame::Start { from: 0, to: 0 }), not_taken);
        assert_eq!(with(plain(failure(2, 101, LAMP_1))), Some(Refusal::Number));
        assert_eq!(with(plain(failure(0, 101, LAMP_1))), Some(Refusal::PastLastHour));
        assert_eq!(with(plain(failure(0, 7, LAMP_1))), Some(Refusal::NoRoom));
    }

    /// What taking the bytes, and an opening list that ends with them, are refused for.
    fn reasons(bytes: &[u8]) -> [Refusal; 2] {
        let mut gateway = gateway(0, 0, &[failure(0, 7, LAMP_1)]);
        let mut setup = setup(2, 0, 1, 0, 100, &[failure(0, 7, LAMP_1)]);
        setup.opening.extend(bytes);
        let before = gateway.clone();
        let taken = gateway.take(bytes, AMPLE).expect_err("a refusal");
        assert_eq!(gateway, before, "a refusal writes nothing");
        [taken, Gateway::set_up(&setup).expect_err("a refusal")]
    }

    /// The frame with one byte changed.
    fn changed(frame: &Frame, at: usize, value: u8) -> Vec<u8> {
        let mut bytes = frame::write(frame);
        bytes[at] = value;
        bytes
    }

    #[test]
    fn taking_and_set_up_tell_the_reasons_of_a_frame() {
        let both = |bytes: &[u8], reason| {
            assert_eq!(reasons(bytes), [Refusal::Frame(reason); 2], "{bytes:?}");
        };
        let failure = plain(failure(0, 7, LAMP_1));
        let cancel = event(Sense::Cancel, request(7, LAMP_1, 0, 0));
        let restock = frame::write(&plain(restock(0, 7, 9)));

        both(&[63], Reason::FewerThanTwoBytes);
        both(&[0], Reason::FewerThanTwoBytes);
        both(&[63, 3], Reason::MapAndKind);
        both(&frame::write(&failure)[..26], Reason::Length);
        both(&changed(&cancel, 27, 4), Reason::Sense);
        both(&changed(&failure, 26, 127), Reason::Lamp);
        both(&changed(&failure, 8, 1), Reason::GatewayFields);
        both(&restock[..9], Reason::Length);

        let form = Refusal::Frame(Reason::FormNotTaken);
        assert_eq!(gateway(0, 0, &[]).take(&restock, AMPLE), Err(form));
        let nothing = gateway(0, 0, &[]).take(&[], AMPLE);
        assert_eq!(nothing, Err(Refusal::Frame(Reason::FewerThanTwoBytes)));
        let long = [&frame::write(&failure)[..], &[9]].concat();
        let taken = gateway(0, 0, &[]).take(&long, AMPLE);
        assert_eq!(taken, Err(Refusal::Frame(Reason::Length)));
    }

    /// Each frame has two faults that are neighbours in the order.
    #[test]
    fn the_first_reason_of_a_frame_is_told() {
        let both = |bytes: &[u8], reason| {
            assert_eq!(reasons(bytes), [Refusal::Frame(reason); 2], "{bytes:?}");
        };
        let set_up = |bytes: &[u8], reason| assert_eq!(reasons(bytes)[1], Refusal::Frame(reason));
        let cancel = event(Sense::Cancel, failure(0, 7, LAMP_1));

        both(&[9], Reason::FewerThanTwoBytes);
        both(&[63, 7], Reason::MapAndKind);
        let mut sense_4 = changed(&cancel, 27, 4);
        sense_4[9] = 32;
        both(&sense_4[..27], Reason::Length);
        both(&sense_4, Reason::Sense);
        let mut bad_lamp = changed(&cancel, 9, 32);
        bad_lamp[8] = 1;
        both(&bad_lamp, Reason::Lamp);
        set_up(&changed(&cancel, 8, 1), Reason::GatewayFields);
        let restock = changed(&plain(restock(0, 7, 9)), 3, 1);
        assert_eq!(reasons(&restock)[0], Refusal::Frame(Reason::GatewayFields));

        let to_2 = plain(request(101, LAMP_1, 0, 2));
        set_up(&changed(&to_2, 9, 32), Reason::Lamp);
        set_up(&frame::write(&to_2), Reason::FormNotTaken);
    }

    #[test]
    fn an_opening_list_is_refused_frame_after_frame() {
        let answer = |first: Message, behind: &[u8]| {
            let mut setup = setup(2, 0, 1, 0, 100, &[first]);
            setup.opening.extend(behind);
            Gateway::set_up(&setup).err()
        };
        assert_eq!(answer(failure(1, 7, LAMP_1), &[0]), Some(Refusal::Number));
        assert_eq!(answer(failure(0, 101, LAMP_1), &[0]), Some(Refusal::PastLastHour));
        let tail = Some(Refusal::Frame(Reason::FewerThanTwoBytes));
        assert_eq!(answer(failure(0, 100, LAMP_1), &[0]), tail);
    }
}
