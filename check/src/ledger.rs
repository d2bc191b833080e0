//! What waits at a gateway, followed through the calls and their answers and never read from a memory.

use peer::model::{Hour, Kind, Message, NOTHING_DUE};

#[derive(Clone, Debug, Default)]
pub struct Ledger {
    /// Plain messages in event order, struck out by no cancel and not committed, and whether they are done.
    items: Vec<(Message, bool)>,
    /// Accepted cancels that have met no equal message.
    cancels: Vec<Message>,
}

impl Ledger {
    /// A plain message is in an opening list or accepted.
    pub fn enter(&mut self, message: Message) {
        if let Some(place) = self.cancels.iter().position(|cancel| *cancel == message) {
            self.cancels.remove(place);
            return;
        }
        let place = self.items.partition_point(|(earlier, _)| *earlier <= message);
        self.undo_from(place);
        self.items.insert(place, (message, false));
    }

    /// A cancel is accepted.
    pub fn strike_out(&mut self, message: Message) {
        let Some(place) = self.items.iter().rposition(|(item, _)| *item == message) else {
            self.cancels.push(message);
            return;
        };
        let (_, done) = self.items.remove(place);
        if done {
            self.undo_from(place);
        }
    }

    /// So many events are done, earliest first; false if there are not so many.
    #[must_use]
    pub fn work(&mut self, events: u32) -> bool {
        (0..events).all(|_| match self.items.iter_mut().find(|(_, done)| !done) {
            Some((_, done)) => {
                *done = true;
                true
            }
            None => false,
        })
    }

    /// The oldest event that is done is committed; its message.
    pub fn commit(&mut self) -> Option<Message> {
        let place = self.items.iter().position(|(_, done)| *done)?;
        Some(self.items.remove(place).0)
    }

    /// The least hour that waits.
    pub fn least(&self) -> Hour {
        let not_done = self.items.iter().filter(|(_, done)| !done).map(|(message, _)| message);
        let waiting = not_done.chain(&self.cancels);
        waiting.map(|message| message.hour).min().unwrap_or(NOTHING_DUE)
    }

    /// Whether a cancel of the message waits, with which it would vanish.
    pub fn has_cancel(&self, message: &Message) -> bool {
        self.cancels.contains(message)
    }

    /// Whether some message of that kind and hour is done.
    pub fn has_done(&self, kind: Kind, hour: Hour) -> bool {
        let is = |message: &Message| message.kind == kind && message.hour == hour;
        self.items.iter().any(|(message, done)| *done && is(message))
    }

    pub fn cancels(&self) -> usize {
        self.cancels.len()
    }

    fn undo_from(&mut self, place: usize) {
        for (_, done) in &mut self.items[place..] {
            *done = false;
        }
    }
}
