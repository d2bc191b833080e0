//! Work, taking messages, cancels and acknowledgments, undoing, and commit.

use crate::frame::{plain_length, Output, Sense};
use crate::memory::{
    entry, mark, put_entry, put_pending, put_processed, put_sent, queue_at, queued_message,
    sound_message, Entry, Header, COUNTING, OUTSTANDING_PLACE, PENDING, PROCESSED, QUEUE_PLACE,
    WAITING,
};
use crate::message::{perform, Message};
use crate::refusal;
use interface::STATE_LENGTH;

/// Bytes of a frame with a lamp, without and with a sense.
const PLAIN: usize = 27;
const WITH_SENSE: usize = 28;

/// Works off up to `budget` events; the count done and why it stopped.
pub fn work(
    memory: &mut [u8],
    header: &mut Header,
    output: &mut Output,
    budget: u32,
) -> (u32, u32) {
    let mut place = 0;
    for count in 0..budget {
        while place < header.queued && mark(memory, place) != PENDING {
            place += 1;
        }
        if place == header.queued {
            return (count, refusal::NOTHING);
        }
        let message = queued_message(memory, place);
        let (after, sent) = perform(header.site(), header.state, &message);
        if sent.is_some()
            && (header.outstanding == header.outstanding_places || output.room() < PLAIN)
        {
            return (count, refusal::NO_ROOM);
        }
        put_processed(memory, place, &header.state);
        header.state = after;
        if let Some(message) = sent {
            send(memory, header, output, false, &message);
        }
    }
    (budget, 0)
}

/// A message or its cancel takes an outstanding place, lowers the note and goes to the output.
fn send(
    memory: &mut [u8],
    header: &mut Header,
    output: &mut Output,
    cancel: bool,
    message: &Message,
) {
    put_sent(
        memory,
        header.outstanding_at() + OUTSTANDING_PLACE * header.outstanding,
        cancel,
        message,
    );
    header.outstanding += 1;
    if header.phase == COUNTING {
        header.note = header.note.min(message.hour);
    }
    output.put_event(if cancel { Sense::Cancel } else { Sense::Plain }, message);
}

/// Whether the last of the messages equal to this one, before place `past`, is a cancel that waits; `None` if there is none.
fn last_equal_waits(memory: &[u8], past: usize, message: &Message) -> Option<bool> {
    let last = past.checked_sub(1)?;
    (queued_message(memory, last) == *message).then(|| mark(memory, last) == WAITING)
}

pub fn take_plain(
    memory: &mut [u8],
    mut header: Header,
    message: &Message,
    output: &mut Output,
) -> Result<(), u32> {
    let past = past_equals(memory, &header, message);
    if last_equal_waits(memory, past, message) == Some(true) {
        check_room(output, WITH_SENSE)?;
        // Of equal waiting cancels the first goes; they are alike to the byte, so that any may.
        remove_place(memory, &mut header, past - 1);
        output.put_event(Sense::Acknowledgment, message);
        header.write(memory);
        return Ok(());
    }
    check_undoing(memory, &header, past, output)?;
    if header.queued == header.queue_places {
        return Err(refusal::NO_ROOM);
    }
    output.put_event(Sense::Acknowledgment, message);
    undo_from(memory, &mut header, past, output);
    insert_place(memory, &mut header, past, PENDING, message);
    header.write(memory);
    Ok(())
}

pub fn take_cancel(
    memory: &mut [u8],
    mut header: Header,
    message: &Message,
    output: &mut Output,
) -> Result<(), u32> {
    let past = past_equals(memory, &header, message);
    if last_equal_waits(memory, past, message) == Some(false) {
        let place = past - 1;
        check_undoing(memory, &header, place, output)?;
        let removed = entry(memory, place);
        output.put_event(Sense::CancelAcknowledgment, message);
        remove_place(memory, &mut header, place);
        undo_from(memory, &mut header, place, output);
        if removed.mark == PROCESSED {
            undo(memory, &mut header, &removed, output);
        }
    } else {
        check_room(output, WITH_SENSE)?;
        if header.queued == header.queue_places {
            return Err(refusal::NO_ROOM);
        }
        output.put_event(Sense::CancelAcknowledgment, message);
        insert_place(memory, &mut header, past, WAITING, message);
    }
    header.write(memory);
    Ok(())
}

pub fn take_acknowledgment(
    memory: &mut [u8],
    mut header: Header,
    message: &Message,
    cancel: bool,
) -> Result<(), u32> {
    let start = header.outstanding_at();
    let places = &memory[start..][..OUTSTANDING_PLACE * header.outstanding];
    let equal = |place: &[u8; OUTSTANDING_PLACE]| {
        place[0] == u8::from(cancel) && sound_message(place) == *message
    };
    let place = places.as_chunks::<OUTSTANDING_PLACE>().0.iter().position(equal);
    let place = place.ok_or(refusal::NOT_OUTSTANDING)?;
    let at = start + OUTSTANDING_PLACE * place;
    let end = start + OUTSTANDING_PLACE * header.outstanding;
    memory.copy_within(at + OUTSTANDING_PLACE..end, at);
    header.outstanding -= 1;
    header.write(memory);
    Ok(())
}

pub fn commit(memory: &mut [u8], mut header: Header, output: &mut Output) -> Result<(), u32> {
    let oldest = (0..header.queued).find(|&k| mark(memory, k) == PROCESSED);
    let place = oldest.ok_or(refusal::NOTHING)?;
    let event = entry(memory, place);
    if event.message.hour >= header.agreed {
        return Err(refusal::NOTHING);
    }
    check_room(output, plain_length(event.message.kind) + STATE_LENGTH)?;
    let (after, _) = perform(header.site(), event.before, &event.message);
    output.put_event(Sense::Plain, &event.message);
    output.put_state(&after);
    remove_place(memory, &mut header, place);
    header.write(memory);
    Ok(())
}

/// The place behind all messages that are not later.
fn past_equals(memory: &[u8], header: &Header, message: &Message) -> usize {
    let (mut low, mut high) = (0, header.queued);
    while low < high {
        let middle = (low + high) / 2;
        if queued_message(memory, middle) > *message {
            high = middle;
        } else {
            low = middle + 1;
        }
    }
    low
}

fn check_room(output: &Output, bytes: usize) -> Result<(), u32> {
    if output.room() < bytes {
        return Err(refusal::NO_ROOM);
    }
    Ok(())
}

/// Room for an acknowledgment and for the cancels of the processed events from a place on.
fn check_undoing(memory: &[u8], header: &Header, place: usize, output: &Output) -> Result<(), u32> {
    let mut cancels = 0;
    for k in place..header.queued {
        if mark(memory, k) == PROCESSED {
            let event = entry(memory, k);
            let (_, sent) = perform(header.site(), event.before, &event.message);
            cancels += usize::from(sent.is_some());
        }
    }
    if header.outstanding + cancels > header.outstanding_places {
        return Err(refusal::NO_ROOM);
    }
    check_room(output, WITH_SENSE * (1 + cancels))
}

/// Undoes the processed events from a place on, latest first.
fn undo_from(memory: &mut [u8], header: &mut Header, place: usize, output: &mut Output) {
    for k in (place..header.queued).rev() {
        if mark(memory, k) != PROCESSED {
            continue;
        }
        let event = entry(memory, k);
        put_pending(memory, k);
        undo(memory, header, &event, output);
    }
}

/// Restores the state before an event, and cancels what it had sent.
fn undo(memory: &mut [u8], header: &mut Header, event: &Entry, output: &mut Output) {
    let (_, sent) = perform(header.site(), event.before, &event.message);
    header.state = event.before;
    if let Some(message) = sent {
        send(memory, header, output, true, &message);
    }
}

fn insert_place(memory: &mut [u8], header: &mut Header, k: usize, mark: u8, message: &Message) {
    let (at, end) = (queue_at(k), queue_at(header.queued));
    memory.copy_within(at..end, at + QUEUE_PLACE);
    put_entry(memory, k, mark, message);
    header.queued += 1;
}

fn remove_place(memory: &mut [u8], header: &mut Header, k: usize) {
    let (at, end) = (queue_at(k), queue_at(header.queued));
    memory.copy_within(at + QUEUE_PLACE..end, at);
    header.queued -= 1;
}
