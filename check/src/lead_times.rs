//! The lead times of gateways: what is met of them in the calls, and calls made near the ends of their range and near the last hour.

use crate::compare::{check_number, Call, Comparison, AMPLE};
use crate::peer_calls::UNSOUND;
use crate::Wrong;
use interface::{memory_length, Opening, MOST_HOURS};
use peer::frame::{self, Frame, Sense};
use peer::gateway::{Gateway, Processed, Setup};
use peer::memory::{self, DELIVERY_HOURS, LIFE_HOURS, REQUEST_HOURS};
use peer::model::{Hour, Hours, Kind, Lamp, Message, MAX_LAST_HOUR};
use peer::refusal::Refusal;
use std::ops::Range;

/// A lead time of a gateway.
#[derive(Clone, Copy, Debug, PartialEq, Eq, PartialOrd, Ord)]
pub enum Lead {
    Request,
    Delivery,
    Life,
}

pub const LEADS: [Lead; 3] = [Lead::Request, Lead::Delivery, Lead::Life];

/// What is counted of each lead time.
#[derive(Clone, Copy, Debug, PartialEq, Eq, PartialOrd, Ord)]
pub enum Met {
    /// Set-ups refused for it alone, below its range and above it.
    RefusedBelowItsRange,
    RefusedAboveItsRange,
    /// Forecasts in which gateways differ in it.
    DifferentAtGateways,
    /// Messages sent by it exactly at the last hour.
    SentAtTheLastHour,
    /// Messages not sent that would have been an hour past the last.
    NotSentAnHourPastTheLast,
    /// Messages not sent whose hour has more than 32 bits.
    NotSentPastThirtyTwoBits,
    /// Cancels of what an undone event had sent by another lead time than the usual one.
    CancelledByOtherHours,
}

pub const ALL_MET: [Met; 7] = [
    Met::RefusedBelowItsRange,
    Met::RefusedAboveItsRange,
    Met::DifferentAtGateways,
    Met::SentAtTheLastHour,
    Met::NotSentAnHourPastTheLast,
    Met::NotSentPastThirtyTwoBits,
    Met::CancelledByOtherHours,
];

/// Hours in their range and out of it.
const AROUND_THE_RANGE: [Hour; 7] =
    [0, 1, 2, MOST_HOURS - 1, MOST_HOURS, MOST_HOURS + 1, Hour::MAX];

/// Last hours, and lead times before them; the last ones reach beyond 32 bits.
const LAST_HOURS: [Hour; 5] = [43_800, MOST_HOURS, 3_000_000, MAX_LAST_HOUR - 1, MAX_LAST_HOUR];
const LEAD_TIMES: [Hour; 6] = [1, 2, 24, 43_800, MOST_HOURS - 1, MOST_HOURS];

const LAMP: Lamp = *b"L00000000000000001";

impl Lead {
    pub fn of(self, hours: &Hours) -> Hour {
        match self {
            Lead::Request => hours.request,
            Lead::Delivery => hours.delivery,
            Lead::Life => hours.life,
        }
    }

    fn set(self, hours: &mut Hours, value: Hour) {
        *match self {
            Lead::Request => &mut hours.request,
            Lead::Delivery => &mut hours.delivery,
            Lead::Life => &mut hours.life,
        } = value;
    }

    /// Where it stands in the header of a memory.
    pub fn place(self) -> Range<usize> {
        match self {
            Lead::Request => REQUEST_HOURS,
            Lead::Delivery => DELIVERY_HOURS,
            Lead::Life => LIFE_HOURS,
        }
    }

    /// The lead time by which a message of this kind is sent.
    fn of_sent(kind: Kind) -> Option<Lead> {
        match kind {
            Kind::Request => Some(Lead::Request),
            Kind::Delivery => Some(Lead::Delivery),
            Kind::Failure => Some(Lead::Life),
            Kind::Restock => None,
        }
    }

    /// The lead time from an event to what it sends, if it sends anything.
    fn of_event(event: &Processed) -> Option<Lead> {
        match event.done.message.kind {
            Kind::Request if event.before.stock > 0 => Some(Lead::Delivery),
            Kind::Failure | Kind::Request => Some(Lead::Request),
            Kind::Delivery => Some(Lead::Life),
            Kind::Restock => None,
        }
    }
}

/// The lead time for which alone a set up was refused, and on which side of its range it is.
pub fn refused(setup: &Setup) -> Option<(Lead, Met)> {
    if Gateway::set_up(setup) != Err(Refusal::Setting) {
        return None;
    }
    LEADS.into_iter().find_map(|lead| {
        let met = match lead.of(&setup.hours) {
            0 => Met::RefusedBelowItsRange,
            hours if hours > MOST_HOURS => Met::RefusedAboveItsRange,
            _ => return None,
        };
        let mut corrected = setup.clone();
        lead.set(&mut corrected.hours, 1);
        (Gateway::set_up(&corrected) != Err(Refusal::Setting)).then_some((lead, met))
    })
}

/// The lead times in which the gateways of a forecast differ.
pub fn different(setups: &[Setup]) -> impl Iterator<Item = (Lead, Met)> + '_ {
    let differs =
        |lead: &Lead| setups.iter().any(|setup| lead.of(&setup.hours) != lead.of(&setups[0].hours));
    LEADS.into_iter().filter(differs).map(|lead| (lead, Met::DifferentAtGateways))
}

/// What is met in the events that a work has done; `after` is the memory that it left.
pub fn worked(after: &[u8], events: u32) -> Result<Vec<(Lead, Met)>, Wrong> {
    let Ok(gateway) = memory::read(after) else { return Ok(Vec::new()) };
    let mut all = Vec::new();
    for event in gateway.processed().iter().rev().take(events as usize) {
        let Some(lead) = Lead::of_event(event) else { continue };
        let settings = gateway.settings();
        let due = u64::from(event.done.message.hour) + u64::from(lead.of(&settings.hours));
        let last_hour = u64::from(settings.last_hour);
        let expected = (due <= last_hour).then_some(due);
        if event.sent.map(|sent| u64::from(sent.hour)) != expected {
            return Err(format!("{event:?}: what it sends is due at {expected:?}"));
        }
        if due == last_hour {
            all.push((lead, Met::SentAtTheLastHour));
        }
        if due == last_hour + 1 {
            all.push((lead, Met::NotSentAnHourPastTheLast));
        }
        if due > u64::from(Hour::MAX) {
            all.push((lead, Met::NotSentPastThirtyTwoBits));
        }
    }
    Ok(all)
}

/// The lead times other than the usual ones by which cancels in an output are those of what was sent; `memory` is their gateway's.
pub fn cancelled(memory: &[u8], output: &[u8]) -> Vec<(Lead, Met)> {
    let lead = |frame: Frame| match frame {
        Frame::Event { sense: Sense::Cancel, message } => Lead::of_sent(message.kind),
        _ => None,
    };
    let is_other = |lead: &Lead| hours_at(memory, *lead) != lead.of(&Hours::USUAL);
    let cancels = frame::list(output).into_iter().flatten().filter_map(lead);
    cancels.filter(is_other).map(|lead| (lead, Met::CancelledByOtherHours)).collect()
}

fn hours_at(memory: &[u8], lead: Lead) -> Hour {
    memory::number(&memory[lead.place()])
}

/// Lead times in and out of their range: at set up, where 8 comes before all that is wrong with the list, and in memory.
pub fn around_their_range(comparison: &mut Comparison) -> Result<(), Wrong> {
    for lead in LEADS {
        for value in AROUND_THE_RANGE {
            let good = (1..=MOST_HOURS).contains(&value);
            let mut hours = Hours::USUAL;
            lead.set(&mut hours, value);
            let opening = opening(hours, 1, 100);
            for (list, of_list) in [(&[][..], 0), (&[9], 11)] {
                let mut memory = vec![0x5a; length(&opening)];
                let expected = if good { of_list } else { 8 };
                check_number(comparison.set_up(&mut memory, list, &opening)?, expected)?;
            }
            in_memory(comparison, lead, value, if good { 0 } else { UNSOUND })?;
        }
    }
    Ok(())
}

/// A lead time written into the memory of a gateway with two events, one of them done: every call answers as expected.
fn in_memory(
    comparison: &mut Comparison,
    lead: Lead,
    value: Hour,
    expected: u32,
) -> Result<(), Wrong> {
    let opening = opening(Hours::USUAL, 1, 100);
    let mut memory = vec![0x5a; length(&opening)];
    let failures = [10, 20].map(|hour| bytes(Sense::Plain, message(Kind::Failure, hour)));
    check_number(comparison.set_up(&mut memory, &failures.concat(), &opening)?, 0)?;
    comparison.call(Call::Work { budget: 1 }, &mut memory, AMPLE)?;
    let update = frame::write(&Frame::Update { from: 0, to: 1, hour: 15 });
    comparison.call(Call::Take { frame: &update }, &mut memory, AMPLE)?;
    memory[lead.place()].copy_from_slice(&value.to_be_bytes());
    let late = bytes(Sense::Plain, message(Kind::Request, 16));
    for call in [Call::Work { budget: 1 }, Call::Take { frame: &late }, Call::Commit] {
        check_number(comparison.would_answer(call, &memory)?, expected)?;
    }
    check_number(comparison.agreed_time(&memory)?.number, expected)
}

/// Every event that sends something, done so near the last hour that this falls just before it, at it, just past it or far past it; and
/// undone again.
pub fn near_the_last_hour(comparison: &mut Comparison) -> Result<(), Wrong> {
    for last_hour in LAST_HOURS {
        for value in LEAD_TIMES {
            for due in due_hours(last_hour, value) {
                let hour = (due - u64::from(value)) as Hour;
                for (lead, kind, stock) in EVENTS {
                    let event = message(kind, hour);
                    one_event(comparison, lead, value, &event, stock, last_hour).map_err(
                        |wrong| format!("{event:?}, {lead:?} after {value} hours: {wrong}"),
                    )?;
                }
            }
        }
    }
    Ok(())
}

/// The kinds of events that send something, with the stock before them, and by which lead time they do.
const EVENTS: [(Lead, Kind, u32); 4] = [
    (Lead::Request, Kind::Failure, 1),
    (Lead::Request, Kind::Request, 0),
    (Lead::Delivery, Kind::Request, 1),
    (Lead::Life, Kind::Delivery, 1),
];

/// Hours around the last one, of what comes so many hours after an event that the forecast has.
fn due_hours(last_hour: Hour, value: Hour) -> impl Iterator<Item = u64> {
    let [last_hour, value] = [last_hour, value].map(u64::from);
    let around = [last_hour - 1, last_hour, last_hour + 1, last_hour + 2, last_hour + value];
    around.into_iter().filter(move |due| (value..=last_hour + value).contains(due))
}

/// Does one event at a gateway with this lead time, and cancels it. What is sent, and the cancel of it, must come by that lead time or,
/// past the last hour, not at all.
fn one_event(
    comparison: &mut Comparison,
    lead: Lead,
    value: Hour,
    event: &Message,
    stock: u32,
    last_hour: Hour,
) -> Result<(), Wrong> {
    let mut hours = Hours { request: 5, delivery: 6, life: 7 };
    lead.set(&mut hours, value);
    let opening = opening(hours, stock, last_hour);
    let mut memory = vec![0; length(&opening)];
    check_number(comparison.set_up(&mut memory, &[], &opening)?, 0)?;

    let due = u64::from(event.hour) + u64::from(value);
    let expected = (due <= u64::from(last_hour)).then_some(due);
    let plain = bytes(Sense::Plain, *event);
    comparison.call(Call::Take { frame: &plain }, &mut memory, AMPLE)?;
    let (answer, sent) = comparison.call(Call::Work { budget: 1 }, &mut memory, AMPLE)?;
    check_number(answer.number, 0)?;
    check_hours(&sent, Sense::Plain, expected)?;
    let cancel = bytes(Sense::Cancel, *event);
    let (answer, sent) = comparison.call(Call::Take { frame: &cancel }, &mut memory, AMPLE)?;
    check_number(answer.number, 0)?;
    check_hours(&sent, Sense::Cancel, expected)
}

/// An output has one message of a sense, at the expected hour, or none.
fn check_hours(output: &[u8], expected_sense: Sense, expected: Option<u64>) -> Result<(), Wrong> {
    let hour = |frame: Frame| match frame {
        Frame::Event { sense, message } if sense == expected_sense => Some(message.hour.into()),
        _ => None,
    };
    let hours: Vec<u64> = frame::list(output).into_iter().flatten().filter_map(hour).collect();
    if hours == Vec::from_iter(expected) {
        return Ok(());
    }
    Err(format!("{expected_sense:?} at {hours:?}, expected {expected:?}"))
}

/// Gateway 1 of three.
fn opening(hours: Hours, stock: u32, last_hour: Hour) -> Opening {
    let Hours { request, delivery, life } = hours;
    Opening {
        gateways: 3,
        own: 1,
        supplier: 2,
        stock,
        last_hour,
        queue_places: 4,
        outstanding_places: 4,
        request_hours: request,
        delivery_hours: delivery,
        life_hours: life,
    }
}

fn length(opening: &Opening) -> usize {
    memory_length(opening.queue_places, opening.outstanding_places)
}

/// A message to gateway 1, a Request from gateway 0 for a lamp of its own.
fn message(kind: Kind, hour: Hour) -> Message {
    let from = if kind == Kind::Request { 0 } else { 1 };
    Message { hour, kind, origin: from, lamp: LAMP, quantity: 0, from, to: 1 }
}

fn bytes(sense: Sense, message: Message) -> Vec<u8> {
    frame::write(&Frame::Event { sense, message })
}
