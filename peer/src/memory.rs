//! A gateway in lent memory: its bytes (the layout is that of docs/ARCHITECTURE.md), and when they are sound.

use crate::frame::{self, Frame, Sense};
use crate::gateway::{self, Gateway, Processed, Sent};
use crate::model::{
    self, Done, Hour, Hours, Kind, Message, Settings, State, MAX_LAST_HOUR, MOST_STOCK,
};
use crate::record::{state, state_bytes, Stock, STATE_LENGTH};
use crate::round::{Phase, Round};
use std::ops::Range;

const HEADER: usize = 256;
const QUEUE_PLACE: usize = 64;
const OUTSTANDING_PLACE: usize = 32;

/// Where the phase, hours and the state stand in the header.
const PHASE: usize = 3;
pub const LAST_HOUR: Range<usize> = 14..18;
const AGREED: Range<usize> = 18..22;
pub const NOTE: Range<usize> = 22..26;
pub const REQUEST_HOURS: Range<usize> = 26..30;
pub const DELIVERY_HOURS: Range<usize> = 30..34;
pub const LIFE_HOURS: Range<usize> = 34..38;
pub const STATE: Range<usize> = 38..38 + STATE_LENGTH;

/// Where the state before a processed message stands in a queue place.
const BEFORE: Range<usize> = 30..30 + STATE_LENGTH;

/// Why memory is not sound: refusal 10's reasons, in the order in which they are looked for.
#[derive(Clone, Copy, Debug, PartialEq, Eq, PartialOrd, Ord, Hash)]
pub enum Unsound {
    TooShort,
    Settings,
    RequestHours,
    DeliveryHours,
    LifeHours,
    Counts,
    Phase,
    Arrivals,
    Form,
    Number,
    LastHour,
    Order,
    ProcessedBehindUnprocessed,
    CancelBesidePlain,
    /// The stock held and the Restocks still to be done come to too much.
    StockHeld,
    /// So do a stock saved and the Restocks from there on.
    StockSaved,
}

pub const REASONS: [Unsound; 16] = [
    Unsound::TooShort,
    Unsound::Settings,
    Unsound::RequestHours,
    Unsound::DeliveryHours,
    Unsound::LifeHours,
    Unsound::Counts,
    Unsound::Phase,
    Unsound::Arrivals,
    Unsound::Form,
    Unsound::Number,
    Unsound::LastHour,
    Unsound::Order,
    Unsound::ProcessedBehindUnprocessed,
    Unsound::CancelBesidePlain,
    Unsound::StockHeld,
    Unsound::StockSaved,
];

/// What a queue place holds.
#[derive(Clone, Copy, Debug, PartialEq, Eq)]
enum Mark {
    Pending,
    Processed,
    Waiting,
}

struct Entry {
    mark: Mark,
    message: Message,
    before: State,
}

/// The gateway that sound memory holds.
pub fn read(memory: &[u8]) -> Result<Gateway, Unsound> {
    if memory.len() < HEADER {
        return Err(Unsound::TooShort);
    }
    let (nodes, own, supplier) = (memory[0], memory[1], memory[2]);
    let places: [usize; 4] = [6, 8, 10, 12].map(|at| number(&memory[at..at + 2]) as usize);
    let [queue_places, outstanding_places, queued, sent] = places;
    let last_hour = number(&memory[LAST_HOUR]);
    let in_range = |places| (1..=512).contains(&places);
    if nodes == 0
        || own >= nodes
        || supplier >= nodes
        || last_hour > MAX_LAST_HOUR
        || !in_range(queue_places)
        || !in_range(outstanding_places)
    {
        return Err(Unsound::Settings);
    }
    let hours = hours(memory)?;
    if memory.len() < gateway::memory_needed(queue_places as u32, outstanding_places as u32) {
        return Err(Unsound::TooShort);
    }
    if queued > queue_places || sent > outstanding_places {
        return Err(Unsound::Counts);
    }
    let mut round = Round::new(nodes, own);
    round.phase = phase(&round, memory[PHASE], memory[4], number(&memory[NOTE]))?;

    let settings = Settings { own, supplier, last_hour, hours };
    let check = |message: Message, here: u8| check_message(message, nodes, &settings, here);
    let mut entries = Vec::new();
    for place in memory[HEADER..].chunks(QUEUE_PLACE).take(queued) {
        let entry = entry(place).ok_or(Unsound::Form)?;
        check(entry.message, entry.message.to)?;
        entries.push(entry);
    }
    let mut outstanding = Vec::new();
    let start = HEADER + QUEUE_PLACE * queue_places;
    for place in memory[start..].chunks(OUTSTANDING_PLACE).take(sent) {
        let sent = outstanding_place(place).ok_or(Unsound::Form)?;
        check(sent.message, sent.message.from)?;
        outstanding.push(sent);
    }
    check_queue(&entries)?;
    let (state, _) = state(&memory[STATE], Stock::New).ok_or(Unsound::TooShort)?;
    check_stocks(state.stock, &entries)?;

    let of_mark = |mark| entries.iter().filter(move |entry| entry.mark == mark);
    Ok(Gateway {
        nodes,
        settings,
        queue_places,
        outstanding_places,
        state,
        agreed: number(&memory[AGREED]),
        processed: of_mark(Mark::Processed).map(|entry| processed(settings, entry)).collect(),
        pending: of_mark(Mark::Pending).map(|entry| entry.message).collect(),
        waiting: of_mark(Mark::Waiting).map(|entry| entry.message).collect(),
        outstanding,
        round,
    })
}

/// Writes a gateway over its memory: header and used places; every other byte stays.
pub fn write(gateway: &Gateway, memory: &mut [u8]) {
    let entries = entries(gateway);
    let (phase, arrivals, note) = phase_numbers(&gateway.round);
    let Settings { own, supplier, last_hour, hours } = gateway.settings;
    memory[..5].copy_from_slice(&[gateway.nodes, own, supplier, phase, arrivals]);
    let halves = [
        gateway.queue_places as u16,
        gateway.outstanding_places as u16,
        entries.len() as u16,
        gateway.outstanding.len() as u16,
    ];
    let words = [last_hour, gateway.agreed, note, hours.request, hours.delivery, hours.life];
    let mut numbers: Vec<u8> = halves.iter().flat_map(|half| half.to_be_bytes()).collect();
    numbers.extend(words.iter().flat_map(|word| word.to_be_bytes()));
    memory[6..STATE.start].copy_from_slice(&numbers);
    memory[STATE].copy_from_slice(&state_bytes(&gateway.state));

    for (place, entry) in memory[HEADER..].chunks_mut(QUEUE_PLACE).zip(&entries) {
        place.copy_from_slice(&entry_bytes(entry));
    }
    let start = HEADER + QUEUE_PLACE * gateway.queue_places;
    let places = memory[start..].chunks_mut(OUTSTANDING_PLACE);
    for (place, sent) in places.zip(&gateway.outstanding) {
        place.copy_from_slice(&sent_bytes(sent));
    }
}

/// Whether the header of a memory says that the gateway is idle: its note is not looked at then.
pub fn is_idle(memory: &[u8]) -> bool {
    memory.get(PHASE) == Some(&0)
}

/// Whether an idle gateway's memory has a note other than zero. Set up and the end of a round leave zero.
pub fn has_unused_note(memory: &[u8]) -> bool {
    is_idle(memory) && memory.get(NOTE).is_some_and(|note| note != [0; 4])
}

/// The lead times in a header, or the first that cannot be.
fn hours(memory: &[u8]) -> Result<Hours, Unsound> {
    let hours = |place: Range<usize>, impossible| {
        let hours = number(&memory[place]);
        if model::is_lead_time(hours) {
            Ok(hours)
        } else {
            Err(impossible)
        }
    };
    Ok(Hours {
        request: hours(REQUEST_HOURS, Unsound::RequestHours)?,
        delivery: hours(DELIVERY_HOURS, Unsound::DeliveryHours)?,
        life: hours(LIFE_HOURS, Unsound::LifeHours)?,
    })
}

/// The queue in event order: of equal messages the processed ones first.
fn entries(gateway: &Gateway) -> Vec<Entry> {
    let processed = gateway.processed.iter().map(|event| Entry {
        mark: Mark::Processed,
        message: event.done.message,
        before: event.before,
    });
    let others = |mark| move |&message: &Message| Entry { mark, message, before: State::default() };
    let mut entries: Vec<Entry> = processed
        .chain(gateway.pending.iter().map(others(Mark::Pending)))
        .chain(gateway.waiting.iter().map(others(Mark::Waiting)))
        .collect();
    entries.sort_by_key(|entry| entry.message);
    entries
}

fn processed(settings: Settings, entry: &Entry) -> Processed {
    let &Entry { message, before, .. } = entry;
    let (after, sent) = model::perform(settings, before, &message);
    Processed { done: Done { message, after }, before, sent }
}

/// The gateways of a list whose bits stand.
fn arrived(arcs: &[u8], arrivals: u8) -> Vec<u8> {
    let stands = |place: &usize| arrivals >> place & 1 == 1;
    (0..arcs.len()).filter(stands).map(|place| arcs[place]).collect()
}

/// The phase, if the arrivals can be in it: never all, as the last one ends it.
fn phase(round: &Round, number: u8, arrivals: u8, note: Hour) -> Result<Phase, Unsound> {
    let some_of = |arcs: &[u8]| arrivals < (1 << arcs.len()) - 1 || arrivals == 0;
    let (phase, possible) = match number {
        0 => (Phase::Ready { arrived: arrived(&round.from, arrivals) }, some_of(&round.from)),
        1 => (Phase::Noting { note }, arrivals == 0 && !round.to.is_empty()),
        2 => {
            let arrived = arrived(&round.to, arrivals);
            (Phase::Stopped { value: note, arrived }, arrivals != 0 && some_of(&round.to))
        }
        _ => return Err(Unsound::Phase),
    };
    if possible {
        Ok(phase)
    } else {
        Err(Unsound::Arrivals)
    }
}

/// Phase, arrivals and note as numbers.
fn phase_numbers(round: &Round) -> (u8, u8, Hour) {
    let bits = |arcs: &[u8], arrived: &[u8]| {
        let place = |gateway| arcs.iter().position(|arc| arc == gateway);
        arrived.iter().filter_map(place).map(|place| 1 << place).sum()
    };
    match &round.phase {
        Phase::Ready { arrived } => (0, bits(&round.from, arrived), 0),
        Phase::Noting { note } => (1, 0, *note),
        Phase::Stopped { value, arrived } => (2, bits(&round.to, arrived), *value),
    }
}

/// The entry of a queue place, if the place holds just its bytes and its message is of a valid form.
fn entry(place: &[u8]) -> Option<Entry> {
    let mark = match place[0] {
        0 => Mark::Pending,
        1 => Mark::Processed,
        2 => Mark::Waiting,
        _ => return None,
    };
    let sense = if mark == Mark::Waiting { Sense::Cancel } else { Sense::Plain };
    let (before, _) = state(&place[BEFORE], Stock::New)?;
    let entry = Entry { mark, message: message(place, sense)?, before };
    let state_allowed = mark == Mark::Processed || entry.before == State::default();
    (state_allowed && entry_bytes(&entry) == place).then_some(entry)
}

fn outstanding_place(place: &[u8]) -> Option<Sent> {
    let cancel = place[0] == 1;
    let sense = if cancel { Sense::Cancel } else { Sense::Plain };
    let sent = Sent { cancel, message: message(place, sense)? };
    let is_sent = sent.message.kind != Kind::Restock;
    (is_sent && sent_bytes(&sent) == place).then_some(sent)
}

/// The message of a place, if a frame of that sense can hold it.
fn message(place: &[u8], sense: Sense) -> Option<Message> {
    let kind = match place[1] {
        0 => Kind::Failure,
        1 => Kind::Request,
        2 => Kind::Delivery,
        3 => Kind::Restock,
        _ => return None,
    };
    let message = Message {
        hour: number(&place[4..8]),
        kind,
        origin: place[8],
        lamp: place[12..30].try_into().ok()?,
        quantity: number(&place[10..12]) as u16,
        from: place[2],
        to: place[3],
    };
    let frame = Frame::Event { sense, message };
    (frame::read(&frame::write(&frame)) == Ok(frame)).then_some(message)
}

/// A stored message's numbers and hour; `here` is its gateway that must be this one.
fn check_message(
    message: Message,
    nodes: u8,
    settings: &Settings,
    here: u8,
) -> Result<(), Unsound> {
    let frame = Frame::Event { sense: Sense::Plain, message };
    if frame.largest_number() >= nodes || here != settings.own {
        return Err(Unsound::Number);
    }
    if message.hour > settings.last_hour {
        return Err(Unsound::LastHour);
    }
    Ok(())
}

fn check_queue(entries: &[Entry]) -> Result<(), Unsound> {
    if !entries.is_sorted_by_key(|entry| entry.message) {
        return Err(Unsound::Order);
    }
    let first_pending = entries.iter().position(|entry| entry.mark == Mark::Pending);
    let last_processed = entries.iter().rposition(|entry| entry.mark == Mark::Processed);
    if let (Some(pending), Some(processed)) = (first_pending, last_processed) {
        if pending < processed {
            return Err(Unsound::ProcessedBehindUnprocessed);
        }
    }
    let meet = |pair: &[Entry]| {
        let waits = pair.iter().filter(|entry| entry.mark == Mark::Waiting).count();
        pair[0].message == pair[1].message && waits == 1
    };
    if entries.windows(2).any(meet) {
        return Err(Unsound::CancelBesidePlain);
    }
    Ok(())
}

/// No stock comes to more than a stock can by the Restocks that are still to be done from it: from the one held the pending ones, from the
/// one saved before a processed message that message and all behind it.
fn check_stocks(held: u32, entries: &[Entry]) -> Result<(), Unsound> {
    let fits = |stock: u32, restocks: u64| u64::from(stock) + restocks <= u64::from(MOST_STOCK);
    let brings = |entry: &Entry| u64::from(entry.message.quantity);
    let is_pending = |entry: &&Entry| entry.mark == Mark::Pending;
    if !fits(held, entries.iter().filter(is_pending).map(brings).sum()) {
        return Err(Unsound::StockHeld);
    }
    let mut restocks = 0;
    for entry in entries.iter().rev() {
        restocks += brings(entry);
        if entry.mark == Mark::Processed && !fits(entry.before.stock, restocks) {
            return Err(Unsound::StockSaved);
        }
    }
    Ok(())
}

fn message_bytes(mark: u8, message: &Message) -> Vec<u8> {
    let Message { hour, kind, origin, lamp, quantity, from, to } = *message;
    let head = [mark, kind.number(), from, to];
    [&head[..], &hour.to_be_bytes(), &[origin, 0], &quantity.to_be_bytes(), &lamp].concat()
}

fn entry_bytes(entry: &Entry) -> Vec<u8> {
    let mut bytes = message_bytes(entry.mark as u8, &entry.message);
    bytes.extend(state_bytes(&entry.before));
    bytes.resize(QUEUE_PLACE, 0);
    bytes
}

fn sent_bytes(sent: &Sent) -> Vec<u8> {
    let mut bytes = message_bytes(sent.cancel.into(), &sent.message);
    bytes.resize(OUTSTANDING_PLACE, 0);
    bytes
}

/// The number that bytes give, high byte first.
pub fn number(bytes: &[u8]) -> u32 {
    bytes.iter().fold(0, |value, &byte| value << 8 | u32::from(byte))
}

#[cfg(test)]
mod tests {
    use super::*;
    use crate::forecast::{failure, restock, setup};
    use crate::model::MOST_HOURS;

    const LAMP: [u8; 18] = *b"L00000000000000001";

    /// A gateway of two with a processed Failure, and its memory, in which every other byte is 0x5a.
    fn gateway_and_memory(hours: Hours) -> (Gateway, Vec<u8>) {
        let mut setup = setup(2, 0, 1, 0, 2_000_000, &[failure(0, 5, LAMP)]);
        setup.hours = hours;
        let mut gateway = Gateway::set_up(&setup).unwrap();
        gateway.work(1, 100);
        let mut memory = vec![0x5a; setup.memory];
        write(&gateway, &mut memory);
        (gateway, memory)
    }

    #[test]
    fn the_state_stands_behind_the_lead_times() {
        let hours = Hours { request: 0x0102, delivery: 0x0f_4240, life: 1 };
        let (gateway, memory) = gateway_and_memory(hours);
        assert_eq!(memory[26..38], [0, 0, 1, 2, 0, 0x0f, 0x42, 0x40, 0, 0, 0, 1]);
        assert_eq!(memory[38..54], [0, 0, 0, 0, 0, 0, 0, 1, 0, 0, 0, 0, 0, 0, 0, 0]);
        assert_eq!(memory[5], 0x5a);
        assert!(memory[54..256].iter().all(|&byte| byte == 0x5a), "what is not named stays");
        assert_eq!(read(&memory), Ok(gateway), "what a processed event sent by its hours too");
    }

    #[test]
    fn lead_times_that_cannot_be_are_unsound() {
        let (_, memory) = gateway_and_memory(Hours::USUAL);
        let places = [
            (REQUEST_HOURS, Unsound::RequestHours),
            (DELIVERY_HOURS, Unsound::DeliveryHours),
            (LIFE_HOURS, Unsound::LifeHours),
        ];
        for (place, reason) in places {
            let with = |hours: Hour| {
                let mut memory = memory.clone();
                memory[place.clone()].copy_from_slice(&hours.to_be_bytes());
                read(&memory).err()
            };
            assert_eq!([1, 2, MOST_HOURS].map(with), [None; 3]);
            assert_eq!([0, MOST_HOURS + 1, Hour::MAX].map(with), [Some(reason); 3]);
        }
    }

    /// A gateway with Restocks of these quantities, an hour apart, of which so many are done, and its memory.
    fn restocked(stock: u32, quantities: &[u16], done: u32) -> Vec<u8> {
        let restock = |(hour, &quantity): (usize, &u16)| restock(0, hour as Hour, quantity);
        let opening: Vec<Message> = quantities.iter().enumerate().map(restock).collect();
        let setup = setup(2, 0, 1, stock, 1_000, &opening);
        let mut gateway = Gateway::set_up(&setup).unwrap();
        assert_eq!(gateway.work(done, 0).count, done);
        let mut memory = vec![0; setup.memory];
        write(&gateway, &mut memory);
        assert_eq!(read(&memory).as_ref(), Ok(&gateway));
        memory
    }

    /// The most that set up takes: every stock comes to the bound with the Restocks from there on, before, while and after they are done.
    #[test]
    fn all_that_an_opening_list_brings() {
        for done in [0, 1, 300, 511, 512] {
            let memory = restocked(65_535, &[65_535; 512], done);
            let held = 65_535 * (done + 1);
            assert_eq!(number(&memory[STATE.start..][..4]), held);
            let mut one_more = memory.clone();
            one_more[STATE.start..][..4].copy_from_slice(&(held + 1).to_be_bytes());
            assert_eq!(read(&one_more), Err(Unsound::StockHeld));
            for place in 0..done {
                let at = HEADER + QUEUE_PLACE * place as usize + BEFORE.start;
                let saved = number(&memory[at..at + 4]);
                assert_eq!(saved, 65_535 * (place + 1));
                let mut one_more = memory.clone();
                one_more[at..at + 4].copy_from_slice(&(saved + 1).to_be_bytes());
                assert_eq!(read(&one_more), Err(Unsound::StockSaved));
            }
        }
    }

    /// Of Restocks before a saved state nothing counts for it, of those done nothing for the stock held.
    #[test]
    fn only_restocks_from_a_stock_on_count() {
        let memory = restocked(0, &[1_000, 10, 200, 5], 3);
        let with = |at: usize, stock: u32| {
            let mut memory = memory.clone();
            memory[at..at + 4].copy_from_slice(&stock.to_be_bytes());
            read(&memory).err()
        };
        let saved_at = |place: usize| HEADER + QUEUE_PLACE * place + BEFORE.start;
        let stocks = [
            (STATE.start, 5, Unsound::StockHeld),
            (saved_at(0), 1_215, Unsound::StockSaved),
            (saved_at(1), 215, Unsound::StockSaved),
            (saved_at(2), 205, Unsound::StockSaved),
        ];
        for (at, restocks, reason) in stocks {
            assert_eq!(with(at, MOST_STOCK - restocks), None);
            assert_eq!(with(at, MOST_STOCK - restocks + 1), Some(reason));
            assert_eq!(with(at, u32::MAX), Some(reason));
        }
        let of_a_pending_one = with(saved_at(3), 1);
        assert_eq!(of_a_pending_one, Some(Unsound::Form));
    }

    #[test]
    fn reasons_stand_in_their_order() {
        assert!(REASONS.is_sorted());
    }
}
