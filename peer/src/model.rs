//! The lamp model of document 01: messages, the event order with the kinds as request (b) of document 02 orders them, and doing a message
//! with each gateway's own lead times, as request (d) has them, and with a stock that no shelf stops, as request (f) has it.

/// An hour, 32 bits unsigned.
pub type Hour = u32;

/// A lamp identifier; eighteen zeros where a kind has no lamp.
pub type Lamp = [u8; 18];

/// The hour that means nothing due.
pub const NOTHING_DUE: Hour = Hour::MAX;

/// The largest last hour that a forecast may have.
pub const MAX_LAST_HOUR: Hour = NOTHING_DUE - 1;

/// The most hours that a lead time may have.
pub const MOST_HOURS: Hour = 1_000_000;

/// The largest opening stock.
pub const MOST_OPENING_STOCK: u32 = 65_535;

/// The most that a stock can come to: the largest opening stock, and all 512 Restocks that an opening list can have.
pub const MOST_STOCK: u32 = 33_619_455;

/// The kinds of messages that are events, in their order within an hour: goods are booked in before any are handed out.
#[derive(Clone, Copy, Debug, PartialEq, Eq, PartialOrd, Ord)]
pub enum Kind {
    Failure,
    Restock,
    Request,
    Delivery,
}

impl Kind {
    /// The kind's number in frames and memory.
    pub fn number(self) -> u8 {
        match self {
            Kind::Failure => 0,
            Kind::Request => 1,
            Kind::Delivery => 2,
            Kind::Restock => 3,
        }
    }
}

/// A message. The fields stand in the event order, so the derived order is the event order.
/// A field that the kind lacks is zero: quantity but for Restock, origin and lamp for Restock.
#[derive(Clone, Copy, Debug, PartialEq, Eq, PartialOrd, Ord)]
pub struct Message {
    pub hour: Hour,
    pub kind: Kind,
    pub origin: u8,
    pub lamp: Lamp,
    pub quantity: u16,
    pub from: u8,
    pub to: u8,
}

/// What a gateway counts.
#[derive(Clone, Copy, Debug, Default, PartialEq, Eq)]
pub struct State {
    pub stock: u32,
    pub failed: u32,
    pub fitted: u32,
    pub short: u32,
}

/// An event that was done and the state of its gateway after it.
#[derive(Clone, Copy, Debug, PartialEq, Eq)]
pub struct Done {
    pub message: Message,
    pub after: State,
}

/// The lead times of a gateway: the hours from a message that it does to the one that it sends.
#[derive(Clone, Copy, Debug, PartialEq, Eq)]
pub struct Hours {
    /// From a Failure, or from a Request that finds no stock, to the Request.
    pub request: Hour,
    /// From a Request that finds stock to the Delivery.
    pub delivery: Hour,
    /// From a Delivery to the next Failure.
    pub life: Hour,
}

/// The settings of a gateway that doing a message needs.
#[derive(Clone, Copy, Debug, PartialEq, Eq)]
pub struct Settings {
    pub own: u8,
    pub supplier: u8,
    pub last_hour: Hour,
    pub hours: Hours,
}

impl Hours {
    /// Those of document 01.
    pub const USUAL: Hours = Hours { request: 1, delivery: 24, life: 43_800 };
}

/// A lead time may have so many hours: at least one, as a message is later than its cause.
pub fn is_lead_time(hours: Hour) -> bool {
    (1..=MOST_HOURS).contains(&hours)
}

impl Message {
    /// The gateways agree as the kind demands.
    pub fn gateways_agree(&self) -> bool {
        match self.kind {
            Kind::Failure => self.from == self.to && self.to == self.origin,
            Kind::Request => true,
            Kind::Delivery => self.to == self.origin,
            Kind::Restock => self.from == self.to,
        }
    }
}

/// Does a message at its gateway: the state after it, and the message sent, if any. A stock that a Restock is added to is at most
/// [`MOST_STOCK`] after it.
pub fn perform(settings: Settings, state: State, message: &Message) -> (State, Option<Message>) {
    let Settings { own, supplier, last_hour, hours } = settings;
    let mut after = state;
    // What would be sent: its kind, origin, addressee and the hours until it is due.
    let (kind, origin, to, delay) = match message.kind {
        Kind::Failure => {
            after.failed = state.failed.saturating_add(1);
            (Kind::Request, own, supplier, hours.request)
        }
        Kind::Request if state.stock > 0 => {
            after.stock = state.stock - 1;
            (Kind::Delivery, message.origin, message.origin, hours.delivery)
        }
        Kind::Request => {
            after.short = state.short.saturating_add(1);
            (Kind::Request, message.origin, supplier, hours.request)
        }
        Kind::Delivery => {
            after.fitted = state.fitted.saturating_add(1);
            (Kind::Failure, own, own, hours.life)
        }
        Kind::Restock => {
            after.stock = state.stock + u32::from(message.quantity);
            return (after, None);
        }
    };
    let due = message.hour.checked_add(delay);
    let sent = due.filter(|&hour| hour <= last_hour).map(|hour| Message {
        hour,
        kind,
        origin,
        lamp: message.lamp,
        quantity: 0,
        from: own,
        to,
    });
    (after, sent)
}

#[cfg(test)]
mod tests {
    use super::*;

    const LAMP_1: Lamp = *b"L00000000000000001";
    const LAMP_2: Lamp = *b"L00000000000000002";

    fn failure(own: u8, hour: Hour, lamp: Lamp) -> Message {
        Message { hour, kind: Kind::Failure, origin: own, lamp, quantity: 0, from: own, to: own }
    }

    fn request(hour: Hour) -> Message {
        let kind = Kind::Request;
        Message { hour, kind, origin: 7, lamp: LAMP_1, quantity: 0, from: 3, to: 4 }
    }

    fn delivery(hour: Hour) -> Message {
        let kind = Kind::Delivery;
        Message { hour, kind, origin: 4, lamp: LAMP_1, quantity: 0, from: 3, to: 4 }
    }

    fn restock(hour: Hour, quantity: u16) -> Message {
        let kind = Kind::Restock;
        Message { hour, kind, origin: 0, lamp: [0; 18], quantity, from: 4, to: 4 }
    }

    fn settings(last_hour: Hour) -> Settings {
        Settings { own: 4, supplier: 9, last_hour, hours: Hours::USUAL }
    }

    /// A message of each kind that sends one, the stock before it, and its gateway's lead time until what it sends.
    fn leading(hour: Hour, hours: Hours) -> [(Message, u32, Hour); 4] {
        [
            (failure(4, hour, LAMP_1), 0, hours.request),
            (request(hour), 0, hours.request),
            (request(hour), 5, hours.delivery),
            (delivery(hour), 0, hours.life),
        ]
    }

    /// The hour of what a message sends.
    fn sent_at(settings: Settings, stock: u32, message: &Message) -> Option<Hour> {
        let (_, sent) = perform(settings, State { stock, ..State::default() }, message);
        sent.map(|sent| sent.hour)
    }

    #[test]
    fn each_kind_sends_what_document_01_says() {
        let zero = State::default();
        let stocked = State { stock: 5, ..zero };
        let base = request(0);

        let (after, sent) = perform(settings(50_000), zero, &failure(4, 10, LAMP_1));
        assert_eq!(after, State { failed: 1, ..zero });
        assert_eq!(sent, Some(Message { hour: 11, origin: 4, from: 4, to: 9, ..base }));

        let (after, sent) = perform(settings(50_000), stocked, &request(10));
        assert_eq!(after, State { stock: 4, ..zero });
        let kind = Kind::Delivery;
        assert_eq!(sent, Some(Message { hour: 34, kind, origin: 7, from: 4, to: 7, ..base }));

        let (after, sent) = perform(settings(50_000), zero, &request(10));
        assert_eq!(after, State { short: 1, ..zero });
        assert_eq!(sent, Some(Message { hour: 11, origin: 7, from: 4, to: 9, ..base }));

        let (after, sent) = perform(settings(50_000), zero, &delivery(10));
        assert_eq!(after, State { fitted: 1, ..zero });
        assert_eq!(sent, Some(failure(4, 43_810, LAMP_1)));

        let (after, sent) = perform(settings(50_000), stocked, &restock(10, 6));
        assert_eq!(after, State { stock: 11, ..zero });
        assert_eq!(sent, None);
    }

    #[test]
    fn a_message_past_the_last_hour_is_not_sent_but_counts() {
        let stocked = State { stock: 1, ..State::default() };
        let (after, sent) = perform(settings(34), stocked, &request(10));
        assert_eq!((after.stock, sent.is_some()), (0, true));
        let (after, sent) = perform(settings(33), stocked, &request(10));
        assert_eq!((after.stock, sent.is_some()), (0, false));

        let late = failure(4, MAX_LAST_HOUR, LAMP_1);
        let (after, sent) = perform(settings(MAX_LAST_HOUR), stocked, &late);
        assert_eq!((after.failed, sent), (1, None));
        let (after, sent) = perform(settings(MAX_LAST_HOUR), stocked, &delivery(MAX_LAST_HOUR - 1));
        assert_eq!((after.fitted, sent), (1, None));
    }

    /// Each kind with other lead times, from the least to the most.
    #[test]
    fn a_gateways_own_hours_lie_between_a_message_and_what_it_sends() {
        let all = [
            Hours { request: 7, delivery: 70, life: 700 },
            Hours { request: 1, delivery: MOST_HOURS, life: 1 },
            Hours { request: MOST_HOURS, delivery: 1, life: MOST_HOURS },
        ];
        for hours in all {
            let settings = Settings { hours, ..settings(2_000_000) };
            for (message, stock, lead) in leading(10, hours) {
                assert_eq!(sent_at(settings, stock, &message), Some(10 + lead), "{message:?}");
            }
        }
    }

    /// At the last hour a message is sent, an hour past it not, however near the last hour is to where 32 bits end.
    #[test]
    fn no_sum_wraps() {
        for lead in [1, 2, 24, 43_800, MOST_HOURS - 1, MOST_HOURS] {
            let hours = Hours { request: lead, delivery: lead, life: lead };
            for last_hour in [lead, 3_000_000, MAX_LAST_HOUR - 1, MAX_LAST_HOUR] {
                let settings = Settings { hours, ..settings(last_hour) };
                for (message, stock, _) in leading(last_hour - lead, hours) {
                    assert_eq!(sent_at(settings, stock, &message), Some(last_hour));
                }
                for hour in [last_hour - lead + 1, last_hour - lead / 2, last_hour] {
                    for (message, stock, _) in leading(hour, hours) {
                        assert_eq!(sent_at(settings, stock, &message), None, "{message:?}");
                    }
                }
            }
        }
    }

    #[test]
    fn lead_times_have_a_range() {
        let good = [1, 2, MOST_HOURS - 1, MOST_HOURS];
        assert!(good.into_iter().all(is_lead_time));
        let bad = [0, MOST_HOURS + 1, Hour::MAX];
        assert!(!bad.into_iter().any(is_lead_time));
    }

    #[test]
    fn the_counters_stop_and_no_shelf_does() {
        let full = State { stock: 65_530, failed: u32::MAX, fitted: u32::MAX, short: u32::MAX };
        let empty = State { stock: 0, ..full };
        let after = |state, message: &Message| perform(settings(100), state, message).0;
        assert_eq!(after(full, &restock(1, 6)), State { stock: 65_536, ..full });
        let almost = State { stock: MOST_STOCK - 65_535, ..full };
        assert_eq!(after(almost, &restock(1, 65_535)).stock, MOST_STOCK);
        assert_eq!(after(full, &failure(4, 1, LAMP_1)), full);
        assert_eq!(after(full, &delivery(1)), full);
        assert_eq!(after(empty, &request(1)), empty);
    }

    #[test]
    fn the_most_that_a_stock_can_come_to() {
        assert_eq!(MOST_STOCK, MOST_OPENING_STOCK + 512 * u32::from(u16::MAX));
    }

    #[test]
    fn the_event_order_compares_field_by_field() {
        let base = request(10);
        let ascending = [
            Message { from: 250, to: 250, ..restock(9, 7) },
            Message { lamp: [126; 18], ..failure(255, 10, LAMP_2) },
            restock(10, 6),
            restock(10, 600),
            base,
            Message { to: 5, ..base },
            Message { from: 4, to: 0, ..base },
            Message { lamp: LAMP_2, from: 0, ..base },
            Message { origin: 8, lamp: [33; 18], ..base },
            delivery(10),
            restock(11, 6),
            Message { hour: 256, ..base },
        ];
        for (i, earlier) in ascending.iter().enumerate() {
            for (j, later) in ascending.iter().enumerate() {
                assert_eq!(earlier.cmp(later), i.cmp(&j), "{i} against {j}");
            }
        }
    }
}
