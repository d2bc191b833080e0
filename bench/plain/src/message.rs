//! Messages, their order, and doing one.

use core::cmp::Ordering;
use interface::MOST_HOURS;

/// The kinds, in the order of their numbers.
#[derive(Clone, Copy, Debug, PartialEq, Eq)]
pub enum Kind {
    Failure,
    Request,
    Delivery,
    Restock,
    Start,
    Lvt,
    Update,
}

impl Kind {
    pub fn from_number(number: u8) -> Option<Kind> {
        Some(match number {
            0 => Kind::Failure,
            1 => Kind::Request,
            2 => Kind::Delivery,
            3 => Kind::Restock,
            4 => Kind::Start,
            5 => Kind::Lvt,
            6 => Kind::Update,
            _ => return None,
        })
    }

    pub fn has_lamp(self) -> bool {
        matches!(self, Kind::Failure | Kind::Request | Kind::Delivery)
    }

    /// The place among the events of an hour: Failure, Restock, Request, Delivery.
    fn rank(self) -> u8 {
        match self {
            Kind::Failure => 0,
            Kind::Restock => 1,
            Kind::Request => 2,
            Kind::Delivery => 3,
            Kind::Start => 4,
            Kind::Lvt => 5,
            Kind::Update => 6,
        }
    }
}

/// A message; a field that the kind lacks is zero.
#[derive(Clone, Copy, Debug, PartialEq, Eq)]
pub struct Message {
    pub hour: u32,
    pub kind: Kind,
    pub origin: u8,
    pub lamp: [u8; 18],
    pub quantity: u16,
    pub from: u8,
    pub to: u8,
}

/// The event order.
impl Ord for Message {
    fn cmp(&self, other: &Message) -> Ordering {
        let front = |message: &Message| (message.hour, message.kind.rank(), message.origin);
        let back = |message: &Message| (message.quantity, message.from, message.to);
        front(self)
            .cmp(&front(other))
            .then_with(|| self.lamp.cmp(&other.lamp))
            .then_with(|| back(self).cmp(&back(other)))
    }
}

impl PartialOrd for Message {
    fn partial_cmp(&self, other: &Message) -> Option<Ordering> {
        Some(self.cmp(other))
    }
}

impl Message {
    /// The lamp's bytes are 33 to 126, or zero where the kind has no lamp.
    pub fn lamp_fits(&self) -> bool {
        if self.kind.has_lamp() {
            self.lamp.iter().all(|byte| (33..=126).contains(byte))
        } else {
            self.lamp == [0; 18]
        }
    }

    pub fn gateways_agree(&self) -> bool {
        match self.kind {
            Kind::Failure => self.from == self.to && self.to == self.origin,
            Kind::Delivery => self.to == self.origin,
            Kind::Restock => self.from == self.to,
            _ => true,
        }
    }

    pub fn numbers_below(&self, gateways: u8) -> bool {
        self.from < gateways && self.to < gateways && self.origin < gateways
    }
}

/// Stock and counters of a gateway.
#[derive(Clone, Copy, Debug, Default, PartialEq, Eq)]
pub struct State {
    pub stock: u32,
    pub failed: u32,
    pub fitted: u32,
    pub short: u32,
}

/// A gateway's hours from a message that it does to the one that it sends: a Request, a Delivery, or the Failure behind a Delivery.
#[derive(Clone, Copy, Debug)]
pub struct Hours {
    pub request: u32,
    pub delivery: u32,
    pub life: u32,
}

impl Hours {
    pub fn in_range(&self) -> bool {
        [self.request, self.delivery, self.life]
            .iter()
            .all(|hours| (1..=MOST_HOURS).contains(hours))
    }
}

/// What doing a message needs to know of its gateway.
#[derive(Clone, Copy, Debug)]
pub struct Site {
    pub own: u8,
    pub supplier: u8,
    pub last_hour: u32,
    pub hours: Hours,
}

/// Does a message: the state after it, and what it sends.
pub fn perform(site: Site, state: State, message: &Message) -> (State, Option<Message>) {
    let mut after = state;
    let (delay, kind, origin, to) = match message.kind {
        Kind::Failure => {
            after.failed = state.failed.saturating_add(1);
            (site.hours.request, Kind::Request, site.own, site.supplier)
        }
        Kind::Request if state.stock > 0 => {
            after.stock -= 1;
            (site.hours.delivery, Kind::Delivery, message.origin, message.origin)
        }
        Kind::Request => {
            after.short = state.short.saturating_add(1);
            (site.hours.request, Kind::Request, message.origin, site.supplier)
        }
        Kind::Delivery => {
            after.fitted = state.fitted.saturating_add(1);
            (site.hours.life, Kind::Failure, site.own, site.own)
        }
        Kind::Restock => {
            // No sum of sound memory is past `MOST_STOCK`.
            after.stock = state.stock + u32::from(message.quantity);
            return (after, None);
        }
        Kind::Start | Kind::Lvt | Kind::Update => return (after, None),
    };
    let hour = u64::from(message.hour) + u64::from(delay);
    if hour > u64::from(site.last_hour) {
        return (after, None);
    }
    let lamp = message.lamp;
    let sent = Message { hour: hour as u32, kind, origin, lamp, quantity: 0, from: site.own, to };
    (after, Some(sent))
}
