//! Random frames and settings from few hours, lamps and gateways, so that equal messages and ties are common.

use peer::frame::{self, Frame, Sense};
use peer::generator::Generator;
use peer::model::{Hour, Hours, Kind, Lamp, Message, MAX_LAST_HOUR, MOST_HOURS, NOTHING_DUE};
use peer::{memory, routing};

/// The first two are alike in sixteen characters and more; the last has the outermost bytes.
const LAMPS: [&Lamp; 3] = [b"L00000000000000001", b"L00000000000000002", b"~!L000000000000001"];

/// The gateway that frames are drawn for.
#[derive(Clone, Copy, Debug)]
pub struct Site {
    pub gateways: u8,
    pub own: u8,
    pub last_hour: Hour,
}

impl Site {
    /// The gateway that a memory holds.
    pub fn of(memory: &[u8]) -> Site {
        let last_hour = memory::number(&memory[memory::LAST_HOUR]);
        Site { gateways: memory[0], own: memory[1], last_hour }
    }
}

/// A frame that the gateway may well take: of any kind and sense, mostly addressed to it.
pub fn frame(generator: &mut Generator, site: &Site) -> Vec<u8> {
    let frame = match generator.below(8) {
        0 => round_frame(generator, site),
        1 => plain(message(generator, site)),
        2 => restock(generator, site),
        _ => event(generator, site),
    };
    frame::write(&frame)
}

fn plain(message: Message) -> Frame {
    Frame::Event { sense: Sense::Plain, message }
}

fn event(generator: &mut Generator, site: &Site) -> Frame {
    let senses = [
        Sense::Plain,
        Sense::Plain,
        Sense::Cancel,
        Sense::Cancel,
        Sense::Acknowledgment,
        Sense::AcknowledgmentOfCancel,
    ];
    let sense = generator.pick(&senses);
    let mut message = message(generator, site);
    let acknowledges = matches!(sense, Sense::Acknowledgment | Sense::AcknowledgmentOfCancel);
    if acknowledges && generator.below(8) != 0 {
        (message.from, message.to) = (message.to, message.from);
        message = agreeing(message);
    }
    Frame::Event { sense, message }
}

/// A message of kind 0 to 2, mostly to the gateway and within its numbers and hours.
fn message(generator: &mut Generator, site: &Site) -> Message {
    let kind = generator.pick(&[
        Kind::Failure,
        Kind::Request,
        Kind::Request,
        Kind::Request,
        Kind::Delivery,
    ]);
    let to = if generator.below(16) == 0 { any_gateway(generator, site) } else { site.own };
    let from = any_gateway(generator, site);
    let origin = any_gateway(generator, site);
    let hour = hour(generator, site);
    let lamp = *generator.pick(&LAMPS);
    agreeing(Message { hour, kind, origin, lamp, quantity: 0, from, to })
}

fn restock(generator: &mut Generator, site: &Site) -> Frame {
    let hour = hour(generator, site);
    let quantity = generator.half();
    let own = site.own;
    let kind = Kind::Restock;
    plain(Message { hour, kind, origin: 0, lamp: [0; 18], quantity, from: own, to: own })
}

/// The message with the gateways that its kind demands, and zero for each field that the kind lacks.
pub fn agreeing(message: Message) -> Message {
    let Message { kind, origin, lamp, quantity, from, to, .. } = message;
    let (origin, lamp, quantity, from) = match kind {
        Kind::Failure => (to, lamp, 0, to),
        Kind::Request => (origin, lamp, 0, from),
        Kind::Delivery => (to, lamp, 0, from),
        Kind::Restock => (0, [0; 18], quantity, to),
    };
    Message { origin, lamp, quantity, from, ..message }
}

/// A Start, Lvt or Update, mostly along an arc.
fn round_frame(generator: &mut Generator, site: &Site) -> Frame {
    let to = if generator.below(16) == 0 { any_gateway(generator, site) } else { site.own };
    let along = |gateways: Vec<i32>| gateways.into_iter().map(|i| i as u8).collect::<Vec<u8>>();
    let neighbours = routing::neighbours(site.gateways.into(), site.own.into());
    let (heard, told) = neighbours.map_or((vec![], vec![]), |n| (along(n.from), along(n.to)));
    let one_of = |gateways: &[u8], generator: &mut Generator| match gateways {
        [] => any_gateway(generator, site),
        _ if generator.below(8) == 0 => any_gateway(generator, site),
        _ => generator.pick(gateways),
    };
    match generator.below(3) {
        0 => Frame::Start { from: one_of(&heard, generator), to },
        1 => {
            let from = one_of(&told, generator);
            Frame::Lvt { from, to, hour: round_hour(generator, site) }
        }
        _ => {
            let parent = site.own.saturating_sub(1) / 2;
            let from = one_of(&[parent], generator);
            Frame::Update { from, to, hour: update_hour(generator, site) }
        }
    }
}

/// A gateway's number, seldom one that there is not.
fn any_gateway(generator: &mut Generator, site: &Site) -> u8 {
    match generator.below(24) {
        0 => site.gateways.saturating_add(generator.below(3)),
        _ => generator.below(site.gateways),
    }
}

/// Few hours near the beginning, or near the last one, and seldom past it.
fn hour(generator: &mut Generator, site: &Site) -> Hour {
    let few: Hour = generator.below(6).into();
    match generator.below(24) {
        0 => site.last_hour.saturating_add(1 + few),
        1 => NOTHING_DUE - few,
        2 | 3 => site.last_hour.saturating_sub(few),
        _ => few.min(site.last_hour),
    }
}

fn round_hour(generator: &mut Generator, site: &Site) -> Hour {
    match generator.below(4) {
        0 => NOTHING_DUE,
        _ => hour(generator, site),
    }
}

/// Mostly early, so that a gateway's agreed time does not soon refuse everything.
fn update_hour(generator: &mut Generator, site: &Site) -> Hour {
    match generator.below(16) {
        0 => round_hour(generator, site),
        _ => Hour::from(generator.below(3)).min(site.last_hour),
    }
}

/// Last hours with all sorts of room between them and what events send.
pub fn last_hour(generator: &mut Generator) -> Hour {
    generator.pick(&[0, 3, 30, 30, 50, 43_810, 50_000, 1_000_003, MAX_LAST_HOUR])
}

/// Lead times of a gateway that has this last hour.
pub fn hours(generator: &mut Generator, last_hour: Hour) -> Hours {
    let Hours { request, delivery, life } = Hours::USUAL;
    Hours {
        request: lead_time(generator, request, last_hour),
        delivery: lead_time(generator, delivery, last_hour),
        life: lead_time(generator, life, last_hour),
    }
}

/// The usual hours, a few, an end of the range, any, or about as many as lie before the last hour.
fn lead_time(generator: &mut Generator, usual: Hour, last_hour: Hour) -> Hour {
    let few: Hour = generator.below(8).into();
    match generator.below(8) {
        0 | 1 => usual,
        2 | 3 => 1 + few,
        4 => 1,
        5 => MOST_HOURS,
        6 => 1 + generator.word() % MOST_HOURS,
        _ => (last_hour + 1).saturating_sub(few).clamp(1, MOST_HOURS),
    }
}

/// Places, often few.
pub fn places(generator: &mut Generator) -> u32 {
    generator.pick(&[1, 2, 3, 4, 5, 8, 12, 20, 20, 40])
}
