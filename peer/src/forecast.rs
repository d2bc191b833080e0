//! Forecasts as lists of set-ups: document 01's example and small random ones.

use crate::frame::{self, Frame, Sense};
use crate::gateway::{self, Setup};
use crate::generator::Generator;
use crate::model::{Hour, Hours, Kind, Lamp, Message, MAX_LAST_HOUR, MOST_HOURS};

/// The most places that a gateway can have, for the queue and for what is outstanding.
pub const MOST_PLACES: u32 = 512;

/// The first two are alike in sixteen characters and more.
const LAMPS: [&Lamp; 3] = [b"L00000000000000001", b"L00000000000000002", b"~!L000000000000001"];

/// Hours from the first to the last of a random forecast.
const SPANS: [Hour; 8] = [0, 5, 30, 60, 60, 44_000, 44_000, 1_000_020];

/// From this span on a fitted lamp has time to fail again by the usual hours, and one event an hour would be too many.
const LONG_SPAN: Hour = 44_000;

/// In a long span a lamp fails at most about so often.
const MOST_LIVES: Hour = 25;

const STOCKS: [u32; 7] = [0, 0, 0, 1, 2, 3, 65_535];
const QUANTITIES: [u16; 4] = [0, 1, 2, 65_535];
const SMALL_PLACES: [u32; 8] = [1, 2, 3, 4, 6, 8, 12, 20];

/// Document 01's last example.
pub fn example() -> Vec<Setup> {
    let opening = [failure(0, 10, *LAMPS[0]), failure(0, 10, *LAMPS[1])];
    let gateway_0 = setup(2, 0, 1, 0, 100, &opening);
    let gateway_1 = setup(2, 1, 1, 1, 100, &[]);
    vec![gateway_0, gateway_1]
}

/// A gateway of a random forecast, but for its opening list.
#[derive(Clone, Copy)]
struct Site {
    supplier: u8,
    stock: u32,
    hours: Hours,
}

/// A random forecast of 1 to 6 gateways.
pub fn draw(generator: &mut Generator) -> Vec<Setup> {
    let nodes = 1 + generator.below(6);
    let span = generator.pick(&SPANS);
    let first = generator.pick(&[0, 0, MAX_LAST_HOUR - span]);
    let many_places = generator.below(2) == 0;
    let sites = draw_sites(nodes, span, generator);
    let mut openings = vec![Vec::new(); nodes.into()];
    let mut failures = Vec::new();
    for _ in 0..generator.below(9) {
        let own = generator.below(nodes);
        let hours = generator.below(12).into();
        let hour = first + span.min(hours);
        openings[usize::from(own)].push(failure(own, hour, *generator.pick(&LAMPS)));
        failures.push((own, hours));
    }
    for _ in 0..generator.below(4) {
        let (own, hours) = draw_restock(generator, &sites, &failures);
        let hour = first + span.min(hours);
        openings[usize::from(own)].push(restock(own, hour, generator.pick(&QUANTITIES)));
    }
    let mut setups = Vec::new();
    for ((own, opening), site) in (0..nodes).zip(&openings).zip(sites) {
        let Site { supplier, stock, hours } = site;
        let mut setup = setup(nodes, own, supplier, stock, first + span, opening);
        setup.hours = hours;
        if !many_places {
            limit_places(&mut setup, opening.len() as u32, generator);
        }
        setups.push(setup);
    }
    setups
}

/// The gateways of a forecast: with the hours of document 01 alone, or each with hours of its own.
fn draw_sites(nodes: u8, span: Hour, generator: &mut Generator) -> Vec<Site> {
    let usual = generator.below(4) == 0;
    let mut sites = Vec::new();
    for own in 0..nodes {
        let (supplier, stock) = match span {
            LONG_SPAN.. => long_supply(nodes, own, generator),
            _ => (generator.below(nodes), generator.pick(&STOCKS)),
        };
        let hours = if usual { Hours::USUAL } else { draw_hours(span, generator) };
        sites.push(Site { supplier, stock, hours });
    }
    sites
}

fn draw_hours(span: Hour, generator: &mut Generator) -> Hours {
    let Hours { request, delivery, life } = Hours::USUAL;
    let shortest_life = if span < LONG_SPAN { 1 } else { span / MOST_LIVES };
    Hours {
        request: lead_time(request, span, generator),
        delivery: lead_time(delivery, span, generator),
        life: lead_time(life, span, generator).max(shortest_life),
    }
}

/// The usual hours, one to three, the most, or about as many as from the first events to the last hour: an hour more or less decides
/// whether anything is sent.
fn lead_time(usual: Hour, span: Hour, generator: &mut Generator) -> Hour {
    let few: Hour = generator.below(14).into();
    match generator.below(8) {
        0 | 1 => usual,
        2..=5 => 1 + few % 3,
        6 => MOST_HOURS,
        _ => (span + 1).saturating_sub(few).clamp(1, MOST_HOURS),
    }
}

/// A gateway, and the hours from the first to a Restock there: often those to a Request or a Delivery that may be due there after one of the
/// Failures.
fn draw_restock(generator: &mut Generator, sites: &[Site], failures: &[(u8, Hour)]) -> (u8, Hour) {
    if failures.is_empty() || generator.below(3) == 0 {
        return (generator.below(sites.len() as u8), generator.below(40).into());
    }
    let (failed, hours) = generator.pick(failures);
    let (own, more) = draw_following(generator, sites, failed);
    (own, hours + more)
}

/// What may follow a Failure, where, and so many hours later: its Request, that Request passed on once, or the Delivery of either.
fn draw_following(generator: &mut Generator, sites: &[Site], failed: u8) -> (u8, Hour) {
    let site = |own: u8| sites[usize::from(own)];
    let asked = site(failed).supplier;
    let next = site(asked).supplier;
    let request = site(failed).hours.request;
    let passed_on = request + site(asked).hours.request;
    generator.pick(&[
        (asked, request),
        (next, passed_on),
        (failed, request + site(asked).hours.delivery),
        (failed, passed_on + site(next).hours.delivery),
    ])
}

/// Supplier and stock for a long span: every Request soon comes to a gateway with stock, as one that
/// is passed on hour by hour makes tens of thousands of events.
fn long_supply(nodes: u8, own: u8, generator: &mut Generator) -> (u8, u32) {
    let behind = nodes - 1 - own;
    if behind == 0 {
        return (own, 1_000);
    }
    (own + 1 + generator.below(behind), generator.pick(&STOCKS))
}

/// A set-up with the most places and the hours of document 01.
pub fn setup(
    nodes: u8,
    own: u8,
    supplier: u8,
    stock: u32,
    last_hour: Hour,
    opening: &[Message],
) -> Setup {
    let frame = |&message| frame::write(&Frame::Event { sense: Sense::Plain, message });
    Setup {
        nodes: nodes.into(),
        own: own.into(),
        supplier: supplier.into(),
        stock,
        last_hour,
        queue_places: MOST_PLACES,
        outstanding_places: MOST_PLACES,
        hours: Hours::USUAL,
        opening: opening.iter().flat_map(frame).collect(),
        memory: gateway::memory_needed(MOST_PLACES, MOST_PLACES),
    }
}

/// Few places, but enough queue places for the opening list.
fn limit_places(setup: &mut Setup, opening: u32, generator: &mut Generator) {
    setup.queue_places = generator.pick(&SMALL_PLACES).max(opening);
    setup.outstanding_places = generator.pick(&SMALL_PLACES);
    setup.memory = gateway::memory_needed(setup.queue_places, setup.outstanding_places);
}

pub fn failure(own: u8, hour: Hour, lamp: Lamp) -> Message {
    Message { hour, kind: Kind::Failure, origin: own, lamp, quantity: 0, from: own, to: own }
}

pub fn restock(own: u8, hour: Hour, quantity: u16) -> Message {
    let kind = Kind::Restock;
    Message { hour, kind, origin: 0, lamp: [0; 18], quantity, from: own, to: own }
}
