//! The runs: forecasts with random carriers, the views of their records and their balances, single gateways that are told anything, set-ups
//! and routing.

use crate::balances::{self, Book};
use crate::compare::{check_number, Call, Comparison, AMPLE};
use crate::draw::{self, Site};
use crate::tally::Situation;
use crate::world::{committed, opening, World};
use crate::{events, hostile, lead_times, stocks, views, Wrong};
use interface::{memory_length, Opening, MOST_AT_ONCE, MOST_HOURS, MOST_PLACES};
use peer::forecast;
use peer::frame::{self, Frame, Sense};
use peer::generator::Generator;
use peer::model::{Hours, NOTHING_DUE};

/// Output lengths to choose from, with those just too short for one, two or three frames.
const ROOMS: [&[usize]; 2] = [
    &[AMPLE],
    &[AMPLE, AMPLE, AMPLE, 0, 3, 4, 7, 8, 15, 16, 25, 26, 27, 28, 42, 43, 54, 56, 84, 90],
];

/// Turns after which a run that has changed no agreed time and committed nothing must be blocked. A round of the few
/// gateways here takes about ten.
const PATIENCE: usize = 60;

/// What needs no seed.
pub fn unseeded(comparison: &mut Comparison) -> Result<(), Wrong> {
    routes(64, comparison)?;
    most_places(comparison)?;
    views::of_every_byte(comparison)?;
    balances::of_every_byte(comparison)?;
    balances::from_opening_stocks(comparison)?;
    balances::against_the_states(comparison)?;
    balances::past_32_bits(comparison)?;
    lead_times::around_their_range(comparison)?;
    lead_times::near_the_last_hour(comparison)?;
    stocks::opening_stocks(comparison)?;
    stocks::most(comparison)?;
    stocks::around_the_bound(comparison)
}

/// All runs of one seed.
pub fn all(seed: u32, comparison: &mut Comparison) -> Result<(), Wrong> {
    let mut generator = Generator::new(seed);
    let records = forecast_run(&mut generator, comparison, 600)?;
    single_gateway(&mut generator, comparison, 600)?;
    set_ups(&mut generator, comparison, 60)?;
    for _ in 0..20 {
        let gateways = generator.word() % 70_000;
        let own = generator.word() % (gateways + 2);
        comparison.route(gateways, own, generator.below(7).into())?;
    }
    for _ in 0..20 {
        events::two_events(&mut generator, comparison)?;
    }
    views::of_records(&records, &mut generator, comparison)?;
    for record in &records {
        balances::of_record(record, &mut generator, comparison)?;
    }
    Ok(())
}

/// Every gateway's neighbours for all numbers of gateways up to a limit.
fn routes(limit: u32, comparison: &mut Comparison) -> Result<(), Wrong> {
    for gateways in (0..=limit).chain([65_534, 65_535, 65_536, u32::MAX]) {
        let numbers = if gateways <= limit { gateways + 1 } else { 40 };
        for own in 0..=numbers {
            comparison.route(gateways, own, 4)?;
        }
        comparison.route(gateways, gateways.saturating_sub(1), 5)?;
        comparison.route(gateways, u32::MAX, 4)?;
    }
    Ok(())
}

/// A random forecast: random calls, then turns until every record is whole or too few places stop it. Between the calls
/// hostile ones are made on copies of the memories. What was committed is answered.
pub fn forecast_run(
    generator: &mut Generator,
    comparison: &mut Comparison,
    calls: usize,
) -> Result<Vec<Vec<u8>>, Wrong> {
    let setups = forecast::draw(generator);
    comparison.tally.count_lead_times(lead_times::different(&setups));
    let mut world = World::new(&setups, comparison)?;
    let habits = Habits::draw(generator);
    for _ in 0..calls {
        random_call(&mut world, &habits, generator, comparison)?;
        if world.waiting_cancels() > 0 {
            comparison.tally.count_situation(Situation::CallsWithCancelWaiting);
        }
        let own = generator.below(world.gateways());
        probe(&world.memories[usize::from(own)], generator, comparison)?;
    }
    let whole = finish(&mut world, habits.first, comparison)?;
    let situation = if whole { Situation::ForecastsWhole } else { Situation::ForecastsStuck };
    comparison.tally.count_situation(situation);
    Ok(world.into_records())
}

/// Which of the frames under way a carrier brings first.
#[derive(Clone, Copy, PartialEq, Eq)]
enum First {
    Oldest,
    Newest,
    Any,
}

impl First {
    /// Counts a balance that was held after a commit.
    fn count(self, comparison: &mut Comparison) {
        let situation = match self {
            First::Oldest => Situation::BalancesHeldWithTheOldestFirst,
            First::Newest => Situation::BalancesHeldWithTheNewestFirst,
            First::Any => Situation::BalancesHeldWithAnyFirst,
        };
        comparison.tally.count_situation(situation);
    }
}

/// What a random carrier prefers.
struct Habits {
    /// How often work, bringing, the start call and commit are chosen, one after the other.
    weights: [u8; 4],
    first: First,
    /// Whether frames of rounds, or all others, are seldom brought.
    slow_rounds: Option<bool>,
    rooms: &'static [usize],
}

impl Habits {
    fn draw(generator: &mut Generator) -> Habits {
        let weights = [8, 12, 3, 3].map(|most| 1 + generator.below(most));
        Habits {
            weights,
            first: generator.pick(&[First::Newest, First::Oldest, First::Any, First::Any]),
            slow_rounds: generator.pick(&[None, Some(true), Some(true), Some(false)]),
            rooms: generator.pick(&ROOMS),
        }
    }
}

fn random_call(
    world: &mut World,
    habits: &Habits,
    generator: &mut Generator,
    comparison: &mut Comparison,
) -> Result<(), Wrong> {
    let own = generator.below(world.gateways());
    let room = generator.pick(habits.rooms);
    let mut chosen = generator.below(habits.weights.iter().sum());
    let mut call = 0;
    while chosen >= habits.weights[call] {
        chosen -= habits.weights[call];
        call += 1;
    }
    match call {
        0 => world.work(comparison, own, generator.below(4).into(), room),
        1 => bring(world, habits, generator, comparison, room),
        2 => {
            let own = generator.pick(&[0, own]);
            world.start(comparison, own, room)
        }
        _ => {
            if world.commit(comparison, own, room)? {
                habits.first.count(comparison);
            }
            Ok(())
        }
    }
}

fn bring(
    world: &mut World,
    habits: &Habits,
    generator: &mut Generator,
    comparison: &mut Comparison,
    room: usize,
) -> Result<(), Wrong> {
    let count = world.frames_under_way();
    if count == 0 {
        return Ok(());
    }
    let place = match habits.first {
        First::Oldest => 0,
        First::Newest => count - 1,
        First::Any => usize::from(generator.half()) % count,
    };
    let is_round = !matches!(world.frame(place), Frame::Event { .. });
    if habits.slow_rounds == Some(is_round) && generator.below(12) != 0 {
        return Ok(());
    }
    world.bring(comparison, place, room)
}

/// Turns until every record is whole, or too few places stop the run. Whether every record became whole.
fn finish(world: &mut World, first: First, comparison: &mut Comparison) -> Result<bool, Wrong> {
    let mut progress = world.progress();
    let mut rounds = world.completed_rounds();
    let mut idle = 0;
    while !world.is_whole(comparison)? {
        if idle == PATIENCE {
            check_stuck(world, rounds, comparison)?;
            return Ok(false);
        }
        turn(world, first, comparison)?;
        idle += 1;
        let now = world.progress();
        if now != progress {
            (progress, rounds, idle) = (now, world.completed_rounds(), 0);
        }
    }
    Ok(true)
}

/// A turn: every gateway works, every frame then under way is brought, the newest first where the carrier brings those, else the oldest, gateway
/// 0 starts a round, every gateway commits.
fn turn(world: &mut World, first: First, comparison: &mut Comparison) -> Result<(), Wrong> {
    for own in 0..world.gateways() {
        world.work(comparison, own, 4, AMPLE)?;
    }
    let first = if first == First::Any { First::Oldest } else { first };
    for newest in (0..world.frames_under_way()).rev() {
        let place = if first == First::Newest { newest } else { 0 };
        world.bring(comparison, place, AMPLE)?;
    }
    if world.agreed(0) != NOTHING_DUE {
        world.start(comparison, 0, AMPLE)?;
    }
    for own in 0..world.gateways() {
        while world.commit(comparison, own, AMPLE)? {
            first.count(comparison);
        }
    }
    Ok(())
}

/// A run that does not go on is blocked, and has completed a round since it last went on; `rounds` were completed then.
fn check_stuck(world: &World, rounds: usize, comparison: &mut Comparison) -> Result<(), Wrong> {
    if !world.is_blocked(comparison)? {
        return Err("no progress, yet not blocked".into());
    }
    if world.completed_rounds() == rounds {
        return Err("no progress, and no round is completed".into());
    }
    Ok(())
}

/// A hostile call on a copy of a memory: a frame out of nowhere, or damaged, or a memory with something changed.
fn probe(
    memory: &[u8],
    generator: &mut Generator,
    comparison: &mut Comparison,
) -> Result<(), Wrong> {
    let site = Site::of(memory);
    let frame = draw::frame(generator, &site);
    if generator.below(2) == 0 {
        let frame =
            if generator.below(3) == 0 { hostile::damaged_frame(generator, &frame) } else { frame };
        let room = generator.pick(&[AMPLE, AMPLE, 0, 8, 28, 56]);
        comparison.call(Call::Take { frame: &frame }, &mut memory.to_vec(), room)?;
        return Ok(());
    }
    let mut spoiled = hostile::spoiled(generator, memory);
    comparison.agreed_time(&spoiled)?;
    let call = match generator.below(8) {
        0 | 1 => Call::Work { budget: generator.below(5).into() },
        2 => Call::Start,
        3 => Call::Commit,
        _ => Call::Take { frame: &frame },
    };
    comparison.call(call, &mut spoiled, AMPLE)?;
    Ok(())
}

/// One gateway of a few that is told anything, and keeps what it accepts: states that no run comes to.
pub fn single_gateway(
    generator: &mut Generator,
    comparison: &mut Comparison,
    calls: usize,
) -> Result<(), Wrong> {
    let most = generator.pick(&[1, 2, 4, 4, 7, 12, 254]);
    let gateways = 1 + generator.below(most);
    let own = if generator.below(3) == 0 { 0 } else { generator.below(gateways) };
    let last_hour = draw::last_hour(generator);
    let Hours { request, delivery, life } = draw::hours(generator, last_hour);
    let opening = Opening {
        gateways: gateways.into(),
        own: own.into(),
        supplier: generator.below(gateways).into(),
        stock: generator.pick(&[0, 1, 2, 3, MOST_AT_ONCE]),
        last_hour,
        queue_places: draw::places(generator),
        outstanding_places: draw::places(generator),
        request_hours: request,
        delivery_hours: delivery,
        life_hours: life,
    };
    let mut memory =
        vec![generator.byte(); memory_length(opening.queue_places, opening.outstanding_places)];
    let list = restocks(generator, own, &opening);
    check_number(comparison.set_up(&mut memory, &list, &opening)?, 0)?;
    let site = Site::of(&memory);
    let rooms = generator.pick(&ROOMS);
    let mut expected: Vec<Vec<u8>> = Vec::new();
    let (mut record, mut book) = (Vec::new(), Book::new(opening.stock));
    for _ in 0..calls {
        let room = generator.pick(rooms);
        let frame = told(generator, &site, &expected);
        let call = match generator.below(16) {
            0..=2 => Call::Work { budget: generator.below(6).into() },
            3 => Call::Start,
            4 => Call::Commit,
            _ => Call::Take { frame: &frame },
        };
        let (answer, output) = comparison.call(call, &mut memory, room)?;
        match call {
            Call::Commit if answer.number == 0 => {
                record.extend(&output);
                book.add(&committed(own, &output)?);
                book.hold(&record, comparison)?;
            }
            _ => expected.extend(acknowledgments(&output)),
        }
        if expected.len() > 40 {
            expected.drain(..20);
        }
        check_number(comparison.agreed_time(&memory)?.number, 0)?;
        if generator.below(4) == 0 {
            probe(&memory, generator, comparison)?;
        }
    }
    Ok(())
}

/// An opening list of a few early Restocks, where there are places for more.
fn restocks(generator: &mut Generator, own: u8, opening: &Opening) -> Vec<u8> {
    let count = u32::from(generator.below(4)).min(opening.queue_places / 4);
    let mut list = Vec::new();
    for _ in 0..count {
        let hour = u32::from(generator.below(6)).min(opening.last_hour);
        let message = forecast::restock(own, hour, generator.pick(&[0, 1, 300, u16::MAX]));
        list.extend(frame::write(&Frame::Event { sense: Sense::Plain, message }));
    }
    list
}

/// A drawn frame, or one of the acknowledgments.
fn told(generator: &mut Generator, site: &Site, acknowledgments: &[Vec<u8>]) -> Vec<u8> {
    if acknowledgments.is_empty() || generator.below(3) != 0 {
        return draw::frame(generator, site);
    }
    acknowledgments[usize::from(generator.half()) % acknowledgments.len()].clone()
}

/// Set-ups with settings in and out of their ranges, and opening lists whole, damaged, cut and too long.
pub fn set_ups(
    generator: &mut Generator,
    comparison: &mut Comparison,
    count: usize,
) -> Result<(), Wrong> {
    for _ in 0..count {
        let setups = forecast::draw(generator);
        let setup = &setups[usize::from(generator.half()) % setups.len()];
        let mut opening = opening(setup);
        let mut list = setup.opening.clone();
        if generator.below(4) == 0 {
            let site = Site {
                gateways: opening.gateways as u8,
                own: opening.own as u8,
                last_hour: opening.last_hour,
            };
            let mut frame = draw::frame(generator, &site);
            if generator.below(2) == 0 {
                frame = hostile::damaged_frame(generator, &frame);
            }
            comparison.lamp(&frame)?;
            list.extend(frame);
        }
        if generator.below(3) == 0 {
            list = hostile::damaged(generator, &list);
        }
        if generator.below(4) == 0 {
            list = list.repeat(usize::from(generator.below(12)));
        }
        if generator.below(3) == 0 {
            change_setting(generator, &mut opening);
        }
        let mut length =
            memory_length(opening.queue_places.min(600), opening.outstanding_places.min(600));
        if generator.below(6) == 0 {
            length = length.saturating_sub(1 + usize::from(generator.below(3)));
        }
        let mut memory = vec![generator.byte(); length];
        comparison.set_up(&mut memory, &list, &opening)?;
    }
    Ok(())
}

fn change_setting(generator: &mut Generator, opening: &mut Opening) {
    let odd = generator.pick(&[
        0,
        1,
        2,
        255,
        256,
        511,
        512,
        513,
        65_535,
        65_536,
        MOST_HOURS,
        MOST_HOURS + 1,
        NOTHING_DUE,
    ]);
    let settings = [
        &mut opening.gateways,
        &mut opening.own,
        &mut opening.supplier,
        &mut opening.stock,
        &mut opening.last_hour,
        &mut opening.queue_places,
        &mut opening.outstanding_places,
        &mut opening.request_hours,
        &mut opening.delivery_hours,
        &mut opening.life_hours,
    ];
    let chosen = usize::from(generator.below(10));
    *settings.into_iter().nth(chosen).expect("one of ten") = odd;
}

/// A gateway with all 512 queue places in use: long work, long undoing, and what no longer fits.
fn most_places(comparison: &mut Comparison) -> Result<(), Wrong> {
    for (stock, outstanding_places) in [(0, MOST_PLACES), (65_535, MOST_PLACES), (100, 300)] {
        let opening = Opening {
            gateways: 2,
            own: 1,
            supplier: 0,
            stock,
            last_hour: 100_000,
            queue_places: MOST_PLACES,
            outstanding_places,
            request_hours: 3,
            delivery_hours: 24,
            life_hours: 43_800,
        };
        let mut memory = vec![0; memory_length(MOST_PLACES, outstanding_places)];
        check_number(comparison.set_up(&mut memory, &[], &opening)?, 0)?;
        for number in 1..MOST_PLACES {
            let frame = request(1000 - number % 100, number);
            let (answer, _) = comparison.call(Call::Take { frame: &frame }, &mut memory, AMPLE)?;
            check_number(answer.number, 0)?;
        }
        let first = request(1, 7);
        undo_all(&first, &mut memory, comparison)?;
        check_number(comparison.would_answer(Call::Take { frame: &first }, &memory)?, 5)?;
        let cancel = [&[191], &first[1..], &[1]].concat();
        undo_all(&cancel, &mut memory, comparison)?;
    }
    Ok(())
}

/// Works off as much as there are places for. Then a frame comes that undoes all of it: it finds too few outstanding
/// places; with all acknowledged, an output one byte too short; and then what it needs.
fn undo_all(frame: &[u8], memory: &mut [u8], comparison: &mut Comparison) -> Result<(), Wrong> {
    let take = Call::Take { frame };
    let (_, sent) = comparison.call(Call::Work { budget: 600 }, memory, AMPLE)?;
    check_number(comparison.would_answer(take, memory)?, 5)?;
    acknowledge(&sent, memory, comparison)?;
    let needed = 28 + sent.len() / 27 * 28;
    let (answer, _) = comparison.call(take, memory, needed - 1)?;
    check_number(answer.number, 5)?;
    let (answer, output) = comparison.call(take, memory, needed)?;
    check_number(answer.number, 0)?;
    acknowledge(&output, memory, comparison)
}

/// Brings the acknowledgment of every message and cancel in an output.
fn acknowledge(output: &[u8], memory: &mut [u8], comparison: &mut Comparison) -> Result<(), Wrong> {
    for frame in acknowledgments(output) {
        let (answer, _) = comparison.call(Call::Take { frame: &frame }, memory, 0)?;
        check_number(answer.number, 0)?;
    }
    Ok(())
}

/// The acknowledgments of the messages and cancels in an output.
fn acknowledgments(output: &[u8]) -> Vec<Vec<u8>> {
    let acknowledgment = |frame| {
        let Frame::Event { sense, message } = frame else {
            return None;
        };
        let sense = match sense {
            Sense::Plain => Sense::Acknowledgment,
            Sense::Cancel => Sense::AcknowledgmentOfCancel,
            Sense::Acknowledgment | Sense::AcknowledgmentOfCancel => return None,
        };
        Some(frame::write(&Frame::Event { sense, message }))
    };
    frame::list(output).into_iter().flatten().filter_map(acknowledgment).collect()
}

/// A Request from gateway 0 to gateway 1.
fn request(hour: u32, lamp: u32) -> Vec<u8> {
    let head = [&[63, 1, 0, 1][..], &hour.to_be_bytes(), &[0]].concat();
    [head, format!("L{lamp:017}").into_bytes()].concat()
}
