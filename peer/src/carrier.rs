//! Carriers: a fixed order of calls that always brings the oldest frame, and random orders.

use crate::frame::Frame;
use crate::generator::Generator;
use crate::model::NOTHING_DUE;
use crate::run::{Run, AMPLE};
use crate::under_way::Wrong;

/// Events that a gateway works off in a turn.
const TURN_BUDGET: u32 = 4;

/// Turns after which a run that has changed no agreed time and committed nothing must be blocked. A
/// round of the few gateways here takes about ten.
const PATIENCE: usize = 200;

/// How a run came to its end.
#[derive(Clone, Copy, Debug, PartialEq, Eq)]
pub enum End {
    Finished,
    /// Too few places: nothing more can be done or taken.
    Stuck,
}

/// Turns until the run is finished or stuck.
pub fn finish(run: &mut Run) -> Result<End, Wrong> {
    let mut progress = run.progress();
    let mut rounds = run.completed_rounds();
    let mut idle = 0;
    while !run.is_finished() {
        if idle == PATIENCE {
            check_stuck(run, rounds)?;
            return Ok(End::Stuck);
        }
        turn(run)?;
        idle += 1;
        let now = run.progress();
        if now != progress {
            (progress, rounds, idle) = (now, run.completed_rounds(), 0);
        }
    }
    Ok(End::Finished)
}

/// A run that does not go on is blocked, and has completed a round since it last went on; `rounds`
/// were completed then.
fn check_stuck(run: &Run, rounds: usize) -> Result<(), Wrong> {
    if !run.is_blocked() {
        return Err("no progress, yet not blocked".into());
    }
    if run.completed_rounds() == rounds {
        return Err("no progress, and no round is completed".into());
    }
    Ok(())
}

/// One turn: every gateway works; every frame then under way is brought, oldest first; gateway 0
/// starts a round if none is open and something is due; every gateway commits what it can.
fn turn(run: &mut Run) -> Result<(), Wrong> {
    for own in 0..run.nodes() {
        run.work(own, TURN_BUDGET, AMPLE)?;
    }
    for _ in 0..run.frames_under_way() {
        run.bring(0, AMPLE)?;
    }
    if run.agreed(0) != NOTHING_DUE {
        run.start(0, AMPLE)?;
    }
    for own in 0..run.nodes() {
        while run.commit(own, AMPLE)? {}
    }
    Ok(())
}

#[derive(Clone, Copy)]
enum Call {
    Work,
    Bring,
    Start,
    Commit,
}

#[derive(Clone, Copy)]
enum Choice {
    Oldest,
    Newest,
    Any,
}

#[derive(Clone, Copy)]
enum Slow {
    None,
    /// The frames of the round, so that much happens in a round.
    Rounds,
    /// The other frames, so that many are under way in a round.
    Messages,
    /// The frames to one gateway.
    To(u8),
}

/// What a random carrier prefers.
struct Habits {
    /// Each call as often as it is preferred.
    calls: Vec<Call>,
    choice: Choice,
    /// The frames that are seldom brought.
    slow: Slow,
    /// Output lengths to choose from.
    rooms: &'static [usize],
}

const ROOMS: [&[usize]; 2] = [&[AMPLE], &[AMPLE, AMPLE, AMPLE, 0, 4, 27, 28, 41, 56, 90]];

/// At most `calls` random calls, fewer if the run is finished before.
pub fn random(run: &mut Run, generator: &mut Generator, calls: usize) -> Result<(), Wrong> {
    let habits = draw_habits(run.nodes(), generator);
    for _ in 0..calls {
        if run.is_finished() {
            break;
        }
        call(run, &habits, generator)?;
    }
    Ok(())
}

fn draw_habits(nodes: u8, generator: &mut Generator) -> Habits {
    let preferences =
        [(Call::Work, 1, 8), (Call::Bring, 2, 12), (Call::Start, 1, 3), (Call::Commit, 1, 3)];
    let mut calls = Vec::new();
    for (call, least, most) in preferences {
        let times = least + generator.below(most - least + 1);
        calls.extend(vec![call; times.into()]);
    }
    Habits {
        calls,
        choice: generator.pick(&[Choice::Oldest, Choice::Newest, Choice::Any, Choice::Any]),
        slow: draw_slow(nodes, generator),
        rooms: generator.pick(&ROOMS),
    }
}

fn draw_slow(nodes: u8, generator: &mut Generator) -> Slow {
    let gateway = Slow::To(generator.below(nodes));
    generator.pick(&[Slow::None, Slow::Rounds, Slow::Rounds, Slow::Messages, gateway])
}

fn call(run: &mut Run, habits: &Habits, generator: &mut Generator) -> Result<(), Wrong> {
    let own = generator.below(run.nodes());
    let room = generator.pick(habits.rooms);
    match generator.pick(&habits.calls) {
        Call::Work => run.work(own, generator.below(4).into(), room),
        Call::Bring => bring(run, habits, generator, room),
        Call::Start => run.start(generator.pick(&[0, own]), room),
        Call::Commit => run.commit(own, room).map(|_| ()),
    }
}

fn bring(
    run: &mut Run,
    habits: &Habits,
    generator: &mut Generator,
    room: usize,
) -> Result<(), Wrong> {
    let count = run.frames_under_way();
    if count == 0 {
        return Ok(());
    }
    let place = match habits.choice {
        Choice::Oldest => 0,
        Choice::Newest => count - 1,
        Choice::Any => usize::from(generator.half()) % count,
    };
    if is_slow(&run.frame(place), habits.slow) && generator.below(16) != 0 {
        return Ok(());
    }
    run.bring(place, room)
}

fn is_slow(frame: &Frame, slow: Slow) -> bool {
    let is_message = matches!(frame, Frame::Event { .. });
    match slow {
        Slow::None => false,
        Slow::Rounds => !is_message,
        Slow::Messages => is_message,
        Slow::To(gateway) => frame.addressee() == gateway,
    }
}
