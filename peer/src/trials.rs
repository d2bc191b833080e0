//! Trials: random forecasts with random carriers, each compared with the single queue.

use crate::carrier::{self, End};
use crate::forecast::{self, MOST_PLACES};
use crate::gateway::Setup;
use crate::generator::Generator;
use crate::run::{Run, Tally};
use crate::under_way::Wrong;

/// Random calls of a trial; the turns of the fixed order bring the rest to an end.
const RANDOM_CALLS: usize = 20_000;

/// What the trials print, and whether nothing went wrong.
pub struct Report {
    pub text: String,
    pub good: bool,
}

/// Trials with the seeds from `seed` on, a line for each, and a line with the total.
pub fn report(seed: u32, count: u32) -> Report {
    let (mut finished, mut stuck, mut wrong) = (0, 0, 0);
    let mut text = String::new();
    for number in 0..count {
        let seed = seed.wrapping_add(number);
        let outcome = match trial(seed) {
            Ok((End::Finished, what)) => {
                finished += 1;
                format!("ok: {what}")
            }
            Ok((End::Stuck, what)) => {
                stuck += 1;
                format!("stuck: {what}")
            }
            Err(what) => {
                wrong += 1;
                format!("wrong: {what}")
            }
        };
        text += &format!("{seed} {outcome}\n");
    }
    text += &format!("{count} forecasts: {finished} ok, {stuck} stuck, {wrong} wrong\n");
    Report { text, good: wrong == 0 }
}

/// The end of a trial and what happened in it.
fn trial(seed: u32) -> Result<(End, String), Wrong> {
    let mut generator = Generator::new(seed);
    let setups = forecast::draw(&mut generator);

    let many_places = setups.iter().all(has_most_places);

    let mut in_turns = Run::new(&setups)?;
    if end(&mut in_turns)? == End::Stuck && many_places {
        return Err("stuck in turns with the most places".into());
    }
    let mut run = Run::new(&setups)?;
    carrier::random(&mut run, &mut generator, RANDOM_CALLS)?;
    let places = if many_places { "512 places" } else { "few places" };
    Ok((end(&mut run)?, format!("{places}, {}", summary(&run))))
}

/// Brings a run to its end; finished, it must have the records of the single queue.
fn end(run: &mut Run) -> Result<End, Wrong> {
    let end = carrier::finish(run)?;
    if end == End::Finished && !run.agrees() {
        return Err("the records are not those of the single queue".into());
    }
    Ok(end)
}

fn has_most_places(setup: &Setup) -> bool {
    setup.queue_places == MOST_PLACES && setup.outstanding_places == MOST_PLACES
}

fn summary(run: &Run) -> String {
    let events: usize = run.records().iter().map(Vec::len).sum();
    let Tally { calls, refused, cancels, cancels_waiting } = run.tally();
    let (written, rounds) = (run.written(), run.completed_rounds());
    format!(
        "{} gateways, {events} events, {calls} calls, {written} frames, {cancels} cancels, \
         {cancels_waiting} calls with a waiting cancel, {refused} refused, {rounds} rounds",
        run.nodes()
    )
}

#[cfg(test)]
mod tests {
    use super::*;

    #[test]
    fn nothing_goes_wrong() {
        let Report { text, good } = report(1, 150);
        assert!(good, "{text}");
        assert!(text.contains(" ok: ") && text.contains(" stuck: "));
        for what in ["cancels", "calls with a waiting cancel", "refused", "rounds"] {
            let none = format!(" 0 {what}");
            let some = text.lines().filter(|line| line.contains(what) && !line.contains(&none));
            assert!(some.count() > 10, "few trials with {what}");
        }
    }

    /// N = 1, two Failures at one hour, Q = 2, U = 1: the Request to itself finds the queue full.
    #[test]
    fn too_few_places_leave_a_run_stuck() {
        let lamp = *b"L00000000000000001";
        let opening = [forecast::failure(0, 1, lamp), forecast::failure(0, 1, lamp)];
        let mut setup = forecast::setup(1, 0, 0, 0, 5, &opening);
        (setup.queue_places, setup.outstanding_places) = (2, 1);
        let mut run = Run::new(&[setup]).unwrap();
        assert!(!run.is_blocked(), "it can work");
        assert_eq!(carrier::finish(&mut run), Ok(End::Stuck));
        assert!(run.is_blocked() && !run.agrees());
    }

    #[test]
    fn a_run_with_nothing_to_do_is_not_blocked() {
        let run = Run::new(&[forecast::setup(1, 0, 0, 0, 5, &[])]).unwrap();
        assert!(!run.is_blocked());
    }
}
