//! When a run that makes no progress counts as blocked.

use check::compare::{Comparison, AMPLE};
use check::world::World;
use peer::forecast::{example, failure, setup};

#[test]
fn only_too_few_places_block_a_run() {
    let mut comparison = Comparison::default();
    let is_blocked = |world: &World, comparison: &mut Comparison| {
        world.is_blocked(comparison).expect("no difference")
    };

    let can_work = World::new(&example(), &mut comparison).unwrap();
    assert!(!is_blocked(&can_work, &mut comparison));

    let nothing_to_do = World::new(&[setup(1, 0, 0, 0, 5, &[])], &mut comparison).unwrap();
    assert!(!is_blocked(&nothing_to_do, &mut comparison));

    // Two Failures at one hour, Q = 2, U = 1: the Request to itself finds the queue full.
    let lamp = *b"L00000000000000001";
    let mut setup = setup(1, 0, 0, 0, 5, &[failure(0, 1, lamp), failure(0, 1, lamp)]);
    (setup.queue_places, setup.outstanding_places) = (2, 1);
    let mut few_places = World::new(&[setup], &mut comparison).unwrap();
    assert!(!is_blocked(&few_places, &mut comparison));
    few_places.work(&mut comparison, 0, 1, AMPLE).unwrap();
    assert!(is_blocked(&few_places, &mut comparison));
}
