//! The short seeded part of the comparison: no difference, and every answer of every call met.

use check::compare::Comparison;
use check::runs;

#[test]
fn calls_agree_and_every_answer_is_met() {
    let mut comparison = Comparison::default();
    runs::unseeded(&mut comparison).unwrap();
    for seed in 1..=60 {
        let result = runs::all(seed, &mut comparison);
        result.unwrap_or_else(|wrong| panic!("seed {seed}: {wrong}"));
    }
    let tally = &comparison.tally;
    println!("{tally}");
    assert_eq!(tally.gaps(), Vec::<String>::new());
    assert_eq!(tally.impossible(), Vec::<String>::new());
}
