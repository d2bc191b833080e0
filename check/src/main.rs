//! The long comparison: `check SEED COUNT` makes the runs of COUNT seeds and prints how many calls were made and how
//! they were answered. Its status is 1 if anything differs or goes wrong, and if some answer or reason was never met.

use check::compare::Comparison;
use check::{runs, Wrong};
use host::command::{printed, tell, Arguments, Ending, Program};
use host::scenario::number;
use std::io::{self, Write};
use std::process::ExitCode;
use std::time::{Duration, Instant};

const PROGRAM: Program =
    Program { name: "check", usage: &["SEED COUNT"], help: HELP, flags: &[], valued: &[] };

const HELP: &str = "\
Makes every call three times on copies of the same bytes, by the proved library, by plain Rust and by
the second implementation, and compares what they answer and leave: the routing, gateways with all
places in use, views and balances of records with any byte changed, lead times around their range, events
near the last hour and stocks around the most that they may come to, then random runs of COUNT seeds, SEED
and those behind it. Behind 4294967295 comes 0. After each commit of a run the gateway's record must
balance.

Prints how often each call had each answer, and how often each call that reads frames refused one for
each reason; then what can be and never was. Few seeds do not meet every answer and reason; with a
COUNT of 0 there are no random runs, and most are never met. How far it has come is on standard error
every ten seconds.

Status: 0 if nothing differs and every answer and reason was met, 1 otherwise, 2 for a bad usage, 3 if
standard output cannot be written.

  check 1 2000
";

/// The status where something differs, or was never met.
const NOT_GOOD: u8 = 1;

fn main() -> ExitCode {
    PROGRAM.run(check)
}

/// Compares, and prints what came of it. The status tells it even where nobody reads.
fn check(arguments: &Arguments) -> Result<(), Ending> {
    let [seed, count] = numbers(arguments)?;
    let mut comparison = Comparison::default();
    let result = compare(seed, count, &mut comparison);
    let tally = &comparison.tally;
    let (verdict, good) = match result {
        Err(wrong) => (format!("wrong: {wrong}"), false),
        Ok(()) => {
            let gaps = [tally.gaps(), tally.impossible()].concat();
            let lines: String = gaps.iter().map(|gap| format!("{gap}\n")).collect();
            let seeds = seeds(seed, count);
            (format!("{lines}{seeds}: no difference, {} gaps", gaps.len()), gaps.is_empty())
        }
    };
    let said = writeln!(io::stdout().lock(), "{tally}{verdict}");
    match good {
        true => printed(said),
        false => Err(Ending::Told(NOT_GOOD)),
    }
}

fn numbers(arguments: &Arguments) -> Result<[u32; 2], Ending> {
    let names = ["SEED", "COUNT"];
    let words = arguments.exactly(names)?;
    let read = |place: usize| {
        let word = words[place].to_string_lossy();
        number(names[place], &word, 0, u32::MAX).map_err(Ending::BadUsage)
    };
    Ok([read(0)?, read(1)?])
}

fn seeds(seed: u32, count: u32) -> String {
    match count {
        0 => "no seeds".into(),
        _ => format!("seeds from {seed} on, {count} of them"),
    }
}

fn compare(seed: u32, count: u32, comparison: &mut Comparison) -> Result<(), Wrong> {
    runs::unseeded(comparison)?;
    let mut shown = Instant::now();
    for number in 0..count {
        let seed = seed.wrapping_add(number);
        runs::all(seed, comparison).map_err(|wrong| format!("seed {seed}: {wrong}"))?;
        if shown.elapsed() > Duration::from_secs(10) {
            tell(&format!("{number} of {count} seeds, {} calls", comparison.tally.calls()));
            shown = Instant::now();
        }
    }
    Ok(())
}
