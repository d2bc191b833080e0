//! `single_queue SCENARIO DIRECTORY` compares the record files of a forecast with the single queue's records, which
//! the second implementation makes from the scenario alone. Its status is 1 if one differs.

use check::peer_calls::setup;
use host::command::{printed, Arguments, Ending, Program, BAD_FILE};
use host::report::counted;
use host::scenario::Scenario;
use interface::memory_length;
use peer::gateway::Setup;
use peer::{queue, record};
use std::ffi::OsStr;
use std::fs;
use std::io::{self, Write};
use std::path::Path;
use std::process::ExitCode;

const PROGRAM: Program = Program {
    name: "single_queue",
    usage: &["SCENARIO DIRECTORY"],
    help: HELP,
    flags: &[],
    valued: &[],
};

const HELP: &str = "\
Does the events of a SCENARIO in one queue, by the second implementation, and compares the records of
every gateway with the files gateway-000.record and so on in the DIRECTORY, byte for byte. The
SCENARIO - is standard input.

Status: 0 if all are equal, 1 if one differs, 2 for a bad usage, 3 if a file cannot be used or
standard output cannot be written.

  single_queue scenario result
";

/// The status where a record is not the single queue's.
const DIFFERENT: u8 = 1;

fn main() -> ExitCode {
    PROGRAM.run(compare)
}

fn compare(arguments: &Arguments) -> Result<(), Ending> {
    let [scenario, directory] = arguments.exactly(["SCENARIO", "DIRECTORY"])?;
    let setups = setups(scenario)?;
    let mut events = 0;
    for (gateway, expected) in queue::records(&setups).iter().enumerate() {
        let path = Path::new(directory).join(format!("gateway-{gateway:03}.record"));
        let bytes: Vec<u8> = expected.iter().flat_map(record::bytes).collect();
        compare_file(&path, &bytes)?;
        events += expected.len();
    }
    let (records, events) =
        (counted(setups.len() as u64, "record"), counted(events as u64, "event"));
    printed(writeln!(io::stdout().lock(), "equal to the single queue's: {records} of {events}"))
}

/// What the gateways of a scenario are set up with.
fn setups(scenario: &OsStr) -> Result<Vec<Setup>, Ending> {
    let (_, parsed) = Scenario::input(scenario)?;
    let of_gateway = |own| {
        let opening = parsed.opening(own);
        let length = memory_length(opening.queue_places, opening.outstanding_places);
        setup(&opening, &parsed.gateways[own].list, length)
    };
    Ok((0..parsed.gateways.len()).map(of_gateway).collect())
}

fn compare_file(path: &Path, expected: &[u8]) -> Result<(), Ending> {
    let path_shown = path.display();
    let found = fs::read(path)
        .map_err(|error| Ending::Failed(BAD_FILE, format!("{path_shown}: {error}")))?;
    if found != expected {
        let what = format!("{path_shown} is not the single queue's record");
        return Err(Ending::Failed(DIFFERENT, what));
    }
    Ok(())
}
