//! Prints the scenario of examples/town: 22 gateways, five years by the hour and about 10,400 failures.
//!
//! Gateways 0 to 17 are districts, which order from one of the area stores 18 to 20; these order from the depot, 21,
//! which is restocked each month and otherwise asks itself again an hour later. Store 20 is the depot of an island: its Requests reach the
//! depot on the mainland with the daily boat, what it hands out goes to the districts on the coast by boat too, and drivers on the island
//! last two years in the salt air, so that its lamps fail again and again. Lamps fail more often in winter. Lamps are numbered through in a
//! district, so that neighbours are alike in sixteen characters.

use host::command::{printed, Program};
use host::figures::MONTH;
use host::generator::Generator;
use std::io::{self, BufWriter, Write};
use std::process::ExitCode;

const PROGRAM: Program =
    Program { name: "town", usage: &[""], help: HELP, flags: &[], valued: &[] };

const HELP: &str = "\
Prints a scenario for the program forecast, the same each time: a town of 18 districts, three area
stores and a depot, about 10,400 failures in five years. One of the area stores is on an island: its
Requests and its deliveries take longer than elsewhere, and its drivers last two years.

Status: 0, 2 for a bad usage, 3 if standard output cannot be written.

  town >scenario
";

const LAST_HOUR: u32 = 43_800;
const DEPOT: u32 = 21;
const FIRST_STORE: u32 = 18;
const ISLAND: u32 = 20;

/// The island's hours: a day until a boat has brought a Request to the mainland, three until what is handed out has come to a lamp, and two
/// years that a driver lasts.
const ISLAND_HOURS: &str = " request 24 delivery 72 life 17520";

/// Drivers that the depot is sent each month, and in the last one, when they run out.
const RESTOCK: u32 = 171;
const LAST_RESTOCK: u32 = 110;

/// Opening failures of a district, of a store, of the island and of the depot. On the island more follow: the lamps that are fitted there in the
/// first three years fail again within the five.
const DISTRICT_FAILURES: u32 = 505;
const STORE_FAILURES: u32 = 430;
const ISLAND_FAILURES: u32 = 240;
const DEPOT_FAILURES: u32 = 20;

fn main() -> ExitCode {
    PROGRAM.run(|arguments| {
        arguments.exactly([])?;
        printed(print(BufWriter::new(io::stdout().lock())))
    })
}

fn print(mut out: impl Write) -> io::Result<()> {
    writeln!(
        out,
        "# A town of 18 districts, 3 area stores, one of them on an island, and a depot"
    )?;
    writeln!(
        out,
        "# Districts are 0 to 17, area stores 18 to 20, the island's is 20, the depot 21. Made by the program town."
    )?;
    writeln!(out, "last-hour {LAST_HOUR}")?;
    for gateway in 0..=DEPOT {
        let (supplier, stock) = match gateway {
            DEPOT => (DEPOT, 200),
            FIRST_STORE.. => (DEPOT, 40),
            _ => (FIRST_STORE + gateway % 3, 0),
        };
        let hours = if gateway == ISLAND { ISLAND_HOURS } else { "" };
        writeln!(out, "gateway {gateway} supplier {supplier} stock {stock}{hours}")?;
    }
    for month in 1..60 {
        let quantity = if month == 59 { LAST_RESTOCK } else { RESTOCK };
        writeln!(out, "restock {DEPOT} {} {quantity}", month * MONTH)?;
    }
    let mut generator = Generator(22);
    for gateway in 0..=DEPOT {
        let failures = match gateway {
            DEPOT => DEPOT_FAILURES,
            ISLAND => ISLAND_FAILURES,
            FIRST_STORE.. => STORE_FAILURES,
            _ => DISTRICT_FAILURES,
        };
        for number in 0..failures {
            let hour = failure_hour(&mut generator);
            writeln!(out, "failure {gateway} {hour} D{gateway:02}-POLE-{number:09}")?;
        }
    }
    out.flush()
}

/// An hour of the five years; of those in the summer half of a year one in six is drawn once more.
fn failure_hour(generator: &mut Generator) -> u32 {
    let hour = 1 + generator.below(LAST_HOUR);
    let summer = (3 * MONTH..9 * MONTH).contains(&(hour % (12 * MONTH)));
    if summer && generator.below(6) == 0 {
        return 1 + generator.below(LAST_HOUR);
    }
    hour
}
