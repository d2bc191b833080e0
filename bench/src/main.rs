//! Measures the calls, the test of memory, a round, views of a record and its balance, the town's forecast and the program arcs beside plain
//! Rust, in one run, and prints a table.
//!
//! `bench SCENARIO ARCS` with the town's scenario and the proved program arcs.

mod measure;
mod records;
mod rounds;
mod situations;

use host::carrier::{Forecast, Stopped};
use host::command::{printed, shown, Arguments, Ending, Program, BAD_FILE};
use host::record::Stock;
use host::scenario::Scenario;
use interface::{Calls, LampPlace, BALANCE_FIGURES, MAINTENANCE, MOST_PLACES, PURCHASING};
use library::Library;
use measure::{in_turn, timed, with_unit, Times};
use plain::Plain;
use situations::{
    processed, queued, queued_in_one_hour, request, restocked, to_commit, with_sense, AMPLE,
};
use std::ffi::OsStr;
use std::io::{self, Write};
use std::path::{Path, PathBuf};
use std::process::{Command, ExitCode, Stdio};

const PROGRAM: Program =
    Program { name: "bench", usage: &["SCENARIO ARCS"], help: HELP, flags: &[], valued: &[] };

const HELP: &str = "\
Measures the calls of the proved library, the test whether memory is sound, a round, views of a record
of a megabyte, with the new stock and with the old one, the balance of such a record, the forecast of a
SCENARIO and the program ARCS beside plain Rust that does the same, and prints tables of the times. The
program plain_arcs stands beside this one. The SCENARIO - is standard input.

Status: 0, 1 if plain Rust does something else than what it is measured beside, 2 for a bad usage, 3
if a file or program cannot be used or standard output cannot be written.

  bench target/town/scenario crates/arcs/out/arcs
";

/// The status where plain Rust does something else.
const DIFFERENT: u8 = 1;

/// Copies of a memory that a call is made on in a turn.
const COPIES: u32 = 16;

const TURNS: usize = 301;

/// Messages in each gateway's queue in the rounds.
const QUEUED: u32 = 64;

fn main() -> ExitCode {
    PROGRAM.run(measure)
}

/// Reads what is measured, so that nothing is measured in vain, and measures it.
fn measure(arguments: &Arguments) -> Result<(), Ending> {
    let [scenario, arcs] = arguments.exactly(["SCENARIO", "ARCS"])?;
    let town = Town::read(scenario)?;
    let arcs = ArcsPrograms::compared(Path::new(arcs))?;
    let mut tables = Tables { out: io::stdout().lock() };
    tables.head()?;
    calls(&mut tables)?;
    soundness(&mut tables)?;
    for gateways in [22, 255] {
        let what = format!("a full round, N = {gateways}, {QUEUED} queued at each");
        tables.row(&what, round(gateways))?;
    }
    views(&mut tables)?;
    balance(&mut tables)?;
    tables.row("the town's forecast", town.times()?)?;
    tables.row("the program arcs, N = 65,535", arcs.times())?;

    tables.line("\nBy the places in use:\n")?;
    tables.head()?;
    for count in [0, 32, 128, 256, 511] {
        let frame = request(5 * count + 5, 999_999);
        let times = on_copies(&queued(count), |calls, memory, output| {
            calls.take(memory, &frame, output);
        })?;
        tables.row(&format!("take a plain message at {count} queued"), times)?;
    }
    Ok(())
}

/// What is printed, each line as soon as it is known.
struct Tables<W> {
    out: W,
}

impl<W: Write> Tables<W> {
    fn line(&mut self, text: &str) -> Result<(), Ending> {
        printed(writeln!(self.out, "{text}").and_then(|()| self.out.flush()))
    }

    fn head(&mut self) -> Result<(), Ending> {
        self.line("| what | library | plain Rust | ratio |\n|---|---|---|---|")
    }

    fn row(&mut self, what: &str, times: Times) -> Result<(), Ending> {
        let (library, plain) = (with_unit(times.library), with_unit(times.plain));
        self.line(&format!("| {what} | {library} | {plain} | {:.2} |", times.ratio()))
    }
}

/// A call, on any implementation.
type Call<'a> = &'a dyn Fn(&dyn Calls, &mut [u8], &mut [u8]);

fn calls(tables: &mut Tables<impl Write>) -> Result<(), Ending> {
    for count in [0, 64, 511] {
        let frame = request(5 * count + 5, 999_999);
        let times = on_copies(&queued(count), |calls, memory, output| {
            calls.take(memory, &frame, output);
        })?;
        tables.row(&format!("take a plain message, {count} queued"), times)?;
    }
    let frame = request(10, 999_999);
    let times = on_copies(&queued_in_one_hour(511), |calls, memory, output| {
        calls.take(memory, &frame, output);
    })?;
    tables.row("take a plain message, 511 queued in its hour", times)?;
    for count in [1, 64, 511] {
        let cancel = with_sense(&request(10, 1), 1);
        let times = on_copies(&processed(count), |calls, memory, output| {
            calls.take(memory, &cancel, output);
        })?;
        tables.row(&format!("take a cancel that undoes {count}"), times)?;
    }
    for budget in [1, MOST_PLACES] {
        let times = on_copies(&queued(MOST_PLACES), |calls, memory, output| {
            calls.work(memory, output, budget);
        })?;
        tables.row(&format!("work of {budget}, {MOST_PLACES} queued"), times)?;
    }
    for count in [1, 64, MOST_PLACES] {
        let times = on_copies(&to_commit(count), |calls, memory, output| {
            calls.commit(memory, output);
        })?;
        tables.row(&format!("commit, {count} queued"), times)?;
    }
    // The frame stands in the place of the memory, and the answer goes to the output.
    let times = on_copies(&request(10, 1), |calls, frame, output| {
        let LampPlace { number, place } = calls.lamp(frame);
        output[..2].copy_from_slice(&[number as u8, place as u8]);
    })?;
    tables.row("read the lamp", times)
}

/// A call that is refused as soon as the memory is found to be sound, on full queues, with the nanoseconds that a place takes the library.
fn soundness(tables: &mut Tables<impl Write>) -> Result<(), Ending> {
    let queues = [
        ("pending Requests", queued(MOST_PLACES)),
        ("done Requests", processed(MOST_PLACES)),
        ("pending Restocks", restocked(MOST_PLACES, 0)),
        ("done Restocks", restocked(MOST_PLACES, MOST_PLACES)),
    ];
    for (name, memory) in queues {
        let times = on_copies(&memory, |calls, memory, output| {
            output[0] = calls.take(memory, &[], output).number as u8;
        })?;
        let each = times.library.as_nanos() as f64 / f64::from(MOST_PLACES);
        let what = format!("refuse an empty frame, {MOST_PLACES} {name} ({each:.1} ns a place)");
        tables.row(&what, times)?;
    }
    Ok(())
}

/// The time of one call on fresh copies of a memory. Both implementations must leave the same.
fn on_copies(
    memory: &[u8],
    call: impl Fn(&dyn Calls, &mut [u8], &mut [u8]),
) -> Result<Times, Ending> {
    let call: Call = &call;
    let left = |calls: &dyn Calls| {
        let (mut memory, mut output) = (memory.to_vec(), vec![0; AMPLE]);
        call(calls, &mut memory, &mut output);
        (memory, output)
    };
    if left(&Library) != left(&Plain) {
        return Err(Ending::Failed(DIFFERENT, "plain Rust leaves something else".into()));
    }

    let mut copies = vec![memory.to_vec(); COPIES as usize + 1];
    let mut output = vec![0; AMPLE];
    let mut turn = |calls: &dyn Calls| {
        for copy in &mut copies {
            copy.copy_from_slice(memory);
        }
        // Not timed: the copying may have driven the code out of the cache.
        call(calls, &mut copies[0], &mut output);
        timed(|| {
            for copy in &mut copies[1..] {
                call(calls, copy, &mut output);
            }
        })
    };
    let times = in_turn(TURNS, |library| turn(if library { &Library } else { &Plain }));
    Ok(times.per(COPIES))
}

fn round(gateways: u32) -> Times {
    let memories = rounds::memories(gateways, QUEUED);
    let mut output = vec![0; AMPLE];
    let mut turn = |calls: &dyn Calls| {
        let mut memories = memories.clone();
        timed(|| rounds::round(calls, &mut memories, &mut output))
    };
    in_turn(TURNS / 3, |library| turn(if library { &Library } else { &Plain }))
}

/// The views of a record of a megabyte.
fn views(tables: &mut Tables<impl Write>) -> Result<(), Ending> {
    for (kind, stock) in [("record", Stock::New), ("record with the old stock", Stock::Old)] {
        let record = records::record(stock);
        for (name, reader) in [("purchasing", PURCHASING), ("maintenance", MAINTENANCE)] {
            let times = view(&record, reader, stock)?;
            let speed = speed(&record, times);
            tables.row(&format!("view for {name}, 1 MB of {kind} ({speed})"), times)?;
        }
    }
    Ok(())
}

/// The megabytes of a record that the library reads in a second.
fn speed(record: &[u8], times: Times) -> String {
    format!("{:.0} MB/s", record.len() as f64 / 1e6 / times.library.as_secs_f64())
}

/// The balance of a record of a megabyte. Both implementations must find the same.
fn balance(tables: &mut Tables<impl Write>) -> Result<(), Ending> {
    let record = records::record(Stock::New);
    let found = |calls: &dyn Calls| {
        let mut figures = [0; BALANCE_FIGURES];
        (calls.balance(&record, records::OPENING_STOCK, &mut figures), figures)
    };
    if found(&Library) != found(&Plain) {
        return Err(Ending::Failed(DIFFERENT, "plain Rust finds another balance".into()));
    }
    let turn = |calls: &dyn Calls| timed(|| found(calls));
    let times = in_turn(TURNS, |library| turn(if library { &Library } else { &Plain }));
    tables.row(&format!("balance, 1 MB of record ({})", speed(&record, times)), times)
}

/// The time of one view of a record. Both implementations must write the same.
fn view(record: &[u8], reader: u32, stock: Stock) -> Result<Times, Ending> {
    let old_stock = stock.number();
    let seen = |calls: &dyn Calls| {
        let mut output = vec![0; record.len()];
        (calls.view(record, &mut output, reader, old_stock), output)
    };
    if seen(&Library) != seen(&Plain) {
        return Err(Ending::Failed(DIFFERENT, "plain Rust writes another view".into()));
    }
    let mut output = vec![0; record.len()];
    let mut turn = |calls: &dyn Calls| timed(|| calls.view(record, &mut output, reader, old_stock));
    Ok(in_turn(TURNS, |library| turn(if library { &Library } else { &Plain })))
}

/// A scenario whose forecast is measured.
struct Town {
    name: String,
    scenario: Scenario,
}

impl Town {
    fn read(name: &OsStr) -> Result<Town, Ending> {
        let (_, scenario) = Scenario::input(name)?;
        Ok(Town { name: shown(name), scenario })
    }

    fn times(&self) -> Result<Times, Ending> {
        let mut stopped = None;
        let times = in_turn(3, |library| {
            timed(|| {
                let result = if library { self.run(Library) } else { self.run(Plain) };
                stopped = stopped.take().or(result.err());
            })
        });
        match stopped {
            None => Ok(times),
            Some(why) => Err(Ending::Failed(BAD_FILE, format!("{}: {why}", self.name))),
        }
    }

    fn run(&self, calls: impl Calls) -> Result<(), Stopped> {
        Forecast::new(calls, &self.scenario)?.run(|_, _| ()).map(drop)
    }
}

/// The proved program arcs, and the one in plain Rust.
struct ArcsPrograms {
    proved: PathBuf,
    plain: PathBuf,
}

impl ArcsPrograms {
    /// The proved program and the one beside this program, which must print the same.
    fn compared(proved: &Path) -> Result<ArcsPrograms, Ending> {
        let own = std::env::current_exe()
            .map_err(|error| Ending::Failed(BAD_FILE, format!("this program: {error}")))?;
        let plain = own.with_file_name("plain_arcs");
        if listing(proved)? != listing(&plain)? {
            let what = "the two programs arcs print different lists";
            return Err(Ending::Failed(DIFFERENT, what.into()));
        }
        Ok(ArcsPrograms { proved: proved.into(), plain })
    }

    fn times(&self) -> Times {
        in_turn(TURNS / 3, |library| {
            let program = if library { &self.proved } else { &self.plain };
            timed(|| listing(program).map_or(0, |text| text.len()))
        })
    }
}

/// What a program prints for 65,535.
fn listing(program: &Path) -> Result<Vec<u8>, Ending> {
    printed_by(program)
        .map_err(|error| Ending::Failed(BAD_FILE, format!("{}: {error}", program.display())))
}

fn printed_by(program: &Path) -> io::Result<Vec<u8>> {
    let mut child = Command::new(program).stdin(Stdio::piped()).stdout(Stdio::piped()).spawn()?;
    child.stdin.take().expect("it is piped").write_all(b"65535\n")?;
    Ok(child.wait_with_output()?.stdout)
}
