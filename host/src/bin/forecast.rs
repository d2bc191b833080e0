//! The program forecast: runs all gateways of a scenario over the proved library until every record is whole, and writes what
//! purchasing, stores and crews read.

use host::balance::{self, Unbalanced};
use host::carrier::{Progress, Stopped};
use host::command::{printed, shown, Arguments, Ending, Program, BAD_FILE};
use host::digest::Digest;
use host::directory::{Directory, RESULTS};
use host::kept::{Kept, Unfinished};
use host::progress::{Display, Style};
use host::record_files::BadFile;
use host::report::{counted, grouped};
use host::results::{self, Results};
use host::scenario::{number, Scenario};
use library::Library;
use std::ffi::OsStr;
use std::io::{self, Write};
use std::path::Path;
use std::process::ExitCode;
use std::time::Duration;
use std::{env, fs};

/// The status where a forecast cannot go on.
const CANNOT_GO_ON: u8 = 1;

/// Seconds from one copy to the next, and the most that may be asked for.
const SAVE_EVERY: u32 = 10;
const MOST_SECONDS: u32 = 86_400;

const PROGRAM: Program = Program {
    name: "forecast",
    usage: &[
        "[--quiet] [--save-every SECONDS] [--anew] SCENARIO DIRECTORY",
        "[--quiet] [--save-every SECONDS] --resume DIRECTORY",
    ],
    help: "\
Runs all gateways of a scenario until every record is whole, and writes to DIRECTORY each
gateway's record (gateway-NNN.record), what purchasing and what maintenance is to see of it
(gateway-NNN.purchasing, gateway-NNN.maintenance), and what is made of all records: report.html to
begin with, years.csv, months.csv, drivers.csv, balance.csv, lamps.csv and places.csv. SCENARIO - is
standard input.

  --resume DIRECTORY    go on with the forecast in DIRECTORY after a crash
  --save-every SECONDS  write the copy to go on from every so many seconds (10; 0: after each round)
  --anew                begin anew where DIRECTORY has a forecast that has not ended
  --quiet               show no progress
  --help, --version

Status: 0 if every record is whole, 1 if the forecast cannot go on (what is committed is kept), 2 for
a bad usage, 3 if the scenario, the copy or a file cannot be used, 4 if a line of balance.csv does not
balance, which never is so of committed records. docs/OPERATING.md says what a scenario is and what each
figure means.

  forecast scenario result
  forecast --resume result
",
    flags: &["--quiet", "--anew"],
    valued: &["--resume", "--save-every"],
};

fn main() -> ExitCode {
    PROGRAM.run(forecast)
}

fn forecast(arguments: &Arguments) -> Result<(), Ending> {
    let seconds = |word: &str| number("in seconds", word, 0, MOST_SECONDS);
    let every = arguments.parsed("--save-every", seconds)?.unwrap_or(SAVE_EVERY);
    let (name, mut kept) = match arguments.value("--resume") {
        None => {
            let [scenario, directory] = arguments.exactly(["SCENARIO", "DIRECTORY"])?;
            (shown(scenario), begin(scenario, Path::new(directory), arguments.has("--anew"))?)
        }
        Some(_) if arguments.has("--anew") => {
            return Err(Ending::BadUsage("--resume and --anew contradict each other".into()));
        }
        Some(directory) => {
            let [] = arguments.exactly([])?;
            let kept = resume(Path::new(directory))?;
            (kept.directory.scenario_path().display().to_string(), kept)
        }
    };
    let style = Style::of_standard_error(arguments.has("--quiet"));
    let first = kept.carried().progress.agreed;
    let mut display = Display::new(style, first, kept.scenario.last_hour);
    let result = kept.run(Duration::from_secs(every.into()), |progress| display.show(progress));
    display.end();
    finish(&name, kept, result)
}

/// Begins a forecast.
fn begin(name: &OsStr, directory: &Path, anew: bool) -> Result<Kept<Library>, Ending> {
    let (text, scenario) = Scenario::input(name)?;
    let directory = Directory::make(directory).map_err(unusable)?;
    if directory.has_copy() && !anew {
        let path = directory.path().display();
        let what = format!(
            "{path} has a forecast that has not ended.\n\
             Go on with it by `forecast --resume {path}`, or begin anew with `--anew`."
        );
        return Err(Ending::Failed(BAD_FILE, what));
    }
    Kept::begin(Library, build()?, directory, &text, scenario).map_err(|why| match why {
        Unfinished::File(bad) => unusable(bad),
        Unfinished::Stopped(stopped) => {
            Ending::Failed(CANNOT_GO_ON, format!("{}: {stopped}", shown(name)))
        }
    })
}

/// Goes on with a forecast.
fn resume(path: &Path) -> Result<Kept<Library>, Ending> {
    let directory = Directory::open(path).map_err(unusable)?;
    if !directory.has_copy() {
        let what = if directory.has_results() {
            "its forecast has ended, there is nothing to go on with"
        } else {
            "there is no copy of a forecast to go on from; begin anew"
        };
        return Err(unusable(BadFile::new(path, what)));
    }
    Kept::resume(Library, build()?, directory).map_err(|bad| {
        let path = path.display();
        let what = format!(
            "{bad}\nNothing was changed. Put back what is missing, or begin anew by `forecast --anew SCENARIO {path}`."
        );
        Ending::Failed(BAD_FILE, what)
    })
}

/// The digest of this program.
fn build() -> Result<Digest, Ending> {
    let path = env::current_exe().map_err(|error| Ending::Failed(BAD_FILE, error.to_string()))?;
    match fs::read(&path) {
        Ok(bytes) => Ok(Digest::of(&bytes)),
        Err(error) => Err(unusable(BadFile::new(&path, error))),
    }
}

/// Writes the results, if the forecast has ended, and says how it did.
fn finish(name: &str, kept: Kept<Library>, result: Result<(), Unfinished>) -> Result<(), Ending> {
    let path = kept.directory.path().display().to_string();
    let advice = format!("go on from the last copy by `forecast --resume {path}`");
    let interrupted = |bad| Ending::Failed(BAD_FILE, format!("{bad}\n{advice}"));
    let stopped = match result {
        Ok(()) => None,
        Err(Unfinished::Stopped(why @ Stopped::WantOfPlaces(_))) => Some(why.to_string()),
        Err(Unfinished::Stopped(why)) => {
            return Err(Ending::Failed(CANNOT_GO_ON, format!("{name}: {why}\n{advice}")))
        }
        Err(Unfinished::File(bad)) => return Err(interrupted(bad)),
    };
    let (summary, unbalanced) = results(kept, stopped.as_deref()).map_err(interrupted)?;
    balance::check(&path, &unbalanced)?;
    match stopped {
        None => printed(io::stdout().lock().write_all(summary.as_bytes())),
        Some(why) => Err(Ending::Failed(
            CANNOT_GO_ON,
            format!("{name}: {why}\nwhat is committed is kept in {path}"),
        )),
    }
}

/// Writes the results, after which there is nothing to go on with; the summary, and what does not balance.
fn results(
    kept: Kept<Library>,
    stopped: Option<&str>,
) -> Result<(String, Vec<Unbalanced>), BadFile> {
    let (directory, scenario, carried) = kept.close()?;
    let Results { orders, unbalanced } =
        results::write(&Library, &directory, &scenario, &carried, stopped)?;
    directory.remove_copy()?;
    let Progress { worked, committed, frames, rounds, taken_back, .. } = carried.progress;
    let summary = format!(
        "{}, last hour {}: every record is whole, {}\n\
         {orders}\
         {} were done and undone again, {} carried, {}, {} taken back\n\
         {}: {}, the records and their views\n",
        counted(scenario.gateways.len() as u64, "gateway"),
        grouped(scenario.last_hour),
        counted(committed, "event"),
        counted(worked - committed, "event"),
        counted(frames, "frame"),
        counted(rounds, "round"),
        counted(taken_back, "window"),
        directory.path().display(),
        RESULTS.join(", "),
    );
    Ok((summary, unbalanced))
}

fn unusable(bad: BadFile) -> Ending {
    Ending::Failed(BAD_FILE, bad.to_string())
}
