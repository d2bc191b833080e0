//! The second program: its subcommands.

use peer::{arcs, examples, samples, stream, trials};
use std::io::{self, Read, Write};
use std::process::ExitCode;

const USAGE: &str = "\
usage: peer arcs <NUMBER
       peer frames <STREAM
       peer examples
       peer sample-frames SEED COUNT
       peer run SEED COUNT
";

const HELP: &str = "
The rules of document 01 and requests (a) to (g) of document 02 written a second time, for comparison.

  arcs           the arcs between a NUMBER of gateways, as the program arcs prints them
  frames         a line for each item of a STREAM of candidate frames: the number and the reason if
                 it is refused, else its kind, from, to, hour, origin, quantity, sense and lamp
  examples       the examples of document 01, run by the gateways and by the single queue
  sample-frames  a stream of COUNT items, valid and damaged frames, the same for the same SEED
  run            COUNT random forecasts, drawn from SEED on, each compared with the single queue

Status: 0, 1 if a forecast went wrong, 2 for a bad usage, 3 if standard input cannot be read or
standard output cannot be written.

  echo 22 | peer arcs
  peer run 1 200
";

const WRONG: u8 = 1;
const BAD_USAGE: u8 = 2;
const BAD_STREAM: u8 = 3;

/// What the program is asked for.
enum Task {
    Help,
    Version,
    Arcs,
    Frames,
    Examples,
    SampleFrames { seed: u32, count: u32 },
    Run { seed: u32, count: u32 },
}

/// What a task prints, and what went wrong in it.
struct Done {
    output: Vec<u8>,
    wrong: Option<String>,
}

fn main() -> ExitCode {
    let arguments = std::env::args_os().skip(1);
    let arguments: Vec<String> = arguments.map(|word| word.to_string_lossy().into()).collect();
    let words: Vec<&str> = arguments.iter().map(String::as_str).collect();
    match task(&words) {
        Ok(task) => perform(task),
        Err(what) => tell(BAD_USAGE, &format!("{what}\n{}", USAGE.trim_end())),
    }
}

/// The task that the words name, or what is wrong with them.
fn task(words: &[&str]) -> Result<Task, String> {
    let has = |names: [&str; 2]| words.iter().any(|word| names.contains(word));
    if has(["--help", "-h"]) {
        return Ok(Task::Help);
    }
    if has(["--version", "-V"]) {
        return Ok(Task::Version);
    }
    Ok(match *words {
        ["arcs"] => Task::Arcs,
        ["frames"] => Task::Frames,
        ["examples"] => Task::Examples,
        ["sample-frames", seed, count] => {
            Task::SampleFrames { seed: number("SEED", seed)?, count: number("COUNT", count)? }
        }
        ["run", seed, count] => {
            Task::Run { seed: number("SEED", seed)?, count: number("COUNT", count)? }
        }
        [] => return Err("a subcommand is missing".into()),
        [name @ ("arcs" | "frames" | "examples"), ..] => {
            return Err(format!("{name} takes no words behind it"));
        }
        [name @ ("sample-frames" | "run"), ref behind @ ..] => {
            let count = behind.len();
            return Err(format!("{name} takes two numbers, SEED and COUNT, and was given {count}"));
        }
        [name, ..] => return Err(format!("there is no subcommand {name}")),
    })
}

/// A number in decimal digits.
fn number(name: &str, word: &str) -> Result<u32, String> {
    let digits = word.bytes().all(|byte| byte.is_ascii_digit());
    let value = if digits { word.parse().ok() } else { None };
    value.ok_or_else(|| format!("{name} is 0 to {}, not \"{word}\"", u32::MAX))
}

/// Does a task and prints what it gives. That nobody reads it is no error.
fn perform(task: Task) -> ExitCode {
    let Done { output, wrong } = match done(task) {
        Ok(done) => done,
        Err(error) => return tell(BAD_STREAM, &format!("standard input: {error}")),
    };
    let mut out = io::stdout().lock();
    match (out.write_all(&output).and_then(|()| out.flush()), wrong) {
        (Err(error), _) if error.kind() != io::ErrorKind::BrokenPipe => {
            tell(BAD_STREAM, &format!("standard output: {error}"))
        }
        (_, Some(what)) => tell(WRONG, &what),
        (_, None) => ExitCode::SUCCESS,
    }
}

fn done(task: Task) -> io::Result<Done> {
    let good = |output| Done { output, wrong: None };
    Ok(match task {
        Task::Help => good([USAGE, HELP].concat().into()),
        Task::Version => good(concat!("peer ", env!("CARGO_PKG_VERSION"), "\n").into()),
        Task::Arcs => good(arcs::listing(&input(arcs::LONGEST_INPUT as u64 + 1)?).into()),
        Task::Frames => good(stream::frame_lines(&input(u64::MAX)?).into()),
        Task::Examples => match examples::lines() {
            Ok(lines) => good(lines.into()),
            Err(wrong) => Done { output: Vec::new(), wrong: Some(wrong) },
        },
        Task::SampleFrames { seed, count } => good(samples::frames(seed, count as usize)),
        Task::Run { seed, count } => {
            let report = trials::report(seed, count);
            let wrong = (!report.good).then(|| "a trial went wrong".into());
            Done { output: report.text.into(), wrong }
        }
    })
}

/// Standard input, or its first bytes up to the limit.
fn input(limit: u64) -> io::Result<Vec<u8>> {
    let mut bytes = Vec::new();
    io::stdin().lock().take(limit).read_to_end(&mut bytes)?;
    Ok(bytes)
}

/// Tells on standard error why the program ends with this status.
fn tell(status: u8, what: &str) -> ExitCode {
    let _ = writeln!(io::stderr().lock(), "peer: {what}");
    ExitCode::from(status)
}
