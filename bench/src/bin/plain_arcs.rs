//! The program arcs in plain Rust, which `bench` measures the proved one beside.

use host::command::{printed, Ending, Program, BAD_FILE};
use interface::{Calls, NO_NEIGHBOUR};
use plain::Plain;
use std::fmt::Write as _;
use std::io::{self, Read, Write as _};
use std::process::ExitCode;

const PROGRAM: Program =
    Program { name: "plain_arcs", usage: &["<NUMBER"], help: HELP, flags: &[], valued: &[] };

const HELP: &str = "\
Reads a number of gateways, 1 to 65535, from standard input and prints the arcs between them as the
proved program arcs does, and 8 alone for any other input.

Status: 0, 2 for a bad usage, 3 if standard input cannot be read or standard output cannot be written.

  echo 22 | plain_arcs
";

fn main() -> ExitCode {
    PROGRAM.run(|arguments| {
        arguments.exactly([])?;
        let input = input()?;
        let text = number(&input).map_or_else(|| "8\n".into(), listing);
        printed(io::stdout().lock().write_all(text.as_bytes()))
    })
}

/// Standard input, or as much of it as shows that it is too long.
fn input() -> Result<Vec<u8>, Ending> {
    let mut input = Vec::new();
    match io::stdin().lock().take(16).read_to_end(&mut input) {
        Ok(_) => Ok(input),
        Err(error) => Err(Ending::Failed(BAD_FILE, format!("standard input: {error}"))),
    }
}

/// The number of gateways that the input spells.
fn number(input: &[u8]) -> Option<u32> {
    let digits = input.strip_suffix(b"\n").unwrap_or(input);
    if digits.first()? == &b'0' || !digits.iter().all(u8::is_ascii_digit) {
        return None;
    }
    let number = std::str::from_utf8(digits).ok()?.parse().ok()?;
    (1..=65_535).contains(&number).then_some(number)
}

fn listing(gateways: u32) -> String {
    let mut lines = String::new();
    let mut arcs = 0;
    for own in 0..gateways {
        let mut neighbours = [0; 4];
        Plain.route(gateways, own, &mut neighbours);
        for to in neighbours[2..].iter().filter(|&&to| to != NO_NEIGHBOUR) {
            let _ = writeln!(lines, "{own} {to}");
            arcs += 1;
        }
    }
    let round = 2 * arcs + gateways - 1;
    format!("nodes {gateways} arcs {arcs} round {round}\n{lines}")
}
