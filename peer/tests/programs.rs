//! The program peer: what it prints and how it ends.

use std::io::{self, Write};
use std::process::{Command, Stdio};
use std::thread;

/// Runs the program: its status, its standard output and its standard error.
fn run(words: &[&str], input: &[u8]) -> (i32, Vec<u8>, String) {
    ended(words, input, Stdio::piped())
}

/// Runs the program with a standard output that nobody reads: its status and its standard error.
fn run_unread(words: &[&str], input: &[u8]) -> (i32, String) {
    let (reader, writer) = io::pipe().unwrap();
    drop(reader);
    let (status, _, error) = ended(words, input, writer.into());
    (status, error)
}

fn ended(words: &[&str], input: &[u8], output: Stdio) -> (i32, Vec<u8>, String) {
    let mut command = Command::new(env!("CARGO_BIN_EXE_peer"));
    command.args(words).stdin(Stdio::piped()).stdout(output).stderr(Stdio::piped());
    let mut child = command.spawn().unwrap();
    let mut stdin = child.stdin.take().unwrap();
    let output = thread::scope(|scope| {
        // The program need not read its whole input.
        scope.spawn(move || stdin.write_all(input));
        child.wait_with_output().unwrap()
    });
    let status = output.status.code().expect("no signal ends it");
    (status, output.stdout, String::from_utf8(output.stderr).unwrap())
}

/// What the program prints as text; it must end well.
fn printed(words: &[&str], input: &[u8]) -> String {
    let (status, output, error) = run(words, input);
    assert_eq!((status, error.as_str()), (0, ""), "{words:?}");
    String::from_utf8(output).unwrap()
}

#[test]
fn help_and_version_are_printed() {
    let version = format!("peer {}\n", env!("CARGO_PKG_VERSION"));
    for words in [&["--version"][..], &["-V"]] {
        assert_eq!(printed(words, b""), version);
    }
    for words in [&["--help"][..], &["-h"], &["run", "--help"]] {
        let help = printed(words, b"");
        assert!(help.starts_with("usage: peer arcs") && help.contains("\nStatus: 0"), "{help}");
    }
}

#[test]
fn a_bad_usage_is_named() {
    let bad = |words: &[&str], what: &str| {
        let (status, output, error) = run(words, b"");
        assert_eq!((status, output.len()), (2, 0), "{words:?}");
        assert!(error.starts_with(&format!("peer: {what}\nusage: peer ")), "{words:?}: {error}");
    };
    bad(&[], "a subcommand is missing");
    bad(&["x"], "there is no subcommand x");
    bad(&["-x", "1"], "there is no subcommand -x");
    bad(&["arcs", "5"], "arcs takes no words behind it");
    for name in ["run", "sample-frames"] {
        bad(&[name], &format!("{name} takes two numbers, SEED and COUNT, and was given 0"));
        bad(
            &[name, "1", "2", "3"],
            &format!("{name} takes two numbers, SEED and COUNT, and was given 3"),
        );
        bad(&[name, "", "2"], "SEED is 0 to 4294967295, not \"\"");
        bad(&[name, "4294967296", "2"], "SEED is 0 to 4294967295, not \"4294967296\"");
        bad(&[name, "1", "-2"], "COUNT is 0 to 4294967295, not \"-2\"");
    }
}

#[test]
fn subcommands_print() {
    assert_eq!(printed(&["arcs"], b"1\n"), "nodes 1 arcs 0 round 0\n");
    assert_eq!(printed(&["frames"], &[4, 7, 4, 1, 2]), "4 1 2 0 0 0 0 -\n");
    assert!(printed(&["examples"], b"").ends_with("single queue agrees\n"));
    assert_eq!(printed(&["run", "1", "0"], b""), "0 forecasts: 0 ok, 0 stuck, 0 wrong\n");
    assert!(printed(&["run", "4294967295", "2"], b"").contains("\n0 ok: "));
    let (status, stream, error) = run(&["sample-frames", "1", "36"], b"");
    assert_eq!((status, error.as_str()), (0, ""));
    assert_eq!(printed(&["frames"], &stream).lines().count(), 36);
}

#[test]
fn nobody_need_read_what_is_printed() {
    let quiet = (0, String::new());
    assert_eq!(run_unread(&["--help"], b""), quiet);
    assert_eq!(run_unread(&["arcs"], b"65535\n"), quiet);
    assert_eq!(run_unread(&["sample-frames", "1", "10000"], b""), quiet);
    assert_eq!(run_unread(&["run", "1", "1"], b""), quiet);
}
