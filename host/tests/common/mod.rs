//! What the tests of programs have alike.
#![allow(dead_code)]

use std::ffi::OsStr;
use std::fs;
use std::io::{self, Write};
use std::path::{Path, PathBuf};
use std::process::{Child, Command, Stdio};

/// How a program ended: its status (`None` where a signal ended it), what it wrote to standard output and to standard error.
#[derive(Debug, PartialEq, Eq)]
pub struct Ended {
    pub status: Option<i32>,
    pub output: String,
    pub error: String,
}

/// An empty directory of this name.
pub fn scratch(name: &str) -> PathBuf {
    let path = Path::new(env!("CARGO_TARGET_TMPDIR")).join(name);
    let _ = fs::remove_dir_all(&path);
    fs::create_dir_all(&path).unwrap();
    path
}

/// The name of a file with these bytes.
pub fn file(directory: &Path, name: &str, bytes: &[u8]) -> String {
    let path = directory.join(name);
    fs::write(&path, bytes).unwrap();
    path.to_str().unwrap().into()
}

/// Starts a program with its streams connected.
pub fn start(program: impl AsRef<OsStr>, words: &[impl AsRef<OsStr>]) -> Child {
    let mut command = Command::new(program);
    command.args(words).stdin(Stdio::piped()).stdout(Stdio::piped()).stderr(Stdio::piped());
    command.spawn().unwrap()
}

/// Waits until a program ends.
pub fn ended(child: Child) -> Ended {
    let output = child.wait_with_output().unwrap();
    let text = |bytes| String::from_utf8(bytes).unwrap();
    Ended { status: output.status.code(), output: text(output.stdout), error: text(output.stderr) }
}

/// Runs a program on an input.
pub fn run_on(program: impl AsRef<OsStr>, words: &[impl AsRef<OsStr>], input: &[u8]) -> Ended {
    let mut child = start(program, words);
    // A program that ends before it has read everything closes its input.
    let _ = child.stdin.take().unwrap().write_all(input);
    ended(child)
}

/// Runs a program.
pub fn run(program: impl AsRef<OsStr>, words: &[impl AsRef<OsStr>]) -> Ended {
    run_on(program, words, &[])
}

/// Runs a program on an input, with a standard output that nobody reads.
pub fn run_unread(program: impl AsRef<OsStr>, words: &[impl AsRef<OsStr>], input: &[u8]) -> Ended {
    let (reader, writer) = io::pipe().unwrap();
    drop(reader);
    let mut command = Command::new(program);
    command.args(words).stdin(Stdio::piped()).stdout(writer).stderr(Stdio::piped());
    let mut child = command.spawn().unwrap();
    let _ = child.stdin.take().unwrap().write_all(input);
    ended(child)
}

impl Ended {
    pub fn with(status: i32, output: &str, error: &str) -> Ended {
        Ended { status: Some(status), output: output.into(), error: error.into() }
    }

    /// Status 0, with nothing on standard error: what stands on standard output.
    #[track_caller]
    pub fn good(self) -> String {
        assert_eq!((self.status, self.error.as_str()), (Some(0), ""));
        self.output
    }

    /// This status, with nothing on standard output: what stands on standard error.
    #[track_caller]
    pub fn refused(self, status: i32) -> String {
        assert_eq!((self.status, self.output.as_str()), (Some(status), ""), "{}", self.error);
        self.error
    }
}

/// These lines of a text.
pub fn lines(text: &str, numbers: &[usize]) -> String {
    let lines: Vec<&str> = text.split_inclusive('\n').collect();
    numbers.iter().map(|&number| lines[number]).collect()
}

/// Help and version are on standard output; an option that no program has is a bad usage.
#[track_caller]
pub fn check_help_and_version(program: &str, name: &str) {
    let usage = format!("usage: {name}");
    for word in ["--help", "-h"] {
        let help = run(program, &[word]).good();
        assert!(help.starts_with(&usage) && help.contains("\nStatus: 0"), "{help}");
    }
    for word in ["--version", "-V"] {
        let version = format!("{name} {}\n", env!("CARGO_PKG_VERSION"));
        assert_eq!(run(program, &[word]).good(), version);
    }
    check_bad_usage(program, &["--nothing"], "unknown option --nothing");
    assert_eq!(run_unread(program, &["--help"], b"").good(), "");
}

/// Standard error names the program and what is wrong, and has the usage behind it.
#[track_caller]
pub fn check_bad_usage(program: &str, words: &[&str], what: &str) {
    let error = run(program, words).refused(2);
    let name = Path::new(program).file_stem().unwrap().display();
    assert!(error.starts_with(&format!("{name}: {what}\nusage: {name}")), "{words:?}: {error}");
}
