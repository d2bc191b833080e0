//! The programs bench and plain_arcs: what they print and how they end. Nothing is measured.

#[path = "../../host/tests/common/mod.rs"]
mod common;

use common::{check_bad_usage, check_help_and_version, run_on, run_unread, scratch};
use std::fs;

const BENCH: &str = env!("CARGO_BIN_EXE_bench");
const PLAIN_ARCS: &str = env!("CARGO_BIN_EXE_plain_arcs");

const SCENARIO: &[u8] = b"last-hour 5\ngateway 0 supplier 0 stock 1\n";

#[test]
fn help_and_version_are_printed() {
    check_help_and_version(BENCH, "bench");
    check_help_and_version(PLAIN_ARCS, "plain_arcs");
}

#[test]
fn a_bad_usage_is_named() {
    check_bad_usage(BENCH, &[], "SCENARIO is missing");
    check_bad_usage(BENCH, &["-"], "ARCS is missing");
    check_bad_usage(BENCH, &["-", "a", "b"], "\"b\" is one word too many");
    check_bad_usage(PLAIN_ARCS, &["5"], "\"5\" is one word too many");
}

#[test]
fn what_cannot_be_used_is_told_before_anything_is_measured() {
    let missing = scratch("bench-unusable").join("missing");
    let missing = missing.to_str().unwrap();
    let unusable = |words: &[&str], input: &[u8], begin: &str| {
        let error = run_on(BENCH, words, input).refused(3);
        assert!(error.starts_with(begin) && error.lines().count() == 1, "{error}");
    };
    unusable(&[missing, PLAIN_ARCS], b"", &format!("{missing}: "));
    unusable(&["-", PLAIN_ARCS], b"last-hour", "standard input:1: last-hour has 0 words behind it");
    unusable(&["-", missing], SCENARIO, &format!("{missing}: "));
}

#[test]
fn nobody_need_read_what_is_printed() {
    let scenario = scratch("bench-unread").join("scenario");
    fs::write(&scenario, SCENARIO).unwrap();
    let words = [scenario.to_str().unwrap(), PLAIN_ARCS];
    assert_eq!(run_unread(BENCH, &words, b"").good(), "");
    assert_eq!(run_unread(PLAIN_ARCS, &[""; 0], b"65535\n").good(), "");
}

#[test]
fn arcs_are_printed() {
    let arcs = |input: &[u8]| run_on(PLAIN_ARCS, &[""; 0], input).good();
    let five = "nodes 5 arcs 5 round 14\n0 1\n0 2\n1 3\n2 4\n3 4\n";
    for input in [&b"5"[..], b"5\n"] {
        assert_eq!(arcs(input), five);
    }
    for input in [&b""[..], b"0", b"05", b"65536", b"5\n\n", b"x", b"--help"] {
        assert_eq!(arcs(input), "8\n");
    }
}
