//! The programs check and single_queue: what they print and how they end.

#[path = "../../host/tests/common/mod.rs"]
mod common;

use common::{check_bad_usage, check_help_and_version, run, run_on, run_unread, scratch, Ended};
use host::frame::restock;
use std::fs;

const CHECK: &str = env!("CARGO_BIN_EXE_check");
const SINGLE_QUEUE: &str = env!("CARGO_BIN_EXE_single_queue");

const SCENARIO: &[u8] = b"last-hour 5\ngateway 0 supplier 0 stock 1\nrestock 0 2 7\n";

/// The record of the scenario: the Restock and the state after it.
fn record() -> Vec<u8> {
    [&restock(0, 2, 7)[..], &[0, 0, 0, 8], &[0; 12]].concat()
}

#[test]
fn help_and_version_are_printed() {
    check_help_and_version(CHECK, "check");
    check_help_and_version(SINGLE_QUEUE, "single_queue");
}

#[test]
fn a_bad_usage_is_named() {
    let bad = |words: &[&str], what: &str| check_bad_usage(CHECK, words, what);
    bad(&[], "SEED is missing");
    bad(&["1"], "COUNT is missing");
    bad(&["1", "2", "3"], "\"3\" is one word too many");
    bad(&["x", "2"], "SEED is 0 to 4294967295, not \"x\"");
    bad(&["1", "4294967296"], "COUNT is 0 to 4294967295, not \"4294967296\"");
    bad(&["1", "+2"], "COUNT is 0 to 4294967295, not \"+2\"");

    let bad = |words: &[&str], what: &str| check_bad_usage(SINGLE_QUEUE, words, what);
    bad(&[], "SCENARIO is missing");
    bad(&["-"], "DIRECTORY is missing");
    bad(&["-", "a", "b"], "\"b\" is one word too many");
}

#[test]
fn without_seeds_answers_are_missing_and_nothing_differs() {
    let Ended { status, output, error } = run(CHECK, &["1", "0"]);
    assert_eq!((status, error.as_str()), (Some(1), ""));
    assert!(output.contains("\nthere were no ForecastsWhole\n"), "{output}");
    let reason = "SetUp never refused a frame for 12 lamp: a byte outside 33 to 126";
    assert!(output.contains(&format!("\n{reason}\n")), "{output}");
    let last = output.lines().last().unwrap();
    assert!(last.starts_with("no seeds: no difference, ") && last.ends_with(" gaps"), "{last}");
}

/// The second seed is 0; two do not meet every answer.
#[test]
fn the_status_tells_what_nobody_reads() {
    assert_eq!(run_unread(CHECK, &["4294967295", "2"], b"").refused(1), "");
}

#[test]
fn records_are_compared_with_the_single_queue() {
    let directory = scratch("single-queue-compared");
    let scenario = directory.join("scenario");
    let file = directory.join("gateway-000.record");
    fs::write(&scenario, SCENARIO).unwrap();
    fs::write(&file, record()).unwrap();
    let equal = "equal to the single queue's: 1 record of 1 event\n";
    assert_eq!(run(SINGLE_QUEUE, &[&scenario, &directory]).good(), equal);
    let words = ["-", directory.to_str().unwrap()];
    assert_eq!(run_on(SINGLE_QUEUE, &words, SCENARIO).good(), equal);
    assert_eq!(run_unread(SINGLE_QUEUE, &words, SCENARIO).good(), "");

    fs::write(&file, &record()[1..]).unwrap();
    let what = format!("{} is not the single queue's record\n", file.display());
    assert_eq!(run_on(SINGLE_QUEUE, &words, SCENARIO).refused(1), what);
}

#[test]
fn what_cannot_be_used_is_no_difference() {
    let directory = scratch("single-queue-unusable");
    let words = ["-", directory.to_str().unwrap()];
    let error = run_on(SINGLE_QUEUE, &words, SCENARIO).refused(3);
    assert!(error.contains("gateway-000.record: "), "{error}");
    assert_eq!(run(SINGLE_QUEUE, &words).refused(3), "standard input:1: no last-hour\n");
    let error = run(SINGLE_QUEUE, &[&directory, &directory]).refused(3);
    assert!(error.starts_with(&format!("{}: ", directory.display())), "{error}");
}
