//! The program forecast: its words, its statuses, and what it writes.

mod common;

use common::{check_bad_usage, check_help_and_version, run, run_on, run_unread, scratch};
use std::fs;
use std::path::Path;

const FORECAST: &str = env!("CARGO_BIN_EXE_forecast");

const TWO: &str = include_str!("../../examples/two/scenario");

/// One gateway with too few places for three failures in an hour.
const STUCK: &str = "last-hour 5\ngateway 0 supplier 0 stock 0 queue 4 outstanding 1\n\
                     restock 0 0 3\nfailure 0 1 L00000000000000001\n\
                     failure 0 1 L00000000000000002\nfailure 0 1 L00000000000000003\n";

fn read(directory: &Path, name: &str) -> String {
    fs::read_to_string(directory.join(name)).unwrap()
}

#[test]
fn the_last_example_of_document_01() {
    let result = scratch("two").join("a/new/directory");
    let words = ["--quiet", "-", result.to_str().unwrap()];
    let output = run_on(FORECAST, &words, TWO.as_bytes()).good();
    let lines: Vec<&str> = output.lines().collect();
    assert_eq!(
        lines[..3],
        [
            "2 gateways, last hour 100: every record is whole, 94 events",
            "year  failed  drawn  fitted  restocked  on shelves  on the way  short  drivers to order",
            "   1       2      1       1          0           0           0      1                 2"
        ]
    );
    assert_eq!(read(&result, "forecast.scenario"), TWO);
    assert_eq!(fs::read(result.join("gateway-001.record")).unwrap().len(), 91 * 43);
    assert!(read(&result, "months.csv").ends_with("\n1,all,2,1,1,0,1,0,0,1,2\n"));
    let page = read(&result, "report.html");
    assert!(page.contains("<h1>Spares forecast: Document 01&#39;s last example"), "{page}");
    assert_eq!(run_unread(FORECAST, &words, TWO.as_bytes()).good(), "");
}

#[test]
fn help_and_version_are_printed() {
    check_help_and_version(FORECAST, "forecast");
}

#[test]
fn a_bad_usage_is_named() {
    let bad = |words: &[&str], what: &str| check_bad_usage(FORECAST, words, what);
    bad(&[], "SCENARIO is missing");
    bad(&["scenario"], "DIRECTORY is missing");
    bad(&["scenario", "directory", "more"], "\"more\" is one word too many");
    bad(&["--resume"], "--resume has no value behind it");
    bad(&["--resume", "directory", "more"], "\"more\" is one word too many");
    bad(&["--resume", "directory", "--anew"], "--resume and --anew contradict each other");
    bad(&["--save-every", "-1", "a", "b"], "--save-every in seconds is 0 to 86400, not \"-1\"");
    bad(&["--quiet=no", "a", "b"], "--quiet takes no value");
}

#[test]
fn what_cannot_be_used_changes_nothing() {
    let directory = scratch("unusable");
    let (file, result) = (directory.join("scenario"), directory.join("result"));
    fs::write(&file, "last-hour 5\n  # a comment\ngateway 0 supplier 1 stock 0\n").unwrap();
    let error = run(FORECAST, &[&file, &result]).refused(3);
    assert_eq!(error, format!("{}:3: there is no gateway 1, the supplier\n", file.display()));
    assert!(!result.exists());

    fs::write(&file, "last-hour 5\ngateway 0 supplier 0 stock 0 request 2 life 1000001\n").unwrap();
    let error = run(FORECAST, &[&file, &result]).refused(3);
    let what = "life hours is 1 to 1000000, not \"1000001\"";
    assert_eq!(error, format!("{}:2: {what}\n", file.display()));
    assert!(!result.exists());

    let error = run(FORECAST, &[&directory.join("missing"), &result]).refused(3);
    assert!(error.contains("missing: No such file"), "{error}");

    fs::write(&file, TWO).unwrap();
    run(FORECAST, &[&file, &file]).refused(3);
    assert_eq!(read(&directory, "scenario"), TWO);

    let words = ["-", result.to_str().unwrap()];
    let error = run_on(FORECAST, &words, b"last-hour 5\n\xe9").refused(3);
    assert_eq!(error, "standard input:2: this is no text in UTF-8\n");
    assert!(!result.exists());
}

/// A file for each gateway is open at a time, and a few more.
#[test]
fn the_most_gateways_need_few_open_files() {
    let directory = scratch("most-gateways");
    let mut text = String::from("last-hour 5\n");
    for own in 0..255 {
        text += &format!(
            "gateway {own} supplier {own} stock 0 queue 1 outstanding 1\nrestock {own} 1 1\n"
        );
    }
    fs::write(directory.join("scenario"), text).unwrap();
    let script = "ulimit -n 300; exec \"$0\" --quiet \"$1/scenario\" \"$1/result\"";
    let output = run("bash", &["-c", script, FORECAST, directory.to_str().unwrap()]).good();
    assert!(output.starts_with("255 gateways, last hour 5: every record is whole, 255 events\n"));
}

/// It has ended: nothing is there to go on from, and it may begin again.
#[test]
fn a_forecast_that_cannot_go_on_keeps_what_is_committed() {
    let directory = scratch("stuck");
    let (file, result) = (directory.join("scenario"), directory.join("result"));
    fs::write(&file, STUCK).unwrap();
    for _ in 0..2 {
        let error = run(FORECAST, &[&file, &result]).refused(1);
        assert!(error.contains("gateway 0: 4 queue places are too few at hour 1"), "{error}");
        assert!(error.contains("what is committed is kept in"), "{error}");
        assert!(!result.join("forecast.copy").exists());
        assert!(read(&result, "years.csv").ends_with("\n1,all,0,0,0,3,0,3,0,0,-3\n"));
        assert!(read(&result, "report.html").contains("4 queue places are too few"));
        let length = |name: &str| fs::metadata(result.join(name)).unwrap().len();
        assert_eq!(length("gateway-000.record"), 26);
        assert_eq!(length("gateway-000.purchasing"), 24);
        assert_eq!(length("gateway-000.maintenance"), 6);
    }
}
