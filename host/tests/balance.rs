//! The stock book of a forecast, balance.csv: as it always is, and as it would be if a record did not balance.

mod common;
#[path = "common/failing.rs"]
mod failing;

use common::scratch;
use failing::Failing;
use host::balance::{self, Balances, NOT_BALANCED};
use host::carrier::Carried;
use host::command::Ending;
use host::digest::Digest;
use host::directory::Directory;
use host::frame::restock;
use host::kept::Kept;
use host::results::{self, Results};
use host::scenario::Scenario;
use interface::Calls;
use library::Library;
use std::fs;
use std::path::Path;
use std::time::Duration;

/// Gateway 1 has two drivers, is sent three more in the first year, and hands out one in each.
const SCENARIO: &str = "last-hour 10000\ngateway 0 supplier 1 stock 0\n\
                        gateway 1 supplier 1 stock 2\nrestock 1 5 3\n\
                        failure 0 10 L00000000000000001\nfailure 0 9000 L00000000000000002\n";

/// The stock book as it is.
const BOOK: &str = "year,gateway,opening_stock,received,served,stock,balances\n\
                    1,0,0,0,0,0,yes\n1,1,2,3,1,4,yes\n1,all,2,3,1,4,yes\n\
                    2,0,0,0,0,0,yes\n2,1,4,0,1,3,yes\n2,all,4,0,1,3,yes\n";

/// A forecast that has become whole in a directory, with no results yet.
fn whole(name: &str) -> (Directory, Scenario, Carried) {
    let directory = Directory::make(&scratch(name)).unwrap();
    let scenario = Scenario::parse(SCENARIO).unwrap();
    let build = Digest::of(b"this build");
    let mut kept = Kept::begin(Library, build, directory, SCENARIO, scenario).unwrap();
    kept.run(Duration::from_secs(60), |_| ()).unwrap();
    kept.close().unwrap()
}

/// Writes the results of a whole forecast; what is told of them, and the stock book.
fn written(
    calls: &impl Calls,
    (directory, scenario, carried): &(Directory, Scenario, Carried),
) -> (Results, String) {
    let results = results::write(calls, directory, scenario, carried, None).unwrap();
    (results, fs::read_to_string(directory.path().join("balance.csv")).unwrap())
}

/// The years and gateways that do not balance.
fn named(results: &Results) -> Vec<(u32, usize)> {
    results.unbalanced.iter().map(|line| (line.year, line.gateway)).collect()
}

/// Puts another number in the place of a record's byte, counted from its end.
fn change_byte(path: &Path, from_end: usize, change: impl Fn(u8) -> u8) {
    let mut record = fs::read(path).unwrap();
    let place = record.len() - from_end;
    record[place] = change(record[place]);
    fs::write(path, record).unwrap();
}

#[test]
fn a_forecast_balances() {
    let (results, book) = written(&Library, &whole("balanced"));
    assert_eq!(book, BOOK);
    assert_eq!(results.unbalanced, []);
    assert!(balance::check("result", &results.unbalanced).is_ok());
}

/// The last byte of the stock in the last state of gateway 1, its second Request, is one too many. All results are written all the same.
#[test]
fn a_record_that_does_not_balance_is_named() {
    let whole = whole("unbalanced");
    let directory = whole.0.path();
    change_byte(&directory.join("gateway-001.record"), 13, |stock| stock + 1);
    let (results, book) = written(&Library, &whole);
    assert_eq!(
        book,
        BOOK.replace("2,1,4,0,1,3,yes", "2,1,4,0,1,4,no").replace("4,0,1,3,yes", "4,0,1,4,no")
    );
    for name in ["report.html", "years.csv", "places.csv", "gateway-001.purchasing"] {
        assert!(directory.join(name).exists(), "{name}");
    }
    let Err(Ending::Failed(status, what)) = balance::check("result", &results.unbalanced) else {
        panic!("{book}");
    };
    assert_eq!((status, NOT_BALANCED), (4, 4));
    assert_eq!(
        what,
        "result: gateway 1 does not balance in year 2: opening stock 4 and received 0, but served 1 \
         and stock 4\nDo not order by these results; docs/OPERATING.md says what to do."
    );
}

/// A stock that is wrong in the first year is wrong in its line, and in that of the next, which begins with it.
#[test]
fn each_year_that_does_not_balance_is_named() {
    let whole = whole("unbalanced-years");
    change_byte(&whole.0.path().join("gateway-001.record"), 43 + 13, |stock| stock - 3);
    let (results, book) = written(&Library, &whole);
    assert!(book.contains("\n1,1,2,3,1,1,no\n") && book.contains("\n2,1,1,0,1,3,no\n"), "{book}");
    assert_eq!(named(&results), [(1, 1), (2, 1)]);
}

/// A call that counts one too many is noticed in the first year of each gateway, from which its figures begin.
#[test]
fn a_call_that_counts_one_too_many_is_named() {
    let failing = Failing { served: 1, ..Failing::default() };
    let (results, book) = written(&failing, &whole("one-too-many"));
    assert!(book.contains("\n1,0,0,0,1,0,no\n1,1,2,3,2,4,no\n1,all,2,3,3,4,no\n"), "{book}");
    assert_eq!(named(&results), [(1, 0), (1, 1)]);
}

/// It never is, of what gateways commit.
#[test]
fn a_balance_that_is_refused_is_told_in_words() {
    let record = [&restock(0, 2, 7)[..], &[0, 0, 0, 8], &[0; 12]].concat();
    let why = |balance| {
        let failing = Failing { balance, ..Failing::default() };
        Balances::of(&failing, &record, 1).err().unwrap_or_default()
    };
    assert_eq!(why(0), "");
    let figures = "5 (too few places, output bytes or figures)";
    assert_eq!(why(5), format!("the balance was answered with {figures}"));
    assert_eq!(why(12), "the balance was answered with 12 (lamp)");
    let cut = Balances::of(&Library, &record[..25], 1).err().unwrap();
    assert_eq!(cut, "no record at byte 0: 11 (length), cut: 15 of a state's 16 bytes");
}
