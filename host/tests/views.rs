//! What purchasing and maintenance see of a forecast's records: the files that the program forecast writes, and what the program views
//! prints of them.

mod common;

use common::{
    check_bad_usage, check_help_and_version, file, lines, run, run_on, run_unread, scratch, start,
    Ended,
};
use host::frame;
use host::record::{Kind, Record, Records, Stock};
use host::scenario::Scenario;
use host::view::{Fields, Reader, Viewed, Views, READERS};
use library::Library;
use std::fs;
use std::io::Write;
use std::path::{Path, PathBuf};

const VIEWS: &str = env!("CARGO_BIN_EXE_views");
const RECORD: &str = env!("CARGO_BIN_EXE_record");
const FORECAST: &str = env!("CARGO_BIN_EXE_forecast");

const TWO: &str = include_str!("../../examples/two/scenario");

const LAMP: &str = "L00000000000000001";
const ODD_LAMP: &str = "A,\"00000000000000~";

/// An event of each kind as purchasing sees it: its map, hour and kind, the quantity if it is a Restock, and the state.
fn for_purchasing() -> Vec<u8> {
    let state = |stock: u32, [failed, fitted, short]: [u32; 3]| {
        [stock, failed, fitted, short].map(u32::to_be_bytes).concat()
    };
    [
        &[123, 0, 0, 0, 10, 0][..],
        &state(258, [1, 0, 0]),
        &[123, 0, 0, 0, 11, 1],
        &state(257, [1, 0, 0]),
        &[123, 0, 0, 0, 20, 2],
        &state(257, [1, 1, 0]),
        &[127, 255, 255, 255, 254, 3, 255, 255],
        &state(33_619_455, [u32::MAX; 3]),
    ]
    .concat()
}

/// The same as maintenance sees them: map, hour and kind, and lamp and origin if it is no Restock.
fn for_maintenance() -> Vec<u8> {
    [
        &[15, 0, 0, 0, 10, 0][..],
        LAMP.as_bytes(),
        &[3],
        &[15, 0, 0, 0, 11, 1],
        ODD_LAMP.as_bytes(),
        &[5],
        &[15, 0, 0, 0, 20, 2],
        LAMP.as_bytes(),
        &[3],
        &[3, 255, 255, 255, 254, 3],
    ]
    .concat()
}

/// Where the events of each begin, and its length.
const PLACES: [[usize; 5]; 2] = [[0, 22, 44, 66, 90], [0, 25, 50, 75, 81]];

const TABLES: [&str; 2] = [
    "      \
      hour      kind  quantity     stock      failed      fitted       short
        10   Failure                 258           1           0           0
        11   Request                 257           1           0           0
        20  Delivery                 257           1           1           0
4294967294   Restock     65535  33619455  4294967295  4294967295  4294967295
",
    "      \
      hour      kind                lamp  origin
        10   Failure  L00000000000000001       3
        11   Request  A,\"00000000000000~       5
        20  Delivery  L00000000000000001       3
4294967294   Restock
",
];

const CSV: [&str; 2] = [
    "\
hour,kind,quantity,stock,failed,fitted,short
10,Failure,,258,1,0,0
11,Request,,257,1,0,0
20,Delivery,,257,1,1,0
4294967294,Restock,65535,33619455,4294967295,4294967295,4294967295
",
    "\
hour,kind,lamp,origin
10,Failure,L00000000000000001,3
11,Request,\"A,\"\"00000000000000~\",5
20,Delivery,L00000000000000001,3
4294967294,Restock,,
",
];

/// The small views, that for purchasing first.
fn small() -> [Vec<u8>; 2] {
    [for_purchasing(), for_maintenance()]
}

#[test]
fn help_and_version_are_printed() {
    check_help_and_version(VIEWS, "views");
}

#[test]
fn a_bad_usage_is_named() {
    let bad = |words: &[&str], what: &str| check_bad_usage(VIEWS, words, what);
    bad(&[], "FILE is missing");
    bad(&["-", "--kind", "x"], "--kind is Failure, Request, Delivery or Restock, not \"x\"");
    bad(&["-", "--hours", "20-10"], "--hours 20-10: the first hour is behind the last");
    bad(&["-", "--lamp"], "--lamp has no value behind it");
}

#[test]
fn a_view_is_a_table_or_csv() {
    let directory = scratch("views-table");
    for (place, bytes) in small().iter().enumerate() {
        assert_eq!(run_on(VIEWS, &["-"], bytes).good(), TABLES[place]);
        assert_eq!(run_on(VIEWS, &["--csv", "-"], bytes).good(), CSV[place]);
        let name = file(&directory, "no-ending", bytes);
        assert_eq!(run(VIEWS, &[name]).good(), TABLES[place]);
    }
}

#[test]
fn the_name_tells_for_whom_an_empty_file_is() {
    let directory = scratch("views-empty");
    for (place, reader) in READERS.iter().enumerate() {
        let name = file(&directory, &reader.file_name(7), b"");
        assert_eq!(run(VIEWS, &[&name]).good(), lines(TABLES[place], &[0]));
        assert_eq!(run(VIEWS, &["--csv", &name]).good(), lines(CSV[place], &[0]));
        assert_eq!(run(VIEWS, &[&name, &name]).good(), "");
    }
    let name = file(&directory, "purchasing", b"");
    assert_eq!(run(VIEWS, &[&name]).good(), "");
    assert_eq!(run(VIEWS, &["--csv", "-"]).good(), "");
}

#[test]
fn events_are_picked() {
    let check = |words: &[&str], numbers: [&[usize]; 2]| {
        for (place, bytes) in small().iter().enumerate() {
            let words = [words, &["-"]].concat();
            let output = run_on(VIEWS, &words, bytes).good();
            assert_eq!(output, lines(TABLES[place], numbers[place]), "{words:?}");
        }
    };
    check(&["--lamp", LAMP], [&[0], &[0, 1, 3]]);
    check(&["--lamp", ODD_LAMP], [&[0], &[0, 2]]);
    check(&["--hours", "11-20"], [&[0, 2, 3]; 2]);
    check(&["--hours", "-10", "--hours", "21-"], [&[0, 1, 4]; 2]);
    check(&["--kind", "restock"], [&[0, 4]; 2]);
    check(&["--kind", "failure", "--kind", "REQUEST", "--hours", "11"], [&[0, 2]; 2]);
}

#[test]
fn several_files_are_named() {
    let directory = scratch("views-several");
    let [one, other] = small();
    let [one, other] =
        [file(&directory, "one.purchasing", &one), file(&directory, "other", &other)];
    let none = file(&directory, "none.maintenance", b"");
    let [purchasing, maintenance] = TABLES;
    let output = run(VIEWS, &[&one, &none, &other]).good();
    assert_eq!(output, format!("{one}\n{purchasing}\n{other}\n{maintenance}"));
    let output = run(VIEWS, &["--lamp", LAMP, &one, &other]).good();
    assert_eq!(output, format!("{other}\n{}", lines(maintenance, &[0, 1, 3])));

    let output = run(VIEWS, &["--csv", "--kind=restock", &other, &none, &other]).good();
    let (head, line) = (lines(CSV[1], &[0]), lines(CSV[1], &[4]));
    assert_eq!(output, format!("file,{head}{other},{line}{other},{line}"));
}

/// One CSV has one line with the names of the columns.
#[test]
fn csv_is_for_one_reader() {
    let directory = scratch("views-both");
    let [one, other] = small();
    let [one, other] = [file(&directory, "one", &one), file(&directory, "other", &other)];
    let (head, line) = (lines(CSV[0], &[0]), lines(CSV[0], &[4]));
    let output = format!("file,{head}{one},{line}{one},{line}");
    let why = "it is for maintenance, and the CSV is for purchasing: print it by itself";
    let expected = Ended::with(1, &output, &format!("{other}: {why}\n"));
    assert_eq!(run(VIEWS, &["--csv", "--kind=restock", &one, &other, &one]), expected);

    // It is read to its end all the same.
    let mut bytes = for_maintenance();
    bytes[55] = 4;
    let bad = file(&directory, "bad", &bytes);
    let faults = format!("{bad}: {why}\n{bad}: no view at byte 50: kind 4, which no event has\n");
    let expected = Ended::with(1, &output, &faults);
    assert_eq!(run(VIEWS, &["--csv", "--kind=restock", &one, &bad, &one]), expected);

    let (head, line) = (lines(CSV[1], &[0]), lines(CSV[1], &[4]));
    let why = "it is for purchasing, and the CSV is for maintenance: print it by itself";
    let expected =
        Ended::with(1, &format!("file,{head}{other},{line}"), &format!("{one}: {why}\n"));
    assert_eq!(run(VIEWS, &["--csv", "--kind=restock", &other, &one]), expected);
}

/// The first file with an event tells the columns, and where none has one the first of which the name tells them.
#[test]
fn an_empty_file_fits_in_every_csv() {
    let directory = scratch("views-csv-empty");
    let empty = READERS.map(|reader| file(&directory, &reader.file_name(0), b""));
    let unnamed = file(&directory, "empty", b"");
    for (place, bytes) in small().iter().enumerate() {
        let whole = file(&directory, &format!("whole-{place}"), bytes);
        let (head, line) = (lines(CSV[place], &[0]), lines(CSV[place], &[4]));
        let output = format!("file,{head}{whole},{line}");
        for empty in [&empty[0], &empty[1], &unnamed] {
            let csv = |files: [&String; 2]| {
                run(VIEWS, &["--csv", "--kind=restock", files[0], files[1]]).good()
            };
            assert_eq!(csv([empty, &whole]), output);
            assert_eq!(csv([&whole, empty]), output);
        }
        // Also where nothing of it is picked.
        let other = &empty[1 - place];
        let output = run(VIEWS, &["--csv", "--hours=0", other, &whole]).good();
        assert_eq!(output, format!("file,{head}"));
        let (first, second) = (&empty[place], &empty[1 - place]);
        let output = run(VIEWS, &["--csv", &unnamed, first, second]).good();
        assert_eq!(output, format!("file,{head}"));
    }
    assert_eq!(run(VIEWS, &["--csv", &unnamed, &unnamed]).good(), "");
}

#[test]
fn a_view_may_be_cut_anywhere() {
    for (place, whole) in small().iter().enumerate() {
        let places = PLACES[place];
        assert_eq!(whole.len(), places[4]);
        for length in 1..=whole.len() {
            let Ended { status, output, error } = run_on(VIEWS, &["--csv", "-"], &whole[..length]);
            let events = places.iter().filter(|&&place| 0 < place && place <= length).count();
            let printed: Vec<usize> = if events == 0 { vec![] } else { (0..=events).collect() };
            assert_eq!(output, lines(CSV[place], &printed), "{length}");
            if length == places[events] {
                assert_eq!((status, error.as_str()), (Some(0), ""), "{length}");
            } else {
                let begin = format!("standard input: no view at byte {}: cut: ", places[events]);
                assert_eq!(status, Some(1), "{length}");
                let is_one_line = error.lines().count() == 1;
                assert!(error.starts_with(&begin) && is_one_line, "{length}: {error}");
            }
        }
    }
}

#[test]
fn the_next_file_follows_a_bad_one() {
    let directory = scratch("views-bad");
    let [_, whole] = small();
    let mut bytes = whole.clone();
    bytes[50] = 123;
    let bad = file(&directory, "bad", &bytes);
    let whole = file(&directory, "whole", &whole);
    let missing = directory.join("missing").to_str().unwrap().to_string();
    let no_view = format!(
        "{bad}: no view at byte 50: map 123, which is for purchasing, behind events for another\n"
    );
    let table = TABLES[1];
    let tables = format!("{bad}\n{}\n{whole}\n{table}", lines(table, &[0, 1, 2]));
    assert_eq!(run(VIEWS, &[&bad, &whole]), Ended::with(1, &tables, &no_view));

    let Ended { status, output, error } = run(VIEWS, &[&missing, &bad, &whole]);
    assert_eq!((status, output), (Some(3), tables));
    assert!(error.starts_with(&format!("{missing}: ")) && error.ends_with(&no_view), "{error}");
    assert_eq!(run(VIEWS, &[&directory]).status, Some(3));
    let error = run_on(VIEWS, &["-"], b"\x3f\x00").refused(1);
    assert_eq!(error, "standard input: no view at byte 0: map 63, which no view has\n");
}

#[test]
fn nobody_need_read_what_is_printed() {
    let many = for_maintenance().repeat(2_000);
    let name = file(&scratch("views-unread"), "view", &many);
    assert_eq!(run_unread(VIEWS, &[&name], b"").good(), "");
    assert_eq!(run_unread(VIEWS, &["--csv", &name, &name], b"").good(), "");
}

/// Four gateways of which the last has so much stock and is restocked, and what becomes short at times waits for it.
fn four(stock: u32) -> String {
    let mut text = String::from("# Four gateways\nlast-hour 50000\n");
    for own in 0..3 {
        text += &format!("gateway {own} supplier {} stock 1\n", own + 1);
    }
    text += &format!("gateway 3 supplier 3 stock {stock}\n");
    for number in 0..120 {
        text += &format!(
            "failure {} {} D{number:05}-POLE-{:06}\n",
            number % 3,
            7 + 22 * number,
            7 * number
        );
    }
    for number in 1..40 {
        text += &format!("restock {} {} {}\n", number % 4, 70 * number, 256 + number);
    }
    text
}

/// Runs a forecast in a directory of this name.
fn forecast(name: &str, text: &str) -> PathBuf {
    let directory = scratch(name);
    let words = ["--quiet", "-", directory.to_str().unwrap()];
    let output = run_on(FORECAST, &words, text.as_bytes()).good();
    assert!(output.contains("every record is whole"), "{output}");
    directory
}

/// What a reader sees of each gateway's record.
fn views(directory: &Path, reader: Reader, text: &str) -> Vec<Vec<u8>> {
    let gateways = Scenario::parse(text).unwrap().gateways.len();
    let view = |gateway| fs::read(directory.join(reader.file_name(gateway))).unwrap();
    (0..gateways).map(view).collect()
}

fn records(directory: &Path, gateways: usize) -> Vec<Vec<Record>> {
    let record = |gateway: usize| {
        let bytes = fs::read(directory.join(format!("gateway-{gateway:03}.record"))).unwrap();
        Records::new(&bytes[..]).map(Result::unwrap).collect()
    };
    (0..gateways).map(record).collect()
}

/// The lamps that fail in a scenario.
fn lamps(text: &str) -> Vec<&str> {
    let words = text.lines().map(|line| line.split_whitespace().collect::<Vec<_>>());
    words.filter(|words| words.first() == Some(&"failure")).map(|words| words[3]).collect()
}

fn contains(bytes: &[u8], part: &[u8]) -> bool {
    bytes.windows(part.len()).any(|window| window == part)
}

#[test]
fn purchasing_has_no_lamp_and_maintenance_has_every_one() {
    for (name, text) in [("views-lamps-two", TWO), ("views-lamps-four", &four(5))] {
        let directory = forecast(name, text);
        let purchasing = views(&directory, Reader::Purchasing, text);
        let maintenance = views(&directory, Reader::Maintenance, text).concat();
        assert!(purchasing.iter().all(|view| !view.is_empty()));
        for lamp in lamps(text) {
            let in_purchasing = purchasing.iter().any(|view| contains(view, lamp.as_bytes()));
            assert!(!in_purchasing, "{lamp}");
            assert!(contains(&maintenance, lamp.as_bytes()), "{lamp}");
        }
    }
}

/// What a reader is to see of an event.
fn seen(reader: Reader, record: &Record) -> Viewed {
    let Record { event, after } = *record;
    let is_restock = event.kind == Kind::Restock;
    let fields = match reader {
        Reader::Purchasing => {
            Fields::Purchasing { quantity: is_restock.then_some(event.quantity), after }
        }
        Reader::Maintenance => Fields::Maintenance {
            lamp_and_origin: (!is_restock).then_some((event.lamp, event.origin)),
        },
    };
    Viewed { hour: event.hour, kind: event.kind, fields }
}

/// The bytes of an event in a view: the map, the hour and the kind, and what else the reader sees.
fn length(reader: Reader, record: &Record) -> usize {
    let is_restock = record.event.kind == Kind::Restock;
    1 + 4
        + 1
        + match (reader, is_restock) {
            (Reader::Purchasing, false) => 4 * 4,
            (Reader::Purchasing, true) => 2 + 4 * 4,
            (Reader::Maintenance, false) => 18 + 1,
            (Reader::Maintenance, true) => 0,
        }
}

#[test]
fn views_have_the_fields_of_their_reader_and_no_byte_more() {
    for (name, text) in [("views-fields-two", TWO), ("views-fields-four", &four(5))] {
        let directory = forecast(name, text);
        for reader in READERS {
            let views = views(&directory, reader, text);
            let records = records(&directory, views.len());
            for (view, record) in views.iter().zip(&records) {
                let events: Vec<Viewed> = Views::new(&view[..]).map(Result::unwrap).collect();
                let expected: Vec<Viewed> =
                    record.iter().map(|event| seen(reader, event)).collect();
                assert_eq!(events, expected);
                let bytes: usize = record.iter().map(|event| length(reader, event)).sum();
                assert_eq!(view.len(), bytes);
            }
            let kinds = [Kind::Failure, Kind::Request, Kind::Delivery];
            let all: Vec<Kind> = records.iter().flatten().map(|record| record.event.kind).collect();
            assert!(kinds.iter().all(|kind| all.contains(kind)));
            assert_eq!(all.contains(&Kind::Restock), text != TWO);
        }
    }
}

/// With much stock at the depot the events do not depend on how much it is.
#[test]
fn maintenance_sees_no_stock() {
    let [one, other] = [four(5_000), four(6_000)];
    let directories = [forecast("views-stock-one", &one), forecast("views-stock-other", &other)];
    let of = |reader: Reader| [0, 1].map(|place| views(&directories[place], reader, &one));
    let [one, other] = [0, 1].map(|place| records(&directories[place], 4));
    let events = |records: &[Vec<Record>]| -> Vec<_> {
        records.iter().flatten().map(|record| record.event).collect()
    };
    assert_eq!(events(&one), events(&other));
    assert_ne!(one[3], other[3]);
    let [one, other] = of(Reader::Maintenance);
    assert_eq!(one, other);
    let [one, other] = of(Reader::Purchasing);
    assert_eq!(one[..3], other[..3]);
    assert_ne!(one[3], other[3]);
}

/// The columns of a CSV, each with its name first.
fn columns(csv: &str) -> Vec<Vec<&str>> {
    let lines: Vec<Vec<&str>> = csv.lines().map(|line| line.split(',').collect()).collect();
    (0..lines[0].len()).map(|column| lines.iter().map(|line| line[column]).collect()).collect()
}

#[test]
fn what_is_printed_of_a_view_stands_in_the_record() {
    for (name, text) in [("views-printed-two", TWO), ("views-printed-four", &four(5))] {
        let directory = forecast(name, text);
        for gateway in 0..Scenario::parse(text).unwrap().gateways.len() {
            let csv = |program: &str, name: String| {
                run(program, &["--csv", directory.join(name).to_str().unwrap()]).good()
            };
            let record = csv(RECORD, format!("gateway-{gateway:03}.record"));
            let record = columns(&record);
            assert!(record[0].len() > 1);
            let mut names = Vec::new();
            for reader in READERS {
                let view = csv(VIEWS, reader.file_name(gateway));
                for column in columns(&view) {
                    assert!(record.contains(&column), "{reader}, gateway {gateway}: {}", column[0]);
                    names.push(column[0].to_string());
                }
            }
            let purchasing = ["hour", "kind", "quantity", "stock", "failed", "fitted", "short"];
            let maintenance = ["hour", "kind", "lamp", "origin"];
            assert_eq!(names, [&purchasing[..], &maintenance].concat());
        }
    }
}

/// It never is, of what gateways commit.
#[test]
fn a_view_that_is_refused_is_told_in_words() {
    let cut = [63, 0, 1];
    for reader in READERS {
        for stock in [Stock::New, Stock::Old] {
            let why = reader.view(&Library, &cut, stock).unwrap_err();
            assert_eq!(why, format!("the view for {reader} was answered with 11 (length)"));
            assert_eq!(reader.view(&Library, &[], stock), Ok(vec![]));
        }
    }
}

/// A record as an earlier version wrote it, with stocks of two bytes, of one in which no stock has more.
fn old(record: &[u8]) -> Vec<u8> {
    let mut old = Vec::new();
    let mut rest = record;
    while let Some(&map) = rest.first() {
        let (frame, behind) = rest.split_at(frame::length(map));
        let (state, behind) = behind.split_at(16);
        assert_eq!(state[..2], [0, 0]);
        old.extend([frame, &state[2..]].concat());
        rest = behind;
    }
    old
}

/// Of a record of an earlier version the views are those of the same record with the new stock.
#[test]
fn views_are_made_of_records() {
    let directory = forecast("views-made", &four(5));
    for gateway in 0..4 {
        let name = directory.join(format!("gateway-{gateway:03}.record"));
        let record = fs::read(&name).unwrap();
        let old_record = old(&record);
        assert!(old_record.len() < record.len());
        let old_name = directory.join("old");
        fs::write(&old_name, &old_record).unwrap();
        for reader in READERS {
            let expected = fs::read(directory.join(reader.file_name(gateway))).unwrap();
            let made = |words: &[&str], input: &[u8]| {
                let name = reader.to_string();
                let words = [&["--make", &name], words].concat();
                let mut child = start(VIEWS, &words);
                let _ = child.stdin.take().unwrap().write_all(input);
                let output = child.wait_with_output().unwrap();
                assert_eq!((output.status.code(), &output.stderr[..]), (Some(0), &b""[..]));
                output.stdout
            };
            assert_eq!(made(&[name.to_str().unwrap()], b""), expected);
            assert_eq!(made(&["-"], &record), expected);
            assert_eq!(made(&["--old-stock", old_name.to_str().unwrap()], b""), expected);
            assert_eq!(made(&["--old-stock", "-"], &old_record), expected);
            assert_eq!(made(&["-"], b""), b"");
        }
    }
}

#[test]
fn what_no_view_can_be_made_of_is_named() {
    let bad = |words: &[&str], what: &str| check_bad_usage(VIEWS, words, what);
    bad(&["--make", "stores", "-"], "--make is purchasing or maintenance, not \"stores\"");
    bad(&["--make", "purchasing"], "RECORD is missing");
    bad(&["--make", "purchasing", "a", "b"], "\"b\" is one word too many");
    bad(&["--make", "purchasing", "--csv", "-"], "--make and --csv contradict each other");
    bad(&["--make", "purchasing", "--kind=x", "-"], "--make and --kind contradict each other");
    bad(&["--old-stock", "-"], "--old-stock is said of a RECORD, with --make");

    let directory = scratch("views-unmade");
    let missing = directory.join("missing");
    let words = ["--make", "purchasing", missing.to_str().unwrap()];
    let error = run(VIEWS, &words).refused(3);
    assert!(error.starts_with(&format!("{}: ", missing.display())), "{error}");

    let record = [&frame::restock(6, 5, 258)[..], &[0; 16]].concat().repeat(2);
    let refused = |words: &[&str], input: &[u8]| {
        let words = [&["--make", "purchasing"], words].concat();
        run_on(VIEWS, &words, input).refused(1)
    };
    let begin = "standard input: no record at byte";
    let cut = format!("{begin} 26: 11 (length), cut: 15 of a state's 16 bytes\n");
    assert_eq!(refused(&["-"], &record[..51]), cut);
    let old_record = old(&record);
    let cut = format!("{begin} 24: 11 (length), cut: 13 of a state's 14 bytes\n");
    assert_eq!(refused(&["--old-stock", "-"], &old_record[..47]), cut);
    let other = format!(
        "{begin} 26: 1 (form), map 6 with kind 6, which no frame has; \
         it is a record with the old stock: add --old-stock\n"
    );
    assert_eq!(refused(&["-"], &old_record), other);
    let other = format!(
        "{begin} 24: 11 (length), a frame of fewer than two bytes; \
         it is a record with the new stock: leave out --old-stock\n"
    );
    assert_eq!(refused(&["--old-stock", "-"], &record), other);
}
