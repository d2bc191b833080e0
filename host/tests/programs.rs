//! The programs record and town: what they print and how they end.

mod common;

use common::{
    check_bad_usage, check_help_and_version, file, lines, run, run_on, run_unread, scratch, Ended,
};
use host::frame::{failure, restock, DELIVERY, REQUEST};
use host::scenario::Scenario;

const RECORD: &str = env!("CARGO_BIN_EXE_record");
const TOWN: &str = env!("CARGO_BIN_EXE_town");

type Lamp = [u8; 18];

const LAMP: &Lamp = b"L00000000000000001";
const ODD_LAMP: &Lamp = b"A,\"00000000000000~";

/// Where the events of the small record begin, and its length.
const PLACES: [usize; 5] = [0, 43, 86, 129, 155];

/// An event and a state after it.
fn recorded(frame: Vec<u8>, stock: u32, [failed, fitted, short]: [u32; 3]) -> Vec<u8> {
    [frame, [stock, failed, fitted, short].map(u32::to_be_bytes).concat()].concat()
}

/// The frame of a message that is no Failure.
fn message(kind: u8, from: u8, to: u8, hour: u32, origin: u8, lamp: &Lamp) -> Vec<u8> {
    let mut frame = failure(origin, hour, lamp);
    frame[1..4].copy_from_slice(&[kind, from, to]);
    frame
}

/// An event of each kind, with the state after it.
fn events() -> [Vec<u8>; 4] {
    [
        recorded(failure(3, 10, LAMP), 258, [1, 0, 0]),
        recorded(message(REQUEST, 4, 3, 11, 5, ODD_LAMP), 257, [1, 0, 0]),
        recorded(message(DELIVERY, 4, 3, 20, 3, LAMP), 257, [1, 1, 0]),
        recorded(restock(3, u32::MAX - 1, 65_535), 33_619_455, [u32::MAX; 3]),
    ]
}

/// The record of these events.
fn small() -> Vec<u8> {
    events().concat()
}

/// A record of them as an earlier version wrote it: the stock lacks its first two bytes.
fn old() -> Vec<u8> {
    let old = |event: Vec<u8>| {
        let (frame, state) = event.split_at(event.len() - 16);
        [frame, &state[2..]].concat()
    };
    events().map(old).concat()
}

const TABLE: &str = "      \
      hour      kind  from   to  origin                lamp  quantity     stock      failed      fitted       short
        10   Failure     3    3       3  L00000000000000001                 258           1           0           0
        11   Request     4    3       5  A,\"00000000000000~                 257           1           0           0
        20  Delivery     4    3       3  L00000000000000001                 257           1           1           0
4294967294   Restock     3    3                                 65535  33619455  4294967295  4294967295  4294967295
";

const CSV: &str = "\
hour,kind,from,to,origin,lamp,quantity,stock,failed,fitted,short
10,Failure,3,3,3,L00000000000000001,,258,1,0,0
11,Request,4,3,5,\"A,\"\"00000000000000~\",,257,1,0,0
20,Delivery,4,3,3,L00000000000000001,,257,1,1,0
4294967294,Restock,3,3,,,65535,33619455,4294967295,4294967295,4294967295
";

/// What is printed for the small record with these words before it; it must end well.
fn picked(words: &[&str]) -> String {
    run_on(RECORD, &[words, &["-"]].concat(), &small()).good()
}

#[test]
fn help_and_version_are_printed() {
    check_help_and_version(RECORD, "record");
    check_help_and_version(TOWN, "town");
}

#[test]
fn a_bad_usage_is_named() {
    let bad = |words: &[&str], what: &str| check_bad_usage(RECORD, words, what);
    bad(&[], "FILE is missing");
    bad(&["--csv"], "FILE is missing");
    bad(&["-", "--lamp"], "--lamp has no value behind it");
    bad(&["-", "--csv=yes"], "--csv takes no value");
    bad(
        &["-", "--lamp", "L1"],
        "--lamp names no lamp: a lamp has eighteen characters from ! to ~, \"L1\" has 2",
    );
    bad(
        &["-", "--lamp", "L 0000000000000001"],
        "--lamp names no lamp: a lamp has eighteen characters from ! to ~, \"L 0000000000000001\" has ' '",
    );
    bad(&["-", "--hours", "-"], "--hours - has neither a first nor a last hour");
    bad(&["-", "--hours", "20-10"], "--hours 20-10: the first hour is behind the last");
    for (hours, word) in
        [("x", "x"), ("10-+20", "+20"), ("1-2-3", "2-3"), ("4294967295-", "4294967295")]
    {
        bad(
            &["-", "--hours", hours],
            &format!("--hours {hours}: an hour is 0 to 4294967294, not \"{word}\""),
        );
    }
    bad(&["-", "--kind", "x"], "--kind is Failure, Request, Delivery or Restock, not \"x\"");
    check_bad_usage(TOWN, &["x"], "\"x\" is one word too many");
}

#[test]
fn a_record_is_a_table_or_csv() {
    assert_eq!(picked(&[]), TABLE);
    assert_eq!(picked(&["--csv"]), CSV);
    let name = file(&scratch("record-table"), "record", &small());
    assert_eq!(run(RECORD, &[name]).good(), TABLE);
    assert_eq!(run(RECORD, &["-"]).good(), lines(TABLE, &[0]));
}

#[test]
fn events_are_picked() {
    let check = |words: &[&str], numbers: &[usize]| {
        assert_eq!(picked(words), lines(TABLE, numbers), "{words:?}");
        assert_eq!(picked(&[words, &["--csv"]].concat()), lines(CSV, numbers), "{words:?}");
    };
    let [lamp, odd] = [LAMP, ODD_LAMP].map(|lamp| std::str::from_utf8(lamp).unwrap());
    check(&["--lamp", lamp], &[0, 1, 3]);
    check(&["--lamp", odd], &[0, 2]);
    check(&["--lamp", odd, "--lamp", lamp], &[0, 1, 2, 3]);
    check(&["--lamp", "L00000000000000002"], &[0]);
    check(&["--hours", "10-11"], &[0, 1, 2]);
    check(&["--hours", "11"], &[0, 2]);
    check(&["--hours", "11-"], &[0, 2, 3, 4]);
    check(&["--hours", "-11"], &[0, 1, 2]);
    check(&["--hours=12-19"], &[0]);
    check(&["--hours", "10", "--hours", "20-"], &[0, 1, 3, 4]);
    check(&["--kind", "failure"], &[0, 1]);
    check(&["--kind", "Request", "--kind", "RESTOCK"], &[0, 2, 4]);
    check(&["--lamp", lamp, "--kind", "delivery", "--hours", "0-20"], &[0, 3]);
    check(&["--lamp", lamp, "--kind", "restock"], &[0]);
}

#[test]
fn several_files_are_named() {
    let directory = scratch("record-several");
    let one = file(&directory, "one", &small());
    let output = run_on(RECORD, &[&one, "-"], &small()).good();
    assert_eq!(output, format!("{one}\n{TABLE}\nstandard input\n{TABLE}"));

    let none = file(&directory, "none", &[]);
    let restocks = run(RECORD, &["--kind", "restock", &none, &one, &none, &one]).good();
    let table = format!("{one}\n{}", lines(TABLE, &[0, 4]));
    assert_eq!(restocks, format!("{table}\n{table}"));

    let other = file(&directory, "a,b", &small());
    let output = run(RECORD, &["--csv", "--kind=restock", &one, &other]).good();
    let (head, line) = (lines(CSV, &[0]), lines(CSV, &[4]));
    assert_eq!(output, format!("file,{head}{one},{line}\"{other}\",{line}"));
}

#[test]
fn a_record_may_be_cut_anywhere() {
    let whole = small();
    for length in 0..=whole.len() {
        let Ended { status, output, error } = run_on(RECORD, &["--csv", "-"], &whole[..length]);
        let events = PLACES.iter().filter(|&&place| 0 < place && place <= length).count();
        let printed: Vec<usize> = (0..=events).collect();
        assert_eq!(output, lines(CSV, &printed), "{length}");
        if length == PLACES[events] {
            assert_eq!((status, error.as_str()), (Some(0), ""), "{length}");
        } else {
            let place = PLACES[events];
            let begin = format!("standard input: no record at byte {place}: 11 (length), ");
            assert_eq!(status, Some(1), "{length}");
            assert!(error.starts_with(&begin) && error.lines().count() == 1, "{length}: {error}");
        }
    }
}

#[test]
fn a_damaged_byte_is_found_whatever_is_picked() {
    let damaged = |place: usize, byte: u8| {
        let mut bytes = small();
        bytes[place] = byte;
        let Ended { status, output, error } = run_on(RECORD, &["--kind", "failure", "-"], &bytes);
        assert_eq!((status, output), (Some(1), lines(TABLE, &[0, 1])));
        error
    };
    let begin = "standard input: no record at byte";
    assert_eq!(
        damaged(PLACES[2], 0),
        format!("{begin} 86: 11 (length), a frame of fewer than two bytes\n")
    );
    assert_eq!(
        damaged(PLACES[2] + 1, 7),
        format!("{begin} 86: 1 (form), map 63 with kind 7, which no frame has\n")
    );
    assert_eq!(
        damaged(PLACES[2] + 26, 200),
        format!("{begin} 86: 12 (lamp), byte 200 is outside 33 to 126\n")
    );
    assert_eq!(
        damaged(PLACES[2] + 7, 9),
        format!("{begin} 86: an event that is not in event order\n")
    );
    assert_eq!(
        damaged(PLACES[1] + 2, 255),
        format!("{begin} 43: 2 (gateway number or addressee), gateway 255\n")
    );
    assert_eq!(
        damaged(PLACES[3] + 7, 255),
        format!("{begin} 129: 3 (hour past the last hour), hour 4294967295\n")
    );
}

#[test]
fn the_next_file_follows_a_bad_one() {
    let directory = scratch("record-bad");
    let cut = file(&directory, "cut", &small()[..100]);
    let whole = file(&directory, "whole", &small());
    let missing = directory.join("missing").to_str().unwrap().to_string();
    let no_record =
        format!("{cut}: no record at byte 86: 11 (length), cut: 14 of a frame's 27 bytes\n");
    let half = lines(TABLE, &[0, 1, 2]);

    let tables = format!("{cut}\n{half}\n{whole}\n{TABLE}");
    assert_eq!(run(RECORD, &[&cut, &whole]), Ended::with(1, &tables, &no_record));

    let Ended { status, output, error } = run(RECORD, &[&missing, &cut, &whole]);
    assert_eq!((status, output), (Some(3), tables));
    assert!(error.starts_with(&format!("{missing}: ")) && error.ends_with(&no_record), "{error}");

    let Ended { status, output, error } = run(RECORD, &[directory.to_str().unwrap(), &cut]);
    assert_eq!(status, Some(3));
    assert!(output.ends_with(&half) && error.ends_with(&no_record), "{error}");
}

/// What stands in the table for a record of an earlier version, whose last stock is the low half of the new one.
#[test]
fn a_record_of_an_earlier_version() {
    let table = TABLE.replace("  33619455", "     65023");
    let csv = CSV.replace("33619455", "65023");
    assert_eq!(run_on(RECORD, &["--old-stock", "-"], &old()).good(), table);
    assert_eq!(run_on(RECORD, &["--csv", "--old-stock", "-"], &old()).good(), csv);
    let words = ["--old-stock", "--kind=restock", "-"];
    assert_eq!(run_on(RECORD, &words, &old()).good(), lines(&table, &[0, 4]));

    let directory = scratch("record-old");
    let [new, old] = [file(&directory, "new", &small()), file(&directory, "old", &old())];
    let Ended { status, output, error } = run(RECORD, &["--csv", &old]);
    let first = "10,Failure,3,3,3,L00000000000000001,,16908288,65536,0,16129\n";
    assert_eq!((status, output), (Some(1), lines(CSV, &[0]) + first));
    let advice = "it is a record with the old stock: add --old-stock";
    let why = "1 (form), map 4 with kind 3, which no frame has";
    assert_eq!(error, format!("{old}: no record at byte 43: {why}; {advice}\n"));

    let Ended { status, error, .. } = run(RECORD, &["--old-stock", &new]);
    let advice = "it is a record with the new stock: leave out --old-stock";
    let why = "11 (length), a frame of fewer than two bytes";
    assert_eq!(status, Some(1));
    assert_eq!(error, format!("{new}: no record at byte 41: {why}; {advice}\n"));
    let error = run_on(RECORD, &["--old-stock", "-"], &small()).error;
    assert_eq!(error, format!("standard input: no record at byte 41: {why}\n"));
    let cut = file(&directory, "cut", &small()[..42]);
    let why = "11 (length), cut: 15 of a state's 16 bytes";
    assert_eq!(run(RECORD, &[&cut]).error, format!("{cut}: no record at byte 0: {why}\n"));
}

#[test]
fn nobody_need_read_what_is_printed() {
    let many: Vec<u8> =
        (0..5_000).flat_map(|hour| recorded(failure(3, hour, LAMP), 0, [hour, 0, hour])).collect();
    let name = file(&scratch("record-unread"), "record", &many);
    assert_eq!(run_unread(RECORD, &[&name], b"").good(), "");
    assert_eq!(run_unread(RECORD, &["--csv", &name, &name], b"").good(), "");
    assert_eq!(run_unread(RECORD, &["-"], &small()[..100]).good(), "");
    assert_eq!(run_unread(TOWN, &[""; 0], b"").good(), "");
}

#[test]
fn the_town_is_a_scenario() {
    let town = Scenario::parse(&run(TOWN, &[""; 0]).good()).unwrap();
    assert_eq!((town.gateways.len(), town.last_hour), (22, 43_800));
    let hours = |own: usize| {
        let gateway = &town.gateways[own];
        [gateway.request_hours, gateway.delivery_hours, gateway.life_hours]
    };
    for own in 0..22 {
        let expected = if own == 20 { [24, 72, 17_520] } else { [1, 24, 43_800] };
        assert_eq!(hours(own), expected, "gateway {own}");
    }
}
