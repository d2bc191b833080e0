//! The carrier over the proved library: forecasts that end, one that cannot go on, and calls that answer what they never should.

#[path = "common/failing.rs"]
mod failing;

use failing::Failing;
use host::carrier::{Forecast, Progress, Stopped, Want};
use host::frame::REQUEST;
use host::places::Places;
use host::record::{Kind, Record, Records, State};
use host::scenario::Scenario;
use library::Library;

/// Runs a scenario: how it ended, and each gateway's events.
fn run(text: &str) -> (Result<Progress, Stopped>, Vec<Vec<Record>>) {
    let scenario = Scenario::parse(text).unwrap();
    let mut records = vec![Vec::new(); scenario.gateways.len()];
    let mut forecast = Forecast::new(Library, &scenario).unwrap();
    let end = forecast.run(|gateway, bytes| {
        records[gateway].extend(Records::new(bytes).map(Result::unwrap));
    });
    (end, records)
}

#[test]
fn the_last_example_of_document_01() {
    let (end, records) = run(include_str!("../../examples/two/scenario"));
    assert_eq!(end.unwrap().committed, 94);
    assert_eq!((records[0].len(), records[1].len()), (3, 91));
    assert_eq!(records[1][90].after.short, 90);
    let Record { event, after } = records[0][2];
    assert_eq!((event.kind, event.hour, &event.lamp), (Kind::Delivery, 35, b"L00000000000000001"));
    assert_eq!(after, State { stock: 0, failed: 2, fitted: 1, short: 0 });
}

/// Two Failures at one hour fill the queue, and the Request of the first to the gateway itself finds no place.
#[test]
fn too_few_places_are_named() {
    let places = |queue, outstanding| {
        format!(
            "last-hour 5\ngateway 0 supplier 0 stock 0 queue {queue} outstanding {outstanding}\n\
             failure 0 1 L00000000000000001\nfailure 0 1 L00000000000000002\n"
        )
    };
    let (end, records) = run(&places(2, 1));
    let Err(Stopped::WantOfPlaces(wants)) = &end else { panic!("{end:?}") };
    assert!(wants.contains(&Want { gateway: 0, outstanding: false, places: 2, hour: 1 }));
    assert!(end.unwrap_err().to_string().contains("set `queue 4` in its line of the scenario"));
    assert_eq!(records[0].len(), 0);

    let (end, records) = run(&places(4, 2));
    assert_eq!(end.unwrap().committed, 10);
    assert_eq!(records[0].len(), 10);
}

/// Few places make the windows short, and the forecast still ends.
#[test]
fn a_window_in_which_places_run_out_is_taken_back() {
    let mut text = String::from("last-hour 300\ngateway 0 supplier 1 stock 0\n");
    text += "gateway 1 supplier 1 stock 2 queue 14 outstanding 14\n";
    for number in 0..12 {
        text += &format!("failure 0 {} L{number:017}\n", 10 * number);
    }
    text += "restock 1 280 5\n";
    let (end, records) = run(&text);
    let progress = end.unwrap();
    assert!(progress.taken_back > 0, "{progress:?}");
    assert_eq!(progress.committed as usize, records[0].len() + records[1].len());
}

/// The most queue places that each gateway of a scenario used, and the most outstanding ones.
fn most_used(text: &str) -> (Progress, Vec<[usize; 2]>) {
    let scenario = Scenario::parse(text).unwrap();
    let mut forecast = Forecast::new(Library, &scenario).unwrap();
    let progress = forecast.run(|_, _| ()).unwrap();
    let used = |places: &Places| [places.queue_used, places.outstanding_used];
    (progress, forecast.carried().most.iter().map(used).collect())
}

/// The worked example of docs/OPERATING.md: 240 lamps of an island, one after the other every ten hours.
#[test]
fn queue_places_follow_from_the_hours() {
    let used = |life: u32| {
        let mut text = format!(
            "last-hour 20000\ngateway 0 supplier 1 stock 0 request 48 life {life}\n\
             gateway 1 supplier 1 stock 60000 delivery 96\n"
        );
        for number in 1..=240 {
            text += &format!("failure 0 {} L{number:017}\n", 10 * number);
        }
        most_used(&text).1.iter().map(|&[queue, _]| queue).collect::<Vec<_>>()
    };
    assert_eq!(used(2_256), [242, 9]);
    assert_eq!(used(456), [248, 36]);
}

/// Failures that are due in 3,000 hours fill more than half of the queues. They leave room for what is due before them: neither do those that
/// wait at the carrier take up all outstanding places, nor are the windows made short, and little work is undone.
#[test]
fn drivers_that_live_long_leave_room() {
    let mut text = String::from("last-hour 9000\n");
    let places = "queue 400 outstanding 90";
    for own in 0..4 {
        text += &format!("gateway {own} supplier {} stock 0 life 3000 {places}\n", 4 + own % 2);
    }
    text += &format!("gateway 4 supplier 5 stock 9 request 24 delivery 48 life 3000 {places}\n");
    text += "gateway 5 supplier 5 stock 60000\n";
    for number in 0..1_500 {
        let hour = 1 + 1_009 * number % 3_000;
        text += &format!("failure {} {hour} L{number:017}\n", number % 5);
    }
    let (progress, used) = most_used(&text);
    let Progress { worked, committed, taken_back, .. } = progress;
    assert_eq!(taken_back, 0);
    assert!(10 * worked < 14 * committed, "{progress:?}");
    for &[queue, outstanding] in &used[..5] {
        assert!(queue <= 320 && outstanding <= 70, "{queue} {outstanding}");
    }
}

/// A forecast of many rounds keeps a trace of bounded length, evenly spread, with its beginning.
#[test]
fn the_trace_is_thinned() {
    let mut text = String::from("last-hour 400000\ngateway 0 supplier 0 stock 65535\n");
    for number in 0..500 {
        text += &format!("failure 0 {} L{number:017}\n", 77 * number);
    }
    let scenario = Scenario::parse(&text).unwrap();
    let mut forecast = Forecast::new(Library, &scenario).unwrap();
    let progress = forecast.run(|_, _| ()).unwrap();
    let trace = &forecast.carried().trace;
    assert!(progress.rounds > 4_096 && trace.entries.len() <= 2_048, "{progress:?}");
    let rounds: Vec<u64> = trace.entries.iter().map(|entry| entry.rounds).collect();
    let expected: Vec<u64> = (0..=progress.rounds).step_by(trace.every as usize).collect();
    assert_eq!(rounds, expected);
}

/// A round stops the forecast at any answer that it does not expect, and its frame is not lost.
#[test]
fn a_round_looks_at_every_answer() {
    let scenario = Scenario::parse(include_str!("../../examples/two/scenario")).unwrap();
    for number in [1, 4, 5, 10, 11, 12] {
        let calls = Failing { frame: number, ..Failing::default() };
        let mut forecast = Forecast::new(calls, &scenario).unwrap();
        let expected = Stopped::Refused { gateway: 1, call: "a frame", number };
        assert_eq!(forecast.run(|_, _| ()), Err(expected));
        let under_way = &forecast.carried().under_way;
        assert!(under_way.iter().any(|frame| frame.bytes() == [7, 4, 0, 1]), "{under_way:?}");
    }
    let calls = Failing { agreed_time: 10, ..Failing::default() };
    let mut forecast = Forecast::new(calls, &scenario).unwrap();
    let expected = Stopped::Refused { gateway: 0, call: "the agreed time", number: 10 };
    assert_eq!(forecast.run(|_, _| ()), Err(expected));
}

/// What stops a forecast is printed with the number and what it means.
#[test]
fn a_refusal_is_named() {
    let named = |call, number| Stopped::Refused { gateway: 3, call, number }.to_string();
    assert_eq!(named("a frame", 1), "gateway 3 answered 1 (form) to a frame");
    assert_eq!(named("work", 10), "gateway 3 answered 10 (memory not sound) to work");
    assert_eq!(named("a frame", 11), "gateway 3 answered 11 (length) to a frame");
    assert_eq!(named("set up", 12), "gateway 3 answered 12 (lamp) to set up");
}

/// An opening list that is cut is told from one with a mistyped lamp and from one with a message that it must not have.
#[test]
fn a_bad_opening_list_is_named() {
    let stopped = |change: fn(&mut Vec<u8>)| {
        let text = include_str!("../../examples/two/scenario");
        let mut scenario = Scenario::parse(text).unwrap();
        change(&mut scenario.gateways[0].list);
        Forecast::new(Library, &scenario).err().unwrap().to_string()
    };
    let cut = stopped(|list| list.truncate(list.len() - 1));
    assert_eq!(cut, "gateway 0 answered 11 (length) to set up");
    let mistyped = stopped(|list| list[9] = b' ');
    assert_eq!(mistyped, "gateway 0 answered 12 (lamp) to set up");
    let request = stopped(|list| list[1] = REQUEST);
    assert_eq!(request, "gateway 0 answered 1 (form) to set up");
}
