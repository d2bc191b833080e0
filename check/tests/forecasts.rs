//! Forecasts that the host runs, of gateways with hours of their own, compared with the single queue's records by the program single_queue.

#[path = "../../host/tests/common/mod.rs"]
mod common;

use common::{run, scratch};
use host::carrier::Forecast;
use host::generator::Generator;
use host::scenario::Scenario;
use library::Library;
use std::fs;
use std::path::Path;

const SINGLE_QUEUE: &str = env!("CARGO_BIN_EXE_single_queue");

/// Runs a scenario and writes its records to a directory; the number of its events.
fn forecast(text: &str, directory: &Path) -> u64 {
    let scenario = Scenario::parse(text).unwrap();
    let mut records = vec![Vec::new(); scenario.gateways.len()];
    let mut forecast = Forecast::new(Library, &scenario).unwrap();
    let progress = forecast.run(|gateway, bytes| records[gateway].extend(bytes)).unwrap();
    for (gateway, record) in records.iter().enumerate() {
        fs::write(directory.join(format!("gateway-{gateway:03}.record")), record).unwrap();
    }
    fs::write(directory.join("scenario"), text).unwrap();
    progress.committed
}

/// What the program says of a scenario in place of the one that was run.
fn compared(directory: &Path, text: &str) -> Option<i32> {
    fs::write(directory.join("scenario"), text).unwrap();
    run(SINGLE_QUEUE, &[&directory.join("scenario"), directory]).status
}

/// Each gateway has hours of its own; shelves run empty, and much is undone.
fn scenario(generator: &mut Generator) -> String {
    let gateways = 2 + generator.below(6);
    let last_hour = generator.pick(&[200, 600, 2_000]);
    let mut text = format!("last-hour {last_hour}\n");
    for own in 0..gateways {
        let supplier = generator.below(gateways);
        let stock = generator.pick(&[0, 2, 10]);
        let request = generator.pick(&[1, 1, 2, 17, 200, 1_000_000]);
        let delivery = generator.pick(&[1, 24, 24, 48, 300]);
        let life = generator.pick(&[1, 70, 500, 4_000, 43_800]);
        text += &format!(
            "gateway {own} supplier {supplier} stock {stock} request {request} delivery {delivery} life {life}\n"
        );
    }
    for number in 0..10 + generator.below(30) {
        let (own, hour) = (generator.below(gateways), generator.below(150));
        text += &format!("failure {own} {hour} L{number:017}\n");
    }
    for _ in 0..generator.below(40) {
        let (own, hour) = (generator.below(gateways), generator.below(last_hour));
        text += &format!("restock {own} {hour} {}\n", generator.below(9));
    }
    text
}

#[test]
fn forecasts_with_hours_of_each_gateway() {
    let mut generator = Generator(4);
    let directory = scratch("forecasts");
    for _ in 0..40 {
        let text = scenario(&mut generator);
        let events = forecast(&text, &directory);
        let output = run(SINGLE_QUEUE, &[&directory.join("scenario"), &directory]).good();
        let words = output.replace(',', "");
        assert!(words.ends_with(&format!(" of {events} events\n")), "{output}{text}");
    }
}

/// Records with one lead time of one gateway changed are not the single queue's.
#[test]
fn a_lead_time_of_one_gateway_makes_a_difference() {
    let text = "last-hour 5000\n\
                gateway 0 supplier 1 stock 0 request 3 delivery 5 life 700\n\
                gateway 1 supplier 2 stock 1 request 11 delivery 13 life 900\n\
                gateway 2 supplier 2 stock 900 request 17 delivery 19 life 1100\n\
                failure 0 10 L00000000000000001\nfailure 0 20 L00000000000000002\n\
                failure 1 30 L00000000000000003\n";
    let directory = scratch("one-lead-time");
    forecast(text, &directory);
    assert_eq!(compared(&directory, text), Some(0));
    let matters = ["request 3", "life 700", "request 11", "delivery 13", "life 900", "delivery 19"];
    for hours in matters {
        let other = text.replace(hours, &format!("{hours}0"));
        assert_eq!(compared(&directory, &other), Some(1), "{hours}");
    }
    for hours in ["delivery 5", "request 17", "life 1100"] {
        let other = text.replace(hours, &format!("{hours}0"));
        assert_eq!(compared(&directory, &other), Some(0), "nothing comes of {hours} there");
    }
}
