//! The single queue of document 01: one list of messages for all gateways, done in event order, each with the lead times of the gateway
//! that does it.

use crate::frame::{self, Frame};
use crate::gateway::Setup;
use crate::model::{self, Done, Settings, State};
use std::cmp::Reverse;
use std::collections::BinaryHeap;

/// The whole record of each gateway, from the settings and opening lists of accepted set-ups.
pub fn records(setups: &[Setup]) -> Vec<Vec<Done>> {
    let mut states: Vec<State> = setups.iter().map(opening_state).collect();
    let mut records = vec![Vec::new(); setups.len()];
    let mut list = BinaryHeap::new();
    for frame in setups.iter().flat_map(|setup| frame::list(&setup.opening)) {
        if let Ok(Frame::Event { message, .. }) = frame {
            list.push(Reverse(message));
        }
    }
    while let Some(Reverse(message)) = list.pop() {
        let own = usize::from(message.to);
        let (after, sent) = model::perform(settings(&setups[own]), states[own], &message);
        states[own] = after;
        records[own].push(Done { message, after });
        list.extend(sent.map(Reverse));
    }
    records
}

fn opening_state(setup: &Setup) -> State {
    State { stock: setup.stock, ..State::default() }
}

fn settings(setup: &Setup) -> Settings {
    let &Setup { own, supplier, last_hour, hours, .. } = setup;
    Settings { own: own as u8, supplier: supplier as u8, last_hour, hours }
}

#[cfg(test)]
mod tests {
    use super::*;
    use crate::forecast;
    use crate::model::{Hour, Hours, Kind};

    /// Document 01's last example.
    #[test]
    fn two_failures_and_one_lamp_in_stock() {
        let records = records(&forecast::example());
        assert_eq!((records[0].len(), records[1].len()), (3, 91));
        assert_eq!(records[1][90].after.short, 90);
        let Done { message, after } = records[0][2];
        assert_eq!((message.kind, message.hour), (Kind::Delivery, 35));
        assert_eq!(&message.lamp, b"L00000000000000001");
        assert_eq!(after, State { failed: 2, fitted: 1, ..State::default() });
    }

    /// A district orders from an island store, which is empty, and this from a depot. Each lead time is that of the gateway that does
    /// the message: the first Request comes by the district's hours, the second by the store's, the Delivery by the depot's, and the
    /// lamp fails again by the district's.
    #[test]
    fn each_gateway_has_its_own_hours() {
        let lamp = *b"L00000000000000001";
        let mut setups = [
            forecast::setup(3, 0, 1, 0, 20_000, &[forecast::failure(0, 10, lamp)]),
            forecast::setup(3, 1, 2, 0, 20_000, &[]),
            forecast::setup(3, 2, 2, 1, 20_000, &[]),
        ];
        setups[0].hours = Hours { request: 2, delivery: 3, life: 5_000 };
        setups[1].hours = Hours { request: 70, delivery: 110, life: 130 };
        setups[2].hours = Hours { request: 17_000, delivery: 190, life: 230 };
        let records = records(&setups);
        let done = |own: usize| -> Vec<(Kind, Hour)> {
            records[own].iter().map(|done| (done.message.kind, done.message.hour)).collect()
        };
        let second = 272 + 5_000;
        assert_eq!(done(0), [(Kind::Failure, 10), (Kind::Delivery, 272), (Kind::Failure, second)]);
        assert_eq!(done(1), [(Kind::Request, 12), (Kind::Request, second + 2)]);
        assert_eq!(done(2), [(Kind::Request, 82), (Kind::Request, second + 72)]);
    }

    /// What comes in the hour of a Request serves it, and no shelf stops.
    #[test]
    fn a_restock_comes_before_the_requests_of_its_hour() {
        let stocks = |opening_stock| {
            let opening =
                [forecast::restock(0, 5, 10), forecast::failure(0, 4, *b"L00000000000000001")];
            let records = records(&[forecast::setup(1, 0, 0, opening_stock, 10, &opening)]);
            let kinds: Vec<Kind> = records[0].iter().map(|done| done.message.kind).collect();
            assert_eq!(kinds, [Kind::Failure, Kind::Restock, Kind::Request]);
            assert_eq!(records[0][2].after.short, 0);
            records[0].iter().map(|done| done.after.stock).collect::<Vec<u32>>()
        };
        assert_eq!(stocks(0), [0, 10, 9]);
        assert_eq!(stocks(65_535), [65_535, 65_545, 65_544]);
    }
}
