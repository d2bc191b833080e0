//! Lamps and their failures, followed through the committed events of all gateways: what failed, which shelf handed a driver out, and
//! when it was fitted.

use crate::record::{lamp_text, Event, Kind, Lamp};
use std::collections::BTreeMap;
use std::fmt;

/// What has become of a failure.
#[derive(Clone, Copy, Debug, PartialEq, Eq)]
pub enum Stage {
    /// Its Request has had no answer yet.
    Asked,
    /// The last answer to its Request was an empty shelf.
    Short,
    /// A shelf handed a driver out.
    Drawn,
    Fitted,
}

/// When and at which gateway something happened.
#[derive(Clone, Copy, Debug, PartialEq, Eq)]
pub struct At {
    pub hour: u32,
    pub gateway: u8,
}

/// A failure of a lamp and what came of it.
#[derive(Clone, Copy, Debug, PartialEq, Eq)]
pub struct Failure {
    pub failed: At,
    /// The last empty shelf.
    pub refused: Option<At>,
    /// The shelf that handed a driver out.
    pub drawn: Option<At>,
    pub fitted: Option<At>,
}

impl Failure {
    pub fn stage(&self) -> Stage {
        match self {
            Failure { fitted: Some(_), .. } => Stage::Fitted,
            Failure { drawn: Some(_), .. } => Stage::Drawn,
            Failure { refused: Some(_), .. } => Stage::Short,
            _ => Stage::Asked,
        }
    }

    /// Where and when the message of this kind was sent that is under way for it, if there is one.
    fn sent(&self, kind: Kind) -> Option<At> {
        match (kind, self.stage()) {
            (Kind::Request, Stage::Asked) => Some(self.failed),
            (Kind::Request, Stage::Short) => self.refused,
            (Kind::Delivery, Stage::Drawn) => self.drawn,
            _ => None,
        }
    }
}

/// A lamp: its gateway and its number, in lamp order.
#[derive(Clone, Copy, Debug, PartialEq, Eq, PartialOrd, Ord)]
pub struct Pole {
    pub lamp: Lamp,
    pub gateway: u8,
}

/// An event that follows from no event before it.
#[derive(Clone, Copy, Debug, PartialEq, Eq)]
pub struct Unexplained(pub Event);

impl fmt::Display for Unexplained {
    fn fmt(&self, formatter: &mut fmt::Formatter) -> fmt::Result {
        let Event { kind, hour, to, lamp, .. } = &self.0;
        let lamp = lamp_text(lamp);
        write!(formatter, "gateway {to} has a {kind} of lamp {lamp} at hour {hour} that nothing before it explains")
    }
}

/// The failures of a lamp, in order of their hours.
#[derive(Debug, Default)]
struct Failures {
    all: Vec<Failure>,
    /// The places of those that are not fitted: never more than the lamp has opening failures, however often it fails in all.
    open: Vec<usize>,
}

/// Every lamp that has failed.
#[derive(Debug, Default)]
pub struct Lamps {
    poles: BTreeMap<Pole, Failures>,
}

impl Lamps {
    /// Each lamp with its failures, in lamp order.
    pub fn iter(&self) -> impl Iterator<Item = (&Pole, &[Failure])> {
        self.poles.iter().map(|(pole, failures)| (pole, &failures.all[..]))
    }

    /// Follows a lamp's event; `stocked` is whether a Request found stock. The stages of its failure before and after it are
    /// answered. Events must come in order of their hours.
    pub fn follow(
        &mut self,
        event: &Event,
        stocked: bool,
    ) -> Result<(Option<Stage>, Stage), Unexplained> {
        let Event { hour, kind, origin, lamp, to, .. } = *event;
        let failures = self.poles.entry(Pole { lamp, gateway: origin }).or_default();
        let now = At { hour, gateway: to };
        if kind == Kind::Failure {
            let failure = Failure { failed: now, refused: None, drawn: None, fitted: None };
            failures.open.push(failures.all.len());
            failures.all.push(failure);
            return Ok((None, Stage::Asked));
        }
        let cause = failures.cause(event).ok_or(Unexplained(*event))?;
        let failure = &mut failures.all[failures.open[cause]];
        let before = failure.stage();
        match kind {
            Kind::Request if stocked => failure.drawn = Some(now),
            Kind::Request => failure.refused = Some(now),
            _ => failure.fitted = Some(now),
        }
        let after = failure.stage();
        if after == Stage::Fitted {
            failures.open.remove(cause);
        }
        Ok((Some(before), after))
    }
}

impl Failures {
    /// The place among the open ones of the failure for which a message was sent: where it comes from, and of several the one for which
    /// that is longest ago, as one gateway sends all its messages of a kind after the same number of hours. Those that agree in the hour too
    /// sent wholly equal messages, which are interchangeable.
    fn cause(&self, message: &Event) -> Option<usize> {
        let sent = |place: usize| {
            let sent = self.all[self.open[place]].sent(message.kind)?;
            let may_be = sent.gateway == message.from && sent.hour < message.hour;
            may_be.then_some((sent.hour, place))
        };
        (0..self.open.len()).filter_map(sent).min().map(|(_, place)| place)
    }
}

#[cfg(test)]
mod tests {
    use super::*;

    /// An event of a lamp of gateway 3: kind, hour, from and to.
    type Sent = (Kind, u32, u8, u8);

    fn event((kind, hour, from, to): Sent) -> Event {
        Event { hour, kind, origin: 3, lamp: *b"L00000000000000001", quantity: 0, from, to }
    }

    /// Follows events of one lamp, each with whether a Request found stock.
    fn follow(events: &[(Sent, bool)]) -> Result<Vec<Failure>, Unexplained> {
        let mut lamps = Lamps::default();
        for &(sent, stocked) in events {
            lamps.follow(&event(sent), stocked)?;
        }
        Ok(lamps.iter().flat_map(|(_, failures)| failures).copied().collect())
    }

    fn at(hour: u32, gateway: u8) -> At {
        At { hour, gateway }
    }

    /// A lamp fails at hours 10 and 12; the first Request for it finds stock at once, the second an hour later.
    #[test]
    fn failures_of_one_lamp_are_kept_apart() {
        let events = [
            ((Kind::Failure, 10, 3, 3), false),
            ((Kind::Request, 11, 3, 4), true),
            ((Kind::Failure, 12, 3, 3), false),
            ((Kind::Request, 13, 3, 4), false),
            ((Kind::Request, 14, 4, 4), true),
            ((Kind::Delivery, 35, 4, 3), false),
            ((Kind::Delivery, 38, 4, 3), false),
        ];
        let first = Failure {
            failed: at(10, 3),
            refused: None,
            drawn: Some(at(11, 4)),
            fitted: Some(at(35, 3)),
        };
        let second = Failure {
            failed: at(12, 3),
            refused: Some(at(13, 4)),
            drawn: Some(at(14, 4)),
            fitted: Some(at(38, 3)),
        };
        assert_eq!(follow(&events), Ok(vec![first, second]));
        let stages = [3, 4, 5, 6, 7].map(|count| follow(&events[..count]).unwrap()[1].stage());
        let expected = [Stage::Asked, Stage::Short, Stage::Drawn, Stage::Drawn, Stage::Fitted];
        assert_eq!(stages, expected);
    }

    /// Two failures at hour 10 find gateway 4 empty and ask gateway 5; one at hour 11 asks gateway 4 in that same hour and finds stock.
    #[test]
    fn messages_of_one_hour_are_told_apart_by_where_they_come_from() {
        let failures = follow(&[
            ((Kind::Failure, 10, 3, 3), false),
            ((Kind::Failure, 10, 3, 3), false),
            ((Kind::Request, 11, 3, 4), false),
            ((Kind::Request, 11, 3, 4), false),
            ((Kind::Failure, 11, 3, 3), false),
            ((Kind::Request, 12, 3, 4), true),
            ((Kind::Request, 12, 4, 5), true),
            ((Kind::Request, 12, 4, 5), false),
            ((Kind::Delivery, 36, 4, 3), false),
        ]);
        let found: Vec<_> = failures.unwrap().iter().map(|f| (f.drawn, f.stage())).collect();
        assert_eq!(
            found,
            [
                (Some(at(12, 5)), Stage::Drawn),
                (None, Stage::Short),
                (Some(at(12, 4)), Stage::Fitted)
            ]
        );
    }

    /// Gateway 4 passes a Request on after 100 hours, gateway 3 asks after 2: a later failure overtakes the first one.
    #[test]
    fn gateways_with_different_hours() {
        let failures = follow(&[
            ((Kind::Failure, 10, 3, 3), false),
            ((Kind::Request, 12, 3, 4), false),
            ((Kind::Failure, 50, 3, 3), false),
            ((Kind::Request, 52, 3, 4), true),
            ((Kind::Delivery, 60, 4, 3), false),
            ((Kind::Failure, 70, 3, 3), false),
            ((Kind::Request, 72, 3, 4), false),
            ((Kind::Request, 112, 4, 5), true),
            ((Kind::Request, 172, 4, 5), true),
            ((Kind::Delivery, 400, 5, 3), false),
            ((Kind::Delivery, 460, 5, 3), false),
        ]);
        let found: Vec<_> = failures.unwrap().iter().map(|f| (f.drawn, f.fitted)).collect();
        assert_eq!(
            found,
            [
                (Some(at(112, 5)), Some(at(400, 3))),
                (Some(at(52, 4)), Some(at(60, 3))),
                (Some(at(172, 5)), Some(at(460, 3)))
            ]
        );
    }

    /// A lamp whose driver lives an hour, while the Request of an earlier failure is never served: each event takes as long as the first.
    #[test]
    fn a_lamp_may_fail_often_while_a_failure_is_open() {
        let mut lamps = Lamps::default();
        let mut add = |sent, stocked| lamps.follow(&event(sent), stocked).unwrap();
        add((Kind::Failure, 0, 3, 3), false);
        add((Kind::Request, 1, 3, 4), false);
        for number in 1..=200_000 {
            add((Kind::Failure, 3 * number, 3, 3), false);
            add((Kind::Request, 3 * number + 1, 3, 4), true);
            add((Kind::Delivery, 3 * number + 2, 4, 3), false);
        }
        let [(_, failures)] = lamps.iter().collect::<Vec<_>>().try_into().unwrap();
        let fitted = failures.iter().filter(|failure| failure.fitted.is_some()).count();
        assert_eq!((failures.len(), fitted), (200_001, 200_000));
        assert_eq!(failures[0].stage(), Stage::Short);
    }

    #[test]
    fn an_event_that_nothing_explains_is_named() {
        let failure = ((Kind::Failure, 10, 3, 3), false);
        let drawn = ((Kind::Request, 11, 3, 4), true);
        let unexplained = [
            vec![drawn],
            vec![failure, ((Kind::Request, 10, 3, 4), true)],
            vec![failure, ((Kind::Request, 11, 4, 4), true)],
            vec![failure, ((Kind::Delivery, 35, 4, 3), false)],
            vec![failure, drawn, ((Kind::Request, 12, 4, 4), true)],
            vec![failure, drawn, ((Kind::Delivery, 11, 4, 3), false)],
            vec![failure, drawn, ((Kind::Delivery, 35, 5, 3), false)],
        ];
        for events in unexplained {
            let (last, _) = *events.last().unwrap();
            assert_eq!(follow(&events), Err(Unexplained(event(last))));
        }
        let text = "gateway 3 has a Delivery of lamp L00000000000000001 at hour 35 that nothing before it explains";
        assert_eq!(Unexplained(event((Kind::Delivery, 35, 4, 3))).to_string(), text);
    }
}
