//! How many calls of each kind were made, with which answers and for which reasons, and which of them are still missing.

use crate::lead_times::{Lead, Met, ALL_MET, LEADS};
use interface::{MAINTENANCE, NEW_STOCK, OLD_STOCK, PURCHASING};
use peer::frame::{self, Frame, Sense};
use peer::memory::{self, Unsound};
use peer::model::Kind;
use peer::refusal::{self, Reason};
use std::collections::BTreeMap;
use std::fmt;
use std::ops::RangeInclusive;

/// What a call was, as finely as refusals are told apart.
#[derive(Clone, Copy, Debug, PartialEq, Eq, PartialOrd, Ord)]
pub enum Called {
    Route,
    SetUp,
    Work,
    TakeFailure,
    TakeRequest,
    TakeDelivery,
    TakeCancel,
    TakeAcknowledgment,
    TakeAcknowledgmentOfCancel,
    TakeStart,
    TakeLvt,
    TakeUpdate,
    TakeOtherBytes,
    Start,
    Commit,
    AgreedTime,
    Lamp,
    ViewForPurchasing,
    ViewForMaintenance,
    ViewForPurchasingOldStock,
    ViewForMaintenanceOldStock,
    ViewForAnother,
    ViewOfAnotherStock,
    ViewForAnotherOfAnotherStock,
    Balance,
}

/// The numbers of all answers.
const NUMBERS: RangeInclusive<u32> = 0..=12;

/// Every kind of call with the numbers that it can answer.
const ANSWERS: [(Called, &[u32]); 25] = [
    (Called::Route, &[0, 5, 8]),
    (Called::SetUp, &[0, 1, 2, 3, 5, 8, 11, 12]),
    (Called::Work, &[0, 5, 6, 10]),
    (Called::TakeFailure, &[0, 2, 3, 5, 9, 10]),
    (Called::TakeRequest, &[0, 2, 3, 5, 9, 10]),
    (Called::TakeDelivery, &[0, 2, 3, 5, 9, 10]),
    (Called::TakeCancel, &[0, 2, 3, 5, 9, 10]),
    (Called::TakeAcknowledgment, &[0, 2, 3, 7, 10]),
    (Called::TakeAcknowledgmentOfCancel, &[0, 2, 3, 7, 10]),
    (Called::TakeStart, &[0, 2, 4, 5, 10]),
    (Called::TakeLvt, &[0, 2, 3, 4, 5, 9, 10]),
    (Called::TakeUpdate, &[0, 2, 3, 4, 5, 10]),
    (Called::TakeOtherBytes, &[1, 10, 11, 12]),
    (Called::Start, &[0, 4, 5, 10]),
    (Called::Commit, &[0, 5, 6, 10]),
    (Called::AgreedTime, &[0, 10]),
    (Called::Lamp, &[0, 1, 11, 12]),
    (Called::ViewForPurchasing, &[0, 1, 2, 3, 5, 11, 12]),
    (Called::ViewForMaintenance, &[0, 1, 2, 3, 5, 11, 12]),
    (Called::ViewForPurchasingOldStock, &[0, 1, 2, 3, 5, 11, 12]),
    (Called::ViewForMaintenanceOldStock, &[0, 1, 2, 3, 5, 11, 12]),
    (Called::ViewForAnother, &[8]),
    (Called::ViewOfAnotherStock, &[8]),
    (Called::ViewForAnotherOfAnotherStock, &[8]),
    (Called::Balance, &[0, 1, 2, 3, 5, 8, 11, 12]),
];

/// The calls that read frames.
#[derive(Clone, Copy, Debug, PartialEq, Eq, PartialOrd, Ord)]
pub enum FrameCall {
    Take,
    SetUp,
    Lamp,
    View,
    /// A view of a record with the old stock.
    OldView,
    Balance,
}

const FRAME_CALLS: [FrameCall; 6] = [
    FrameCall::Take,
    FrameCall::SetUp,
    FrameCall::Lamp,
    FrameCall::View,
    FrameCall::OldView,
    FrameCall::Balance,
];

/// Why there was no room.
#[derive(Clone, Copy, Debug, PartialEq, Eq, PartialOrd, Ord)]
pub enum Lacking {
    QueuePlaces,
    OutstandingPlaces,
    OutputBytes,
}

const LACKING: [Lacking; 3] =
    [Lacking::QueuePlaces, Lacking::OutstandingPlaces, Lacking::OutputBytes];

/// What else is counted, of the runs of forecasts, of stocks in memory, of views and of balances. The bound is the most that a stock may come to with the
/// Restocks still to be done from it: from the one held the pending ones, from one saved those of its place and behind it.
#[derive(Clone, Copy, Debug, PartialEq, Eq, PartialOrd, Ord)]
pub enum Situation {
    /// Calls after which some cancel waits.
    CallsWithCancelWaiting,
    /// Requests accepted where a Restock of their hour was done, which stays so.
    RequestsTakenBesideADoneRestockOfTheirHour,
    /// Requests accepted where a Delivery of their hour was done, which is undone.
    RequestsTakenBesideADoneDeliveryOfTheirHour,
    /// Committed events behind a Restock of their hour.
    RequestsBehindARestockOfTheirHour,
    DeliveriesBehindARestockOfTheirHour,
    /// Committed Requests that found stock when all was handed out that lay on the shelf as the hour began.
    RequestsServedByARestockOfTheirHour,
    /// Committed Restocks that take a stock from at most 65,535 to more.
    RestocksThatTakeAStockAbove65535,
    /// Committed events after which the stock is more than 65,535.
    EventsWithAStockAbove65535,
    /// Forecasts whose records became whole.
    ForecastsWhole,
    /// Forecasts that too few places stopped.
    ForecastsStuck,
    /// Sound memories with a stock that comes to the bound itself.
    HeldStocksAtTheBound,
    SavedStocksAtTheBound,
    /// Memories refused for a stock that comes to one more.
    HeldStocksOneOverTheBound,
    SavedStocksOneOverTheBound,
    /// Memories refused for a stock that is not over the bound by itself.
    HeldStocksOverTheBoundByRestocks,
    SavedStocksOverTheBoundByRestocks,
    /// Sound memories with a stock that would be over the bound with all Restocks of the queue: some of these are done, or stand before it.
    HeldStocksOverTheBoundWithAllRestocks,
    SavedStocksOverTheBoundWithAllRestocks,
    /// Views of records in which too few bytes of state stand behind a good frame: 11, which is for no frame.
    ViewsOfACutState,
    /// Of these, with one byte too few.
    ViewsOfAStateOf15Bytes,
    ViewsOfAnOldStateOf13Bytes,
    /// Views refused of records that are good with the other stock.
    ViewsOfANewRecordAsAnOldOne,
    ViewsOfAnOldRecordAsANewOne,
    /// Views refused for a frame behind which the state is cut too.
    ViewsOfABadFrameWithACutState,
    /// Views refused for an event, with a cut state at the end of the record.
    ViewsOfABadEventBeforeACutState,
    /// Views refused for an event, with too little room for the events before it.
    ViewsOfABadEventWithTooLittleRoom,
    /// Balances held of gateways that have committed nothing yet.
    BalancesHeldBeforeTheFirstCommit,
    /// Balances held after commits, where the carrier brings the oldest frame first, the newest or any.
    BalancesHeldWithTheOldestFirst,
    BalancesHeldWithTheNewestFirst,
    BalancesHeldWithAnyFirst,
    /// Balances held of records in which a Request found no stock, or a Request shares its hour with a Restock.
    BalancesHeldWithARequestThatFoundNoStock,
    BalancesHeldWithARequestInTheHourOfARestock,
    /// Balances held of records whose last stock is more than 65,535.
    BalancesHeldWithAStockAbove65535,
    /// Balances answered whose figures do not balance, of records that no gateway has written from that stock.
    BalancesThatDoNotHold,
    /// Balances refused for the opening stock, of records in which something is to be refused too.
    BalancesOfABadRecordFromTooMuchStock,
    /// Balances refused for an event, with too few figures lent.
    BalancesOfABadRecordWithTooFewFigures,
    /// Balances of records in which too few bytes of state stand behind a good frame.
    BalancesOfACutState,
}

const SITUATIONS: [Situation; 37] = [
    Situation::CallsWithCancelWaiting,
    Situation::RequestsTakenBesideADoneRestockOfTheirHour,
    Situation::RequestsTakenBesideADoneDeliveryOfTheirHour,
    Situation::RequestsBehindARestockOfTheirHour,
    Situation::DeliveriesBehindARestockOfTheirHour,
    Situation::RequestsServedByARestockOfTheirHour,
    Situation::RestocksThatTakeAStockAbove65535,
    Situation::EventsWithAStockAbove65535,
    Situation::ForecastsWhole,
    Situation::ForecastsStuck,
    Situation::HeldStocksAtTheBound,
    Situation::SavedStocksAtTheBound,
    Situation::HeldStocksOneOverTheBound,
    Situation::SavedStocksOneOverTheBound,
    Situation::HeldStocksOverTheBoundByRestocks,
    Situation::SavedStocksOverTheBoundByRestocks,
    Situation::HeldStocksOverTheBoundWithAllRestocks,
    Situation::SavedStocksOverTheBoundWithAllRestocks,
    Situation::ViewsOfACutState,
    Situation::ViewsOfAStateOf15Bytes,
    Situation::ViewsOfAnOldStateOf13Bytes,
    Situation::ViewsOfANewRecordAsAnOldOne,
    Situation::ViewsOfAnOldRecordAsANewOne,
    Situation::ViewsOfABadFrameWithACutState,
    Situation::ViewsOfABadEventBeforeACutState,
    Situation::ViewsOfABadEventWithTooLittleRoom,
    Situation::BalancesHeldBeforeTheFirstCommit,
    Situation::BalancesHeldWithTheOldestFirst,
    Situation::BalancesHeldWithTheNewestFirst,
    Situation::BalancesHeldWithAnyFirst,
    Situation::BalancesHeldWithARequestThatFoundNoStock,
    Situation::BalancesHeldWithARequestInTheHourOfARestock,
    Situation::BalancesHeldWithAStockAbove65535,
    Situation::BalancesThatDoNotHold,
    Situation::BalancesOfABadRecordFromTooMuchStock,
    Situation::BalancesOfABadRecordWithTooFewFigures,
    Situation::BalancesOfACutState,
];

#[derive(Clone, Debug, Default)]
pub struct Tally {
    answers: BTreeMap<(Called, u32), u64>,
    refused_frames: BTreeMap<(FrameCall, Reason), u64>,
    unsound: BTreeMap<Unsound, u64>,
    lacking: BTreeMap<Lacking, u64>,
    lead_times: BTreeMap<(Met, Lead), u64>,
    situations: BTreeMap<Situation, u64>,
}

impl Called {
    /// What taking these bytes is.
    pub fn taking(bytes: &[u8]) -> Called {
        match frame::read(bytes) {
            Ok(Frame::Event { sense: Sense::Plain, message }) => match message.kind {
                Kind::Failure => Called::TakeFailure,
                Kind::Request => Called::TakeRequest,
                Kind::Delivery => Called::TakeDelivery,
                Kind::Restock => Called::TakeOtherBytes,
            },
            Ok(Frame::Event { sense: Sense::Cancel, .. }) => Called::TakeCancel,
            Ok(Frame::Event { sense: Sense::Acknowledgment, .. }) => Called::TakeAcknowledgment,
            Ok(Frame::Event { sense: Sense::AcknowledgmentOfCancel, .. }) => {
                Called::TakeAcknowledgmentOfCancel
            }
            Ok(Frame::Start { .. }) => Called::TakeStart,
            Ok(Frame::Lvt { .. }) => Called::TakeLvt,
            Ok(Frame::Update { .. }) => Called::TakeUpdate,
            Err(_) => Called::TakeOtherBytes,
        }
    }

    /// What a view for this reader of a record with this stock is.
    pub fn viewing(reader: u32, old_stock: u32) -> Called {
        match (reader, old_stock) {
            (PURCHASING, NEW_STOCK) => Called::ViewForPurchasing,
            (MAINTENANCE, NEW_STOCK) => Called::ViewForMaintenance,
            (PURCHASING, OLD_STOCK) => Called::ViewForPurchasingOldStock,
            (MAINTENANCE, OLD_STOCK) => Called::ViewForMaintenanceOldStock,
            (_, NEW_STOCK | OLD_STOCK) => Called::ViewForAnother,
            (PURCHASING | MAINTENANCE, _) => Called::ViewOfAnotherStock,
            _ => Called::ViewForAnotherOfAnotherStock,
        }
    }
}

impl Tally {
    pub fn count(&mut self, called: Called, number: u32) {
        *self.answers.entry((called, number)).or_default() += 1;
    }

    /// Counts why a call refused a frame.
    pub fn count_refused_frame(&mut self, call: FrameCall, reason: Reason) {
        *self.refused_frames.entry((call, reason)).or_default() += 1;
    }

    pub fn count_unsound(&mut self, reason: Unsound) {
        *self.unsound.entry(reason).or_default() += 1;
    }

    pub fn count_lacking(&mut self, lacking: Lacking) {
        *self.lacking.entry(lacking).or_default() += 1;
    }

    pub fn count_lead_times(&mut self, met: impl IntoIterator<Item = (Lead, Met)>) {
        for (lead, met) in met {
            *self.lead_times.entry((met, lead)).or_default() += 1;
        }
    }

    pub fn count_situation(&mut self, situation: Situation) {
        *self.situations.entry(situation).or_default() += 1;
    }

    pub fn calls(&self) -> u64 {
        self.answers.values().sum()
    }

    /// How often calls of that kind had that answer.
    pub fn times(&self, called: Called, number: u32) -> u64 {
        self.answers.get(&(called, number)).copied().unwrap_or(0)
    }

    /// How often a call refused a frame for that reason.
    fn refused_frames(&self, call: FrameCall, reason: Reason) -> u64 {
        self.refused_frames.get(&(call, reason)).copied().unwrap_or(0)
    }

    /// How often that was met of a lead time.
    fn times_of_lead(&self, met: Met, lead: Lead) -> u64 {
        self.lead_times.get(&(met, lead)).copied().unwrap_or(0)
    }

    /// Answers, reasons and situations that can be and were never met.
    pub fn gaps(&self) -> Vec<String> {
        let mut gaps = Vec::new();
        for (called, numbers) in ANSWERS {
            for &number in numbers.iter().filter(|&&number| self.times(called, number) == 0) {
                gaps.push(format!("{called:?} was never answered with {number}"));
            }
        }
        for call in FRAME_CALLS {
            for reason in refusal::REASONS {
                if self.refused_frames(call, reason) == 0 {
                    gaps.push(format!("{call:?} never refused a frame for {reason}"));
                }
            }
        }
        for reason in memory::REASONS.iter().filter(|reason| !self.unsound.contains_key(reason)) {
            gaps.push(format!("memory was never unsound for {reason:?}"));
        }
        for lacking in LACKING.iter().filter(|lacking| !self.lacking.contains_key(lacking)) {
            gaps.push(format!("5 was never answered for too few {lacking:?}"));
        }
        for met in ALL_MET {
            for lead in LEADS.into_iter().filter(|&lead| self.times_of_lead(met, lead) == 0) {
                gaps.push(format!("of {lead:?} hours there were no {met:?}"));
            }
        }
        for situation in SITUATIONS.iter().filter(|met| !self.situations.contains_key(met)) {
            gaps.push(format!("there were no {situation:?}"));
        }
        gaps
    }

    /// Answers that were met and cannot be.
    pub fn impossible(&self) -> Vec<String> {
        let possible = |called, number| {
            ANSWERS.iter().any(|&(row, numbers)| row == called && numbers.contains(&number))
        };
        let met = self.answers.keys().filter(|&&(called, number)| !possible(called, number));
        met.map(|(called, number)| format!("{called:?} was answered with {number}")).collect()
    }
}

impl fmt::Display for Tally {
    fn fmt(&self, formatter: &mut fmt::Formatter) -> fmt::Result {
        write!(formatter, "{:28}", "calls answered with")?;
        for number in NUMBERS {
            write!(formatter, "{number:>9}")?;
        }
        writeln!(formatter)?;
        for (called, numbers) in ANSWERS {
            write!(formatter, "{:28}", format!("{called:?}"))?;
            for number in NUMBERS {
                let times = self.times(called, number);
                let shown = times > 0 || numbers.contains(&number);
                write!(formatter, "{:>9}", if shown { times.to_string() } else { "-".into() })?;
            }
            writeln!(formatter)?;
        }
        write!(formatter, "{:48}", "frames refused for")?;
        for call in FRAME_CALLS {
            write!(formatter, "{:>9}", format!("{call:?}"))?;
        }
        writeln!(formatter)?;
        for reason in refusal::REASONS {
            write!(formatter, "{:48}", reason.to_string())?;
            for call in FRAME_CALLS {
                write!(formatter, "{:>9}", self.refused_frames(call, reason))?;
            }
            writeln!(formatter)?;
        }
        write!(formatter, "{:48}", "hours")?;
        for lead in LEADS {
            write!(formatter, "{:>9}", format!("{lead:?}"))?;
        }
        writeln!(formatter)?;
        for met in ALL_MET {
            write!(formatter, "{:48}", format!("{met:?}"))?;
            for lead in LEADS {
                write!(formatter, "{:>9}", self.times_of_lead(met, lead))?;
            }
            writeln!(formatter)?;
        }
        for (reason, times) in &self.unsound {
            writeln!(formatter, "10 for {reason:?}: {times}")?;
        }
        for (lacking, times) in &self.lacking {
            writeln!(formatter, "5 for too few {lacking:?}: {times}")?;
        }
        for (situation, times) in &self.situations {
            writeln!(formatter, "{situation:?}: {times}")?;
        }
        writeln!(formatter, "{} calls", self.calls())
    }
}
