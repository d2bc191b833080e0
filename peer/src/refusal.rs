//! What a call turns down, with the numbers of documents 01 and 02.

use std::fmt;

/// Why a call is turned down, or why work stopped. 10 is `memory::Unsound`, as a gateway here is not
/// kept in lent memory.
#[derive(Clone, Copy, Debug, PartialEq, Eq)]
pub enum Refusal {
    /// 1, 11 or 12.
    Frame(Reason),
    Number,
    PastLastHour,
    OutOfTurn,
    NoRoom,
    Nothing,
    NotOutstanding,
    Setting,
    BelowAgreed,
    /// 11, of a record whose last state is cut.
    CutState,
}

/// Why bytes are not taken as a frame, in the order in which it is looked for.
#[derive(Clone, Copy, Debug, PartialEq, Eq, PartialOrd, Ord)]
pub enum Reason {
    FewerThanTwoBytes,
    MapAndKind,
    Length,
    Sense,
    Lamp,
    GatewayFields,
    /// A frame of a valid form that the call does not take.
    FormNotTaken,
}

pub const REASONS: [Reason; 7] = [
    Reason::FewerThanTwoBytes,
    Reason::MapAndKind,
    Reason::Length,
    Reason::Sense,
    Reason::Lamp,
    Reason::GatewayFields,
    Reason::FormNotTaken,
];

impl Refusal {
    pub fn number(self) -> u32 {
        match self {
            Refusal::Frame(reason) => reason.number(),
            Refusal::Number => 2,
            Refusal::PastLastHour => 3,
            Refusal::OutOfTurn => 4,
            Refusal::NoRoom => 5,
            Refusal::Nothing => 6,
            Refusal::NotOutstanding => 7,
            Refusal::Setting => 8,
            Refusal::BelowAgreed => 9,
            Refusal::CutState => 11,
        }
    }
}

impl From<Reason> for Refusal {
    fn from(reason: Reason) -> Refusal {
        Refusal::Frame(reason)
    }
}

impl Reason {
    pub fn number(self) -> u32 {
        match self {
            Reason::FewerThanTwoBytes | Reason::Length => 11,
            Reason::Lamp => 12,
            Reason::MapAndKind | Reason::Sense | Reason::GatewayFields | Reason::FormNotTaken => 1,
        }
    }

    fn words(self) -> &'static str {
        match self {
            Reason::FewerThanTwoBytes => "length: fewer than two bytes",
            Reason::MapAndKind => "map and kind: not in the table of kinds",
            Reason::Length => "length: not that of the map",
            Reason::Sense => "sense: not 1 to 3",
            Reason::Lamp => "lamp: a byte outside 33 to 126",
            Reason::GatewayFields => "gateway fields: they do not agree",
            Reason::FormNotTaken => "form: not taken in this call",
        }
    }
}

/// The number, then the reason in words.
impl fmt::Display for Reason {
    fn fmt(&self, formatter: &mut fmt::Formatter) -> fmt::Result {
        write!(formatter, "{} {}", self.number(), self.words())
    }
}

#[cfg(test)]
mod tests {
    use super::*;

    #[test]
    fn reasons_stand_in_the_order_of_document_02() {
        assert!(REASONS.is_sorted());
        assert_eq!(REASONS.map(Reason::number), [11, 1, 11, 1, 12, 1, 1]);
    }
}
