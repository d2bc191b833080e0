//! The calls of the executive as a host sees them: what they are given and what they answer.
//!
//! The proved library, plain Rust and the second implementation all implement [`Calls`], so that a
//! host, a comparison and a measurement are written once for all of them.
#![no_std]

/// The hour that means nothing due.
pub const NOTHING_DUE: u32 = u32::MAX;

/// What `route` puts where there is no neighbour.
pub const NO_NEIGHBOUR: u16 = u16::MAX;

/// The most queue places, and the most outstanding places, that set up takes.
pub const MOST_PLACES: u32 = 512;

/// The most drivers that an opening stock has, and the most that a Restock brings.
pub const MOST_AT_ONCE: u32 = 65_535;

/// The most that a stock may have: an opening stock and as many Restocks as an opening list holds, each of the most.
pub const MOST_STOCK: u32 = MOST_AT_ONCE + MOST_PLACES * MOST_AT_ONCE;

/// The most request hours, delivery hours and life hours that set up takes. The least are 1, as a message is later than its cause.
pub const MOST_HOURS: u32 = 1_000_000;

/// An output of this length is enough for every call at a gateway with that many outstanding places:
/// an acknowledgment, and a cancel in each outstanding place.
pub const fn ample_output(outstanding_places: u32) -> usize {
    let cancels = 28 * (1 + outstanding_places as usize);
    if cancels < LONGEST_RECORD {
        LONGEST_RECORD
    } else {
        cancels
    }
}

/// The bytes of a state: stock, failed, fitted and short, four each, high byte first.
pub const STATE_LENGTH: usize = 16;

/// The bytes of a state in a record with the old stock, which has two.
pub const OLD_STATE_LENGTH: usize = 14;

/// The most bytes that a commit writes: a frame of 27 bytes and the state.
pub const LONGEST_RECORD: usize = 27 + STATE_LENGTH;

/// The readers for whom `view` writes.
pub const PURCHASING: u32 = 0;
pub const MAINTENANCE: u32 = 1;

/// The stocks that a record may have: of four bytes, as `commit` writes it, or the old one of two, as earlier builds wrote it.
pub const NEW_STOCK: u32 = 0;
pub const OLD_STOCK: u32 = 1;

/// The least length of the memory that set up is lent.
pub const fn memory_length(queue_places: u32, outstanding_places: u32) -> usize {
    256 + 64 * queue_places as usize + 32 * outstanding_places as usize
}

/// The settings of set up. They are wider than their ranges; a value outside is answered with 8. The hours are those of the gateway that
/// does a message; what would come past the last hour is not sent.
#[derive(Clone, Copy, Debug, PartialEq, Eq)]
pub struct Opening {
    /// Gateways of the forecast.
    pub gateways: u32,
    pub own: u32,
    pub supplier: u32,
    pub stock: u32,
    pub last_hour: u32,
    pub queue_places: u32,
    pub outstanding_places: u32,
    /// Hours after which a Failure's Request, or a Request that found no stock, comes to the supplier.
    pub request_hours: u32,
    /// Hours from a Request that found stock to its Delivery.
    pub delivery_hours: u32,
    /// Hours from a Delivery to the next Failure of that lamp.
    pub life_hours: u32,
}

/// What a call answers: the number of documents 01 and 02 (of work: why it stopped), 0 where nothing is refused.
#[derive(Clone, Copy, Debug, Default, PartialEq, Eq)]
pub struct Answer {
    pub number: u32,
    /// Bytes written to the output.
    pub written: usize,
    /// Events done; of work alone.
    pub events: u32,
}

impl Answer {
    /// The number, 256 times the bytes written and 2^32 times the events done, taken apart.
    pub const fn unpacked(packed: u64) -> Answer {
        Answer {
            number: packed as u32 & 0xff,
            written: (packed as u32 >> 8) as usize,
            events: (packed >> 32) as u32,
        }
    }
}

/// The agreed time of a gateway: 0 and the hour, or a refusal's number and 0.
#[derive(Clone, Copy, Debug, Default, PartialEq, Eq)]
pub struct AgreedTime {
    pub number: u32,
    pub hour: u32,
}

impl AgreedTime {
    /// The number and 2^32 times the hour, taken apart.
    pub const fn unpacked(packed: u64) -> AgreedTime {
        AgreedTime { number: packed as u32, hour: (packed >> 32) as u32 }
    }
}

/// Where the lamp of a frame begins: 0 and the place of its first byte, or a refusal's number and 0.
#[derive(Clone, Copy, Debug, Default, PartialEq, Eq)]
pub struct LampPlace {
    pub number: u32,
    pub place: usize,
}

impl LampPlace {
    /// The number and 256 times the place, taken apart.
    pub const fn unpacked(packed: u64) -> LampPlace {
        LampPlace { number: packed as u32 & 0xff, place: (packed >> 8) as usize }
    }
}

/// What came of a view: 0 and the bytes written to the output, or a refusal's number and 0.
#[derive(Clone, Copy, Debug, Default, PartialEq, Eq)]
pub struct ViewAnswer {
    pub number: u32,
    pub written: usize,
}

impl ViewAnswer {
    /// The number and 256 times the bytes written, taken apart.
    pub const fn unpacked(packed: u64) -> ViewAnswer {
        ViewAnswer { number: packed as u32 & 0xff, written: (packed >> 8) as usize }
    }
}

/// How many figures a balance has.
pub const BALANCE_FIGURES: usize = 3;

/// What a gateway's record tells of its shelf, followed from the opening stock on: the figures that `balance` fills in, in their order.
#[derive(Clone, Copy, Debug, Default, PartialEq, Eq)]
pub struct Balance {
    /// The quantities of all Restocks together.
    pub received: u64,
    /// Requests that found stock.
    pub served: u64,
    /// The stock in the last event's state; the opening stock where there is no event.
    pub stock: u64,
}

impl Balance {
    pub const fn of([received, served, stock]: [u64; BALANCE_FIGURES]) -> Balance {
        Balance { received, served, stock }
    }

    /// Whether the opening stock and what was received are what was served and what is left, as they are of every record that commits
    /// wrote.
    pub fn balances(&self, opening_stock: u32) -> bool {
        let sum = |one: u64, other: u64| u128::from(one) + u128::from(other);
        sum(opening_stock.into(), self.received) == sum(self.served, self.stock)
    }
}

/// The calls. Memory is lent for the time of a call; a refusal leaves memory, output, neighbours and figures as they were.
pub trait Calls {
    /// The neighbours of gateway `own`: two that it hears, then two that it tells, with
    /// [`NO_NEIGHBOUR`] where there is none. 0, 8, or 5 where fewer than four numbers are lent.
    fn route(&self, gateways: u32, own: u32, neighbours: &mut [u16]) -> u32;

    /// Makes the memory a gateway's; `list` holds its opening messages, whole frames one behind the other.
    fn set_up(&self, memory: &mut [u8], list: &[u8], opening: &Opening) -> u32;

    /// Works off up to `budget` events.
    fn work(&self, memory: &mut [u8], output: &mut [u8], budget: u32) -> Answer;

    /// Takes a frame that the carrier brings.
    fn take(&self, memory: &mut [u8], frame: &[u8], output: &mut [u8]) -> Answer;

    /// Opens a round at gateway 0.
    fn start(&self, memory: &mut [u8], output: &mut [u8]) -> Answer;

    /// Writes the record of the oldest processed event below the agreed time, which leaves the queue.
    fn commit(&self, memory: &mut [u8], output: &mut [u8]) -> Answer;

    fn agreed_time(&self, memory: &[u8]) -> AgreedTime;

    /// Reads the lamp of a frame: 0, or 1, 11 or 12 where the frame is refused, 1 too where it has no lamp.
    fn lamp(&self, frame: &[u8]) -> LampPlace;

    /// Writes what a reader, [`PURCHASING`] or [`MAINTENANCE`], sees of a whole record with [`NEW_STOCK`] or [`OLD_STOCK`]: for each
    /// event a map and the fields whose bit stands, a stock of four bytes of either record. 0; or 8 for another reader, another stock or
    /// a record of 2^48 bytes or more; or 1, 11, 12, 2, 3 or, for a cut state, 11 of the first event that is refused; or 5. An output
    /// as long as the record is enough.
    fn view(&self, record: &[u8], output: &mut [u8], reader: u32, old_stock: u32) -> ViewAnswer;

    /// What came to the shelf and left it in a whole record with [`NEW_STOCK`]: the figures of a [`Balance`]. The stock is followed from the
    /// opening stock by the lamp model. 0; or 8 for an opening stock above [`MOST_AT_ONCE`] or a record of 2^48 bytes or more; or 1, 11, 12,
    /// 2, 3 or, for a cut state, 11 of the first event that is refused; or 5 where fewer than [`BALANCE_FIGURES`] numbers are lent. Whether
    /// the figures balance is for the caller to see.
    fn balance(&self, record: &[u8], opening_stock: u32, figures: &mut [u64]) -> u32;
}

#[cfg(test)]
mod tests {
    use super::*;

    #[test]
    fn the_most_that_a_stock_may_have() {
        assert_eq!(MOST_STOCK, 33_619_455);
    }

    #[test]
    fn what_came_is_what_left_and_what_is_there() {
        let balance = Balance::of([7, 4, 5]);
        assert_eq!(balance, Balance { received: 7, served: 4, stock: 5 });
        assert_eq!([1, 2, 3].map(|stock| balance.balances(stock)), [false, true, false]);
        assert!(!Balance::of([u64::MAX, 0, 0]).balances(1));
    }

    #[test]
    fn all_above_the_number_of_a_view_is_what_was_written() {
        assert_eq!(ViewAnswer::unpacked(8), ViewAnswer { number: 8, written: 0 });
        assert_eq!(ViewAnswer::unpacked(22 << 8), ViewAnswer { number: 0, written: 22 });
        let most = (1 << 48) - 1;
        assert_eq!(
            ViewAnswer::unpacked(most << 8),
            ViewAnswer { number: 0, written: most as usize }
        );
    }
}
