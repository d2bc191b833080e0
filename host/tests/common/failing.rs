//! The proved library, but that some call answers something else.

use interface::{AgreedTime, Answer, Calls, LampPlace, Opening, ViewAnswer};
use library::Library;

/// What is answered in place of 0; all else is as the library answers it.
#[derive(Clone, Copy, Debug, Default)]
pub struct Failing {
    /// Answered to frames of a round.
    pub frame: u32,
    /// Answered for the agreed time.
    pub agreed_time: u32,
    /// Answered for a balance.
    pub balance: u32,
    /// Added to what a balance says was served.
    pub served: u64,
}

impl Calls for Failing {
    fn route(&self, gateways: u32, own: u32, neighbours: &mut [u16]) -> u32 {
        Library.route(gateways, own, neighbours)
    }

    fn set_up(&self, memory: &mut [u8], list: &[u8], opening: &Opening) -> u32 {
        Library.set_up(memory, list, opening)
    }

    fn work(&self, memory: &mut [u8], output: &mut [u8], budget: u32) -> Answer {
        Library.work(memory, output, budget)
    }

    fn take(&self, memory: &mut [u8], frame: &[u8], output: &mut [u8]) -> Answer {
        if frame.len() <= 8 && self.frame != 0 {
            return Answer { number: self.frame, ..Answer::default() };
        }
        Library.take(memory, frame, output)
    }

    fn start(&self, memory: &mut [u8], output: &mut [u8]) -> Answer {
        Library.start(memory, output)
    }

    fn commit(&self, memory: &mut [u8], output: &mut [u8]) -> Answer {
        Library.commit(memory, output)
    }

    fn agreed_time(&self, memory: &[u8]) -> AgreedTime {
        match self.agreed_time {
            0 => Library.agreed_time(memory),
            number => AgreedTime { number, hour: 0 },
        }
    }

    fn lamp(&self, frame: &[u8]) -> LampPlace {
        Library.lamp(frame)
    }

    fn view(&self, record: &[u8], output: &mut [u8], reader: u32, old_stock: u32) -> ViewAnswer {
        Library.view(record, output, reader, old_stock)
    }

    fn balance(&self, record: &[u8], opening_stock: u32, figures: &mut [u64]) -> u32 {
        if self.balance != 0 {
            return self.balance;
        }
        let number = Library.balance(record, opening_stock, figures);
        figures[1] += self.served;
        number
    }
}
