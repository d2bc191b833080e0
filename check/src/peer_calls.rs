//! The second implementation behind the interface of the calls: it reads a gateway from the lent memory, does
//! the call and writes the gateway back.

use interface::{
    AgreedTime, Answer, Calls, LampPlace, Opening, ViewAnswer, BALANCE_FIGURES, NO_NEIGHBOUR,
};
use peer::balance::{self, Book};
use peer::frame::{self, Frame};
use peer::gateway::{Gateway, Setup};
use peer::model::Hours;
use peer::refusal::Refusal;
use peer::{memory, record, routing, view};

/// The number of memory that is not sound.
pub const UNSOUND: u32 = 10;

/// The second implementation.
#[derive(Clone, Copy, Debug, Default)]
pub struct Peer;

impl Calls for Peer {
    fn route(&self, gateways: u32, own: u32, neighbours: &mut [u16]) -> u32 {
        let numbers = (i32::try_from(gateways), i32::try_from(own));
        let found = match numbers {
            (Ok(gateways), Ok(own)) => routing::neighbours(gateways, own),
            _ => None,
        };
        let Some(found) = found else {
            return Refusal::Setting.number();
        };
        if neighbours.len() < 4 {
            return Refusal::NoRoom.number();
        }
        let two = |list: &[i32]| [0, 1].map(|at| list.get(at).map_or(NO_NEIGHBOUR, |&i| i as u16));
        neighbours[..2].copy_from_slice(&two(&found.from));
        neighbours[2..4].copy_from_slice(&two(&found.to));
        0
    }

    fn set_up(&self, memory: &mut [u8], list: &[u8], opening: &Opening) -> u32 {
        match Gateway::set_up(&setup(opening, list, memory.len())) {
            Ok(gateway) => {
                memory::write(&gateway, memory);
                0
            }
            Err(refusal) => refusal.number(),
        }
    }

    fn work(&self, memory: &mut [u8], output: &mut [u8], budget: u32) -> Answer {
        let Ok(mut gateway) = memory::read(memory) else {
            return refused(UNSOUND);
        };
        let worked = gateway.work(budget, output.len());
        memory::write(&gateway, memory);
        let written = put(&worked.output, output);
        Answer { number: worked.why.map_or(0, Refusal::number), written, events: worked.count }
    }

    fn take(&self, memory: &mut [u8], frame: &[u8], output: &mut [u8]) -> Answer {
        changed(memory, output, |gateway, room| gateway.take(frame, room).map(|out| bytes(&out)))
    }

    fn start(&self, memory: &mut [u8], output: &mut [u8]) -> Answer {
        changed(memory, output, |gateway, room| gateway.start(room).map(|out| bytes(&out)))
    }

    fn commit(&self, memory: &mut [u8], output: &mut [u8]) -> Answer {
        changed(memory, output, |gateway, room| {
            gateway.commit(room).map(|done| record::bytes(&done))
        })
    }

    fn agreed_time(&self, memory: &[u8]) -> AgreedTime {
        match memory::read(memory) {
            Ok(gateway) => AgreedTime { number: 0, hour: gateway.agreed() },
            Err(_) => AgreedTime { number: UNSOUND, hour: 0 },
        }
    }

    fn lamp(&self, frame: &[u8]) -> LampPlace {
        match frame::lamp_place(frame) {
            Ok(place) => LampPlace { number: 0, place },
            Err(reason) => LampPlace { number: reason.number(), place: 0 },
        }
    }

    fn view(&self, record: &[u8], output: &mut [u8], reader: u32, old_stock: u32) -> ViewAnswer {
        match view::view(record, output.len(), reader, old_stock) {
            Ok(bytes) => {
                output[..bytes.len()].copy_from_slice(&bytes);
                ViewAnswer { number: 0, written: bytes.len() }
            }
            Err(refusal) => ViewAnswer { number: refusal.number(), written: 0 },
        }
    }

    fn balance(&self, record: &[u8], opening_stock: u32, figures: &mut [u64]) -> u32 {
        match balance::balance(record, opening_stock, figures.len()) {
            Ok(Book { received, served, stock, .. }) => {
                figures[..BALANCE_FIGURES].copy_from_slice(&[received, served, stock.into()]);
                0
            }
            Err(refusal) => refusal.number(),
        }
    }
}

/// The settings as the second implementation takes them.
pub fn setup(opening: &Opening, list: &[u8], memory: usize) -> Setup {
    let &Opening { request_hours: request, delivery_hours: delivery, life_hours: life, .. } =
        opening;
    Setup {
        nodes: opening.gateways,
        own: opening.own,
        supplier: opening.supplier,
        stock: opening.stock,
        last_hour: opening.last_hour,
        queue_places: opening.queue_places,
        outstanding_places: opening.outstanding_places,
        hours: Hours { request, delivery, life },
        opening: list.to_vec(),
        memory,
    }
}

/// A call that leaves memory and output alone where it refuses.
fn changed(
    memory: &mut [u8],
    output: &mut [u8],
    call: impl FnOnce(&mut Gateway, usize) -> Result<Vec<u8>, Refusal>,
) -> Answer {
    let Ok(mut gateway) = memory::read(memory) else {
        return refused(UNSOUND);
    };
    match call(&mut gateway, output.len()) {
        Ok(bytes) => {
            memory::write(&gateway, memory);
            output[..bytes.len()].copy_from_slice(&bytes);
            Answer { number: 0, written: bytes.len(), events: 0 }
        }
        Err(refusal) => refused(refusal.number()),
    }
}

fn refused(number: u32) -> Answer {
    Answer { number, ..Answer::default() }
}

fn bytes(frames: &[Frame]) -> Vec<u8> {
    frames.iter().flat_map(frame::write).collect()
}

fn put(frames: &[Frame], output: &mut [u8]) -> usize {
    let bytes = bytes(frames);
    output[..bytes.len()].copy_from_slice(&bytes);
    bytes.len()
}
