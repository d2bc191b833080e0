//! The proved library behind the safe interface of its calls.
//!
//! Every call of C is here, and no other unsafe code. Slices of Rust keep what the library counts on:
//! pointers to so many bytes, of which the written ones overlap nothing else.

use interface::{AgreedTime, Answer, Calls, LampPlace, Opening, ViewAnswer};

mod declared {
    //! The functions that `include/hurfaith.h` declares.

    extern "C" {
        pub fn hurfaith_route(
            gateways: u32,
            own: u32,
            neighbours: *mut u16,
            neighbours_length: usize,
        ) -> u32;
        pub fn hurfaith_set_up(
            memory: *mut u8,
            memory_length: usize,
            list: *const u8,
            list_length: usize,
            gateways: u32,
            own: u32,
            supplier: u32,
            stock: u32,
            last_hour: u32,
            queue_places: u32,
            outstanding_places: u32,
            request_hours: u32,
            delivery_hours: u32,
            life_hours: u32,
        ) -> u32;
        pub fn hurfaith_work(
            memory: *mut u8,
            memory_length: usize,
            output: *mut u8,
            output_length: usize,
            budget: u32,
        ) -> u64;
        pub fn hurfaith_take(
            memory: *mut u8,
            memory_length: usize,
            frame: *const u8,
            frame_length: usize,
            output: *mut u8,
            output_length: usize,
        ) -> u64;
        pub fn hurfaith_start(
            memory: *mut u8,
            memory_length: usize,
            output: *mut u8,
            output_length: usize,
        ) -> u64;
        pub fn hurfaith_commit(
            memory: *mut u8,
            memory_length: usize,
            output: *mut u8,
            output_length: usize,
        ) -> u64;
        pub fn hurfaith_agreed_time(memory: *const u8, memory_length: usize) -> u64;
        pub fn hurfaith_lamp(frame: *const u8, frame_length: usize) -> u64;
        pub fn hurfaith_view(
            record: *const u8,
            record_length: usize,
            output: *mut u8,
            output_length: usize,
            reader: u32,
            old_stock: u32,
        ) -> u64;
        pub fn hurfaith_balance(
            record: *const u8,
            record_length: usize,
            opening_stock: u32,
            figures: *mut u64,
            figures_length: usize,
        ) -> u32;
    }
}

/// The proved library.
#[derive(Clone, Copy, Debug, Default)]
pub struct Library;

impl Calls for Library {
    fn route(&self, gateways: u32, own: u32, neighbours: &mut [u16]) -> u32 {
        // SAFETY: the pointer and the length are those of one slice, which is lent mutably.
        unsafe {
            declared::hurfaith_route(gateways, own, neighbours.as_mut_ptr(), neighbours.len())
        }
    }

    fn set_up(&self, memory: &mut [u8], list: &[u8], opening: &Opening) -> u32 {
        // SAFETY: each pointer and length are those of one slice; the memory is lent mutably.
        unsafe {
            declared::hurfaith_set_up(
                memory.as_mut_ptr(),
                memory.len(),
                list.as_ptr(),
                list.len(),
                opening.gateways,
                opening.own,
                opening.supplier,
                opening.stock,
                opening.last_hour,
                opening.queue_places,
                opening.outstanding_places,
                opening.request_hours,
                opening.delivery_hours,
                opening.life_hours,
            )
        }
    }

    fn work(&self, memory: &mut [u8], output: &mut [u8], budget: u32) -> Answer {
        // SAFETY: each pointer and length are those of one slice; both are lent mutably.
        Answer::unpacked(unsafe {
            declared::hurfaith_work(
                memory.as_mut_ptr(),
                memory.len(),
                output.as_mut_ptr(),
                output.len(),
                budget,
            )
        })
    }

    fn take(&self, memory: &mut [u8], frame: &[u8], output: &mut [u8]) -> Answer {
        // SAFETY: each pointer and length are those of one slice; memory and output are lent mutably.
        Answer::unpacked(unsafe {
            declared::hurfaith_take(
                memory.as_mut_ptr(),
                memory.len(),
                frame.as_ptr(),
                frame.len(),
                output.as_mut_ptr(),
                output.len(),
            )
        })
    }

    fn start(&self, memory: &mut [u8], output: &mut [u8]) -> Answer {
        // SAFETY: each pointer and length are those of one slice; both are lent mutably.
        Answer::unpacked(unsafe {
            declared::hurfaith_start(
                memory.as_mut_ptr(),
                memory.len(),
                output.as_mut_ptr(),
                output.len(),
            )
        })
    }

    fn commit(&self, memory: &mut [u8], output: &mut [u8]) -> Answer {
        // SAFETY: each pointer and length are those of one slice; both are lent mutably.
        Answer::unpacked(unsafe {
            declared::hurfaith_commit(
                memory.as_mut_ptr(),
                memory.len(),
                output.as_mut_ptr(),
                output.len(),
            )
        })
    }

    fn agreed_time(&self, memory: &[u8]) -> AgreedTime {
        // SAFETY: the pointer and the length are those of one slice.
        AgreedTime::unpacked(unsafe {
            declared::hurfaith_agreed_time(memory.as_ptr(), memory.len())
        })
    }

    fn lamp(&self, frame: &[u8]) -> LampPlace {
        // SAFETY: the pointer and the length are those of one slice.
        LampPlace::unpacked(unsafe { declared::hurfaith_lamp(frame.as_ptr(), frame.len()) })
    }

    fn view(&self, record: &[u8], output: &mut [u8], reader: u32, old_stock: u32) -> ViewAnswer {
        // SAFETY: each pointer and length are those of one slice; the output is lent mutably.
        ViewAnswer::unpacked(unsafe {
            declared::hurfaith_view(
                record.as_ptr(),
                record.len(),
                output.as_mut_ptr(),
                output.len(),
                reader,
                old_stock,
            )
        })
    }

    fn balance(&self, record: &[u8], opening_stock: u32, figures: &mut [u64]) -> u32 {
        // SAFETY: each pointer and length are those of one slice; the figures are lent mutably.
        unsafe {
            declared::hurfaith_balance(
                record.as_ptr(),
                record.len(),
                opening_stock,
                figures.as_mut_ptr(),
                figures.len(),
            )
        }
    }
}
