//! Times of two implementations, taken in turn in one run, so that what else the machine does hits both alike.

use std::hint::black_box;
use std::time::{Duration, Instant};

/// The median times of the two.
#[derive(Clone, Copy, Debug)]
pub struct Times {
    pub library: Duration,
    pub plain: Duration,
}

impl Times {
    pub fn ratio(&self) -> f64 {
        self.library.as_secs_f64() / self.plain.as_secs_f64()
    }

    /// The times of one of so many equal parts.
    pub fn per(self, parts: u32) -> Times {
        Times { library: self.library / parts, plain: self.plain / parts }
    }
}

/// Runs both in turn, the first one changing from turn to turn; medians. `turn` runs the library, or else plain Rust, and
/// gives the time that it took.
pub fn in_turn(turns: usize, mut turn: impl FnMut(bool) -> Duration) -> Times {
    let (mut library, mut plain) = (Vec::new(), Vec::new());
    for number in 0..turns {
        let first = number % 2 == 0;
        for of_library in [first, !first] {
            let time = turn(of_library);
            if of_library { &mut library } else { &mut plain }.push(time);
        }
    }
    Times { library: median(library), plain: median(plain) }
}

/// The time that something takes.
pub fn timed<T>(work: impl FnOnce() -> T) -> Duration {
    let begun = Instant::now();
    black_box(work());
    begun.elapsed()
}

fn median(mut times: Vec<Duration>) -> Duration {
    times.sort_unstable();
    times[times.len() / 2]
}

/// A time in the unit that suits it.
pub fn with_unit(time: Duration) -> String {
    let nanoseconds = time.as_nanos();
    match nanoseconds {
        0..10_000 => format!("{nanoseconds} ns"),
        10_000..10_000_000 => format!("{:.1} µs", nanoseconds as f64 / 1e3),
        10_000_000..10_000_000_000 => format!("{:.1} ms", nanoseconds as f64 / 1e6),
        _ => format!("{:.2} s", nanoseconds as f64 / 1e9),
    }
}
