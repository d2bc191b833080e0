//! Shows on standard error how far a forecast is: a bar on a terminal, otherwise a line a second.

use crate::carrier::Progress;
use crate::report::{counted, grouped};
use std::io::{self, IsTerminal, Write};
use std::time::{Duration, Instant};

/// With it a line of progress has some 80 characters.
const BAR_WIDTH: u64 = 10;

/// The time between two changes of the bar, and between two lines.
const BAR_CHANGES: Duration = Duration::from_millis(100);
const LINES: Duration = Duration::from_secs(1);

/// How progress is shown.
#[derive(Clone, Copy, Debug, PartialEq, Eq)]
pub enum Style {
    Bar,
    Lines,
    Quiet,
}

impl Style {
    /// The style for standard error.
    pub fn of_standard_error(quiet: bool) -> Style {
        match (quiet, io::stderr().is_terminal()) {
            (true, _) => Style::Quiet,
            (false, true) => Style::Bar,
            (false, false) => Style::Lines,
        }
    }
}

/// Shows the progress of a forecast.
pub struct Display {
    style: Style,
    last_hour: u32,
    /// The agreed time when this began, and when that was.
    first: u32,
    begun: Instant,
    shown: Instant,
}

impl Display {
    pub fn new(style: Style, first: u32, last_hour: u32) -> Display {
        let now = Instant::now();
        Display { style, last_hour, first, begun: now, shown: now }
    }

    /// Shows the progress if it is time to.
    pub fn show(&mut self, progress: &Progress) {
        let between = match self.style {
            Style::Bar => BAR_CHANGES,
            Style::Lines => LINES,
            Style::Quiet => return,
        };
        if self.shown.elapsed() < between {
            return;
        }
        self.shown = Instant::now();
        let text = self.text(progress, self.begun.elapsed());
        let _ = match self.style {
            Style::Bar => write!(io::stderr(), "\r{text}\x1b[K"),
            _ => writeln!(io::stderr(), "{text}"),
        };
    }

    /// Removes the bar.
    pub fn end(&self) {
        if self.style == Style::Bar {
            let _ = write!(io::stderr(), "\r\x1b[K");
        }
    }

    fn text(&self, progress: &Progress, passed: Duration) -> String {
        let Progress { agreed, committed, rounds, .. } = *progress;
        let hour = agreed.min(self.last_hour);
        let percent = 100 * u64::from(hour) / u64::from(self.last_hour).max(1);
        let bar = if self.style == Style::Bar { bar(percent) + " " } else { String::new() };
        let [hour, last] = [hour, self.last_hour].map(grouped);
        let (events, rounds) = (counted(committed, "event"), counted(rounds, "round"));
        let left = self.left(agreed, passed);
        format!("{bar}{percent} %, hour {hour} of {last}, {events}, {rounds}, {left}")
    }

    /// How long the rest takes, if its hours take as long as those until now.
    fn left(&self, agreed: u32, passed: Duration) -> String {
        let done = agreed.saturating_sub(self.first);
        if done == 0 {
            return "time left unknown".into();
        }
        let to_do = self.last_hour.saturating_sub(agreed);
        let seconds = (passed.as_secs_f64() * f64::from(to_do) / f64::from(done)).ceil() as u64;
        format!("{} left", duration(seconds))
    }
}

/// A bar of marks.
fn bar(percent: u64) -> String {
    let full = (BAR_WIDTH * percent / 100) as usize;
    format!("[{}{}]", "#".repeat(full), ".".repeat(BAR_WIDTH as usize - full))
}

/// A number of seconds in words.
fn duration(seconds: u64) -> String {
    match seconds {
        0..60 => format!("{seconds} s"),
        60..3_600 => format!("{} min {} s", seconds / 60, seconds % 60),
        _ => format!("{} h {} min", grouped(seconds / 3_600), seconds / 60 % 60),
    }
}

#[cfg(test)]
mod tests {
    use super::*;

    fn text(style: Style, first: u32, agreed: u32, seconds: u64) -> String {
        let progress = Progress { agreed, committed: 21_043, rounds: 600, ..Progress::default() };
        Display::new(style, first, 43_800).text(&progress, Duration::from_secs(seconds))
    }

    #[test]
    fn a_line_has_hour_events_rounds_and_an_estimate() {
        assert_eq!(
            text(Style::Lines, 0, 21_900, 30),
            "50 %, hour 21,900 of 43,800, 21,043 events, 600 rounds, 30 s left"
        );
        assert_eq!(
            text(Style::Lines, 20_900, 21_900, 10),
            "50 %, hour 21,900 of 43,800, 21,043 events, 600 rounds, 3 min 39 s left"
        );
        assert_eq!(
            text(Style::Lines, 0, 0, 9),
            "0 %, hour 0 of 43,800, 21,043 events, 600 rounds, time left unknown"
        );
    }

    #[test]
    fn a_bar_fills() {
        assert!(text(Style::Bar, 0, 10_950, 1).starts_with("[##........] 25 %, hour 10,950"));
        let end = "[##########] 100 %, hour 43,800 of 43,800, 21,043 events, 600 rounds, 0 s left";
        assert_eq!(text(Style::Bar, 0, u32::MAX, 1), end);
        let nothing = Display::new(Style::Bar, 0, 0);
        assert!(nothing.text(&Progress::default(), Duration::ZERO).starts_with("[....."));
    }

    #[test]
    fn long_times_are_in_words() {
        assert_eq!(
            [59, 60, 3_599, 3_600].map(duration),
            ["59 s", "1 min 0 s", "59 min 59 s", "1 h 0 min"]
        );
    }
}
