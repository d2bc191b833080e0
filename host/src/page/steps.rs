//! Steps: heights that hold from an hour on, and periods taken together so that there are not too many.

use crate::picture::{Bar, Point};

/// The hours of so many periods.
pub fn hours(periods: u32, length: u32) -> u64 {
    u64::from(periods) * u64::from(length)
}

/// The last of the periods before the span, of so many periods, that a period lies in.
pub fn before_span(number: u32, together: u32) -> u32 {
    (number - 1) / together * together
}

/// A figure that is never below zero.
pub fn whole(figure: i64) -> u64 {
    u64::try_from(figure).unwrap_or(0)
}

pub fn highest(points: &[Point]) -> u64 {
    points.iter().map(|&(_, height)| height).max().unwrap_or(0)
}

/// The height of the last point.
pub fn last(points: &[Point]) -> u64 {
    points.last().map_or(0, |&(_, height)| height)
}

/// Goes to a height from an hour on.
pub fn step(points: &mut Vec<Point>, hour: u64, height: u64) {
    match points.last_mut() {
        Some(last) if last.0 == hour => last.1 = height,
        Some(last) if last.1 == height => {}
        _ => points.push((hour, height)),
    }
}

/// The points with one more at the end, as high as the last.
pub fn up_to(mut points: Vec<Point>, end: u64) -> Vec<Point> {
    points.push((end, last(&points)));
    points
}

/// A bar under each step.
pub fn bars(points: &[Point]) -> Vec<Bar> {
    points.windows(2).map(|pair| (pair[0].0, pair[1].0, pair[0].1)).collect()
}
