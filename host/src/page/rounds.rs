//! The picture of the rounds: the agreed time, which is virtual time, against the work done and undone, which stands for real time.

use super::steps::highest;
use crate::carrier::Progress;
use crate::picture::{Axis, Look, Picture, Plot, Point, Series, Shape};
use crate::report::grouped;
use interface::NOTHING_DUE;
use std::iter;

/// The picture of a trace and what it ends with; `end` is the hour of the last event, at which nothing is due any more.
pub fn picture_of(trace: &[Progress], progress: &Progress, end: u32, totals: &str) -> Picture {
    let points: Vec<&Progress> = trace.iter().chain(iter::once(progress)).collect();
    let hour = |progress: &Progress| match progress.agreed {
        NOTHING_DUE => end.into(),
        agreed => agreed.into(),
    };
    let kept = points.iter().map(|point| (point.committed, hour(point))).collect();
    let all = points.iter().map(|point| (point.worked, hour(point))).collect();
    round_picture(kept, all, totals)
}

/// `kept` and `all` have the agreed time against the events that were committed and against those that were worked off.
fn round_picture(kept: Vec<Point>, all: Vec<Point>, totals: &str) -> Picture {
    let worked = all.iter().chain(&kept).map(|&(events, _)| events).max().unwrap_or(0);
    let end = highest(&all);
    let series = vec![
        Series::new(
            Look::Between,
            "work that was undone, or was not committed yet",
            Shape::Between(kept.clone(), all.clone()),
        ),
        Series::new(Look::Line, "against events that were kept (committed)", Shape::Line(kept)),
        Series::new(
            Look::Dashed,
            "against all events worked off, undone ones included",
            Shape::Line(all),
        ),
    ];
    let up = Axis::of_numbers("agreed time in hours (virtual time)", end, 5);
    Picture {
        name: "rounds",
        title: "Agreed time against work",
        description: format!(
            "The agreed time rises from hour 0 to hour {}. {totals}",
            grouped(end)
        ),
        right: Axis::of_numbers("events worked off, which stand for real time", worked, 5),
        plots: vec![Plot { up, height: 280.0, series }],
    }
}
