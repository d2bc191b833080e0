//! The pictures by week: the drivers on all shelves together with the lamps that are short, and the drivers on each shelf.

use super::figure;
use super::steps::{bars, before_span, highest, hours, last, step, up_to, whole};
use crate::figures::{Accounts, Figures, Period, WEEK};
use crate::picture::{Axis, Look, Picture, Plot, Point, Series, Shape, Stretch};
use crate::report::grouped;
use std::cmp::Reverse;
use std::iter;

/// The most steps of a picture.
pub const MOST_STEPS: u32 = 520;

/// The most plots of the picture of each shelf.
const MOST_SHELVES: usize = 12;

const EACH_SHELF: &str = "Each shelf at the end of each week";

/// How many weeks are taken together, so that a picture has not too many steps.
#[derive(Clone, Copy, Debug)]
struct Spans {
    /// So many weeks are a span.
    together: u32,
    /// The last week in which anything happens. The last span ends with it.
    last: u32,
}

impl Spans {
    fn up_to(last_hour: u32) -> Spans {
        let last = last_hour.saturating_sub(1) / WEEK + 1;
        Spans { together: last.div_ceil(MOST_STEPS), last }
    }

    fn length(self) -> u64 {
        hours(self.together, WEEK)
    }

    /// The hour with which the span begins that a week lies in.
    fn begin(self, week: u32) -> u64 {
        hours(before_span(week, self.together), WEEK)
    }

    fn end(self) -> u64 {
        hours(self.last, WEEK)
    }

    /// What a step is, and, where it is more than one week, what it shows of them.
    fn step(self, shows: &str) -> String {
        match self.together {
            1 => "A step is a week.".into(),
            weeks => format!("A step is {} weeks taken together: {shows}.", grouped(weeks)),
        }
    }
}

/// A shelf through the weeks, or all shelves together.
struct Shelf {
    opening: u64,
    /// The drivers on it at the end of each span, as steps that begin with the spans.
    steps: Vec<Point>,
    /// Whether there is a driver on it at the beginning or at the end of a week.
    stocked: bool,
    handed_out: u64,
}

impl Shelf {
    fn new(opening: u64) -> Shelf {
        Shelf { opening, steps: vec![(0, opening)], stocked: opening > 0, handed_out: 0 }
    }

    /// Adds a week of the span that begins with this hour.
    fn add(&mut self, begin: u64, figures: &Figures) {
        step(&mut self.steps, begin, whole(figures.on_shelves));
        self.stocked |= figures.on_shelves > 0;
        self.handed_out += whole(figures.handed_out);
    }

    /// The opening stock, and from the end of each span on what is there at that end.
    fn line(&self, spans: Spans) -> Vec<Point> {
        let at_end = |&(begin, drivers): &Point| {
            let end = begin + spans.length();
            (end.min(spans.end()), drivers)
        };
        let line = iter::once((0, self.opening)).chain(self.steps.iter().map(at_end));
        up_to(line.collect(), spans.end())
    }

    /// The spans at whose end it is empty.
    fn empty(&self, spans: Spans) -> Vec<Stretch> {
        let bars = bars(&up_to(self.steps.clone(), spans.end()));
        bars.into_iter().filter(|bar| bar.2 == 0).map(|(from, to, _)| (from, to)).collect()
    }
}

/// The lamps that are short, through the weeks.
struct Shortage {
    /// The most that are short at the end of a week of each span, as steps that begin with the spans.
    steps: Vec<Point>,
    /// The hour with which the span of the last week begins that was added.
    begin: u64,
    /// How many were short at its end. In a week without figures they still are.
    held: u64,
}

impl Shortage {
    fn new() -> Shortage {
        Shortage { steps: vec![(0, 0)], begin: 0, held: 0 }
    }

    fn add(&mut self, spans: Spans, week: u32, figures: &Figures) {
        let begin = spans.begin(week);
        if begin != self.begin {
            step(&mut self.steps, self.begin + spans.length(), self.held);
            let first = if begin == hours(week - 1, WEEK) { 0 } else { self.held };
            step(&mut self.steps, begin, first);
            self.begin = begin;
        }
        self.held = whole(figures.short);
        let most = last(&self.steps).max(self.held);
        step(&mut self.steps, begin, most);
    }
}

/// What the pictures by week show. It keeps the steps and not the weeks, of which there may be many.
pub struct Weeks {
    spans: Spans,
    all: Shelf,
    shortage: Shortage,
    /// By gateway.
    shelves: Vec<Shelf>,
}

impl Weeks {
    /// The weeks of a forecast.
    pub fn of(accounts: &Accounts) -> Weeks {
        let mut weeks = Weeks::new(Spans::up_to(accounts.last_hour()), accounts.opening());
        accounts.weeks().for_each(|week| weeks.add(&week));
        weeks
    }

    fn new(spans: Spans, opening: &[u16]) -> Weeks {
        Weeks {
            spans,
            all: Shelf::new(opening.iter().map(|&stock| u64::from(stock)).sum()),
            shortage: Shortage::new(),
            shelves: opening.iter().map(|&stock| Shelf::new(stock.into())).collect(),
        }
    }

    /// Adds a week, which comes behind those that were added.
    fn add(&mut self, week: &Period) {
        let begin = self.spans.begin(week.number);
        self.all.add(begin, &week.all);
        self.shortage.add(self.spans, week.number, &week.all);
        for (shelf, figures) in self.shelves.iter_mut().zip(&week.gateways) {
            shelf.add(begin, figures);
        }
    }

    pub fn shelf_picture(&self) -> Picture {
        let line = self.all.line(self.spans);
        let short = up_to(self.shortage.steps.clone(), self.spans.end());
        let (most_on_shelves, most_short) = (highest(&line), highest(&short));
        let [begin, most, last, lamps] =
            [self.all.opening, most_on_shelves, last(&self.all.steps), most_short].map(grouped);
        let shelves = Series::new(Look::Line, "drivers on all shelves together", Shape::Line(line));
        let shortages = Series::new(
            Look::Marked,
            "shortage: lamps whose Request last met an empty shelf",
            Shape::Bars(bars(&short)),
        );
        let plots = [
            (Axis::of_numbers("drivers", most_on_shelves, 5), 220.0, shelves),
            (Axis::of_numbers("lamps short", most_short, 3), 90.0, shortages),
        ];
        Picture {
            name: "shelves",
            title: "Drivers on the shelves at the end of each week",
            description: format!(
                "Drivers on all shelves together: {begin} at the beginning, {most} at most, {last} at the end. \
                 Lamps short at the end of a week: at most {lamps}."
            ),
            right: Axis::of_time(self.spans.end(), WEEK),
            plots: plots
                .map(|(up, height, series)| Plot { up, height, series: vec![series] })
                .into(),
        }
    }

    pub fn shelf_caption(&self) -> String {
        let step = self.spans.step(
            "the shelves at the end of the last, and the most lamps that are short at the end of one",
        );
        let none = match highest(&self.shortage.steps) {
            0 => " No lamp is short at the end of any week.",
            _ => "",
        };
        format!(
            "All gateways together, up to the last week in which anything happens. {step} \
             The line changes where a step ends; a bar stands over its whole step.{none}"
        )
    }

    /// The figure of each shelf, under its title.
    pub fn each_shelf(&self) -> String {
        let shown = self.shown();
        let content = if shown.is_empty() {
            "<p>No gateway has a driver on its shelf at the beginning or at the end of any week.</p>\n".into()
        } else {
            figure(&self.each_picture(&shown), &self.each_caption(&shown))
        };
        format!("<h3>{EACH_SHELF}</h3>\n{content}")
    }

    /// The shelves that have a plot, and the numbers of their gateways.
    fn shown(&self) -> Vec<(usize, &Shelf)> {
        let shelves = self.shelves.iter().enumerate();
        let mut shown: Vec<_> = shelves.filter(|(_, shelf)| shelf.stocked).collect();
        shown.sort_by_key(|(_, shelf)| Reverse(shelf.handed_out));
        shown.truncate(MOST_SHELVES);
        shown.sort_by_key(|&(own, _)| own);
        shown
    }

    fn each_picture(&self, shown: &[(usize, &Shelf)]) -> Picture {
        let described: String =
            shown.iter().map(|(own, shelf)| self.described(*own, shelf)).collect();
        Picture {
            name: "each-shelf",
            title: EACH_SHELF,
            description: format!("Drivers on each shelf.{described}"),
            right: Axis::of_time(self.spans.end(), WEEK),
            plots: shown.iter().map(|(own, shelf)| self.plot(*own, shelf)).collect(),
        }
    }

    fn described(&self, own: usize, shelf: &Shelf) -> String {
        let empty: u64 = shelf.empty(self.spans).iter().map(|(from, to)| to - from).sum();
        let [begin, last, empty, weeks] =
            [shelf.opening, last(&shelf.steps), empty / u64::from(WEEK), self.spans.last.into()]
                .map(grouped);
        format!(
            " Gateway {own}: {begin} at the beginning, {last} at the end; weeks marked as empty: {empty} of {weeks}."
        )
    }

    fn plot(&self, own: usize, shelf: &Shelf) -> Plot {
        let line = shelf.line(self.spans);
        let title = format!("gateway {own}: drivers");
        let up = Axis::of_numbers(title, highest(&line), 5).with_few_ticks();
        let empty = Shape::Base(shelf.empty(self.spans));
        let series = vec![
            Series::new(Look::Line, "drivers on that shelf", Shape::Line(line)),
            Series::new(
                Look::Marked,
                "weeks at whose end that shelf is empty (thick base line)",
                empty,
            ),
        ];
        Plot { up, height: 40.0, series }
    }

    fn each_caption(&self, shown: &[(usize, &Shelf)]) -> String {
        let step = self.spans.step("the shelf at the end of the last");
        let stocked = self.shelves.iter().filter(|shelf| shelf.stocked).count();
        let more = more_shelves(stocked, shown.len());
        let without = without_shelf(self.shelves.len() - stocked);
        let none = match shown.iter().all(|(_, shelf)| shelf.empty(self.spans).is_empty()) {
            true => " None of these shelves is empty at the end of a step.",
            false => "",
        };
        format!(
            "Each plot has a scale of its own. {step} The line changes where a step ends; a thick base line lies under its whole \
             step.{more}{without}{none}"
        )
    }
}

/// A sentence where a picture does not show all shelves.
fn more_shelves(count: usize, shown: usize) -> String {
    if count <= shown {
        return String::new();
    }
    format!(
        " Of {count} shelves these are the {shown} from which most drivers were handed out in the whole forecast; months.csv has all."
    )
}

/// A sentence where so many gateways have no shelf to show.
fn without_shelf(count: usize) -> String {
    match count {
        0 => String::new(),
        1 => " 1 gateway has no driver on its shelf at the beginning or at the end of any week, and no plot.".into(),
        _ => format!(
            " {count} gateways have no driver on their shelves at the beginning or at the end of any week, and no plots."
        ),
    }
}

#[cfg(test)]
mod tests {
    use super::*;

    #[test]
    fn shelves_that_hand_out_most_are_shown_in_order_of_gateways() {
        let mut weeks = Weeks::new(Spans { together: 1, last: 1 }, &[1; 15]);
        weeks.shelves[4].stocked = false;
        weeks.shelves[14].handed_out = 9;
        weeks.shelves[13].handed_out = 2;
        let shown: Vec<usize> = weeks.shown().iter().map(|&(own, _)| own).collect();
        assert_eq!(shown, [0, 1, 2, 3, 5, 6, 7, 8, 9, 10, 13, 14]);
        let caption = weeks.each_caption(&weeks.shown());
        assert!(caption.contains("Of 14 shelves these are the 12 from which"));
        assert!(caption.contains(" 1 gateway has no ") && caption.contains("None of these"));
    }

    /// The shelf and the shortage of weeks: their numbers, and what is on the shelf and short at their ends.
    fn told_weeks(spans: Spans, opening: u64, weeks: &[(u32, i64, i64)]) -> (Shelf, Vec<Point>) {
        let (mut shelf, mut shortage) = (Shelf::new(opening), Shortage::new());
        for &(number, on_shelves, short) in weeks {
            let figures = Figures { on_shelves, short, ..Figures::default() };
            shelf.add(spans.begin(number), &figures);
            shortage.add(spans, number, &figures);
        }
        (shelf, shortage.steps)
    }

    #[test]
    fn the_line_has_what_is_there_from_a_weeks_end_on() {
        let spans = Spans { together: 1, last: 3 };
        let (shelf, _) = told_weeks(spans, 8, &[(1, 5, 0), (2, 5, 0), (3, 9, 0)]);
        assert_eq!(shelf.line(spans)[..3], [(0, 8), (168, 5), (504, 9)]);
        assert_eq!(shelf.line(spans).last(), Some(&(504, 9)));
        let (shelf, _) = told_weeks(spans, 8, &[(3, 8, 0)]);
        assert_eq!(shelf.line(spans).last(), Some(&(504, 8)));
        assert_eq!(Shelf::new(8).line(spans), [(0, 8), (168, 8), (504, 8)]);
    }

    #[test]
    fn weeks_without_figures_have_the_last_ones() {
        let spans = Spans { together: 1, last: 7 };
        let (shelf, short) = told_weeks(spans, 8, &[(2, 5, 1), (3, 0, 2), (7, 9, 0)]);
        assert_eq!(shelf.line(spans)[..4], [(0, 8), (168, 8), (336, 5), (504, 0)]);
        assert_eq!(shelf.line(spans)[4..], [(1_176, 9), (1_176, 9)]);
        assert_eq!(shelf.empty(spans), [(336, 1_008)]);
        let bars = bars(&up_to(short, spans.end()));
        assert_eq!(bars, [(0, 168, 0), (168, 336, 1), (336, 1_008, 2), (1_008, 1_176, 0)]);
    }

    #[test]
    fn a_shelf_can_be_empty_from_the_beginning() {
        let spans = Spans { together: 1, last: 6 };
        let (shelf, _) = told_weeks(spans, 0, &[(2, 0, 0), (4, 3, 0), (5, 0, 0), (6, 0, 0)]);
        assert_eq!(shelf.empty(spans), [(0, 504), (672, 1_008)]);
        assert!(shelf.stocked && !told_weeks(spans, 0, &[(2, 0, 1)]).0.stocked);
    }

    #[test]
    fn weeks_together_have_the_last_shelves_and_the_most_short() {
        let spans = Spans { together: 5, last: 13 };
        let weeks = [(1, 0, 7), (2, 4, 3), (12, 6, 0), (13, 0, 1)];
        let (shelf, short) = told_weeks(spans, 8, &weeks);
        assert_eq!(shelf.line(spans)[..3], [(0, 8), (840, 4), (2_184, 0)]);
        assert_eq!(shelf.empty(spans), [(1_680, 2_184)]);
        assert_eq!(short, [(0, 7), (840, 3)]);
        let (_, short) = told_weeks(spans, 0, &[(3, 0, 2), (6, 0, 0)]);
        assert_eq!(short, [(0, 2), (840, 0)]);
    }

    #[test]
    fn spans_are_as_many_as_there_may_be_steps() {
        let spans = |last_hour| {
            let Spans { together, last } = Spans::up_to(last_hour);
            (together, last)
        };
        let most = MOST_STEPS * WEEK;
        assert_eq!([0, 1, 168, 169].map(spans), [(1, 1), (1, 1), (1, 1), (1, 2)]);
        assert_eq!([most, most + 1].map(spans), [(1, 520), (2, 521)]);
    }
}
