//! Pictures as SVG text: plots one above the other over one common axis, with ticks, units and a legend.
//!
//! A picture has its own colours, for light and for dark, so that it can be cut out of its page and stand as a file of its own. It says
//! nothing by colour alone: lines differ in their dashes and bars in their filling.

use crate::figures::{MONTH, WEEK, YEAR};
use crate::report::grouped;

/// Lengths in a picture's own units: its width, the room of a row of text and of a character, and what lies between a plot and what
/// stands beside it. There is room for the larger text of narrow windows.
const WIDTH: f64 = 720.0;
const ROW: f64 = 28.0;
const CHARACTER: f64 = 11.0;
const GAP: f64 = 12.0;

/// The width and height of what shows a series in the legend.
const SAMPLE: (f64, f64) = (32.0, 12.0);

/// A thick base line lies so far under its axis, and is so thick.
const BASE: (f64, f64) = (1.5, 5.0);

const STYLE: &str = "\
.picture{--paper:#fff;--ink:#1b1f24;--faint:#d8dce1;--first:#0068a8;--second:#b84500;--between:#f2d5bf;\
font:14px system-ui,sans-serif}
@media screen and (prefers-color-scheme:dark){.picture{--paper:#14171b;--ink:#e8eaed;--faint:#3b4149;\
--first:#5ab8f0;--second:#f5a04a;--between:#553a22}}
@media (max-width:520px){.picture{font-size:20px}}
.picture text{fill:var(--ink)}
.picture .beside{text-anchor:start}
.picture .before{text-anchor:end}
.picture .below{text-anchor:middle}
.picture .paper{fill:var(--paper)}
.picture .axis{fill:none;stroke:var(--ink)}
.picture .grid{fill:none;stroke:var(--faint)}
.picture .line{fill:none;stroke:var(--first);stroke-width:1.6}
.picture .dashed{fill:none;stroke:var(--second);stroke-width:1.6;stroke-dasharray:7 3}
.picture .filled{fill:var(--first)}
.picture .outlined{fill:var(--paper);stroke:var(--second)}
.picture .marked{fill:var(--second);stroke:var(--second);stroke-width:1.5}
.picture .between{fill:var(--between)}
";

/// Where something lies on the axis to the right, and on the axis upwards.
pub type Point = (u64, u64);

/// A bar: from where to where it stands, and its height.
pub type Bar = (u64, u64, u64);

/// A part of the axis to the right: from where to where it lies.
pub type Stretch = (u64, u64);

/// What is drawn of a series. A line through points keeps the height of each up to where the next one lies.
pub enum Shape {
    Line(Vec<Point>),
    /// All between two such lines.
    Between(Vec<Point>, Vec<Point>),
    /// Those of height 0 are left out.
    Bars(Vec<Bar>),
    /// A thick base line along these stretches.
    Base(Vec<Stretch>),
}

/// How a series looks, by the style's class of that name.
#[derive(Clone, Copy, Debug)]
pub enum Look {
    Line,
    Dashed,
    Filled,
    Outlined,
    Marked,
    Between,
}

impl Look {
    fn class(self) -> &'static str {
        match self {
            Look::Line => "line",
            Look::Dashed => "dashed",
            Look::Filled => "filled",
            Look::Outlined => "outlined",
            Look::Marked => "marked",
            Look::Between => "between",
        }
    }
}

/// Something drawn, and what the legend says that it means.
pub struct Series {
    look: Look,
    meaning: &'static str,
    shape: Shape,
}

/// A place on an axis, and its label.
type Tick = (u64, String);

/// An axis that begins with 0.
#[derive(Debug, PartialEq, Eq)]
pub struct Axis {
    title: String,
    /// More than 0.
    end: u64,
    ticks: Vec<Tick>,
}

/// Series over the common axis, with an axis upwards of their own.
pub struct Plot {
    pub up: Axis,
    pub height: f64,
    pub series: Vec<Series>,
}

pub struct Picture {
    /// Begins the names of its parts, which are unique in a page.
    pub name: &'static str,
    pub title: &'static str,
    /// What can be seen, for those who cannot see it.
    pub description: String,
    pub right: Axis,
    pub plots: Vec<Plot>,
}

/// The least of 1, 2, 5, 10, 20, 50 and so on that divides a length into at most so many parts.
fn round_step(length: u64, parts: u64) -> u64 {
    let least = length.div_ceil(parts.max(1)).max(1);
    let power = 10_u64.pow(least.ilog10());
    let steps = [1, 2, 5, 10].map(|digit| power.saturating_mul(digit));
    steps.into_iter().find(|&step| step >= least).unwrap_or(least)
}

impl Axis {
    /// Numbers up to the first tick that is not below `most`, in at most so many parts.
    pub fn of_numbers(title: impl Into<String>, most: u64, parts: u64) -> Axis {
        let step = round_step(most, parts);
        let count = most.div_ceil(step).max(1);
        let ticks = (0..=count).map(|tick| (tick * step, grouped(tick * step))).collect();
        Axis { title: title.into(), end: count * step, ticks }
    }

    /// The axis with its first and its last tick alone.
    pub fn with_few_ticks(mut self) -> Axis {
        let last = self.ticks.pop();
        self.ticks.truncate(1);
        self.ticks.extend(last);
        self
    }

    /// Hours up to `end`, with ticks at the ends of years; where there are fewer than two, of months, and then of weeks if those are not
    /// shorter than the shortest period that is asked for.
    pub fn of_time(end: u64, shortest: u32) -> Axis {
        let periods = [("year", YEAR), ("month", MONTH), ("week", WEEK)];
        let fits = |&&(_, hours): &&(&str, u32)| end >= 2 * u64::from(hours) || hours <= shortest;
        let &(name, hours) = periods.iter().find(fits).unwrap_or(&periods[2]);
        let title = format!("time in {name}s of {} hours, each named at its end", grouped(hours));
        let hours = u64::from(hours);
        let label = |number: u64| format!("{name} {}", grouped(number));
        let count = end / hours;
        let room = (WIDTH - 120.0) / (width(&label(count)) + 2.0 * GAP);
        let step = round_step(count, room as u64);
        let ticks = (1..=count / step).map(|tick| (tick * step * hours, label(tick * step)));
        Axis { title, end: end.max(1), ticks: ticks.collect() }
    }

    /// The labels and the title of the common axis, under the last plot.
    fn below(&self, field: &Field) -> String {
        let [first, second] = [0.6, 1.6].map(|rows| field.bottom + rows * ROW);
        let label = |(value, label): &Tick| text("below", field.x(*value), first, label);
        let labels: String = self.ticks.iter().map(label).collect();
        labels + &text("below", (field.left + field.right) / 2.0, second, &self.title)
    }

    /// The room that the longest label takes.
    fn room(&self) -> f64 {
        self.ticks.iter().map(|(_, label)| width(label)).fold(0.0, f64::max)
    }
}

/// The room of a text.
fn width(text: &str) -> f64 {
    CHARACTER * text.chars().count() as f64
}

impl Picture {
    pub fn svg(&self) -> String {
        let Picture { name, title, description, right, plots } = self;
        let rows = (0..).map(|row: u32| ROW * f64::from(row));
        let explained = self.explained().into_iter().zip(rows);
        let mut body: String = explained.map(|(series, top)| series.legend(top)).collect();
        let mut field = self.field();
        for plot in plots {
            field = field.next(plot);
            body += &plot.svg(&field, right);
        }
        body += &right.below(&field);
        let height = number(field.bottom + 2.0 * ROW + GAP);
        format!(
            "<svg xmlns=\"http://www.w3.org/2000/svg\" class=\"picture\" role=\"img\" aria-labelledby=\"{name}-title {name}-description\" \
             viewBox=\"0 0 {WIDTH} {height}\">\n\
             <title id=\"{name}-title\">{}</title>\n<desc id=\"{name}-description\">{}</desc>\n<style>{STYLE}</style>\n\
             <rect class=\"paper\" width=\"{WIDTH}\" height=\"{height}\"/>\n{body}</svg>\n",
            escaped(title),
            escaped(description),
        )
    }

    /// The series that the legend has: of those with one meaning the first.
    fn explained(&self) -> Vec<&Series> {
        let mut explained: Vec<&Series> = Vec::new();
        for series in self.plots.iter().flat_map(|plot| &plot.series) {
            if explained.iter().all(|other| other.meaning != series.meaning) {
                explained.push(series);
            }
        }
        explained
    }

    /// An empty field under the legend, with room for the labels at its sides.
    fn field(&self) -> Field {
        let top = ROW * self.explained().len() as f64;
        let before = self.plots.iter().map(|plot| plot.up.room()).fold(0.0, f64::max);
        Field {
            left: before + 1.5 * GAP,
            right: WIDTH - GAP - self.right.room() / 2.0,
            top,
            bottom: top,
            size: (self.right.end, 1),
        }
    }
}

/// Where a plot lies in its picture, and what the lengths of its axes mean.
struct Field {
    left: f64,
    right: f64,
    top: f64,
    bottom: f64,
    size: Point,
}

impl Field {
    /// The field of a plot that lies under this one, with a row between them for its title.
    fn next(&self, plot: &Plot) -> Field {
        let top = self.bottom + ROW + GAP / 2.0;
        Field { top, bottom: top + plot.height, size: (self.size.0, plot.up.end), ..*self }
    }

    fn x(&self, value: u64) -> f64 {
        self.left + (self.right - self.left) * value as f64 / self.size.0 as f64
    }

    fn y(&self, value: u64) -> f64 {
        self.bottom - (self.bottom - self.top) * value as f64 / self.size.1 as f64
    }

    /// Points as they lie in the picture; of those that lie in one place one is left.
    fn placed(&self, points: &[Point]) -> Vec<(String, String)> {
        let place = |&(x, y): &Point| (number(self.x(x)), number(self.y(y)));
        let mut placed: Vec<_> = points.iter().map(place).collect();
        placed.dedup();
        placed
    }

    /// The path of a line.
    fn line(&self, points: &[Point]) -> String {
        let mut path = String::new();
        for (x, y) in self.placed(points) {
            path += &if path.is_empty() { format!("M{x},{y}") } else { format!("H{x}V{y}") };
        }
        path
    }

    /// The path from the last point of a line back to its first.
    fn line_back(&self, points: &[Point]) -> String {
        let mut path = String::new();
        for (x, y) in self.placed(points).iter().rev() {
            path += &if path.is_empty() { format!("L{x},{y}") } else { format!("V{y}H{x}") };
        }
        path
    }

    fn bar(&self, &(from, to, height): &Bar) -> String {
        let [left, right] = [from, to].map(|value| number(self.x(value)));
        let [base, top] = [0, height].map(|value| number(self.y(value)));
        format!("M{left},{base}V{top}H{right}V{base}Z")
    }

    /// A stretch of a thick base line.
    fn base(&self, &(from, to): &Stretch) -> String {
        let [left, right] = [from, to].map(|value| number(self.x(value)));
        let (under, thickness) = BASE;
        let [top, bottom] = [0.0, thickness].map(|lower| number(self.bottom + under + lower));
        format!("M{left},{bottom}V{top}H{right}V{bottom}Z")
    }

    fn path(&self, shape: &Shape) -> String {
        match shape {
            Shape::Line(points) => self.line(points),
            Shape::Between(first, second) => {
                format!("{}{}Z", self.line(first), self.line_back(second))
            }
            Shape::Bars(bars) => {
                bars.iter().filter(|bar| bar.2 > 0).map(|bar| self.bar(bar)).collect()
            }
            Shape::Base(stretches) => stretches.iter().map(|stretch| self.base(stretch)).collect(),
        }
    }
}

impl Series {
    pub fn new(look: Look, meaning: &'static str, shape: Shape) -> Series {
        Series { look, meaning, shape }
    }

    fn svg(&self, path: &str) -> String {
        format!("<path class=\"{}\" d=\"{path}\"/>\n", self.look.class())
    }

    /// Its row of the legend.
    fn legend(&self, top: f64) -> String {
        let middle = top + ROW / 2.0;
        let (width, height) = SAMPLE;
        let block = |height| format!("M{GAP},{}h{width}v{height}h-{width}Z", middle - height / 2.0);
        let sample = match self.shape {
            Shape::Line(_) => format!("M{GAP},{middle}h{width}"),
            Shape::Between(..) | Shape::Bars(_) => block(height),
            Shape::Base(_) => block(BASE.1),
        };
        self.svg(&sample) + &text("beside", 2.0 * GAP + width, middle, self.meaning)
    }
}

impl Plot {
    fn svg(&self, field: &Field, right: &Axis) -> String {
        let mut svg = text("beside", field.left, field.top - GAP, &self.up.title);
        svg += &self.lines(field, right);
        for series in &self.series {
            svg += &series.svg(&field.path(&series.shape));
        }
        svg + &self.labels(field)
    }

    /// The axes, and before them a faint line at each tick.
    fn lines(&self, field: &Field, right: &Axis) -> String {
        let [left, end, top, bottom] =
            [field.left, field.right, field.top, field.bottom].map(number);
        let level = |(value, _): &Tick| format!("M{left},{}H{end}", number(field.y(*value)));
        let upright = |(value, _): &Tick| format!("M{},{top}V{bottom}", number(field.x(*value)));
        let levels = self.up.ticks.iter().map(level);
        let grid: String = levels.chain(right.ticks.iter().map(upright)).collect();
        let axes = format!("M{left},{top}V{bottom}H{end}");
        format!("<path class=\"grid\" d=\"{grid}\"/>\n<path class=\"axis\" d=\"{axes}\"/>\n")
    }

    /// The labels of the axis upwards.
    fn labels(&self, field: &Field) -> String {
        let x = field.left - GAP / 2.0;
        let label = |(value, label): &Tick| text("before", x, field.y(*value), label);
        self.up.ticks.iter().map(label).collect()
    }
}

/// A text whose middle is at the height `y`.
fn text(class: &str, x: f64, y: f64, text: &str) -> String {
    let ([x, y], text) = ([x, y].map(number), escaped(text));
    format!("<text class=\"{class}\" x=\"{x}\" y=\"{y}\" dy=\".35em\">{text}</text>\n")
}

/// A length with at most one digit behind the point.
fn number(length: f64) -> String {
    format!("{}", (10.0 * length).round() / 10.0)
}

/// A text as it stands in HTML and SVG; control characters, which neither can hold, become the sign for an unknown one.
pub fn escaped(text: &str) -> String {
    let mut escaped = String::new();
    for character in text.chars() {
        match character {
            '&' => escaped += "&amp;",
            '<' => escaped += "&lt;",
            '>' => escaped += "&gt;",
            '"' => escaped += "&quot;",
            '\'' => escaped += "&#39;",
            '\n' => escaped.push('\n'),
            _ if character.is_control() => escaped.push(char::REPLACEMENT_CHARACTER),
            _ => escaped.push(character),
        }
    }
    escaped
}

#[cfg(test)]
mod tests {
    use super::*;

    fn labels(axis: &Axis) -> Vec<&str> {
        axis.ticks.iter().map(|(_, label)| &label[..]).collect()
    }

    #[test]
    fn steps_are_round() {
        let step = |length| round_step(length, 5);
        assert_eq!([0, 1, 5, 6, 11, 26, 51, 43_800].map(step), [1, 1, 1, 2, 5, 10, 20, 10_000]);
        assert_eq!(step(u64::MAX), 5_000_000_000_000_000_000);
        assert_eq!(round_step(u64::MAX, 0), u64::MAX);
    }

    #[test]
    fn numbers_end_with_a_tick() {
        let axis = Axis::of_numbers("drivers", 2_345, 5);
        assert_eq!(
            (axis.end, labels(&axis)),
            (2_500, vec!["0", "500", "1,000", "1,500", "2,000", "2,500"])
        );
        let axis = Axis::of_numbers("drivers", 0, 5);
        assert_eq!((axis.end, labels(&axis)), (1, vec!["0", "1"]));
    }

    #[test]
    fn few_ticks_are_the_first_and_the_last() {
        let few = |most| Axis::of_numbers("drivers", most, 5).with_few_ticks();
        assert_eq!((few(22).end, labels(&few(22))), (25, vec!["0", "25"]));
        assert_eq!(labels(&few(0)), ["0", "1"]);
        assert_eq!(labels(&Axis::of_time(0, WEEK).with_few_ticks()), [""; 0]);
    }

    #[test]
    fn time_is_told_in_periods_that_fit() {
        let axis = Axis::of_time(261 * 168, WEEK);
        assert_eq!(labels(&axis), ["year 1", "year 2", "year 3", "year 4", "year 5"]);
        assert_eq!(axis.ticks[4].0, 43_800);
        assert_eq!(
            labels(&Axis::of_time(3_000, WEEK)),
            ["month 1", "month 2", "month 3", "month 4"]
        );
        assert_eq!(labels(&Axis::of_time(168, WEEK)), ["week 1"]);
        assert_eq!(labels(&Axis::of_time(730, MONTH)), ["month 1"]);
        assert_eq!(labels(&Axis::of_time(0, WEEK)), [""; 0]);
        let longest = Axis::of_time(u32::MAX.into(), WEEK);
        assert_eq!(labels(&longest), ["year 200,000", "year 400,000"]);
    }

    #[test]
    fn every_look_has_a_style() {
        use Look::{Between, Dashed, Filled, Line, Marked, Outlined};
        for look in [Line, Dashed, Filled, Outlined, Marked, Between] {
            assert!(STYLE.contains(&format!(".picture .{}{{", look.class())), "{look:?}");
        }
    }

    #[test]
    fn shapes_lie_in_their_field() {
        let field = Field { left: 100.0, right: 700.0, top: 50.0, bottom: 250.0, size: (6, 4) };
        let points = vec![(0, 0), (2, 1), (2, 1), (6, 4)];
        assert_eq!(field.path(&Shape::Line(points.clone())), "M100,250H300V200H700V50");
        let second = vec![(0, 0), (4, 4)];
        let between = field.path(&Shape::Between(points, second));
        assert_eq!(between, "M100,250H300V200H700V50L500,50V250H100Z");
        let bars = Shape::Bars(vec![(0, 1, 3), (1, 2, 0), (2, 3, 4)]);
        assert_eq!(field.path(&bars), "M100,250V100H200V250ZM300,250V50H400V250Z");
        let base = field.path(&Shape::Base(vec![(0, 1), (5, 6)]));
        assert_eq!(base, "M100,256.5V251.5H200V256.5ZM600,256.5V251.5H700V256.5Z");
        assert_eq!(field.path(&Shape::Line(vec![])), "");
    }

    #[test]
    fn the_legend_has_each_meaning_once() {
        let plot = |last| Plot {
            up: Axis::of_numbers("drivers", 3, 5),
            height: 40.0,
            series: vec![
                Series::new(Look::Line, "on the shelf", Shape::Line(vec![(0, 3), (9, 1)])),
                Series::new(Look::Marked, last, Shape::Base(vec![(1, 2)])),
            ],
        };
        let picture = Picture {
            name: "plots",
            title: "Plots",
            description: "Three plots.".into(),
            right: Axis::of_time(168, WEEK),
            plots: vec![plot("empty"), plot("full"), plot("empty")],
        };
        let svg = picture.svg();
        let rows = ["on the shelf", "empty", "full"].map(|row| svg.matches(row).count());
        assert_eq!(rows, [1, 1, 1]);
        assert_eq!(picture.field().top, 3.0 * ROW);
        assert_eq!(svg.matches("<path class=\"line\"").count(), 1 + 3);
        assert_eq!(svg.matches("<path class=\"marked\"").count(), 2 + 3);
    }

    #[test]
    fn lengths_are_short() {
        assert_eq!([0.0, 1.04, 12.35, 700.0].map(number), ["0", "1", "12.4", "700"]);
    }

    #[test]
    fn text_from_outside_is_escaped() {
        assert_eq!(
            escaped("<a href=\"'\">&\n\u{1b}"),
            "&lt;a href=&quot;&#39;&quot;&gt;&amp;\n\u{fffd}"
        );
    }
}
