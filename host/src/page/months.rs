//! The picture of failures and fittings by month.

use super::steps::{before_span, hours, whole};
use crate::figures::{Accounts, Figures, MONTH};
use crate::picture::{Axis, Look, Picture, Plot, Series, Shape};
use crate::report::grouped;

/// The most pairs of bars.
const MOST_BARS: u32 = 120;

/// The picture and its caption.
pub fn picture_of(accounts: &Accounts) -> (Picture, String) {
    let months: Vec<(u32, Figures)> =
        accounts.months().map(|month| (month.number, month.all)).collect();
    let last = months.last().map_or(1, |&(number, _)| number);
    let together = last.div_ceil(MOST_BARS);
    let spans = sums(&months, together);
    let failures = grouped(spans.iter().map(|span| span.failed).sum::<u64>());
    let fittings = grouped(spans.iter().map(|span| span.fitted).sum::<u64>());
    let length = match together {
        1 => "a month".into(),
        _ => format!("{} months taken together", grouped(together)),
    };
    let caption = format!(
        "All gateways together; each pair of bars is of {length}. Failures in all: {failures}; drivers fitted: {fittings}."
    );
    let end = hours(last.div_ceil(together) * together, MONTH);
    (month_picture(&spans, hours(together, MONTH), end, &length), caption)
}

fn month_picture(spans: &[Span], length: u64, end: u64, name: &str) -> Picture {
    let most_failed = spans.iter().map(|span| span.failed).max().unwrap_or(0);
    let most_fitted = spans.iter().map(|span| span.fitted).max().unwrap_or(0);
    let width = (length * 2 / 5).min(end / 15);
    let middle = |span: &Span| span.begin + length / 2;
    let failed = spans.iter().map(|span| (middle(span) - width, middle(span), span.failed));
    let fitted = spans.iter().map(|span| (middle(span), middle(span) + width, span.fitted));
    let series = vec![
        Series::new(Look::Filled, "failures of lamps (filled)", Shape::Bars(failed.collect())),
        Series::new(Look::Outlined, "drivers fitted (outlined)", Shape::Bars(fitted.collect())),
    ];
    let up = Axis::of_numbers(format!("number in {name}"), most_failed.max(most_fitted), 5);
    let [failed, fitted] = [most_failed, most_fitted].map(grouped);
    Picture {
        name: "months",
        title: "Failures and fittings by month",
        description: format!(
            "At most {failed} lamps fail and {fitted} drivers are fitted in {name}."
        ),
        right: Axis::of_time(end, MONTH),
        plots: vec![Plot { up, height: 240.0, series }],
    }
}

/// Months taken together: the hour with which they begin, their failures and their fittings.
#[derive(Debug, PartialEq, Eq)]
struct Span {
    begin: u64,
    failed: u64,
    fitted: u64,
}

/// The spans of months in which there are figures.
fn sums(months: &[(u32, Figures)], together: u32) -> Vec<Span> {
    let mut spans: Vec<Span> = Vec::new();
    for (number, figures) in months {
        let begin = hours(before_span(*number, together), MONTH);
        let (failed, fitted) = (whole(figures.failed), whole(figures.fitted));
        match spans.last_mut() {
            Some(span) if span.begin == begin => {
                span.failed += failed;
                span.fitted += fitted;
            }
            _ => spans.push(Span { begin, failed, fitted }),
        }
    }
    spans
}

#[cfg(test)]
mod tests {
    use super::*;

    #[test]
    fn months_together_are_sums() {
        let month =
            |number, failed, fitted| (number, Figures { failed, fitted, ..Figures::default() });
        let spans = sums(&[month(1, 5, 1), month(3, 2, 4), month(7, 1, 1)], 3);
        assert_eq!(
            spans,
            [Span { begin: 0, failed: 7, fitted: 5 }, Span { begin: 4_380, failed: 1, fitted: 1 }]
        );
    }
}
