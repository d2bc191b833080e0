//! The files that are made of the figures, and the summary that the program forecast prints.

use crate::balance::{Line, Year};
use crate::figures::{Figures, Period};
use crate::lamps::{At, Failure, Lamps, Stage};
use crate::places::Places;
use crate::record::lamp_text;
use std::io::{self, Write};

/// The most years that the summary shows.
const SHOWN_YEARS: usize = 20;

/// A line for each gateway of a period, and one for all together.
pub fn write_periods(
    out: &mut impl Write,
    period: &str,
    periods: impl Iterator<Item = Period>,
) -> io::Result<()> {
    writeln!(out, "{period},gateway,failed,drawn,fitted,restocked,handed_out,on_shelves,on_the_way,short,drivers_to_order")?;
    for period in periods {
        for (name, figures) in lines(&period.gateways, &period.all) {
            let Figures { failed, drawn, fitted, restocked, handed_out, .. } = figures;
            let Figures { on_shelves, on_the_way, short, .. } = figures;
            let number = period.number;
            write!(out, "{number},{name},{failed},{drawn},{fitted},{restocked},{handed_out},")?;
            writeln!(out, "{on_shelves},{on_the_way},{short},{}", figures.to_order())?;
        }
    }
    Ok(())
}

/// The drivers to order, a line for each gateway and year and one for all together.
pub fn write_orders(out: &mut impl Write, years: impl Iterator<Item = Period>) -> io::Result<()> {
    writeln!(out, "year,gateway,drivers_to_order")?;
    for year in years {
        for (name, figures) in lines(&year.gateways, &year.all) {
            writeln!(out, "{},{name},{}", year.number, figures.to_order())?;
        }
    }
    Ok(())
}

/// The stock book, a line for each gateway and year and one for all together, and whether its numbers balance.
pub fn write_balance(out: &mut impl Write, years: &[Year]) -> io::Result<()> {
    writeln!(out, "year,gateway,opening_stock,received,served,stock,balances")?;
    for year in years {
        for (name, line) in lines(&year.gateways, &year.all) {
            let Line { opening_stock, received, served, stock } = line;
            let balances = if line.balances() { "yes" } else { "no" };
            write!(out, "{},{name},{opening_stock},{received},", year.number)?;
            writeln!(out, "{served},{stock},{balances}")?;
        }
    }
    Ok(())
}

/// The lines of a period: what each gateway has under its number, then what all have.
fn lines<'a, T>(gateways: &'a [T], all: &'a T) -> impl Iterator<Item = (String, &'a T)> {
    let gateways = (0..).zip(gateways).map(|(number, line): (u32, _)| (number.to_string(), line));
    gateways.chain(std::iter::once((String::from("all"), all)))
}

/// A line for each failure of each lamp, in lamp order: when it failed, when and from which shelf its driver was drawn, when it was
/// fitted, and what has become of it at the end.
pub fn write_lamps(out: &mut impl Write, lamps: &Lamps) -> io::Result<()> {
    writeln!(out, "lamp,gateway,failed,drawn,shelf,fitted,at_the_end")?;
    for (pole, failures) in lamps.iter() {
        let lamp = csv_text(&lamp_text(&pole.lamp));
        for failure in failures {
            let Failure { failed, drawn, fitted, .. } = failure;
            let hour = |at: &Option<At>| number(at.map(|at| at.hour));
            let (failed, drawn_at, fitted) = (failed.hour, hour(drawn), hour(fitted));
            let shelf = number(drawn.map(|at| at.gateway.into()));
            let end = at_the_end(failure.stage());
            writeln!(out, "{lamp},{},{failed},{drawn_at},{shelf},{fitted},{end}", pole.gateway)?;
        }
    }
    Ok(())
}

/// A number, or nothing.
fn number(value: Option<u32>) -> String {
    value.map_or(String::new(), |value| value.to_string())
}

fn at_the_end(stage: Stage) -> &'static str {
    match stage {
        Stage::Asked | Stage::Drawn => "on the way",
        Stage::Short => "short",
        Stage::Fitted => "fitted",
    }
}

/// A text as a field of a CSV file: in quotation marks where it has a comma or such a mark in it.
pub fn csv_text(text: &str) -> String {
    if text.contains([',', '"']) {
        return format!("\"{}\"", text.replace('"', "\"\""));
    }
    text.into()
}

/// A line for each gateway: its places, and the most of them that were in use.
pub fn write_places(out: &mut impl Write, places: &[Places]) -> io::Result<()> {
    writeln!(out, "gateway,queue,queue_used,outstanding,outstanding_used")?;
    for (gateway, places) in places.iter().enumerate() {
        let Places { queue, queue_used, outstanding, outstanding_used } = places;
        writeln!(out, "{gateway},{queue},{queue_used},{outstanding},{outstanding_used}")?;
    }
    Ok(())
}

/// The order table: a line for each year, all gateways together.
pub fn order_table(mut years: impl Iterator<Item = Period>) -> String {
    let mut rows = vec![ORDER_COLUMNS.map(String::from)];
    rows.extend(years.by_ref().take(SHOWN_YEARS).map(|year| order_row(&year)));
    match (rows.len(), years.count()) {
        (1, _) => "nothing happens\n".into(),
        (_, 0) => aligned(&rows),
        (_, more) => {
            format!("{}and {} more in years.csv\n", aligned(&rows), counted(more as u64, "year"))
        }
    }
}

/// The columns of the order table.
pub const ORDER_COLUMNS: [&str; 9] = [
    "year",
    "failed",
    "drawn",
    "fitted",
    "restocked",
    "on shelves",
    "on the way",
    "short",
    "drivers to order",
];

/// The order table's row of a year.
pub fn order_row(year: &Period) -> [String; 9] {
    let Figures { failed, drawn, fitted, restocked, on_shelves, on_the_way, short, .. } = year.all;
    let order = year.all.to_order();
    [year.number.into(), failed, drawn, fitted, restocked, on_shelves, on_the_way, short, order]
        .map(grouped)
}

/// Rows with their columns aligned to the right.
fn aligned(rows: &[[String; 9]]) -> String {
    let mut text = String::new();
    for row in rows {
        let cells = row.iter().enumerate().map(|(column, cell)| {
            let width = rows.iter().map(|row| row[column].len()).max().unwrap_or(0);
            format!("{cell:>width$}")
        });
        text += &cells.collect::<Vec<_>>().join("  ");
        text.push('\n');
    }
    text
}

/// So many of something.
pub fn counted(number: u64, name: &str) -> String {
    format!("{} {name}{}", grouped(number), if number == 1 { "" } else { "s" })
}

/// A number with a comma before each group of three digits.
pub fn grouped(number: impl Into<i128>) -> String {
    let number: i128 = number.into();
    let digits = number.unsigned_abs().to_string();
    let mut text = String::from(if number < 0 { "-" } else { "" });
    for (place, digit) in digits.chars().enumerate() {
        if place > 0 && (digits.len() - place).is_multiple_of(3) {
            text.push(',');
        }
        text.push(digit);
    }
    text
}

#[cfg(test)]
mod tests {
    use super::*;

    #[test]
    fn numbers_are_grouped() {
        let texts = [0, 7, -999, 1_000, -12_345, 1_234_567].map(|number: i64| grouped(number));
        assert_eq!(texts, ["0", "7", "-999", "1,000", "-12,345", "1,234,567"]);
    }

    #[test]
    fn one_is_singular() {
        assert_eq!(
            [0, 1, 1_000].map(|number| counted(number, "event")),
            ["0 events", "1 event", "1,000 events"]
        );
    }

    #[test]
    fn a_lamp_with_a_comma_stays_one_field() {
        assert_eq!(csv_text("L-1"), "L-1");
        assert_eq!(csv_text("a,b\"c"), "\"a,b\"\"c\"");
    }
}
