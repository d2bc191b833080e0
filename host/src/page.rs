//! The page report.html: the order table first, then pictures of all shelves and the shortages, of each shelf, of failures and fittings,
//! and of the rounds.
//!
//! It is one file without scripts and needs no other. It depends on the scenario and its committed events, and for the rounds on the
//! carrier's steps, but on no clock: every machine writes the same page.

mod months;
mod rounds;
mod steps;
mod weeks;

use crate::carrier::Progress;
use crate::figures::{Accounts, Figures, Period};
use crate::picture::{escaped, Picture};
use crate::report::{counted, grouped, order_row, ORDER_COLUMNS};
use crate::scenario::Scenario;
use std::iter;
use weeks::Weeks;

/// The most years of the order table, and of the table by gateway.
const ORDER_YEARS: usize = 100;
const GATEWAY_YEARS: usize = 20;

const STYLE: &str = "\
:root{color-scheme:light dark;--paper:#fff;--ink:#1b1f24;--faint:#d8dce1;--order:#eef4f9;--notice:#b00020}
@media screen and (prefers-color-scheme:dark){:root{--paper:#14171b;--ink:#e8eaed;--faint:#3b4149;--order:#1e2b36;--notice:#ff7a85}}
body{margin:0;background:var(--paper);color:var(--ink);font:1rem/1.5 system-ui,sans-serif}
main{max-width:54rem;margin:0 auto;padding:1rem}
h1{font-size:1.6rem;line-height:1.2;overflow-wrap:anywhere}
h2{font-size:1.25rem;margin:2.5rem 0 .5rem}
h3{font-size:1.05rem;margin:2rem 0 .5rem}
a{color:inherit}
nav a{margin-right:1rem}
.notice{border:3px solid var(--notice);border-radius:.3rem;padding:0 1rem;margin:1rem 0}
.notice h2{margin-top:.8rem;color:var(--notice)}
.notice pre{white-space:pre-wrap;overflow-wrap:anywhere}
.box{overflow-x:auto;margin:1rem 0}
table{border-collapse:collapse;font-variant-numeric:tabular-nums}
caption{text-align:left;white-space:nowrap;font-weight:600;padding-bottom:.4rem}
th,td{padding:.25rem .6rem;text-align:right;white-space:nowrap;border-bottom:1px solid var(--faint)}
thead th{border-bottom:2px solid var(--ink);vertical-align:bottom;white-space:normal}
tbody th{position:sticky;left:0;background:var(--paper);font-weight:400}
.years td:last-child,.years th:last-child,.gateways tbody tr:last-child>*{font-weight:700;background:var(--order)}
.years td:last-child,.years th:last-child{position:sticky;right:0}
.years td.none{position:static;text-align:left;font-weight:400;background:none}
figure{margin:1rem 0}
figure svg{display:block;width:100%;height:auto}
figcaption{margin-top:.5rem}
@media print{:root{color-scheme:light}nav{display:none}main{max-width:none}.box{overflow:visible}th,td{position:static!important}figure,tr{break-inside:avoid}h2,h3{break-after:avoid}}
";

/// What the page is made of.
pub struct Page<'a> {
    pub scenario: &'a Scenario,
    pub accounts: &'a Accounts,
    /// The totals at the end.
    pub progress: &'a Progress,
    /// What had happened at the beginning and after the rounds, all of them or some.
    pub trace: &'a [Progress],
    /// Why the forecast could not go on, if it could not.
    pub stopped: Option<&'a str>,
}

impl Page<'_> {
    pub fn html(&self) -> String {
        let heading = match &self.scenario.title {
            Some(title) => format!("Spares forecast: {}", escaped(title)),
            None => "Spares forecast".into(),
        };
        let gateways = counted(self.scenario.gateways.len() as u64, "gateway");
        let last_hour = grouped(self.scenario.last_hour);
        let notice = self.notice();
        let sections = [self.orders(), self.shelves(), self.months(), self.rounds()].concat();
        format!(
            "<!doctype html>\n<html lang=\"en\">\n<head>\n<meta charset=\"utf-8\">\n\
             <meta name=\"viewport\" content=\"width=device-width, initial-scale=1\">\n\
             <title>{heading}</title>\n<style>\n{STYLE}</style>\n</head>\n<body>\n<main>\n\
             <h1>{heading}</h1>\n\
             {notice}<p>{gateways}, from hour 0 to hour {last_hour}. A week has 168 hours, a month 730, a year 8,760.</p>\n\
             <nav aria-label=\"Contents\"><a href=\"#orders\">Drivers to order</a> <a href=\"#shelves\">Shelves</a> \
             <a href=\"#months\">Failures and fittings</a> <a href=\"#rounds\">Rounds</a></nav>\n\
             {sections}</main>\n</body>\n</html>\n"
        )
    }

    fn notice(&self) -> String {
        let Some(why) = self.stopped else { return String::new() };
        format!(
            "<section class=\"notice\">\n<h2>This forecast could not go on</h2>\n<pre>{}</pre>\n\
             <p>The figures are of what is committed; what comes after it is not in them.</p>\n</section>\n",
            escaped(why)
        )
    }

    fn orders(&self) -> String {
        let years: Vec<Period> = self.accounts.years().take(ORDER_YEARS).collect();
        let count = self.accounts.years().count();
        let rows = years.iter().map(|year| order_row(year).to_vec());
        let caption = "Drivers to order by year";
        let table = table("years", caption, &ORDER_COLUMNS.map(String::from), rows);
        let more = more_years(count, years.len());
        let gateways = gateway_table(&years[..years.len().min(GATEWAY_YEARS)], count);
        format!(
            "<section id=\"orders\">\n<h2>Drivers to order</h2>\n{table}{more}\
             <p>All gateways together. Drivers to order = drawn − restocked + short at the end of the year − short at the end of the year before. \
             A negative number means that more came in than was needed. Failed, drawn, fitted and restocked are counted through \
             the year; on shelves, on the way and short are as they stand at its end. A year in which nothing happens has no row.</p>\n\
             {gateways}</section>\n"
        )
    }

    fn shelves(&self) -> String {
        let weeks = Weeks::of(self.accounts);
        section(&weeks.shelf_picture(), &weeks.shelf_caption(), &weeks.each_shelf())
    }

    fn months(&self) -> String {
        let (picture, caption) = months::picture_of(self.accounts);
        section(&picture, &caption, "")
    }

    fn rounds(&self) -> String {
        let totals = self.totals();
        let end = self.accounts.last_hour();
        let picture = rounds::picture_of(self.trace, self.progress, end, &totals);
        section(&picture, &totals, "")
    }

    /// What was done in all.
    fn totals(&self) -> String {
        let Progress { worked, committed, frames, rounds, .. } = *self.progress;
        let undone = grouped(worked.saturating_sub(committed));
        let undone = match self.stopped {
            Some(_) => format!("{undone} undone again or not committed"),
            None => format!("{undone} undone again"),
        };
        let [worked, committed, frames, rounds] = [worked, committed, frames, rounds].map(grouped);
        format!(
            "Events worked off: {worked}, of them {committed} committed and {undone}. Rounds: {rounds}. Frames carried: {frames}."
        )
    }
}

/// The drivers to order, a row for each gateway and one for all together, a column for each year; `count` is how many years there
/// are.
fn gateway_table(years: &[Period], count: usize) -> String {
    let Some(first) = years.first() else { return String::new() };
    let head = iter::once("gateway".into());
    let columns: Vec<String> =
        head.chain(years.iter().map(|year| format!("year {}", grouped(year.number)))).collect();
    let row = |name: String, figures: &dyn Fn(&Period) -> Figures| -> Vec<String> {
        iter::once(name).chain(years.iter().map(|year| grouped(figures(year).to_order()))).collect()
    };
    let gateways =
        (0..first.gateways.len()).map(|own| row(own.to_string(), &|year| year.gateways[own]));
    let rows = gateways.chain(iter::once(row("all".into(), &|year| year.all)));
    let table = table("gateways", "Drivers to order by gateway and year", &columns, rows);
    let more = more_years(count, years.len());
    format!(
        "{table}{more}<p><strong>What to order is the line all.</strong> What a lamp needs is counted with its own gateway, \
         whichever shelf it comes from; what comes in is counted with the gateway whose shelf it comes to. So a gateway that is \
         restocked for others may have a negative number.</p>\n"
    )
}

/// A table in a box of its own, which scrolls where the window is narrower. The first cell of a row is its head.
fn table(
    class: &str,
    caption: &str,
    columns: &[String],
    rows: impl Iterator<Item = Vec<String>>,
) -> String {
    let head: String =
        columns.iter().map(|name| format!("<th scope=\"col\">{name}</th>")).collect();
    let mut body: String = rows.map(|row| table_row(&row)).collect();
    if body.is_empty() {
        body = format!(
            "<tr><td class=\"none\" colspan=\"{}\">no event is committed</td></tr>\n",
            columns.len()
        );
    }
    format!(
        "<div class=\"box\" role=\"region\" aria-label=\"{caption}\" tabindex=\"0\">\n<table class=\"{class}\">\n\
         <caption>{caption}</caption>\n<thead>\n<tr>{head}</tr>\n</thead>\n<tbody>\n{body}</tbody>\n</table>\n</div>\n"
    )
}

fn table_row(cells: &[String]) -> String {
    let [head, cells @ ..] = cells else { return String::new() };
    let cells: String = cells.iter().map(|cell| format!("<td>{cell}</td>")).collect();
    format!("<tr><th scope=\"row\">{head}</th>{cells}</tr>\n")
}

/// A line where a table does not show all years.
fn more_years(count: usize, shown: usize) -> String {
    if count <= shown {
        return String::new();
    }
    format!("<p>And {} more in years.csv.</p>\n", counted((count - shown) as u64, "year"))
}

/// A picture under its title, with a caption, and what else belongs to its section.
fn section(picture: &Picture, caption: &str, more: &str) -> String {
    let Picture { name, title, .. } = picture;
    let figure = figure(picture, caption);
    format!("<section id=\"{name}\">\n<h2>{title}</h2>\n{figure}{more}</section>\n")
}

fn figure(picture: &Picture, caption: &str) -> String {
    let svg = picture.svg();
    format!("<figure>\n{svg}<figcaption>{caption}</figcaption>\n</figure>\n")
}

#[cfg(test)]
mod tests {
    use super::weeks::MOST_STEPS;
    use super::*;
    use crate::figures::{WEEK, YEAR};
    use crate::record::{Event, Kind, Lamp, Record, State};
    use interface::NOTHING_DUE;

    /// A scenario whose gateways are their own suppliers, with these stocks.
    fn scenario(last_hour: u32, stocks: &[u16]) -> Scenario {
        let mut text = format!("last-hour {last_hour}\n");
        for (own, stock) in stocks.iter().enumerate() {
            text += &format!("gateway {own} supplier {own} stock {stock}\n");
        }
        Scenario::parse(&text).unwrap()
    }

    fn lamp(number: u64) -> Lamp {
        format!("L{number:017}").into_bytes().try_into().unwrap()
    }

    fn event(hour: u32, kind: Kind, own: u8, lamp: Lamp, quantity: u16) -> Event {
        Event { hour, kind, origin: own, lamp, quantity, from: own, to: own }
    }

    /// Accounts of events made by hand: a shelf is asked an hour after a failure, and a driver is fitted a day later if there was one.
    struct Told {
        accounts: Accounts,
        stock: Vec<u32>,
    }

    impl Told {
        fn new(scenario: &Scenario) -> Told {
            let stock = scenario.stocks().into_iter().map(u32::from).collect();
            Told { accounts: Accounts::new(scenario.stocks()), stock }
        }

        fn add(&mut self, event: Event) {
            let own = usize::from(event.to);
            let after = State { stock: self.stock[own], ..State::default() };
            self.accounts.add(own, &Record { event, after }).unwrap();
        }

        fn restock(&mut self, own: u8, hour: u32, quantity: u16) {
            self.stock[usize::from(own)] += u32::from(quantity);
            self.add(event(hour, Kind::Restock, own, [0; 18], quantity));
        }

        fn failure(&mut self, own: u8, hour: u32, number: u64) {
            self.add(event(hour, Kind::Failure, own, lamp(number), 0));
            self.request(own, hour + 1, number);
        }

        fn request(&mut self, own: u8, hour: u32, number: u64) {
            let stock = &mut self.stock[usize::from(own)];
            let stocked = *stock > 0;
            *stock = stock.saturating_sub(1);
            self.add(event(hour, Kind::Request, own, lamp(number), 0));
            if stocked {
                self.add(event(hour + 24, Kind::Delivery, own, lamp(number), 0));
            }
        }

        /// Empties a shelf that has one driver, and fills one that has none.
        fn turn(&mut self, own: u8, hour: u32, number: u64) {
            match self.stock[usize::from(own)] {
                0 => self.restock(own, hour, 1),
                _ => self.failure(own, hour, number),
            }
        }
    }

    const END: Progress = Progress {
        agreed: NOTHING_DUE,
        worked: 1_500,
        committed: 1_000,
        frames: 3_000,
        rounds: 2,
        taken_back: 0,
    };

    fn page(
        title: &str,
        scenario: &Scenario,
        accounts: &Accounts,
        stopped: Option<&str>,
    ) -> String {
        let scenario = &Scenario { title: Some(title.into()), ..scenario.clone() };
        let middle = Progress { agreed: 20, worked: 800, committed: 400, ..Progress::default() };
        let trace = [Progress::default(), middle, END];
        checked(Page { scenario, accounts, progress: &END, trace: &trace, stopped }.html())
    }

    /// A page, after looking at what is true of every page.
    fn checked(html: String) -> String {
        assert_balanced(&html);
        assert!(html.len() < 1_000_000, "{} bytes", html.len());
        for absent in ["<script", "NaN", "inf\"", "inf,", "--0", "@import", "url("] {
            assert!(!html.contains(absent), "{absent}");
        }
        let pictures = if html.contains("aria-labelledby=\"each-shelf-title") { 4 } else { 3 };
        let begin = "\n<svg xmlns=\"http://www.w3.org/2000/svg\"";
        for each in [begin, "<svg", "http", "</svg>\n"] {
            assert_eq!(html.matches(each).count(), pictures, "{each}");
        }
        assert_eq!(html.matches("(prefers-color-scheme:dark)").count(), 1 + pictures);
        assert!(html.find("<table").unwrap() < html.find("<svg").unwrap());
        let (_, first) = html.split_once("<svg").unwrap();
        assert!(first.split_once("</svg>").unwrap().0.contains("id=\"shelves-title\""));
        html
    }

    /// Every element is closed, in the order of its opening.
    fn assert_balanced(html: &str) {
        let mut open = Vec::new();
        for tag in html.split('<').skip(1) {
            let (tag, _) = tag.split_once('>').expect("a tag that ends");
            let name = tag.split_ascii_whitespace().next().unwrap();
            let alone = tag.ends_with('/') || ["!doctype", "meta"].contains(&name);
            match name.strip_prefix('/') {
                Some(name) => assert_eq!(open.pop(), Some(name), "{tag}"),
                None if alone => {}
                None => open.push(name),
            }
        }
        assert!(open.is_empty(), "{open:?}");
    }

    /// The path with this look.
    fn path<'a>(html: &'a str, look: &str) -> &'a str {
        let begin = format!("<path class=\"{look}\" d=\"");
        let (_, rest) = html.rsplit_once(&begin).unwrap();
        rest.split_once('"').unwrap().0
    }

    #[test]
    fn orders_come_first_and_pictures_follow() {
        let scenario = scenario(20_000, &[2, 0]);
        let mut told = Told::new(&scenario);
        told.failure(0, 10, 1);
        told.failure(1, 40, 2);
        told.restock(1, 9_000, 1_200);
        told.request(1, 9_001, 2);
        let html = page("town", &scenario, &told.accounts, None);
        assert!(html.contains("<h1>Spares forecast: town</h1>"));
        assert!(html.contains(
            "<tr><th scope=\"row\">2</th><td>0</td><td>1</td><td>1</td><td>1,200</td><td>1,200</td><td>0</td><td>0</td><td>-1,200</td></tr>"
        ));
        assert!(html.contains("<tr><th scope=\"row\">1</th><td>1</td><td>-1,200</td></tr>"));
        assert!(html.contains("<tr><th scope=\"row\">all</th><td>2</td><td>-1,200</td></tr>"));
        assert!(html.contains("<p><strong>What to order is the line all.</strong> What a lamp"));
        assert!(!html.contains("class=\"notice\"") && !html.contains("years.csv"));
        assert!(html
            .contains("Events worked off: 1,500, of them 1,000 committed and 500 undone again."));
    }

    #[test]
    fn a_stopped_forecast_says_so_first() {
        let scenario = scenario(100, &[0]);
        let told = Told::new(&scenario);
        let html = page("<a> & \"b\"", &scenario, &told.accounts, Some("no <places>\n  gateway 0"));
        assert!(html.contains("<h1>Spares forecast: &lt;a&gt; &amp; &quot;b&quot;</h1>"));
        assert!(html.contains("<pre>no &lt;places&gt;\n  gateway 0</pre>"));
        assert!(html.find("class=\"notice\"").unwrap() < html.find("<table").unwrap());
        assert!(html.contains("500 undone again or not committed"));
    }

    #[test]
    fn an_empty_forecast_has_a_page() {
        let scenario = scenario(0, &[0]);
        let told = Told::new(&scenario);
        let progress = Progress { agreed: NOTHING_DUE, rounds: 1, ..Progress::default() };
        let accounts = &told.accounts;
        let page =
            Page { scenario: &scenario, accounts, progress: &progress, trace: &[], stopped: None };
        let html = checked(page.html());
        assert!(
            html.contains("no event is committed") && html.contains("<h1>Spares forecast</h1>")
        );
        assert!(html.contains("from hour 0 to hour 0."));
        assert!(html.contains("<p>No gateway has a driver on its shelf at"));
    }

    #[test]
    fn a_huge_last_hour_makes_no_long_page() {
        let scenario = scenario(NOTHING_DUE - 1, &[65_535; 255]);
        let mut told = Told::new(&scenario);
        for number in 0..3_000 {
            let own = (number % 255) as u8;
            told.failure(own, 1 + number as u32 * 160 * YEAR, number);
        }
        told.failure(7, NOTHING_DUE - 26, 3_000);
        let html = page("long", &scenario, &told.accounts, None);
        assert!(html.contains("And 2,901 years more in years.csv."));
        assert!(html.contains("And 2,981 years more in years.csv."));
        assert!(html.contains("A step is 49,165 weeks taken together:"));
        assert!(html.contains("number in 49,030 months taken together<"));
        assert!(html.contains(">year 400,000</text>"));
        assert!(html.contains("to hour 4,294,967,294."));
    }

    #[test]
    fn the_axes_end_where_events_do() {
        let scenario = scenario(NOTHING_DUE - 1, &[1]);
        let mut told = Told::new(&scenario);
        told.failure(0, 100, 1);
        let html = page("short", &scenario, &told.accounts, None);
        assert!(html.contains(">week 1</text>") && !html.contains(">week 2</text>"));
        assert!(html.contains(">month 1</text>") && !html.contains(">month 2</text>"));
        assert!(html.contains("The agreed time rises from hour 0 to hour 125."));
        assert_eq!(path(&html, "line").matches('H').count(), 2);
    }

    #[test]
    fn a_restock_can_be_the_last_event() {
        let text = "last-hour 900\ngateway 0 supplier 0 stock 0\nrestock 0 800 3\n";
        let scenario = Scenario::parse(text).unwrap();
        let mut told = Told::new(&scenario);
        told.restock(0, 800, 3);
        let html = page("restock", &scenario, &told.accounts, None);
        assert!(html.contains("The agreed time rises from hour 0 to hour 800."));
    }

    /// Each shelf is empty at the end of every other step.
    #[test]
    fn many_steps_of_many_shelves_make_no_long_page() {
        let scenario = scenario(NOTHING_DUE - 1, &[1; 255]);
        let mut told = Told::new(&scenario);
        let length = 49_000 * WEEK;
        for number in 0..MOST_STEPS * 255 {
            let (step, own) = (number / 255, number % 255);
            told.turn(own as u8, (step + 1) * length - 30 * (255 - own), number.into());
        }
        let html = page("long", &scenario, &told.accounts, None);
        assert!(html.contains("A step is 49,000 weeks taken together: the shelf at the end"));
        assert!(html.contains("Of 255 shelves these are the 12 from which most drivers"));
        assert_eq!(html.matches(">gateway ").count(), 12);
        assert!(html.matches('Z').count() > 12 * 259, "each empty step is marked");
        assert!(html.contains(">gateway 11: drivers<") && !html.contains(">gateway 12: drivers<"));
    }

    #[test]
    fn each_shelf_has_a_plot() {
        let scenario = scenario(1_000, &[2, 0, 1, 0]);
        let mut told = Told::new(&scenario);
        told.failure(2, 10, 1);
        told.restock(1, 300, 4);
        told.failure(0, 600, 2);
        let html = page("shelves", &scenario, &told.accounts, None);
        assert!(html.contains("<h3>Each shelf at the end of each week</h3>\n<figure>\n<svg "));
        let plots = html.split(": drivers</text>").map(|text| text.rsplit_once('>').unwrap().1);
        assert_eq!(plots.take(3).collect::<Vec<_>>(), ["gateway 0", "gateway 1", "gateway 2"]);
        assert_eq!(html.matches(">drivers on that shelf</text>").count(), 1);
        assert_eq!(html.matches(">weeks at whose end that shelf is empty").count(), 1);
        assert!(html.contains("its whole step. 1 gateway has no driver on its shelf at"));
        assert!(html.contains(
            "Gateway 0: 2 at the beginning, 1 at the end; weeks marked as empty: 0 of 4."
        ));
        assert!(html.contains(
            "Gateway 1: 0 at the beginning, 4 at the end; weeks marked as empty: 1 of 4."
        ));
        assert!(html.contains(
            "Gateway 2: 1 at the beginning, 0 at the end; weeks marked as empty: 4 of 4."
        ));
        assert!(!html.contains("None of these shelves") && !html.contains("months.csv"));
    }
}
