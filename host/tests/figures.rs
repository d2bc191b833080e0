//! The figures add up, and are those of an independent count over the records.

use host::balance::{self, Balances, Line, Year};
use host::carrier::Forecast;
use host::figures::{Accounts, Figures, Period, MONTH, WEEK, YEAR};
use host::generator::Generator;
use host::history::History;
use host::lamps::Stage;
use host::record::{Kind, Record, Records};
use host::report::{order_table, write_balance, write_lamps, write_orders, write_periods};
use host::scenario::Scenario;
use interface::MOST_STOCK;
use library::Library;

/// A forecast that has become whole: its records and the accounts of them.
struct Whole {
    scenario: Scenario,
    records: Vec<Vec<u8>>,
    accounts: Accounts,
}

impl Whole {
    fn run(text: &str) -> Whole {
        let scenario = Scenario::parse(text).unwrap();
        let mut records = vec![Vec::new(); scenario.gateways.len()];
        let mut forecast = Forecast::new(Library, &scenario).unwrap();
        forecast.run(|gateway, bytes| records[gateway].extend(bytes)).unwrap();
        let mut accounts = Accounts::new(scenario.stocks());
        let mut history = History::new(records.iter().map(Vec::as_slice)).unwrap();
        while let Some((gateway, record)) = history.read().unwrap() {
            accounts.add(gateway, &record).unwrap();
        }
        Whole { scenario, records, accounts }
    }

    fn events(&self, gateway: usize) -> Vec<Record> {
        Records::new(&self.records[gateway][..]).map(Result::unwrap).collect()
    }

    /// The stock book, by year.
    fn book(&self) -> Vec<Year> {
        let stocks = self.scenario.stocks();
        let balances = self.records.iter().zip(stocks).map(|(record, stock)| {
            Balances::of(&Library, record, stock).unwrap_or_else(|why| panic!("{why}"))
        });
        let numbers = self.accounts.years().map(|year| year.number);
        balance::years(&balances.collect::<Vec<_>>(), numbers)
    }

    /// Holds the periods of a length to add up and to be those of the count.
    fn check(&self, hours: u32, periods: Vec<Period>) {
        let opening = |stock: u16| Figures { on_shelves: stock.into(), ..Figures::default() };
        let mut before: Vec<Figures> = self.scenario.stocks().into_iter().map(opening).collect();
        for period in periods {
            let end = period.number.saturating_mul(hours).min(self.scenario.last_hour);
            for (gateway, figures) in period.gateways.iter().enumerate() {
                check_gateway(&before[gateway], figures);
                let counted = self.counted(gateway, hours, period.number, end);
                assert_eq!(shown(figures), counted, "gateway {gateway}, period {period:?}");
            }
            check_all(&period);
            before = period.gateways;
        }
    }

    /// The figures of a gateway, counted in another way: a shelf that was empty passes the Request on after its request hours, and until then,
    /// or past the last hour for ever, the lamp is short.
    fn counted(&self, gateway: usize, hours: u32, number: u32, end: u32) -> [i64; 8] {
        let within = |hour: u32| hour <= end && hour.saturating_sub(1) / hours + 1 == number;
        let mut counted = [0; 8];
        let [failed, drawn, fitted, restocked, handed_out, on_shelves, on_the_way, short] =
            &mut counted;
        *on_shelves = self.scenario.gateways[gateway].stock.into();
        for shelf in 0..self.records.len() {
            let mut stock = u32::from(self.scenario.gateways[shelf].stock);
            let request_hours = self.scenario.gateways[shelf].request_hours;
            for Record { event, after } in self.events(shelf) {
                let (of_lamp, of_shelf) = (usize::from(event.origin) == gateway, shelf == gateway);
                let count = |counts: bool| i64::from(counts && within(event.hour));
                let found = event.kind == Kind::Request && after.stock < stock;
                let empty = event.kind == Kind::Request && after.stock == stock;
                *failed += count(of_lamp && event.kind == Kind::Failure);
                *fitted += count(of_lamp && event.kind == Kind::Delivery);
                *drawn += count(of_lamp && found);
                *handed_out += count(of_shelf && found);
                let is_short = empty && event.hour <= end && end - event.hour < request_hours;
                *short += i64::from(of_lamp && is_short);
                if event.hour <= end && event.kind != Kind::Restock && of_lamp {
                    *on_the_way += i64::from(event.kind == Kind::Failure);
                    *on_the_way -= i64::from(event.kind == Kind::Delivery);
                }
                if of_shelf && event.hour <= end {
                    *on_shelves = after.stock.into();
                    let came = i64::from(after.stock) - i64::from(stock);
                    *restocked +=
                        if event.kind == Kind::Restock && within(event.hour) { came } else { 0 };
                }
                stock = after.stock;
            }
        }
        *on_the_way -= *short;
        counted
    }
}

/// The figures in the order of the columns.
fn shown(figures: &Figures) -> [i64; 8] {
    let Figures { failed, drawn, fitted, restocked, handed_out, .. } = *figures;
    [
        failed,
        drawn,
        fitted,
        restocked,
        handed_out,
        figures.on_shelves,
        figures.on_the_way,
        figures.short,
    ]
}

/// A gateway's figures add up with those of the period before: its lamps, its shelf and what is to be ordered.
fn check_gateway(before: &Figures, figures: &Figures) {
    let waiting = |figures: &Figures| figures.on_the_way + figures.short;
    assert_eq!(waiting(before) + figures.failed, figures.fitted + waiting(figures));
    assert_eq!(before.on_shelves + figures.restocked, figures.handed_out + figures.on_shelves);
    let order = figures.drawn - figures.restocked + figures.short - before.short;
    assert_eq!(figures.to_order(), order);
}

/// The line of all has the sums of the gateways' lines.
fn check_all(period: &Period) {
    let sum = |figure: &dyn Fn(&Figures) -> i64| period.gateways.iter().map(figure).sum::<i64>();
    for column in 0..8 {
        assert_eq!(sum(&|figures| shown(figures)[column]), shown(&period.all)[column]);
    }
    assert_eq!(sum(&Figures::to_order), period.all.to_order());
    assert_eq!(period.all.drawn, period.all.handed_out);
}

fn check(whole: &Whole) {
    whole.check(WEEK, whole.accounts.weeks().collect());
    whole.check(MONTH, whole.accounts.months().collect());
    whole.check(YEAR, whole.accounts.years().collect());
    check_book(whole);
}

/// The stock book has the years' figures, and every line of it balances.
fn check_book(whole: &Whole) {
    let book = whole.book();
    assert_eq!(balance::unbalanced(&book), []);
    let years: Vec<Period> = whole.accounts.years().collect();
    assert_eq!(book.len(), years.len());
    let mut before: Vec<i128> = whole.scenario.stocks().into_iter().map(i128::from).collect();
    for (of_book, year) in book.iter().zip(&years) {
        let stocks = std::mem::take(&mut before);
        let all = stocks.iter().sum();
        let opening = stocks.into_iter().chain([all]);
        let lines = of_book.gateways.iter().chain([&of_book.all]);
        for ((line, figures), stock) in
            lines.zip(year.gateways.iter().chain([&year.all])).zip(opening)
        {
            assert_eq!(*line, expected_line(stock, figures));
        }
        assert_eq!(of_book.number, year.number);
        before = year.gateways.iter().map(|figures| figures.on_shelves.into()).collect();
    }
}

/// The line of the stock book that begins with this stock and has the figures of a year.
fn expected_line(opening_stock: i128, figures: &Figures) -> Line {
    let Figures { restocked, handed_out, on_shelves, .. } = *figures;
    let [received, served, stock] = [restocked, handed_out, on_shelves].map(i128::from);
    Line { opening_stock, received, served, stock }
}

fn text(write: impl FnOnce(&mut Vec<u8>) -> std::io::Result<()>) -> String {
    let mut bytes = Vec::new();
    write(&mut bytes).unwrap();
    String::from_utf8(bytes).unwrap()
}

/// Gateway 1 has one driver for two lamps of gateway 0: one is fitted, the other is short at the end.
#[test]
fn the_last_example_of_document_01() {
    let whole = Whole::run(include_str!("../../examples/two/scenario"));
    check(&whole);
    let years = "year,gateway,failed,drawn,fitted,restocked,handed_out,on_shelves,on_the_way,short,drivers_to_order\n\
                 1,0,2,1,1,0,0,0,0,1,2\n1,1,0,0,0,0,1,0,0,0,0\n1,all,2,1,1,0,1,0,0,1,2\n";
    assert_eq!(text(|out| write_periods(out, "year", whole.accounts.years())), years);
    let orders = "year,gateway,drivers_to_order\n1,0,2\n1,1,0\n1,all,2\n";
    assert_eq!(text(|out| write_orders(out, whole.accounts.years())), orders);
    let lamps = "lamp,gateway,failed,drawn,shelf,fitted,at_the_end\n\
                 L00000000000000001,0,10,11,1,35,fitted\nL00000000000000002,0,10,,,,short\n";
    assert_eq!(text(|out| write_lamps(out, &whole.accounts.lamps)), lamps);
}

/// Gateway 1 begins with two drivers and hands out one; what comes in the last hour of a year is of that year, and in the second year it hands
/// out three of the nine. Gateway 0 hands out nothing.
#[test]
fn the_stock_book_of_two_years() {
    let whole = Whole::run(
        "last-hour 20000\ngateway 0 supplier 1 stock 0\ngateway 1 supplier 1 stock 2\n\
         failure 0 10 L00000000000000001\nrestock 1 8760 5\nrestock 1 8761 3\n\
         failure 0 8760 L00000000000000002\nfailure 0 9000 L00000000000000003\n\
         failure 1 17519 L00000000000000004\nrestock 0 9000 7\n",
    );
    check(&whole);
    let book = "year,gateway,opening_stock,received,served,stock,balances\n\
                1,0,0,0,0,0,yes\n1,1,2,5,1,6,yes\n1,all,2,5,1,6,yes\n\
                2,0,0,7,0,7,yes\n2,1,6,3,3,6,yes\n2,all,6,10,3,13,yes\n\
                3,0,7,0,0,7,yes\n3,1,6,0,0,6,yes\n3,all,13,0,0,13,yes\n";
    assert_eq!(text(|out| write_balance(out, &whole.book())), book);
}

/// A lamp that fails in a year's last hours, with a driver on the shelf, is no driver to order of that year beyond the one that is drawn.
#[test]
fn a_lamp_that_fails_at_a_years_end() {
    let whole = Whole::run(
        "last-hour 20000\ngateway 0 supplier 0 stock 5\n\
         failure 0 8758 L00000000000000001\nfailure 0 8760 L00000000000000002\n",
    );
    check(&whole);
    let years: Vec<Period> = whole.accounts.years().collect();
    let rows: Vec<_> =
        years.iter().map(|year| (year.number, shown(&year.all), year.all.to_order())).collect();
    assert_eq!(rows, [(1, [2, 1, 0, 0, 1, 4, 2, 0], 1), (2, [0, 1, 2, 0, 1, 3, 0, 0], 1)]);
}

/// A driver that comes in the hour of a Request is handed out in it; and however much is on the shelf, all that comes has come.
#[test]
fn a_restock_in_the_hour_of_a_request() {
    let restocked = |stock: u16| {
        let whole = Whole::run(&format!(
            "last-hour 100\ngateway 0 supplier 0 stock {stock}\n\
             failure 0 4 L00000000000000001\nrestock 0 5 10\n",
        ));
        check(&whole);
        let lamps = text(|out| write_lamps(out, &whole.accounts.lamps));
        assert!(lamps.ends_with("\nL00000000000000001,0,4,5,0,29,fitted\n"), "{lamps}");
        let kinds: Vec<Kind> = whole.events(0).iter().map(|record| record.event.kind).collect();
        assert_eq!(kinds, [Kind::Failure, Kind::Restock, Kind::Request, Kind::Delivery]);
        let stocks: Vec<u32> = whole.events(0).iter().map(|record| record.after.stock).collect();
        let [year] = whole.accounts.years().collect::<Vec<_>>().try_into().unwrap();
        (stocks, shown(&year.all))
    };
    assert_eq!(restocked(0), (vec![0, 10, 9, 9], [1, 1, 1, 10, 1, 9, 0, 0]));
    let much = (vec![65_535, 65_545, 65_544, 65_544], [1, 1, 1, 10, 1, 65_544, 0, 0]);
    assert_eq!(restocked(65_535), much);
}

/// All that an opening stock and an opening list can bring comes to the shelf, and lamps are served from it.
#[test]
fn the_most_that_a_shelf_can_have() {
    let restocks: String = (1..=512).map(|hour| format!("restock 0 {hour} 65535\n")).collect();
    let whole = Whole::run(&format!(
        "last-hour 800\ngateway 0 supplier 0 stock 65535\ngateway 1 supplier 0 stock 0\n\
         {restocks}failure 1 700 L00000000000000001\n",
    ));
    check(&whole);
    let stocks: Vec<u32> = whole.events(0).iter().map(|record| record.after.stock).collect();
    let restocked = (1..=512).map(|restocks| 65_535 * (1 + restocks));
    let expected: Vec<u32> = restocked.chain([MOST_STOCK - 1]).collect();
    assert_eq!(stocks, expected);
    let [year] = whole.accounts.years().collect::<Vec<_>>().try_into().unwrap();
    assert_eq!(shown(&year.gateways[0]), [0, 0, 0, 33_553_920, 1, 33_619_454, 0, 0]);
}

/// A lamp that is short over a year's end is to be ordered in the first year alone.
#[test]
fn a_lamp_that_is_short_over_a_years_end() {
    let whole = Whole::run(
        "last-hour 20000\ngateway 0 supplier 0 stock 0\n\
         failure 0 8700 L00000000000000001\nrestock 0 8800 3\n",
    );
    check(&whole);
    let years: Vec<Period> = whole.accounts.years().collect();
    let rows: Vec<_> = years.iter().map(|year| (shown(&year.all), year.all.to_order())).collect();
    assert_eq!(rows, [([1, 0, 0, 0, 0, 0, 0, 1], 1), ([0, 1, 1, 3, 1, 2, 0, 0], -3)]);
}

/// Nothing is written of periods in which nothing happens, however late the last hour is.
#[test]
fn the_years_end_with_the_last_in_which_something_happens() {
    let whole = Whole::run(
        "last-hour 4294967294\ngateway 0 supplier 0 stock 0\n\
         restock 0 5 1\nrestock 0 17521 65535\nrestock 0 4294967294 1\n",
    );
    check(&whole);
    let years: Vec<Period> = whole.accounts.years().collect();
    assert_eq!(years.iter().map(|year| year.number).collect::<Vec<_>>(), [1, 3, 490_294]);
    assert_eq!(shown(&years[1].all), [0, 0, 0, 65_535, 0, 65_536, 0, 0]);
    assert_eq!(whole.accounts.months().last().unwrap().number, 5_883_517);
    let nothing = Whole::run("last-hour 4294967294\ngateway 0 supplier 0 stock 7\n");
    assert_eq!(nothing.accounts.years().count(), 0);
    assert_eq!(order_table(nothing.accounts.years()), "nothing happens\n");
}

/// A lamp that fails every five years or so: the summary has the first twenty years in which something happens.
#[test]
fn the_summary_has_twenty_years() {
    let whole = Whole::run(
        "last-hour 1000000\ngateway 0 supplier 0 stock 65535\nfailure 0 1 L00000000000000001\n",
    );
    let count = whole.accounts.years().count();
    let table = order_table(whole.accounts.years());
    assert_eq!(table.lines().count(), 22);
    assert!(table.ends_with(&format!("\nand {} years more in years.csv\n", count - 20)), "{table}");
}

/// Twelve months make a year, with shortages over the years' ends too.
#[test]
fn months_add_up_to_years() {
    let mut generator = Generator(1);
    let mut short = 0;
    for _ in 0..8 {
        let whole = Whole::run(&scenario(&mut generator, 30_000));
        let months: Vec<Period> = whole.accounts.months().collect();
        for year in whole.accounts.years() {
            let of_year = || months.iter().filter(|month| month.number.div_ceil(12) == year.number);
            check_year(&year, &of_year().collect::<Vec<_>>());
            short += year.all.short;
        }
    }
    assert!(short > 0);
}

/// A year's months, those in which something happens, add up to it.
fn check_year(year: &Period, months: &[&Period]) {
    let sum = |column: usize| months.iter().map(|month| shown(&month.all)[column]).sum::<i64>();
    let (expected, end) = (shown(&year.all), shown(&months.last().unwrap().all));
    assert_eq!([sum(0), sum(1), sum(2), sum(3), sum(4)], expected[..5]);
    assert_eq!(end[5..], expected[5..]);
    let orders = months.iter().map(|month| month.all.to_order());
    assert_eq!(orders.sum::<i64>(), year.all.to_order());
}

#[test]
fn random_forecasts_add_up() {
    let mut generator = Generator(2);
    for last_hour in [0, 1, 24, 25, 100, 729, 730, 731, 800, 1_500, 2_000, 9_000] {
        for _ in 0..4 {
            let whole = Whole::run(&scenario(&mut generator, last_hour));
            check(&whole);
            let stages = whole.accounts.lamps.iter().flat_map(|(_, failures)| failures);
            let short = stages.filter(|failure| failure.stage() == Stage::Short).count() as i64;
            let last = whole.accounts.years().last().map_or(0, |year| year.all.short);
            assert_eq!(short, last);
        }
    }
}

/// A random scenario in which lamps fail more than once, also in one hour, and shelves run empty or come to more than 65,535. Some gateways
/// have hours of their own.
fn scenario(generator: &mut Generator, last_hour: u32) -> String {
    let gateways = 1 + generator.below(5);
    let mut text = format!("last-hour {last_hour}\n");
    for own in 0..gateways {
        let (supplier, stock) = (generator.below(gateways), generator.pick(&[0, 0, 1, 3, 65_500]));
        text += &format!("gateway {own} supplier {supplier} stock {stock}{}\n", hours(generator));
    }
    for _ in 0..generator.below(30) {
        let (own, hour) = (generator.below(gateways), generator.below(last_hour + 1));
        let hour = if generator.below(3) == 0 { hour / MONTH * MONTH } else { hour };
        text += &match generator.below(3) {
            0 => format!("restock {own} {hour} {}\n", generator.pick(&[0, 1, 5, 100, 65_535])),
            _ => format!("failure {own} {hour} L,\"{:015}\n", generator.below(4)),
        };
    }
    text
}

/// Hours of a gateway in its line: some of them, all or none.
fn hours(generator: &mut Generator) -> String {
    let mut text = String::new();
    let settings = [
        (" request", [2, 5, 30, 500, 1_000_000]),
        (" delivery", [1, 3, 100, 729, 5_000]),
        (" life", [1, 20, 168, 700, 8_760]),
    ];
    for (name, choices) in settings {
        if generator.below(2) == 0 {
            text += &format!("{name} {}", generator.pick(&choices));
        }
    }
    text
}
