//! The figures that purchasing and stores read, by week, month and year, from the committed records (docs/OPERATING.md says what each
//! means).

use crate::lamps::{Lamps, Stage, Unexplained};
use crate::record::{Kind, Record};
use std::collections::BTreeMap;
use std::iter;

/// Hours of a week, a month and a year. A period has the hours up to and with its last one, a multiple of its length; hour 0 belongs to the
/// first.
pub const WEEK: u32 = 168;
pub const MONTH: u32 = 730;
pub const YEAR: u32 = 12 * MONTH;

/// The number, counted from 1, of the period of so many hours that an hour belongs to.
pub fn period(hour: u32, hours: u32) -> u32 {
    hour.saturating_sub(1) / hours + 1
}

/// Figures of a gateway, or of all, in a period.
#[derive(Clone, Copy, Debug, Default, PartialEq, Eq)]
pub struct Figures {
    /// In the period: failures of its lamps.
    pub failed: i64,
    /// Requests for its lamps that found stock on some shelf.
    pub drawn: i64,
    /// Drivers fitted to its lamps.
    pub fitted: i64,
    /// Drivers that came to its shelf.
    pub restocked: i64,
    /// Drivers that left its shelf, for lamps of any gateway.
    pub handed_out: i64,
    /// At the period's end: drivers on its shelf.
    pub on_shelves: i64,
    /// Its failed lamps whose driver is drawn and not yet fitted, or whose Request has had no answer yet.
    pub on_the_way: i64,
    /// Its failed lamps whose Request last met an empty shelf.
    pub short: i64,
    /// How many those were at the end of the period before.
    pub short_before: i64,
}

impl Figures {
    /// What left the shelves or was asked of empty ones, less what came in.
    pub fn to_order(&self) -> i64 {
        self.drawn - self.restocked + self.short - self.short_before
    }

    /// Adds what happened in a period, and what it changed of what stands at its end.
    fn add(&mut self, change: &Figures) {
        self.failed += change.failed;
        self.drawn += change.drawn;
        self.fitted += change.fitted;
        self.restocked += change.restocked;
        self.handed_out += change.handed_out;
        self.on_shelves += change.on_shelves;
        self.on_the_way += change.on_the_way;
        self.short += change.short;
        self.short_before += change.short_before;
    }

    /// What stands at the end of a period is there at the next one's beginning, when nothing has happened in it yet.
    fn begin(&self) -> Figures {
        let Figures { on_shelves, on_the_way, short, .. } = *self;
        Figures { on_shelves, on_the_way, short, short_before: short, ..Figures::default() }
    }
}

/// The figures of a period, by gateway and in all.
#[derive(Clone, Debug, PartialEq, Eq)]
pub struct Period {
    /// Counted from 1.
    pub number: u32,
    pub gateways: Vec<Figures>,
    pub all: Figures,
}

/// What changed in each period in which something happened, by gateway.
#[derive(Debug)]
struct Changes {
    hours: u32,
    periods: BTreeMap<u32, BTreeMap<usize, Figures>>,
}

impl Changes {
    fn new(hours: u32) -> Changes {
        Changes { hours, periods: BTreeMap::new() }
    }

    fn add(&mut self, hour: u32, gateway: usize, change: &Figures) {
        let number = period(hour, self.hours);
        self.periods.entry(number).or_default().entry(gateway).or_default().add(change);
    }
}

/// Follows the committed events of all gateways, in order of their hours.
pub struct Accounts {
    opening: Vec<u16>,
    stock: Vec<u32>,
    pub lamps: Lamps,
    last_hour: u32,
    weeks: Changes,
    months: Changes,
    years: Changes,
}

impl Accounts {
    /// Before the first event, with each gateway's opening stock.
    pub fn new(opening: Vec<u16>) -> Accounts {
        Accounts {
            stock: opening.iter().copied().map(u32::from).collect(),
            opening,
            lamps: Lamps::default(),
            last_hour: 0,
            weeks: Changes::new(WEEK),
            months: Changes::new(MONTH),
            years: Changes::new(YEAR),
        }
    }

    /// Adds an event that a gateway has committed.
    pub fn add(&mut self, gateway: usize, record: &Record) -> Result<(), Unexplained> {
        let Record { event, after } = record;
        self.last_hour = event.hour;
        let before = std::mem::replace(&mut self.stock[gateway], after.stock);
        let mut shelf = Figures {
            on_shelves: i64::from(after.stock) - i64::from(before),
            ..Figures::default()
        };
        if event.kind == Kind::Restock {
            shelf.restocked = event.quantity.into();
        } else {
            let stocked = event.kind == Kind::Request && before > 0;
            shelf.handed_out = stocked.into();
            let (was, is) = self.lamps.follow(event, stocked)?;
            self.count(event.hour, event.origin.into(), &passed(was, is));
        }
        self.count(event.hour, gateway, &shelf);
        Ok(())
    }

    fn count(&mut self, hour: u32, gateway: usize, change: &Figures) {
        for changes in [&mut self.weeks, &mut self.months, &mut self.years] {
            changes.add(hour, gateway, change);
        }
    }

    /// Each gateway's opening stock.
    pub fn opening(&self) -> &[u16] {
        &self.opening
    }

    /// The hour of the last event.
    pub fn last_hour(&self) -> u32 {
        self.last_hour
    }

    pub fn weeks(&self) -> impl Iterator<Item = Period> + '_ {
        self.periods(&self.weeks)
    }

    pub fn months(&self) -> impl Iterator<Item = Period> + '_ {
        self.periods(&self.months)
    }

    pub fn years(&self) -> impl Iterator<Item = Period> + '_ {
        self.periods(&self.years)
    }

    /// The periods in which something happened.
    fn periods<'a>(&'a self, changes: &'a Changes) -> impl Iterator<Item = Period> + 'a {
        let on_shelf = |&stock: &u16| Figures { on_shelves: stock.into(), ..Figures::default() };
        let mut gateways: Vec<Figures> = self.opening.iter().map(on_shelf).collect();
        changes.periods.iter().map(move |(&number, changes)| {
            for (gateway, figures) in gateways.iter_mut().enumerate() {
                *figures = figures.begin();
                if let Some(change) = changes.get(&gateway) {
                    figures.add(change);
                }
            }
            let mut all = Figures::default();
            gateways.iter().for_each(|figures| all.add(figures));
            Period { number, gateways: gateways.clone(), all }
        })
    }
}

/// What it means for the figures of a lamp's gateway that a failure of it went from one stage to another.
fn passed(was: Option<Stage>, is: Stage) -> Figures {
    let mut change = Figures::default();
    for (stage, count) in was.map(|was| (was, -1)).into_iter().chain(iter::once((is, 1))) {
        match stage {
            Stage::Asked | Stage::Drawn => change.on_the_way += count,
            Stage::Short => change.short += count,
            Stage::Fitted => {}
        }
    }
    change.failed = was.is_none().into();
    change.drawn = (is == Stage::Drawn).into();
    change.fitted = (is == Stage::Fitted).into();
    change
}
