//! Scenarios: the gateways of a forecast, their opening events and the last hour, as plain text.
//!
//! A line is empty, a comment, whose first character but for blanks is `#`, or words with blanks between them:
//!
//! ```text
//! last-hour HOUR
//! gateway NUMBER supplier NUMBER stock QUANTITY [queue PLACES] [outstanding PLACES]
//!         [request HOURS] [delivery HOURS] [life HOURS]    (in the same line)
//! failure GATEWAY HOUR LAMP
//! restock GATEWAY HOUR QUANTITY
//! ```
//!
//! The last hour comes first, once; then the gateways, 0, 1 and so on; then failures and restocks in any order.

use crate::command::{input_text, shown, Ending, BAD_FILE};
use crate::{frame, record};
use interface::{Opening, MOST_AT_ONCE, MOST_HOURS, MOST_PLACES, NOTHING_DUE};
use std::ffi::OsStr;
use std::fmt;

/// The most gateways of a forecast.
pub const MOST_GATEWAYS: usize = 255;

/// A gateway's hours where its line does not give them: those of document 01.
pub const REQUEST_HOURS: u32 = 1;
pub const DELIVERY_HOURS: u32 = 24;
pub const LIFE_HOURS: u32 = 43_800;

/// A gateway and its opening events.
#[derive(Clone, Debug, PartialEq, Eq)]
pub struct Gateway {
    pub supplier: u8,
    pub stock: u16,
    pub queue_places: u32,
    pub outstanding_places: u32,
    pub request_hours: u32,
    pub delivery_hours: u32,
    pub life_hours: u32,
    /// Whole frames, one behind the other.
    pub list: Vec<u8>,
    /// How many frames those are.
    pub events: u32,
    line: usize,
}

#[derive(Clone, Debug, PartialEq, Eq)]
pub struct Scenario {
    /// Its first line where that is a comment.
    pub title: Option<String>,
    pub last_hour: u32,
    pub gateways: Vec<Gateway>,
}

/// What is wrong with a scenario, and in which line.
#[derive(Clone, Debug, PartialEq, Eq)]
pub struct Bad {
    pub line: usize,
    pub what: String,
}

impl fmt::Display for Bad {
    fn fmt(&self, formatter: &mut fmt::Formatter) -> fmt::Result {
        write!(formatter, "{}: {}", self.line, self.what)
    }
}

impl Scenario {
    /// Reads a scenario. A byte order mark at its beginning is passed over.
    pub fn parse(text: &str) -> Result<Scenario, Bad> {
        let text = text.strip_prefix('\u{feff}').unwrap_or(text);
        let mut reader = Reader { title: title(text), last_hour: None, gateways: Vec::new() };
        let mut last_line = 1;
        for (line, text) in (1..).zip(text.lines()) {
            reader.read(line, text).map_err(|what| Bad { line, what })?;
            last_line = line;
        }
        reader.finish(last_line)
    }

    /// Reads the scenario in a file of this name, or on standard input for `-`: its text, and what it says.
    pub fn input(name: &OsStr) -> Result<(String, Scenario), Ending> {
        let text = input_text(name)?;
        match Scenario::parse(&text) {
            Ok(scenario) => Ok((text, scenario)),
            Err(bad) => Err(Ending::Failed(BAD_FILE, format!("{}:{bad}", shown(name)))),
        }
    }

    /// Each gateway's opening stock.
    pub fn stocks(&self) -> Vec<u16> {
        self.gateways.iter().map(|gateway| gateway.stock).collect()
    }

    /// The settings that gateway `own` is set up with.
    pub fn opening(&self, own: usize) -> Opening {
        let gateway = &self.gateways[own];
        Opening {
            gateways: self.gateways.len() as u32,
            own: own as u32,
            supplier: gateway.supplier.into(),
            stock: gateway.stock.into(),
            last_hour: self.last_hour,
            queue_places: gateway.queue_places,
            outstanding_places: gateway.outstanding_places,
            request_hours: gateway.request_hours,
            delivery_hours: gateway.delivery_hours,
            life_hours: gateway.life_hours,
        }
    }
}

struct Reader {
    title: Option<String>,
    last_hour: Option<u32>,
    gateways: Vec<Gateway>,
}

impl Reader {
    fn read(&mut self, line: usize, text: &str) -> Result<(), String> {
        let words: Vec<&str> = text.split_ascii_whitespace().collect();
        match words[..] {
            [] => Ok(()),
            [word, ..] if word.starts_with('#') => Ok(()),
            ["last-hour", hour] => self.last_hour(hour),
            ["gateway", number, ref settings @ ..] => self.gateway(line, number, settings),
            ["failure", own, hour, lamp] => self.failure(own, hour, lamp),
            ["restock", own, hour, quantity] => self.restock(own, hour, quantity),
            ["gateway"] => Err("gateway has no number behind it".into()),
            [word @ ("last-hour" | "failure" | "restock"), ..] => {
                Err(format!("{word} has {} words behind it, not {}", words.len() - 1, wanted(word)))
            }
            [word, ..] => Err(format!(
                "unknown word \"{word}\": a line begins with last-hour, gateway, failure, restock or #"
            )),
        }
    }

    fn last_hour(&mut self, hour: &str) -> Result<(), String> {
        if self.last_hour.is_some() {
            return Err("a second last-hour".into());
        }
        self.last_hour = Some(number("the last hour", hour, 0, NOTHING_DUE - 1)?);
        Ok(())
    }

    fn gateway(&mut self, line: usize, name: &str, settings: &[&str]) -> Result<(), String> {
        self.known_last_hour()?;
        let next = self.gateways.len();
        if next == MOST_GATEWAYS {
            return Err(format!("more than {MOST_GATEWAYS} gateways"));
        }
        if name != next.to_string() {
            return Err(format!("gateway {name} where gateway {next} is next"));
        }
        let settings = Settings::read(settings)?;
        self.gateways.push(Gateway {
            supplier: settings.supplier.ok_or("no supplier")? as u8,
            stock: settings.stock.ok_or("no stock")? as u16,
            queue_places: settings.queue.unwrap_or(MOST_PLACES),
            outstanding_places: settings.outstanding.unwrap_or(MOST_PLACES),
            request_hours: settings.request.unwrap_or(REQUEST_HOURS),
            delivery_hours: settings.delivery.unwrap_or(DELIVERY_HOURS),
            life_hours: settings.life.unwrap_or(LIFE_HOURS),
            list: Vec::new(),
            events: 0,
            line,
        });
        Ok(())
    }

    fn failure(&mut self, own: &str, hour: &str, lamp: &str) -> Result<(), String> {
        let (own, hour) = self.place(own, hour)?;
        self.enter(own, frame::failure(own, hour, &record::lamp(lamp)?))
    }

    fn restock(&mut self, own: &str, hour: &str, quantity: &str) -> Result<(), String> {
        let (own, hour) = self.place(own, hour)?;
        let quantity = number("a quantity", quantity, 0, MOST_AT_ONCE)? as u16;
        self.enter(own, frame::restock(own, hour, quantity))
    }

    /// The gateway and the hour of an opening event.
    fn place(&self, own: &str, hour: &str) -> Result<(u8, u32), String> {
        let last_hour = self.known_last_hour()?;
        let own = number("a gateway", own, 0, 254)?;
        if own as usize >= self.gateways.len() {
            return Err(format!("there is no gateway {own} above this line"));
        }
        Ok((own as u8, number("the hour", hour, 0, last_hour)?))
    }

    fn enter(&mut self, own: u8, frame: Vec<u8>) -> Result<(), String> {
        let gateway = &mut self.gateways[usize::from(own)];
        gateway.list.extend(frame);
        gateway.events += 1;
        if gateway.events > gateway.queue_places {
            return Err(format!(
                "gateway {own} has more opening events than queue places ({}); {}",
                gateway.queue_places,
                more_places("queue", gateway.queue_places)
            ));
        }
        Ok(())
    }

    fn known_last_hour(&self) -> Result<u32, String> {
        self.last_hour.ok_or_else(|| "no last-hour above this line".into())
    }

    fn finish(self, last_line: usize) -> Result<Scenario, Bad> {
        let missing = |what: &str| Bad { line: last_line, what: what.into() };
        let last_hour = self.last_hour.ok_or_else(|| missing("no last-hour"))?;
        if self.gateways.is_empty() {
            return Err(missing("no gateway"));
        }
        let count = self.gateways.len();
        for gateway in &self.gateways {
            if usize::from(gateway.supplier) >= count {
                let what = format!("there is no gateway {}, the supplier", gateway.supplier);
                return Err(Bad { line: gateway.line, what });
            }
        }
        Ok(Scenario { title: self.title, last_hour, gateways: self.gateways })
    }
}

/// What stands in a gateway's line.
#[derive(Default)]
struct Settings {
    supplier: Option<u32>,
    stock: Option<u32>,
    queue: Option<u32>,
    outstanding: Option<u32>,
    request: Option<u32>,
    delivery: Option<u32>,
    life: Option<u32>,
}

impl Settings {
    fn read(words: &[&str]) -> Result<Settings, String> {
        let mut settings = Settings::default();
        for pair in words.chunks(2) {
            let [name, value] = *pair else {
                return Err(format!("no number behind \"{}\"", pair[0]));
            };
            settings.set(name, value)?;
        }
        Ok(settings)
    }

    fn set(&mut self, name: &str, value: &str) -> Result<(), String> {
        let (setting, what, least, most) = match name {
            "supplier" => (&mut self.supplier, "a supplier", 0, 254),
            "stock" => (&mut self.stock, "the stock", 0, MOST_AT_ONCE),
            "queue" => (&mut self.queue, "queue places", 1, MOST_PLACES),
            "outstanding" => (&mut self.outstanding, "outstanding places", 1, MOST_PLACES),
            "request" => (&mut self.request, "request hours", 1, MOST_HOURS),
            "delivery" => (&mut self.delivery, "delivery hours", 1, MOST_HOURS),
            "life" => (&mut self.life, "life hours", 1, MOST_HOURS),
            _ => {
                return Err(format!(
                    "unknown setting \"{name}\": there are supplier, stock, queue, outstanding, request, delivery and life"
                ))
            }
        };
        match setting.replace(number(what, value, least, most)?) {
            None => Ok(()),
            Some(_) => Err(format!("a second {name}")),
        }
    }
}

/// The text of the first line where that is a comment.
fn title(text: &str) -> Option<String> {
    let comment = text.lines().next()?.trim().strip_prefix('#')?.trim();
    (!comment.is_empty()).then(|| comment.into())
}

/// What to set where places are too few.
pub fn more_places(setting: &str, places: u32) -> String {
    if places < MOST_PLACES {
        let more = (2 * places).min(MOST_PLACES);
        return format!("set `{setting} {more}` in its line of the scenario");
    }
    format!("{MOST_PLACES} is the most: give some of its events or customers to another gateway")
}

fn wanted(word: &str) -> usize {
    if word == "last-hour" {
        1
    } else {
        3
    }
}

/// A number in decimal within its range.
pub fn number(what: &str, word: &str, least: u32, most: u32) -> Result<u32, String> {
    let digits = !word.is_empty() && word.bytes().all(|byte| byte.is_ascii_digit());
    let value = if digits { word.parse::<u32>().ok() } else { None };
    value
        .filter(|value| (least..=most).contains(value))
        .ok_or_else(|| format!("{what} is {least} to {most}, not \"{word}\""))
}

#[cfg(test)]
mod tests {
    use super::*;

    const GOOD: &str =
        "# an example\n \t# indented\nlast-hour 100\ngateway 0 supplier 1 stock 0 queue 4\n\
                        gateway 1 supplier 1 stock 1\nfailure 0 10 L00000000000000001\n\
                        restock 1 50 7\n";

    fn bad(text: &str) -> String {
        Scenario::parse(text).expect_err("a bad scenario").to_string()
    }

    #[test]
    fn a_scenario_is_read() {
        let scenario = Scenario::parse(GOOD).unwrap();
        assert_eq!((scenario.last_hour, scenario.gateways.len()), (100, 2));
        assert_eq!(scenario.title.as_deref(), Some("an example"));
        let opening = scenario.opening(0);
        assert_eq!((opening.supplier, opening.queue_places), (1, 4));
        assert_eq!(opening.outstanding_places, 512);
        let hours =
            |opening: Opening| [opening.request_hours, opening.delivery_hours, opening.life_hours];
        assert_eq!(hours(opening), [1, 24, 43_800]);
        let island = "gateway 2 life 1000000 supplier 1 request 36 stock 5 delivery 1\n";
        let with_island = Scenario::parse(&format!("{GOOD}{island}")).unwrap();
        assert_eq!(
            [0, 1, 2].map(|own| hours(with_island.opening(own))),
            [[1, 24, 43_800], [1, 24, 43_800], [36, 1, 1_000_000]]
        );
        assert_eq!(scenario.gateways[0].list, frame::failure(0, 10, b"L00000000000000001"));
        assert_eq!(scenario.gateways[1].list, frame::restock(1, 50, 7));
        assert_eq!(Scenario::parse(&format!("\u{feff}{GOOD}")), Ok(scenario));
    }

    #[test]
    fn a_bad_line_is_named() {
        let with = |line: &str| bad(&format!("{GOOD}{line}\n"));
        assert_eq!(with("fail 0 1 x"), "8: unknown word \"fail\": a line begins with last-hour, gateway, failure, restock or #");
        assert_eq!(with("failure 0 10"), "8: failure has 2 words behind it, not 3");
        assert_eq!(
            with("failure 2 10 L00000000000000001"),
            "8: there is no gateway 2 above this line"
        );
        assert_eq!(
            with("failure 0 101 L00000000000000001"),
            "8: the hour is 0 to 100, not \"101\""
        );
        assert_eq!(
            with("failure 0 10 L1"),
            "8: a lamp has eighteen characters from ! to ~, \"L1\" has 2"
        );
        assert_eq!(with("restock 1 5 65536"), "8: a quantity is 0 to 65535, not \"65536\"");
        assert_eq!(with("gateway 3 supplier 0 stock 0"), "8: gateway 3 where gateway 2 is next");
        assert_eq!(with("gateway 2 supplier 0"), "8: no stock");
        assert_eq!(with("gateway 2 supplier 0 stock"), "8: no number behind \"stock\"");
        assert_eq!(with("gateway 2 stock 1 supplier 0 stock 1"), "8: a second stock");
        assert_eq!(with("gateway 2 supplier 0 stock 0 life 7 life 7"), "8: a second life");
        assert_eq!(
            with("gateway 2 supplier 0 stock 0 lives 7"),
            "8: unknown setting \"lives\": there are supplier, stock, queue, outstanding, request, delivery and life"
        );
        for name in ["request", "delivery", "life"] {
            let hours = |hours: &str| with(&format!("gateway 2 supplier 0 stock 0 {name} {hours}"));
            for bad in ["0", "1000001", "4294967297", "-1", "1.5", "24h"] {
                assert_eq!(hours(bad), format!("8: {name} hours is 1 to 1000000, not \"{bad}\""));
            }
            assert_eq!(hours(""), format!("8: no number behind \"{name}\""));
        }
        assert_eq!(with("gateway"), "8: gateway has no number behind it");
        assert_eq!(with("gateway 2 supplier 3 stock 0"), "8: there is no gateway 3, the supplier");
        assert_eq!(with("last-hour 7"), "8: a second last-hour");
        let many = "restock 0 1 1\n".repeat(4);
        assert!(
            with(&many).starts_with("11: gateway 0 has more opening events than queue places (4)")
        );
        assert_eq!(bad(""), "1: no last-hour");
        assert_eq!(bad("gateway 0 supplier 0 stock 0"), "1: no last-hour above this line");
    }
}
