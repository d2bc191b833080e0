//! Files of events printed as tables or as CSV, a line for each event that is picked: what the programs record and views have alike.

use crate::command::{input, printed, shown, tell, Arguments, Ending, BAD_FILE};
use crate::events::Unreadable;
use crate::record::{lamp, Kind, Lamp, Stock, KINDS};
use crate::report::csv_text;
use crate::scenario;
use interface::NOTHING_DUE;
use std::ffi::OsStr;
use std::io::{self, BufWriter, Read, Write};
use std::ops::RangeInclusive;

/// The status where events of a file are not printed: those from its first fault on, or all where the CSV has other columns.
pub const NOT_ALL_PRINTED: u8 = 1;

/// The stock that records are said to have: the old one with the option `--old-stock`.
pub fn stock(arguments: &Arguments) -> Stock {
    match arguments.has("--old-stock") {
        true => Stock::Old,
        false => Stock::New,
    }
}

/// The columns of a file.
#[derive(Clone, Copy, PartialEq)]
pub struct Columns {
    /// For whom they are.
    pub reader: &'static str,
    /// Their names, and their widths in a table.
    pub names: &'static [(&'static str, usize)],
}

/// An event of a file.
pub trait Line {
    fn hour(&self) -> u32;
    fn kind(&self) -> Kind;
    /// Its lamp, if one is told of it.
    fn lamp(&self) -> Option<Lamp>;
    fn columns(&self) -> Columns;
    /// What stands in the columns; nothing where the kind has no such field.
    fn cells(&self) -> Vec<String>;
}

/// What is wrong with a file: the status, and why.
struct Fault {
    status: u8,
    what: String,
}

/// The status where a file cannot be read to its end.
fn status(why: &Unreadable) -> u8 {
    match why {
        Unreadable::File(_) => BAD_FILE,
        Unreadable::NoEvent { .. } => NOT_ALL_PRINTED,
    }
}

/// Prints the files that a program was given, by the options `--csv`, `--lamp`, `--hours` and `--kind`. `events` reads those of a file
/// of a name; `columns` are the ones of a file without an event, if it is known which these are.
pub fn print_files<L: Line, E: Iterator<Item = Result<L, Unreadable>>>(
    arguments: &Arguments,
    events: impl Fn(&OsStr, Box<dyn Read>) -> E,
    columns: impl Fn(&OsStr) -> Option<Columns>,
) -> Result<(), Ending> {
    let files = &arguments.operands;
    if files.is_empty() {
        return Err(Ending::BadUsage("FILE is missing".into()));
    }
    let picks = Picks::read(arguments)?;
    let mut printer = Printer::new(arguments.has("--csv"), files.len() > 1);
    let mut status = 0;
    for file in files {
        let name = shown(file);
        let faults = match input(file) {
            Ok(input) => printer.print(&name, events(file, input), columns(file), &picks)?,
            Err(Ending::Failed(status, what)) => vec![Fault { status, what }],
            Err(ending) => return Err(ending),
        };
        for fault in faults {
            status = status.max(fault.status);
            printer.complain(&fault.what)?;
        }
    }
    printed(printer.end())?;
    match status {
        0 => Ok(()),
        _ => Err(Ending::Told(status)),
    }
}

struct Printer {
    out: BufWriter<io::StdoutLock<'static>>,
    csv: bool,
    /// Whether the files' names are printed.
    named: bool,
    /// Whether something has been printed.
    begun: bool,
    /// The columns whose names stand above the next line, if any do.
    headed: Option<Columns>,
    /// The columns of the first file without an event of which they are known.
    without_events: Option<Columns>,
}

impl Printer {
    fn new(csv: bool, named: bool) -> Printer {
        let out = BufWriter::new(io::stdout().lock());
        Printer { out, csv, named, begun: false, headed: None, without_events: None }
    }

    /// Prints what is picked of a file, and answers what is wrong with it. In CSV a file with other columns than the ones above is only
    /// read.
    fn print<L: Line>(
        &mut self,
        name: &str,
        events: impl Iterator<Item = Result<L, Unreadable>>,
        columns: Option<Columns>,
        picks: &Picks,
    ) -> Result<Vec<Fault>, Ending> {
        let fault = |status, what| Fault { status, what: format!("{name}: {what}") };
        if !self.csv {
            self.headed = None;
        }
        let mut faults = Vec::new();
        let mut found = None;
        for event in events {
            let event = match event {
                Ok(event) => event,
                Err(why) => {
                    faults.push(fault(status(&why), why.to_string()));
                    break;
                }
            };
            let columns = *found.get_or_insert(event.columns());
            match self.headed {
                Some(above) if above != columns => {
                    if faults.is_empty() {
                        faults.push(fault(NOT_ALL_PRINTED, other_reader(columns, above)));
                    }
                }
                _ => printed(self.print_event(name, &event, picks))?,
            }
        }
        if found.is_none() {
            printed(self.begin_without_events(name, columns))?;
        }
        Ok(faults)
    }

    /// Prints an event if it is picked, and the names of the columns above it; these also where nothing is picked of the only file, and
    /// in CSV.
    fn print_event(&mut self, name: &str, event: &impl Line, picks: &Picks) -> io::Result<()> {
        let is_picked = picks.has(event);
        if is_picked || self.csv || !self.named {
            self.print_head(name, event.columns())?;
        }
        if is_picked {
            self.print_line(name, event.columns(), &event.cells())?;
        }
        Ok(())
    }

    /// The names of the columns of a file without an event, if they are known: at once if it is the only file. In CSV other files may
    /// tell them better.
    fn begin_without_events(&mut self, name: &str, columns: Option<Columns>) -> io::Result<()> {
        match columns {
            Some(columns) if !self.named => self.print_head(name, columns),
            _ => {
                self.without_events = self.without_events.or(columns);
                Ok(())
            }
        }
    }

    /// The names of the columns of a CSV without an event, if they are known; nothing else is printed behind.
    fn end(&mut self) -> io::Result<()> {
        if let (true, Some(columns)) = (self.csv, self.without_events) {
            self.print_head("", columns)?;
        }
        self.out.flush()
    }

    /// Tells what is wrong behind what is printed so far.
    fn complain(&mut self, what: &str) -> Result<(), Ending> {
        printed(self.out.flush())?;
        tell(what);
        Ok(())
    }

    /// The names of the columns, if they are not there: once in CSV, and above each table.
    fn print_head(&mut self, name: &str, columns: Columns) -> io::Result<()> {
        if self.headed.is_some() {
            return Ok(());
        }
        self.headed = Some(columns);
        let begun = std::mem::replace(&mut self.begun, true);
        if self.named && !self.csv {
            let gap = if begun { "\n" } else { "" };
            writeln!(self.out, "{gap}{name}")?;
        }
        let names: Vec<String> =
            columns.names.iter().map(|(column, _)| column.to_string()).collect();
        self.print_line("file", columns, &names)
    }

    fn print_line(&mut self, name: &str, columns: Columns, cells: &[String]) -> io::Result<()> {
        if !self.csv {
            return writeln!(self.out, "{}", aligned(columns, cells));
        }
        if self.named {
            write!(self.out, "{},", csv_text(name))?;
        }
        let cells: Vec<String> = cells.iter().map(|cell| csv_text(cell)).collect();
        writeln!(self.out, "{}", cells.join(","))
    }
}

/// Why a file with these columns is not printed below those.
fn other_reader(columns: Columns, above: Columns) -> String {
    let [reader, above] = [columns, above].map(|columns| columns.reader);
    format!("it is for {reader}, and the CSV is for {above}: print it by itself")
}

/// A line of a table: the cells aligned to the right, and nothing behind the last that is not empty.
fn aligned(columns: Columns, cells: &[String]) -> String {
    let cells = cells.iter().zip(columns.names);
    let aligned: Vec<String> = cells.map(|(cell, (_, width))| format!("{cell:>width$}")).collect();
    aligned.join("  ").trim_end().into()
}

/// Which events are printed. Where nothing is said of the lamp, the hour or the kind, every one fits.
struct Picks {
    lamps: Vec<Lamp>,
    hours: Vec<RangeInclusive<u32>>,
    kinds: Vec<Kind>,
}

impl Picks {
    fn read(arguments: &Arguments) -> Result<Picks, Ending> {
        let named = |text: &str| lamp(text).map_err(|what| format!("names no lamp: {what}"));
        Ok(Picks {
            lamps: arguments.all_parsed("--lamp", named)?,
            hours: arguments.all_parsed("--hours", hours)?,
            kinds: arguments.all_parsed("--kind", kind)?,
        })
    }

    fn has(&self, event: &impl Line) -> bool {
        let Picks { lamps, hours, kinds } = self;
        (lamps.is_empty() || event.lamp().is_some_and(|lamp| lamps.contains(&lamp)))
            && (hours.is_empty() || hours.iter().any(|hours| hours.contains(&event.hour())))
            && (kinds.is_empty() || kinds.contains(&event.kind()))
    }
}

/// The hours of FIRST-LAST, of one hour alone, and of FIRST- or -LAST, which have one end.
fn hours(text: &str) -> Result<RangeInclusive<u32>, String> {
    let most = NOTHING_DUE - 1;
    let hour = |word: &str| {
        scenario::number("an hour", word, 0, most).map_err(|what| format!("{text}: {what}"))
    };
    let (first, last) = match text.split_once('-') {
        None => (hour(text)?, hour(text)?),
        Some(("", "")) => return Err("- has neither a first nor a last hour".into()),
        Some((first, "")) => (hour(first)?, most),
        Some(("", last)) => (0, hour(last)?),
        Some((first, last)) => (hour(first)?, hour(last)?),
    };
    if first > last {
        return Err(format!("{text}: the first hour is behind the last"));
    }
    Ok(first..=last)
}

/// The kind of this name, in small or capital letters.
fn kind(text: &str) -> Result<Kind, String> {
    let named = |kind: &Kind| kind.to_string().eq_ignore_ascii_case(text);
    KINDS
        .into_iter()
        .find(named)
        .ok_or_else(|| format!("is Failure, Request, Delivery or Restock, not \"{text}\""))
}
