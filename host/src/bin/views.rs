//! The program views: prints what purchasing or maintenance sees of records as a table or as CSV, a line for each event that is picked; and
//! makes such a view of a record.

use host::command::{input_bytes, printed, shown, Arguments, Ending, Program};
use host::event_table::{print_files, stock, Columns, Line, NOT_ALL_PRINTED};
use host::record::{lamp_text, Kind, Lamp, Records, State};
use host::view::{Fields, Reader, Viewed, Views, READERS};
use library::Library;
use std::ffi::OsStr;
use std::io::{self, Write};
use std::path::Path;
use std::process::ExitCode;

const PROGRAM: Program = Program {
    name: "views",
    usage: &[
        "[--csv] [--lamp LAMP]... [--hours FIRST-LAST]... [--kind KIND]... FILE...",
        "--make READER [--old-stock] RECORD",
    ],
    help: HELP,
    flags: &["--csv", "--old-stock"],
    valued: &["--lamp", "--hours", "--kind", "--make"],
};

const HELP: &str = "\
Prints what purchasing or maintenance sees of what a gateway has committed: a line for each event in
each FILE, a view file of the program forecast. The FILE - is standard input. For both:

  hour      of the event
  kind      Failure, Request, Delivery or Restock

For purchasing, gateway-NNN.purchasing:

  quantity  drivers that a Restock brings
  stock, failed, fitted, short
            the state of the gateway after the event

For maintenance, gateway-NNN.maintenance:

  lamp      its eighteen characters
  origin    the gateway of the lamp

A Restock has no lamp and no origin, and no other kind has a quantity: these fields are empty.
For whom a FILE is, its first byte tells. An empty FILE is a view too, of no event: where its name
ends in .purchasing or .maintenance the names of the columns are printed, otherwise nothing is.
With more than one FILE, a line with its name stands above each table, a FILE of which nothing is
picked has no table, and CSV has the name in a first column, file. A CSV is for one reader: that of
the first FILE with an event or, where none has one, of the first FILE whose name tells it. A FILE
with events for the other reader is checked and not printed, and standard error names it:

  gateway-003.maintenance: it is for maintenance, and the CSV is for purchasing: print it by itself

An empty FILE fits in every CSV.

  --csv     comma-separated values, the names of the columns in the first line
  --lamp LAMP
            only events of this lamp; for purchasing there are none
  --hours FIRST-LAST
            only events of these hours, both ends included; also 10, 10- and -20
  --kind KIND
            only events of this kind

--lamp, --hours and --kind may each be given more than once: an event is printed if it has one of
the lamps, one of the hours and one of the kinds. Every FILE is checked to its end all the same.

Where a FILE is no view from some place on, the events before it are printed, and standard error has
the place and why:

  gateway-003.maintenance: no view at byte 25: cut: 5 of an event's 6 bytes

The place is the first byte of the event, counted from 0. Then comes the next FILE. Of an event with
several faults the first in this order is named: a map that no view has, or that is for the other
reader than the events before it; an event that is cut; a kind that no event has; the map of another
kind; the hour 4294967295; a byte of the lamp that is not 33 to 126; the origin 255.

The program forecast makes the views of its records. In purchasing's views of earlier versions the
stock has two bytes and not four: they are no views any more. Make them again of their records:

  --make READER
            write to standard output what the READER, purchasing or maintenance, sees of a RECORD, a
            record file of the program forecast; the RECORD - is standard input
  --old-stock
            the RECORD is one of an earlier version, in which the stock has two bytes

A RECORD that is none is named with its place and why, as the program record names it.

Status: 0 if every FILE is a view and the RECORD a record, 1 if one is not or is for the other reader
in CSV, 2 for a bad usage, 3 if a file cannot be read or standard output cannot be written; where there
are several, the highest.

  views --hours 8761-17520 --kind restock result/gateway-021.purchasing
  views --csv --lamp D07-POLE-000000042 result/*.maintenance >lamp.csv
  views --make purchasing --old-stock old/gateway-021.record >gateway-021.purchasing
";

const FOR_PURCHASING: Columns = Columns {
    reader: "purchasing",
    names: &[
        ("hour", 10),
        ("kind", 8),
        ("quantity", 8),
        ("stock", 8),
        ("failed", 10),
        ("fitted", 10),
        ("short", 10),
    ],
};
const FOR_MAINTENANCE: Columns = Columns {
    reader: "maintenance",
    names: &[("hour", 10), ("kind", 8), ("lamp", 18), ("origin", 6)],
};

fn main() -> ExitCode {
    PROGRAM.run(print_or_make)
}

fn print_or_make(arguments: &Arguments) -> Result<(), Ending> {
    let bad_usage = |what: String| Err(Ending::BadUsage(what));
    let Some(reader) = arguments.parsed("--make", reader)? else {
        return match arguments.has("--old-stock") {
            true => bad_usage("--old-stock is said of a RECORD, with --make".into()),
            false => print(arguments),
        };
    };
    let printing = ["--csv", "--lamp", "--hours", "--kind"];
    match printing.into_iter().find(|option| arguments.has(option)) {
        Some(option) => bad_usage(format!("--make and {option} contradict each other")),
        None => make(reader, arguments),
    }
}

fn print(arguments: &Arguments) -> Result<(), Ending> {
    let events = |_: &OsStr, input| Views::new(input).map(|event| event.map(Seen));
    print_files(arguments, events, named_columns)
}

/// The reader of this name.
fn reader(text: &str) -> Result<Reader, String> {
    let named = |reader: &Reader| reader.to_string() == text;
    let is_none = || format!("is purchasing or maintenance, not \"{text}\"");
    READERS.into_iter().find(named).ok_or_else(is_none)
}

/// Writes what a reader sees of a record.
fn make(reader: Reader, arguments: &Arguments) -> Result<(), Ending> {
    let [file] = arguments.exactly(["RECORD"])?;
    let stock = stock(arguments);
    let record = input_bytes(file)?;
    let view = reader.view(&Library, &record, stock).map_err(|what| {
        let fault = Records::with_stock(&record[..], stock).find_map(Result::err);
        let what = fault.map_or(what, |why| stock.advised(why, &record[..]).to_string());
        Ending::Failed(NOT_ALL_PRINTED, format!("{}: {what}", shown(file)))
    })?;
    printed(io::stdout().lock().write_all(&view))
}

/// The columns for the reader that the ending of a file's name tells.
fn named_columns(file: &OsStr) -> Option<Columns> {
    let ending = Path::new(file).extension()?;
    [FOR_PURCHASING, FOR_MAINTENANCE].into_iter().find(|columns| ending == columns.reader)
}

/// An event of a view.
struct Seen(Viewed);

impl Line for Seen {
    fn hour(&self) -> u32 {
        self.0.hour
    }

    fn kind(&self) -> Kind {
        self.0.kind
    }

    fn lamp(&self) -> Option<Lamp> {
        match self.0.fields {
            Fields::Maintenance { lamp_and_origin } => lamp_and_origin.map(|(lamp, _)| lamp),
            Fields::Purchasing { .. } => None,
        }
    }

    fn columns(&self) -> Columns {
        match self.0.fields {
            Fields::Purchasing { .. } => FOR_PURCHASING,
            Fields::Maintenance { .. } => FOR_MAINTENANCE,
        }
    }

    fn cells(&self) -> Vec<String> {
        let Viewed { hour, kind, fields } = self.0;
        let mut cells = vec![hour.to_string(), kind.to_string()];
        match fields {
            Fields::Purchasing { quantity, after } => {
                let State { stock, failed, fitted, short } = after;
                cells.push(quantity.map_or(String::new(), |quantity| quantity.to_string()));
                cells.push(stock.to_string());
                cells.extend([failed, fitted, short].map(|counter| counter.to_string()));
            }
            Fields::Maintenance { lamp_and_origin } => {
                let told = |(lamp, origin): (Lamp, u8)| [lamp_text(&lamp), origin.to_string()];
                cells.extend(lamp_and_origin.map(told).unwrap_or_default());
            }
        }
        cells
    }
}
