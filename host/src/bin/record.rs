//! The program record: prints record files as a table or as CSV, a line for each event that is picked.

use host::command::{Arguments, Ending, Program};
use host::event_table::{print_files, stock, Columns, Line};
use host::events::Unreadable;
use host::record::{lamp_text, Event, Kind, Lamp, Record, Records, State, Stock};
use std::ffi::{OsStr, OsString};
use std::fs::File;
use std::io::BufReader;
use std::process::ExitCode;

const PROGRAM: Program = Program {
    name: "record",
    usage: &[
        "[--old-stock] [--csv] [--lamp LAMP]... [--hours FIRST-LAST]... [--kind KIND]... FILE...",
    ],
    help: HELP,
    flags: &["--old-stock", "--csv"],
    valued: &["--lamp", "--hours", "--kind"],
};

const HELP: &str = "\
Prints what a gateway has committed: a line for each event in each FILE, a record file of the
program forecast. The FILE - is standard input.

  hour      of the event
  kind      Failure, Request, Delivery or Restock
  from, to  the gateways that it comes from and goes to
  origin    the gateway of the lamp
  lamp      its eighteen characters
  quantity  drivers that a Restock brings
  stock, failed, fitted, short
            the state of the gateway after the event

In records of earlier versions the stock has two bytes and not four, and no byte of a record tells it:
read them with --old-stock, and no others.

A Restock has no origin and no lamp, and no other kind has a quantity: these fields are empty.
With more than one FILE, a line with its name stands above each table, a FILE of which nothing is
picked has no table, and CSV has the name in a first column, file.

  --old-stock
            every FILE is a record of an earlier version
  --csv     comma-separated values, the names of the columns in the first line
  --lamp LAMP
            only events of this lamp
  --hours FIRST-LAST
            only events of these hours, both ends included; also 10, 10- and -20
  --kind KIND
            only events of this kind

--lamp, --hours and --kind may each be given more than once: an event is printed if it has one of
the lamps, one of the hours and one of the kinds. Every FILE is checked to its end all the same.

Where a FILE is no record from some place on, the events before it are printed, and standard error
has the place, a number, what it means and why:

  gateway-003.record: no record at byte 43: 11 (length), cut: 5 of a frame's 27 bytes

The place is the first byte of the event, counted from 0. Where the FILE is a record with the other
stock, and not standard input, that is said behind the reason. Then comes the next FILE. The numbers, of
which an event with several faults has that of the first in this order:

  11        a frame of fewer than two bytes
  1         a map and kind that no frame has
  11        a cut frame
  1         a sense that is not 1 to 3
  12        a byte of the lamp that is not 33 to 126
  1         gateways that do not agree
  1         a cancel, an acknowledgment or a frame of a round
  2         a gateway that cannot be, 255
  3         an hour that cannot be, 4294967295
  11        a cut state

Last of all comes an event that is not in event order, which has no number: no call looks for it.

Status: 0 if every FILE is a record, 1 if one is not, 2 for a bad usage, 3 if a FILE cannot be read
or standard output cannot be written; where there are several, the highest.

  record --hours 8761-17520 --kind restock result/gateway-021.record
  record --csv --lamp D07-POLE-000000042 result/*.record >lamp.csv
";

const COLUMNS: Columns = Columns {
    reader: "any reader",
    names: &[
        ("hour", 10),
        ("kind", 8),
        ("from", 4),
        ("to", 3),
        ("origin", 6),
        ("lamp", 18),
        ("quantity", 8),
        ("stock", 8),
        ("failed", 10),
        ("fitted", 10),
        ("short", 10),
    ],
};

fn main() -> ExitCode {
    PROGRAM.run(print)
}

fn print(arguments: &Arguments) -> Result<(), Ending> {
    let stock = stock(arguments);
    let events = |file: &OsStr, input| {
        let file = file.to_os_string();
        Records::with_stock(input, stock)
            .map(move |record| record.map(Recorded).map_err(|why| advised(why, &file, stock)))
    };
    print_files(arguments, events, |_| Some(COLUMNS))
}

/// Why a file cannot be read, with what to do if it is a record with the other stock. Standard input is not read again.
fn advised(why: Unreadable, file: &OsString, stock: Stock) -> Unreadable {
    match File::open(file) {
        Ok(again) if file != "-" => stock.advised(why, BufReader::new(again)),
        _ => why,
    }
}

/// An event of a record.
struct Recorded(Record);

impl Line for Recorded {
    fn hour(&self) -> u32 {
        self.0.event.hour
    }

    fn kind(&self) -> Kind {
        self.0.event.kind
    }

    fn lamp(&self) -> Option<Lamp> {
        let Event { kind, lamp, .. } = self.0.event;
        (kind != Kind::Restock).then_some(lamp)
    }

    fn columns(&self) -> Columns {
        COLUMNS
    }

    fn cells(&self) -> Vec<String> {
        let Event { hour, kind, origin, lamp, quantity, from, to } = self.0.event;
        let State { stock, failed, fitted, short } = self.0.after;
        let [origin, lamp, quantity] = match kind {
            Kind::Restock => [String::new(), String::new(), quantity.to_string()],
            _ => [origin.to_string(), lamp_text(&lamp), String::new()],
        };
        let [from, to] = [from, to].map(|gateway| gateway.to_string());
        let [hour, failed, fitted, short] = [hour, failed, fitted, short].map(|n| n.to_string());
        let (kind, stock) = (kind.to_string(), stock.to_string());
        vec![hour, kind, from, to, origin, lamp, quantity, stock, failed, fitted, short]
    }
}
