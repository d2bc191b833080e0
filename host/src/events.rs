//! Files of events, one behind the other: what reading records and views has alike.

use std::fmt;
use std::io::{self, Read};

/// Parses the events of such a file, by what those before tell.
pub trait Parser: Default {
    /// What the file is called.
    const NAME: &'static str;
    type Event;
    type Reason: fmt::Display;

    /// The most bytes of an event that begins with this one.
    fn length(&self, first: u8) -> Result<usize, Self::Reason>;

    /// The event that these bytes are, or the first reason why they are none. There is at least one byte, and there are fewer than the
    /// length only where the file ends.
    fn parse(&mut self, bytes: &[u8]) -> Result<Self::Event, Self::Reason>;
}

/// Why events cannot be read.
#[derive(Debug)]
pub enum Unreadable {
    File(io::Error),
    /// What the file is not, where the event begins that it cannot have, and the first reason of it.
    NoEvent {
        name: &'static str,
        place: u64,
        reason: String,
    },
}

impl fmt::Display for Unreadable {
    fn fmt(&self, formatter: &mut fmt::Formatter) -> fmt::Result {
        match self {
            Unreadable::File(error) => write!(formatter, "{error}"),
            Unreadable::NoEvent { name, place, reason } => {
                write!(formatter, "no {name} at byte {place}: {reason}")
            }
        }
    }
}

/// Reads a file event by event. Nothing comes behind the first that cannot be read.
pub struct Events<R, P> {
    input: R,
    /// Where the next event begins.
    place: u64,
    parser: P,
    /// Those of the last event.
    bytes: Vec<u8>,
    over: bool,
}

impl<R: Read, P: Parser> Events<R, P> {
    pub fn new(input: R) -> Events<R, P> {
        Events::parsed_by(P::default(), input)
    }

    pub(crate) fn parsed_by(parser: P, input: R) -> Events<R, P> {
        Events { input, place: 0, parser, bytes: Vec::new(), over: false }
    }

    /// Where the next event begins, if the last could be read.
    pub fn place(&self) -> u64 {
        self.place
    }

    fn read(&mut self) -> Result<Option<P::Event>, Unreadable> {
        let place = self.place;
        let no_event = |reason: P::Reason| {
            let reason = reason.to_string();
            Unreadable::NoEvent { name: P::NAME, place, reason }
        };
        if self.fill(0, 1)? == 0 {
            return Ok(None);
        }
        let length = self.parser.length(self.bytes[0]).map_err(no_event)?;
        let found = 1 + self.fill(1, length)?;
        self.place += found as u64;
        self.parser.parse(&self.bytes[..found]).map(Some).map_err(no_event)
    }

    /// Reads the bytes from one place to another, as many as there are; how many that is.
    fn fill(&mut self, from: usize, to: usize) -> Result<usize, Unreadable> {
        self.bytes.resize(to, 0);
        let mut filled = from;
        while filled < to {
            match self.input.read(&mut self.bytes[filled..]) {
                Ok(0) => break,
                Ok(count) => filled += count,
                Err(error) if error.kind() == io::ErrorKind::Interrupted => {}
                Err(error) => return Err(Unreadable::File(error)),
            }
        }
        Ok(filled - from)
    }
}

impl<R: Read, P: Parser> Iterator for Events<R, P> {
    type Item = Result<P::Event, Unreadable>;

    fn next(&mut self) -> Option<Self::Item> {
        if self.over {
            return None;
        }
        let result = self.read().transpose();
        self.over = !matches!(result, Some(Ok(_)));
        result
    }
}

/// The events in these bytes, and why the next cannot be read, if there is one.
#[cfg(test)]
pub fn read<P: Parser>(bytes: &[u8]) -> (Vec<P::Event>, Option<String>) {
    let mut events = Vec::new();
    for event in Events::<_, P>::new(bytes) {
        match event {
            Ok(event) => events.push(event),
            Err(why) => return (events, Some(why.to_string())),
        }
    }
    (events, None)
}
