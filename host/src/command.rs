//! What the programs have alike on the command line: options, `--help` and `--version`, `-` for standard input, statuses, and a
//! standard output that may be closed before its end.

use std::ffi::{OsStr, OsString};
use std::fs::File;
use std::io::{self, BufReader, Read, Write};
use std::process::ExitCode;

/// The status of a bad usage, and of nothing else.
const BAD_USAGE: u8 = 2;

/// The status where a file, or what stands in it, cannot be used.
pub const BAD_FILE: u8 = 3;

/// A program and the words that it takes.
pub struct Program {
    pub name: &'static str,
    /// The words behind the name, a line for each way to call it.
    pub usage: &'static [&'static str],
    /// What `--help` says behind the usage.
    pub help: &'static str,
    /// Options that stand alone, with their `--`.
    pub flags: &'static [&'static str],
    /// Options with a value: `--option VALUE` or `--option=VALUE`.
    pub valued: &'static [&'static str],
}

/// The words that a program was called with.
#[derive(Debug, Default)]
pub struct Arguments {
    pub operands: Vec<OsString>,
    options: Vec<(String, OsString)>,
}

/// Why a program ends before its work is done.
#[derive(Debug)]
pub enum Ending {
    Help,
    Version,
    /// The words it was called with are wrong.
    BadUsage(String),
    /// What it was asked for cannot be done: the status, and why.
    Failed(u8, String),
    /// Something was wrong, and why is on standard error already: the status.
    Told(u8),
    /// Nobody reads its standard output any more.
    Closed,
}

impl Arguments {
    pub fn has(&self, option: &str) -> bool {
        self.options.iter().any(|(name, _)| name == option)
    }

    /// The value of an option; where it is given twice, the last one.
    pub fn value(&self, option: &str) -> Option<&OsStr> {
        self.options.iter().rfind(|(name, _)| name == option).map(|(_, value)| value.as_os_str())
    }

    /// An option's value as text, read by a function that says what is wrong with it.
    pub fn parsed<T>(
        &self,
        option: &str,
        read: impl FnOnce(&str) -> Result<T, String>,
    ) -> Result<Option<T>, Ending> {
        let Some(value) = self.value(option) else { return Ok(None) };
        let value = value.to_string_lossy();
        read(&value).map(Some).map_err(|what| Ending::BadUsage(format!("{option} {what}")))
    }

    /// The values of an option that may be given more than once, read in the same way.
    pub fn all_parsed<T>(
        &self,
        option: &str,
        read: impl Fn(&str) -> Result<T, String>,
    ) -> Result<Vec<T>, Ending> {
        let values = self.options.iter().filter(|(name, _)| name == option);
        let parsed = values.map(|(_, value)| read(&value.to_string_lossy()));
        parsed
            .collect::<Result<_, _>>()
            .map_err(|what| Ending::BadUsage(format!("{option} {what}")))
    }

    /// The operands of a program that takes these and no others.
    pub fn exactly<const COUNT: usize>(
        &self,
        names: [&str; COUNT],
    ) -> Result<[&OsStr; COUNT], Ending> {
        if let Some(name) = names.get(self.operands.len()) {
            return Err(Ending::BadUsage(format!("{name} is missing")));
        }
        if let Some(word) = self.operands.get(COUNT) {
            let word = word.to_string_lossy();
            return Err(Ending::BadUsage(format!("\"{word}\" is one word too many")));
        }
        if let Some(place) = self.operands.iter().position(|word| word.is_empty()) {
            return Err(Ending::BadUsage(format!("{} is an empty word", names[place])));
        }
        Ok(std::array::from_fn(|place| self.operands[place].as_os_str()))
    }
}

impl Program {
    /// Runs the program: reads its words, does its work, and says how it ended.
    pub fn run(&self, work: impl FnOnce(&Arguments) -> Result<(), Ending>) -> ExitCode {
        let arguments = self.read(std::env::args_os().skip(1));
        match arguments.and_then(|arguments| work(&arguments)) {
            Ok(()) | Err(Ending::Closed) => ExitCode::SUCCESS,
            Err(Ending::Help) => said(&format!("{}\n{}", self.usage(), self.help)),
            Err(Ending::Version) => said(&format!("{} {}\n", self.name, env!("CARGO_PKG_VERSION"))),
            Err(Ending::BadUsage(what)) => {
                failed(BAD_USAGE, &format!("{}: {what}\n{}", self.name, self.usage().trim_end()))
            }
            Err(Ending::Failed(status, what)) => failed(status, &what),
            Err(Ending::Told(status)) => ExitCode::from(status),
        }
    }

    fn usage(&self) -> String {
        let mut text = String::new();
        for (line, words) in self.usage.iter().enumerate() {
            let begin = if line == 0 { "usage:" } else { "      " };
            text += &format!("{begin} {} {words}", self.name);
            text.truncate(text.trim_end().len());
            text.push('\n');
        }
        text
    }

    fn read(&self, words: impl Iterator<Item = OsString>) -> Result<Arguments, Ending> {
        let mut arguments = Arguments::default();
        let mut words = words;
        while let Some(word) = words.next() {
            let Some(text) = word.to_str().filter(|text| text.starts_with('-') && *text != "-")
            else {
                arguments.operands.push(word);
                continue;
            };
            if text == "--" {
                arguments.operands.extend(words);
                break;
            }
            arguments.options.push(self.option(text, &mut words)?);
        }
        Ok(arguments)
    }

    /// An option, and its value if it has one.
    fn option(
        &self,
        word: &str,
        words: &mut impl Iterator<Item = OsString>,
    ) -> Result<(String, OsString), Ending> {
        let bad = |what: String| Err(Ending::BadUsage(what));
        let (name, value) = match word.split_once('=') {
            Some((name, value)) => (name, Some(OsString::from(value))),
            None => (word, None),
        };
        if self.valued.contains(&name) {
            return match value.or_else(|| words.next()).filter(|value| !value.is_empty()) {
                Some(value) => Ok((name.into(), value)),
                None => bad(format!("{name} has no value behind it")),
            };
        }
        match (name, value) {
            (_, Some(_)) if self.flags.contains(&name) => bad(format!("{name} takes no value")),
            ("--help" | "-h", None) => Err(Ending::Help),
            ("--version" | "-V", None) => Err(Ending::Version),
            (_, None) if self.flags.contains(&name) => Ok((name.into(), OsString::new())),
            _ => bad(format!("unknown option {name}")),
        }
    }
}

/// Prints a text that was asked for.
fn said(text: &str) -> ExitCode {
    match printed(io::stdout().lock().write_all(text.as_bytes())) {
        Err(Ending::Failed(status, what)) => failed(status, &what),
        _ => ExitCode::SUCCESS,
    }
}

/// Tells what has failed.
fn failed(status: u8, what: &str) -> ExitCode {
    tell(what);
    ExitCode::from(status)
}

/// A line on standard error. That nobody reads it is no error.
pub fn tell(what: &str) {
    let _ = writeln!(io::stderr().lock(), "{what}");
}

/// How writing to standard output ended. That nobody reads it any more is no error.
pub fn printed(result: io::Result<()>) -> Result<(), Ending> {
    result.map_err(|error| match error.kind() {
        io::ErrorKind::BrokenPipe => Ending::Closed,
        _ => Ending::Failed(BAD_FILE, format!("standard output: {error}")),
    })
}

/// The file of this name, or standard input for `-`.
pub fn input(name: &OsStr) -> Result<Box<dyn Read>, Ending> {
    if name == "-" {
        return Ok(Box::new(io::stdin().lock()));
    }
    let file = File::open(name).map_err(|error| unusable(name, &error))?;
    Ok(Box::new(BufReader::new(file)))
}

/// All bytes of a file, or of standard input for `-`.
pub fn input_bytes(name: &OsStr) -> Result<Vec<u8>, Ending> {
    let mut bytes = Vec::new();
    input(name)?.read_to_end(&mut bytes).map_err(|error| unusable(name, &error))?;
    Ok(bytes)
}

/// The whole text of a file, or of standard input for `-`.
pub fn input_text(name: &OsStr) -> Result<String, Ending> {
    String::from_utf8(input_bytes(name)?).map_err(|error| {
        let good = &error.as_bytes()[..error.utf8_error().valid_up_to()];
        let line = 1 + good.iter().filter(|&&byte| byte == b'\n').count();
        Ending::Failed(BAD_FILE, format!("{}:{line}: this is no text in UTF-8", shown(name)))
    })
}

/// What a file is called in messages.
pub fn shown(name: &OsStr) -> String {
    if name == "-" {
        return "standard input".into();
    }
    name.to_string_lossy().into_owned()
}

fn unusable(name: &OsStr, error: &io::Error) -> Ending {
    Ending::Failed(BAD_FILE, format!("{}: {error}", shown(name)))
}

#[cfg(test)]
mod tests {
    use super::*;

    const PROGRAM: Program = Program {
        name: "program",
        usage: &["[--flag] FILE", "--value N"],
        help: "",
        flags: &["--flag"],
        valued: &["--value"],
    };

    fn read(words: &[&str]) -> Result<Arguments, Ending> {
        PROGRAM.read(words.iter().map(OsString::from))
    }

    fn bad(words: &[&str]) -> String {
        match read(words) {
            Err(Ending::BadUsage(what)) => what,
            other => panic!("{other:?}"),
        }
    }

    #[test]
    fn words_are_read() {
        let arguments = read(&["a", "--flag", "--value", "-1", "-", "--", "--flag"]).unwrap();
        assert_eq!(arguments.operands, ["a", "-", "--flag"]);
        assert!(arguments.has("--flag"));
        assert_eq!(arguments.value("--value").unwrap(), "-1");
        let twice = read(&["--value=1", "--value=a=b"]).unwrap();
        assert_eq!(twice.value("--value").unwrap(), "a=b");
        assert!(!twice.has("--flag"));
    }

    #[test]
    fn bad_words_are_named() {
        assert_eq!(bad(&["-x"]), "unknown option -x");
        assert_eq!(bad(&["--value"]), "--value has no value behind it");
        assert_eq!(bad(&["--value="]), "--value has no value behind it");
        let empty = read(&["a", ""]).unwrap().exactly(["FILE", "DIRECTORY"]).map(|_| ());
        assert!(
            matches!(empty, Err(Ending::BadUsage(what)) if what == "DIRECTORY is an empty word")
        );
        assert_eq!(bad(&["--flag=1"]), "--flag takes no value");
        assert_eq!(bad(&["--help=1"]), "unknown option --help");
        assert!(matches!(read(&["--flag", "--help", "-x"]), Err(Ending::Help)));
        assert!(matches!(read(&["-V"]), Err(Ending::Version)));
    }

    #[test]
    fn every_value_of_an_option_is_read() {
        let arguments = read(&["--value", "1", "--value=x"]).unwrap();
        let texts = arguments.all_parsed("--value", |text| Ok(text.to_string()));
        assert_eq!(texts.unwrap(), ["1", "x"]);
        let numbers = arguments.all_parsed("--value", |text| match text.parse::<u32>() {
            Ok(number) => Ok(number),
            Err(_) => Err(format!("is no number: {text}")),
        });
        assert!(
            matches!(numbers, Err(Ending::BadUsage(what)) if what == "--value is no number: x")
        );
    }

    #[test]
    fn missing_and_needless_operands_are_named() {
        let arguments = read(&["a", "b"]).unwrap();
        assert_eq!(arguments.exactly(["ONE", "OTHER"]).unwrap(), ["a", "b"]);
        let what = |result| match result {
            Err(Ending::BadUsage(what)) => what,
            _ => panic!("taken"),
        };
        assert_eq!(
            what(arguments.exactly(["ONE", "OTHER", "THIRD"]).map(drop)),
            "THIRD is missing"
        );
        assert_eq!(what(arguments.exactly(["ONE"]).map(drop)), "\"b\" is one word too many");
    }

    #[test]
    fn the_usage_has_a_line_for_each_way() {
        assert_eq!(PROGRAM.usage(), "usage: program [--flag] FILE\n       program --value N\n");
    }
}
