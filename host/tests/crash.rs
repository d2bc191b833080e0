//! A forecast that is stopped at any instant goes on to the very records and results of one that is not.

mod common;

use common::{ended, run, scratch, start, Ended};
use std::collections::BTreeMap;
use std::fs::{self, File, OpenOptions};
use std::io::Write;
use std::path::{Path, PathBuf};
use std::thread::sleep;
use std::time::Duration;

const FORECAST: &str = env!("CARGO_BIN_EXE_forecast");

/// Options with which a copy is written after each round.
const OFTEN: [&str; 3] = ["--quiet", "--save-every", "0"];

/// Four gateways of which the last runs empty at times, and lacks places when it does, so that windows are taken back. The first two have
/// hours of their own.
fn scenario() -> String {
    let mut text = String::from("# Four gateways\nlast-hour 6000\n");
    for (own, hours) in [" request 2 life 4900", " request 3 delivery 30", ""].iter().enumerate() {
        let supplier = own + 1;
        text += &format!(
            "gateway {own} supplier {supplier} stock 1 queue 200 outstanding 100{hours}\n"
        );
    }
    text += "gateway 3 supplier 3 stock 1 queue 48 outstanding 6\n";
    for number in 0..250 {
        text += &format!("failure {} {} L{number:017}\n", number % 3, 7 + 22 * number);
    }
    for number in 1..40 {
        text += &format!("restock 3 {} 7\n", 150 * number);
    }
    text
}

/// A directory with the scenario beside it: the scenario's file, and the directory of the forecast.
fn prepare(name: &str) -> (PathBuf, PathBuf) {
    let scratch = scratch(name);
    let file = scratch.join("scenario");
    fs::write(&file, scenario()).unwrap();
    (file, scratch.join("result"))
}

fn words<'a>(more: &[&'a Path]) -> Vec<&'a std::ffi::OsStr> {
    OFTEN.iter().map(std::ffi::OsStr::new).chain(more.iter().map(|path| path.as_os_str())).collect()
}

fn begin(file: &Path, directory: &Path) -> Ended {
    run(FORECAST, &words(&[file, directory]))
}

fn resume_words(directory: &Path) -> Vec<&std::ffi::OsStr> {
    words(&[Path::new("--resume"), directory])
}

fn resume(directory: &Path) -> Ended {
    run(FORECAST, &resume_words(directory))
}

/// The names and the bytes of a directory's files.
fn files(directory: &Path) -> BTreeMap<String, Vec<u8>> {
    let entry = |entry: std::io::Result<fs::DirEntry>| {
        let entry = entry.unwrap();
        (entry.file_name().into_string().unwrap(), fs::read(entry.path()).unwrap())
    };
    fs::read_dir(directory).unwrap().map(entry).collect()
}

/// The files of the forecast when nothing stops it.
fn undisturbed(name: &str) -> BTreeMap<String, Vec<u8>> {
    let (file, directory) = prepare(name);
    let end = begin(&file, &directory);
    assert_eq!((end.status, &end.error[..]), (Some(0), ""));
    assert!(!end.output.contains(" 0 windows taken back"), "{}", end.output);
    let files = files(&directory);
    assert_eq!(files.len(), 4 * 3 + 1 + 7);
    files
}

/// Whether every file is as expected; the names of those that are not.
fn different(
    found: &BTreeMap<String, Vec<u8>>,
    expected: &BTreeMap<String, Vec<u8>>,
) -> Vec<String> {
    let names = found.keys().chain(expected.keys());
    names.filter(|name| found.get(*name) != expected.get(*name)).cloned().collect()
}

/// Begins the forecast, or goes on with it where there is a copy, and kills it after so many milliseconds; whether it had ended before.
fn killed_after(file: &Path, directory: &Path, milliseconds: u64) -> bool {
    let has_copy = directory.join("forecast.copy").exists();
    let words = if has_copy { resume_words(directory) } else { words(&[file, directory]) };
    let mut child = start(FORECAST, &words);
    sleep(Duration::from_millis(milliseconds));
    let _ = child.kill();
    let end = ended(child);
    assert!(end.status.is_none_or(|status| status == 0), "{}", end.error);
    end.status.is_some()
}

/// A forecast that has been killed in the middle, with a copy to go on from.
fn killed(name: &str) -> (PathBuf, PathBuf) {
    let (file, directory) = prepare(name);
    while !killed_on_the_way(&file, &directory) {}
    (file, directory)
}

/// Kills a forecast when some of it is committed; whether that was before it had ended.
fn killed_on_the_way(file: &Path, directory: &Path) -> bool {
    let mut child = start(FORECAST, &words(&[file, directory]));
    let committed =
        || fs::metadata(directory.join("gateway-000.record")).map_or(0, |data| data.len());
    while committed() < 1_000 && child.try_wait().unwrap().is_none() {
        sleep(Duration::from_millis(1));
    }
    let _ = child.kill();
    let end = ended(child);
    assert!(end.status.is_none_or(|status| status == 0), "{}", end.error);
    end.status.is_none() && directory.join("forecast.copy").exists()
}

/// Killed again and again, each time a millisecond later after it began or went on, until it has ended.
#[test]
fn killed_at_many_moments() {
    let expected = undisturbed("killed-undisturbed");
    let (file, directory) = prepare("killed");
    let mut kills = 0;
    while !killed_after(&file, &directory, kills) {
        kills += 1;
    }
    assert!(kills > 0);
    assert_eq!(different(&files(&directory), &expected), [""; 0]);
}

/// The system ends a process that makes a file longer than it may; so the copy, or a record, is cut at each length in turn.
#[test]
fn killed_in_the_middle_of_writing() {
    let expected = undisturbed("middle-undisturbed");
    let (_, directory) = killed("middle");
    let length = fs::metadata(directory.join("forecast.copy")).unwrap().len();
    let mut cut = 0;
    for limit in (1..length / 1_024).step_by(3) {
        let before = fs::read(directory.join("forecast.copy")).unwrap();
        let script = format!("ulimit -c 0 -f {limit}; exec \"$0\" \"$@\"");
        let mut words: Vec<&std::ffi::OsStr> =
            ["-c", &script, FORECAST].map(std::ffi::OsStr::new).to_vec();
        words.extend(resume_words(&directory));
        assert_ne!(run("bash", &words).status, Some(0));
        let new = fs::metadata(directory.join("forecast.copy.new")).map_or(0, |data| data.len());
        if new == 1_024 * limit {
            assert_eq!(fs::read(directory.join("forecast.copy")).unwrap(), before);
            cut += 1;
        }
    }
    assert!(cut > 5, "{cut} copies were cut");
    append(&directory.join("gateway-000.record"), &[63; 100_000]);
    let end = resume(&directory);
    assert_eq!((end.status, &end.error[..]), (Some(0), ""));
    assert_eq!(different(&files(&directory), &expected), [""; 0]);
}

/// Holds that going on is refused in these words and changes nothing.
fn refused(directory: &Path, what: &str) {
    refused_by(FORECAST.as_ref(), directory, what);
}

fn refused_by(program: &Path, directory: &Path, what: &str) {
    let before = files(directory);
    let end = run(program, &resume_words(directory));
    assert_eq!((end.status, &end.output[..]), (Some(3), ""));
    assert!(end.error.contains(what), "{}", end.error);
    assert_eq!(different(&files(directory), &before), [""; 0]);
}

fn append(path: &Path, bytes: &[u8]) {
    OpenOptions::new().append(true).open(path).unwrap().write_all(bytes).unwrap();
}

#[test]
fn what_cannot_be_gone_on_with_is_refused_in_words() {
    let (file, directory) = killed("refused");
    let whole = files(&directory);
    let put_back = |name: &str| fs::write(directory.join(name), &whole[name]).unwrap();
    let copy = directory.join("forecast.copy");

    let mut damaged = whole["forecast.copy"].clone();
    damaged[20_000] ^= 1;
    fs::write(&copy, &damaged).unwrap();
    refused(&directory, "forecast.copy: the copy is damaged or cut short");
    fs::write(&copy, &whole["forecast.copy"][..20_000]).unwrap();
    refused(&directory, "forecast.copy: the copy is damaged or cut short");
    fs::write(&copy, b"").unwrap();
    refused(&directory, "forecast.copy: this is no copy of a forecast");
    // As versions began a copy whose memories have stocks of two bytes.
    let mut earlier = whole["forecast.copy"].clone();
    assert_eq!(earlier[..16], *b"hurfaith copy 2\n");
    earlier[14] = b'1';
    fs::write(&copy, &earlier).unwrap();
    refused(
        &directory,
        "forecast.copy: the copy was written by an earlier version of this program",
    );
    put_back("forecast.copy");

    let other_hours = scenario().replace("request 2 life 4900", "request 2 life 4901");
    assert_ne!(other_hours, scenario());
    fs::write(directory.join("forecast.scenario"), other_hours).unwrap();
    refused(&directory, "forecast.copy: the copy is of another scenario");
    put_back("forecast.scenario");
    append(&directory.join("forecast.scenario"), b"restock 3 5900 1\n");
    refused(&directory, "forecast.copy: the copy is of another scenario");
    append(&directory.join("forecast.scenario"), b"x\n");
    let line = scenario().lines().count() + 2;
    refused(&directory, &format!("forecast.scenario:{line}: unknown word \"x\""));
    put_back("forecast.scenario");

    let record = &whole["gateway-000.record"];
    let mut other = record.clone();
    other[40] ^= 1;
    fs::write(directory.join("gateway-000.record"), &other).unwrap();
    refused(&directory, "gateway-000.record: not the bytes that were written to it");
    fs::write(directory.join("gateway-000.record"), &record[..43]).unwrap();
    refused(&directory, "gateway-000.record: 43 bytes where the copy needs ");
    fs::remove_file(directory.join("gateway-000.record")).unwrap();
    refused(&directory, "gateway-000.record: No such file");
    put_back("gateway-000.record");

    let mut other = whole["gateway-003.record"].clone();
    other[40] ^= 1;
    fs::write(directory.join("gateway-003.record"), &other).unwrap();
    append(&directory.join("gateway-000.record"), &[63; 100]);
    refused(&directory, "gateway-003.record: not the bytes that were written to it");
    put_back("gateway-003.record");
    put_back("gateway-000.record");

    let other_build = directory.with_file_name("forecast");
    let copied =
        ["-c", "cp \"$0\" \"$1\" && printf x >>\"$1\"", FORECAST, other_build.to_str().unwrap()];
    assert_eq!(run("bash", &copied).status, Some(0));
    refused_by(&other_build, &directory, "forecast.copy: the copy was written by another build");

    let lock = File::open(&directory).unwrap();
    lock.lock().unwrap();
    refused(&directory, "another forecast runs in this directory");
    lock.unlock().unwrap();

    let end = begin(&file, &directory);
    assert_eq!((end.status, &end.output[..]), (Some(3), ""));
    assert!(end.error.contains("has a forecast that has not ended"), "{}", end.error);
    assert_eq!(different(&files(&directory), &whole), [""; 0]);

    assert_eq!(resume(&directory).status, Some(0));
    refused(&directory, "its forecast has ended, there is nothing to go on with");
    refused(&scratch("refused-empty"), "there is no copy of a forecast to go on from; begin anew");
    let end = run(FORECAST, &resume_words(&file));
    assert_eq!(end.refused(3), format!("{}: this is no directory\n", file.display()));
}

/// A forecast that has not ended is begun anew only where that is asked for; one that has is replaced.
#[test]
fn begun_anew() {
    let expected = undisturbed("anew-undisturbed");
    let (file, directory) = killed("anew");
    for ending in ["record", "purchasing", "maintenance"] {
        let name = format!("gateway-100.{ending}");
        fs::write(directory.join(name), b"of an earlier forecast").unwrap();
    }
    let mut anew = words(&[Path::new("--anew")]);
    anew.extend([file.as_os_str(), directory.as_os_str()]);
    assert_eq!(run(FORECAST, &anew).status, Some(0));
    assert_eq!(different(&files(&directory), &expected), [""; 0]);
    assert_eq!(begin(&file, &directory).status, Some(0));
    assert_eq!(different(&files(&directory), &expected), [""; 0]);
}
