//! A forecast that is kept in its directory while it runs, so that it can be gone on with after a crash.

use crate::carrier::{Carried, Forecast, Progress, Stopped};
use crate::checkpoint::{decode, encode, Checkpoint, Origin};
use crate::digest::Digest;
use crate::directory::Directory;
use crate::record_files::{BadFile, RecordFiles};
use crate::scenario::Scenario;
use interface::Calls;
use std::time::{Duration, Instant};

/// A forecast, its directory and its records.
pub struct Kept<C> {
    pub directory: Directory,
    pub scenario: Scenario,
    origin: Origin,
    forecast: Forecast<C>,
    records: RecordFiles,
    /// When the last copy was written.
    saved: Instant,
}

/// Why a forecast has not become whole.
#[derive(Debug)]
pub enum Unfinished {
    File(BadFile),
    Stopped(Stopped),
}

impl From<BadFile> for Unfinished {
    fn from(bad: BadFile) -> Unfinished {
        Unfinished::File(bad)
    }
}

impl From<Stopped> for Unfinished {
    fn from(stopped: Stopped) -> Unfinished {
        Unfinished::Stopped(stopped)
    }
}

impl<C: Calls> Kept<C> {
    /// Begins a forecast in a directory; what an earlier one has left there is removed. `build` is the program's digest.
    pub fn begin(
        calls: C,
        build: Digest,
        directory: Directory,
        text: &str,
        scenario: Scenario,
    ) -> Result<Kept<C>, Unfinished> {
        let forecast = Forecast::new(calls, &scenario)?;
        directory.clear()?;
        directory.keep_scenario(text)?;
        let records = RecordFiles::create(directory.path(), scenario.gateways.len())?;
        let origin = Origin { build, scenario: Digest::of(text.as_bytes()) };
        let saved = Instant::now();
        let mut kept = Kept { directory, scenario, origin, forecast, records, saved };
        kept.save()?;
        Ok(kept)
    }

    /// Goes on from the copy in a directory.
    pub fn resume(calls: C, build: Digest, directory: Directory) -> Result<Kept<C>, BadFile> {
        let copy = directory.copy()?;
        let text = directory.scenario()?;
        let scenario = Scenario::parse(&text).map_err(|bad| {
            let path = format!("{}:{}", directory.scenario_path().display(), bad.line);
            BadFile { path: path.into(), what: bad.what }
        })?;
        let origin = Origin { build, scenario: Digest::of(text.as_bytes()) };
        let Checkpoint { carried, records } = decode(&copy, origin, &scenario)
            .map_err(|why| BadFile::new(&directory.copy_path(), why))?;
        let records = RecordFiles::cut_back(directory.path(), &records)?;
        let forecast = Forecast::going_on(calls, carried);
        let saved = Instant::now();
        Ok(Kept { directory, scenario, origin, forecast, records, saved })
    }

    /// Runs until every record is whole. A copy is written each time that so much time has passed since the last one; `show` is
    /// called after each window.
    pub fn run(
        &mut self,
        every: Duration,
        mut show: impl FnMut(&Progress),
    ) -> Result<(), Unfinished> {
        while !self.forecast.is_over() {
            self.pass()?;
            show(&self.carried().progress);
            if self.saved.elapsed() >= every {
                self.save()?;
            }
        }
        Ok(())
    }

    fn pass(&mut self) -> Result<(), Unfinished> {
        let records = &mut self.records;
        self.forecast.pass(&mut |gateway, bytes| records.add(gateway, bytes))?;
        Ok(self.records.check()?)
    }

    /// Writes the copy to go on from, after the records on whose lengths it counts.
    fn save(&mut self) -> Result<(), BadFile> {
        self.records.sync()?;
        let copy = encode(self.origin, self.forecast.carried(), &self.records.extents());
        self.directory.keep_copy(&copy)?;
        self.saved = Instant::now();
        Ok(())
    }

    /// Brings the records to the disk and closes them; the directory, the scenario and all that there is of the forecast are left.
    pub fn close(mut self) -> Result<(Directory, Scenario, Carried), BadFile> {
        self.records.sync()?;
        Ok((self.directory, self.scenario, self.forecast.into_carried()))
    }

    /// All that there is of the forecast.
    pub fn carried(&self) -> &Carried {
        self.forecast.carried()
    }
}
