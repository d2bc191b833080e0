//! The directory of a forecast: its scenario, its records, the copy to go on from, and what is made of the records at the end, the
//! views of them included.

use crate::record_files::{name, BadFile};
use crate::scenario::MOST_GATEWAYS;
use crate::view::READERS;
use std::fs::{self, File, TryLockError};
use std::io::{self, BufWriter, Write};
use std::path::{Path, PathBuf};

/// The scenario, as it was when the forecast began.
const SCENARIO: &str = "forecast.scenario";

/// The copy to go on from. It is there from the forecast's beginning to its end.
const COPY: &str = "forecast.copy";

/// What is made of all the records; views are made of each.
pub const RESULTS: [&str; 7] = [
    "report.html",
    "years.csv",
    "months.csv",
    "drivers.csv",
    "balance.csv",
    "lamps.csv",
    "places.csv",
];

/// A directory in which no other forecast runs as long as this is held.
pub struct Directory {
    path: PathBuf,
    /// The directory itself, locked.
    handle: File,
}

impl Directory {
    /// The directory of this name, which is made where there is none.
    pub fn make(path: &Path) -> Result<Directory, BadFile> {
        match fs::create_dir_all(path) {
            Err(error) if !path.exists() => Err(BadFile::new(path, error)),
            _ => Directory::open(path),
        }
    }

    /// The directory of this name, if no forecast runs in it. Where the file system has no locks, that is not known.
    pub fn open(path: &Path) -> Result<Directory, BadFile> {
        let handle = File::open(path).map_err(|error| BadFile::new(path, error))?;
        if !path.is_dir() {
            return Err(BadFile::new(path, "this is no directory"));
        }
        if let Err(TryLockError::WouldBlock) = handle.try_lock() {
            return Err(BadFile::new(path, "another forecast runs in this directory"));
        }
        Ok(Directory { path: path.into(), handle })
    }

    pub fn path(&self) -> &Path {
        &self.path
    }

    /// Whether there is a forecast in it that has not ended.
    pub fn has_copy(&self) -> bool {
        self.copy_path().exists()
    }

    /// Whether there is one that has, of this or an earlier version: the first of the results is written last.
    pub fn has_results(&self) -> bool {
        self.path.join(RESULTS[0]).exists()
    }

    /// Removes what an earlier forecast has left, the copy first.
    pub fn clear(&self) -> Result<(), BadFile> {
        self.remove(COPY)?;
        self.sync()?;
        for name in RESULTS {
            self.remove(name)?;
        }
        for gateway in 0..MOST_GATEWAYS {
            self.remove(&name(gateway))?;
            for reader in READERS {
                self.remove(&reader.file_name(gateway))?;
            }
        }
        Ok(())
    }

    pub fn keep_scenario(&self, text: &str) -> Result<(), BadFile> {
        self.replace(SCENARIO, text.as_bytes())
    }

    pub fn scenario(&self) -> Result<String, BadFile> {
        let path = self.scenario_path();
        fs::read_to_string(&path).map_err(|error| BadFile::new(&path, error))
    }

    pub fn scenario_path(&self) -> PathBuf {
        self.path.join(SCENARIO)
    }

    pub fn keep_copy(&self, copy: &[u8]) -> Result<(), BadFile> {
        self.replace(COPY, copy)
    }

    pub fn copy(&self) -> Result<Vec<u8>, BadFile> {
        let path = self.copy_path();
        fs::read(&path).map_err(|error| BadFile::new(&path, error))
    }

    pub fn copy_path(&self) -> PathBuf {
        self.path.join(COPY)
    }

    /// The forecast has ended: there is nothing to go on from any more.
    pub fn remove_copy(&self) -> Result<(), BadFile> {
        self.remove(COPY)
    }

    /// Writes a file of results.
    pub fn write(
        &self,
        name: &str,
        content: impl FnOnce(&mut BufWriter<File>) -> io::Result<()>,
    ) -> Result<(), BadFile> {
        let path = self.path.join(name);
        let written = File::create(&path).and_then(|file| {
            let mut file = BufWriter::new(file);
            content(&mut file)?;
            file.flush()?;
            file.get_ref().sync_data()
        });
        written.map_err(|error| BadFile::new(&path, error))
    }

    /// What was written and removed is so on the disk.
    pub fn sync(&self) -> Result<(), BadFile> {
        self.handle.sync_all().map_err(|error| BadFile::new(&self.path, error))
    }

    /// Puts new bytes in a file's place, so that at every moment the old ones or the new ones are there, whole: they are
    /// written to a new file, which takes the name of the old one once it is on the disk.
    fn replace(&self, name: &str, bytes: &[u8]) -> Result<(), BadFile> {
        let path = self.path.join(name);
        let new = self.path.join(format!("{name}.new"));
        let replaced = File::create(&new).and_then(|mut file| {
            file.write_all(bytes)?;
            file.sync_all()?;
            fs::rename(&new, &path)?;
            self.handle.sync_all()
        });
        replaced.map_err(|error| BadFile::new(&path, error))
    }

    /// Removes a file and what a stop in the middle of replacing it has left.
    fn remove(&self, name: &str) -> Result<(), BadFile> {
        for name in [name.to_string(), format!("{name}.new")] {
            let path = self.path.join(name);
            match fs::remove_file(&path) {
                Err(error) if error.kind() != io::ErrorKind::NotFound => {
                    return Err(BadFile::new(&path, error));
                }
                _ => {}
            }
        }
        Ok(())
    }
}
