//! The record files of a forecast: one for each gateway, to which its committed events are added.

use crate::digest::Digest;
use std::fmt;
use std::fs::{File, OpenOptions};
use std::io::{self, BufReader, BufWriter, Read, Seek, SeekFrom, Write};
use std::path::{Path, PathBuf};

/// How much has been written to a record file, and the digest of it.
#[derive(Clone, Copy, Debug, PartialEq, Eq)]
pub struct Extent {
    pub length: u64,
    pub digest: Digest,
}

impl Extent {
    const NOTHING: Extent = Extent { length: 0, digest: Digest::EMPTY };

    fn add(&mut self, bytes: &[u8]) {
        self.length += bytes.len() as u64;
        self.digest.add(bytes);
    }
}

/// What is wrong with a file, and with which.
#[derive(Debug)]
pub struct BadFile {
    pub path: PathBuf,
    pub what: String,
}

impl BadFile {
    pub fn new(path: &Path, what: impl ToString) -> BadFile {
        BadFile { path: path.into(), what: what.to_string() }
    }
}

impl fmt::Display for BadFile {
    fn fmt(&self, formatter: &mut fmt::Formatter) -> fmt::Result {
        write!(formatter, "{}: {}", self.path.display(), self.what)
    }
}

struct RecordFile {
    path: PathBuf,
    file: BufWriter<File>,
    extent: Extent,
}

/// The record files, open for more.
pub struct RecordFiles {
    files: Vec<RecordFile>,
    /// The first error of a file to which something could not be added.
    error: Option<BadFile>,
}

/// The name of a gateway's record file.
pub fn name(gateway: usize) -> String {
    format!("gateway-{gateway:03}.record")
}

impl RecordFiles {
    /// Empty files for so many gateways.
    pub fn create(directory: &Path, gateways: usize) -> Result<RecordFiles, BadFile> {
        let create = |gateway| {
            let path = directory.join(name(gateway));
            let file = File::create(&path).map_err(|error| BadFile::new(&path, error))?;
            Ok(RecordFile { path, file: BufWriter::new(file), extent: Extent::NOTHING })
        };
        let files = (0..gateways).map(create).collect::<Result<_, BadFile>>()?;
        Ok(RecordFiles { files, error: None })
    }

    /// The files as they were when they had these extents; what was added since is cut off. None is cut unless all have had them.
    pub fn cut_back(directory: &Path, extents: &[Extent]) -> Result<RecordFiles, BadFile> {
        let open = |(gateway, &extent): (usize, &Extent)| {
            let path = directory.join(name(gateway));
            let opened = open_with(&path, extent);
            let file = opened.map_err(|what| BadFile { path: path.clone(), what })?;
            Ok(RecordFile { path, file: BufWriter::new(file), extent })
        };
        let mut files =
            extents.iter().enumerate().map(open).collect::<Result<Vec<_>, BadFile>>()?;
        for RecordFile { path, file, extent } in &mut files {
            cut(file.get_mut(), extent.length).map_err(|error| BadFile::new(path, error))?;
        }
        Ok(RecordFiles { files, error: None })
    }

    /// Adds committed bytes to a gateway's record. An error shows at the next check.
    pub fn add(&mut self, gateway: usize, bytes: &[u8]) {
        let RecordFile { path, file, extent } = &mut self.files[gateway];
        extent.add(bytes);
        if let Err(error) = file.write_all(bytes) {
            self.error.get_or_insert_with(|| BadFile::new(path, error));
        }
    }

    /// Whether everything could be added so far.
    pub fn check(&mut self) -> Result<(), BadFile> {
        self.error.take().map_or(Ok(()), Err)
    }

    /// All that was added is on the disk.
    pub fn sync(&mut self) -> Result<(), BadFile> {
        self.check()?;
        for RecordFile { path, file, .. } in &mut self.files {
            let synced = file.flush().and_then(|()| file.get_ref().sync_data());
            synced.map_err(|error| BadFile::new(path, error))?;
        }
        Ok(())
    }

    pub fn extents(&self) -> Vec<Extent> {
        self.files.iter().map(|file| file.extent).collect()
    }
}

/// A file that has had this extent.
fn open_with(path: &Path, extent: Extent) -> Result<File, String> {
    let opened = OpenOptions::new().read(true).write(true).open(path);
    let file = opened.map_err(|error| error.to_string())?;
    let begin = begin_of(&file, extent.length).map_err(|error| error.to_string())?;
    if begin.length < extent.length {
        return Err(format!("{} bytes where the copy needs {}", begin.length, extent.length));
    }
    if begin.digest != extent.digest {
        return Err("not the bytes that were written to it".into());
    }
    Ok(file)
}

/// The extent of a file's first bytes, up to so many.
fn begin_of(file: &File, length: u64) -> io::Result<Extent> {
    let mut begin = Extent::NOTHING;
    let mut reader = BufReader::new(file).take(length);
    let mut bytes = [0; 1 << 16];
    loop {
        match reader.read(&mut bytes) {
            Ok(0) => return Ok(begin),
            Ok(count) => begin.add(&bytes[..count]),
            Err(error) if error.kind() == io::ErrorKind::Interrupted => {}
            Err(error) => return Err(error),
        }
    }
}

/// Cuts a file, which goes on behind its end.
fn cut(file: &mut File, length: u64) -> io::Result<()> {
    file.set_len(length)?;
    file.seek(SeekFrom::Start(length)).map(drop)
}
