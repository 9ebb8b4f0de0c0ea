//! The file that a journal is in.

use crate::trouble::{Doing, Trouble};
use std::fs::{self, File, Metadata, OpenOptions, TryLockError};
use std::io::{self, Read, Seek, SeekFrom, Write};
use std::os::unix::ffi::OsStrExt;
use std::os::unix::fs::MetadataExt;
use std::path::{Path, PathBuf};
use std::thread::sleep;
use std::time::{Duration, Instant};

/// What a journal asks of the file that it is in.
pub trait Disk {
    /// Its bytes, from the first on.
    fn bytes(&self) -> io::Result<Box<dyn Read + '_>>;
    /// How many there are.
    fn length(&self) -> io::Result<u64>;
    /// Writes bytes after its last; where that fails, some of them may be written.
    fn append(&mut self, bytes: &[u8]) -> io::Result<()>;
    /// Returns when all that was written is on disk.
    fn sync(&mut self) -> io::Result<()>;
    /// Leaves the first bytes, so many of them, and returns when this is on disk.
    fn cut(&mut self, length: u64) -> io::Result<()>;
    /// Returns when the file's name is on disk.
    fn sync_name(&mut self) -> io::Result<()>;
}

/// A file that nobody else writes to meanwhile.
pub struct OnDisk {
    file: File,
    folder: File,
    path: PathBuf,
}

/// How often a file is opened again where another was put in its place.
const TRIES: usize = 8;

impl OnDisk {
    /// Opens a journal's file for writing, or makes it, and locks it; waits so long for whoever has the lock.
    pub fn open(path: &Path, wait: Duration) -> Result<OnDisk, Trouble> {
        let trouble = |error| Trouble::file(path, Doing::Change, error);
        let until = Instant::now().checked_add(wait);
        if path.as_os_str().as_bytes() == b"-" {
            let why = "a journal is a file; - is standard input";
            return Err(Trouble::usage(why));
        }
        let mut options = OpenOptions::new();
        options.read(true).append(true).create(true);
        for _ in 0..TRIES {
            regular(path, true)?;
            let disk = OnDisk::of(path, &options).map_err(trouble)?;
            lock(path, &disk.file, until)?;
            // whoever had the lock may have put another file in its place
            if disk.has_name().map_err(trouble)? {
                return Ok(disk);
            }
        }
        Err(trouble(io::Error::other(
            "another file had its name each time",
        )))
    }

    /// Makes a journal's file, which must not be there.
    pub fn make(path: &Path) -> Result<OnDisk, Trouble> {
        let mut options = OpenOptions::new();
        options.read(true).append(true).create_new(true);
        let disk = OnDisk::of(path, &options);
        let disk = disk.map_err(|error| Trouble::file(path, Doing::Make, error))?;
        lock(path, &disk.file, Some(Instant::now()))?;
        Ok(disk)
    }

    /// Opens a file, with the folder that its own name stands in. It is not made where the folder cannot be opened.
    fn of(path: &Path, options: &OpenOptions) -> io::Result<OnDisk> {
        let parent = path
            .parent()
            .filter(|parent| !parent.as_os_str().is_empty());
        File::open(parent.unwrap_or(Path::new(".")))?;
        let file = options.open(path)?;
        // behind a link the name is in another folder
        let real = fs::canonicalize(path)?;
        let folder = File::open(real.parent().unwrap_or(Path::new("/")))?;
        let path = path.to_owned();
        Ok(OnDisk { file, folder, path })
    }

    /// Whether a file is this one.
    pub fn is(&self, other: &File) -> io::Result<bool> {
        self.has(&other.metadata()?)
    }

    /// Whether its name is still that of this file.
    fn has_name(&self) -> io::Result<bool> {
        match fs::metadata(&self.path) {
            Err(error) if error.kind() == io::ErrorKind::NotFound => Ok(false),
            data => self.has(&data?),
        }
    }

    fn has(&self, other: &Metadata) -> io::Result<bool> {
        let one = self.file.metadata()?;
        Ok((one.dev(), one.ino()) == (other.dev(), other.ino()))
    }
}

impl Disk for OnDisk {
    fn bytes(&self) -> io::Result<Box<dyn Read + '_>> {
        let mut file = &self.file;
        file.seek(SeekFrom::Start(0))?;
        Ok(Box::new(file))
    }

    fn length(&self) -> io::Result<u64> {
        Ok(self.file.metadata()?.len())
    }

    fn append(&mut self, bytes: &[u8]) -> io::Result<()> {
        if !self.has_name()? {
            return Err(io::Error::other("its name is no longer that of this file"));
        }
        self.file.write_all(bytes)
    }

    fn sync(&mut self) -> io::Result<()> {
        self.file.sync_data()
    }

    fn cut(&mut self, length: u64) -> io::Result<()> {
        self.file.set_len(length)?;
        self.file.sync_all()
    }

    fn sync_name(&mut self) -> io::Result<()> {
        self.folder.sync_all()
    }
}

/// Opens a journal's file for reading: it must be there.
pub fn open_to_read(path: &Path) -> Result<File, Trouble> {
    regular(path, false)?;
    File::open(path).map_err(|error| Trouble::file(path, Doing::Find, error))
}

/// Tells where a path is there and no file that keeps bytes, or need be there and is not.
fn regular(path: &Path, may_miss: bool) -> Result<(), Trouble> {
    match fs::metadata(path) {
        Ok(data) if data.is_file() => Ok(()),
        Ok(_) => Err(Trouble::NoFile(name(path))),
        Err(error) if may_miss && error.kind() == io::ErrorKind::NotFound => Ok(()),
        Err(error) if may_miss => Err(Trouble::file(path, Doing::Change, error)),
        Err(error) => Err(Trouble::file(path, Doing::Find, error)),
    }
}

/// Locks a file; waits for whoever has the lock until a time, or for ever.
fn lock(path: &Path, file: &File, until: Option<Instant>) -> Result<(), Trouble> {
    loop {
        match file.try_lock() {
            Ok(()) => return Ok(()),
            Err(TryLockError::Error(error)) => return Err(Trouble::file(path, Doing::Lock, error)),
            Err(TryLockError::WouldBlock) if until.is_some_and(|until| Instant::now() >= until) => {
                return Err(Trouble::Busy(name(path)))
            }
            Err(TryLockError::WouldBlock) => sleep(Duration::from_millis(20)),
        }
    }
}

fn name(path: &Path) -> Vec<u8> {
    path.as_os_str().as_bytes().to_vec()
}
