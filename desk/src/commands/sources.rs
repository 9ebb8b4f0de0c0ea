//! The files that a command reads texts from.

use crate::pieces::Pieces;
use crate::trouble::{Doing, Trouble};
use std::ffi::OsString;
use std::fs::File;
use std::io::{self, Read};
use std::os::fd::AsFd;
use std::os::unix::ffi::OsStrExt;
use std::path::Path;

/// An input, with the name by which it is quoted.
pub struct Source {
    pub name: Vec<u8>,
    /// The file, where it is one and not standard input.
    pub file: Option<File>,
}

impl Source {
    /// The inputs of some names, all opened before any is read; `-` is standard input.
    pub fn open(names: &[OsString]) -> Result<Vec<Source>, Trouble> {
        names.iter().map(Source::of).collect()
    }

    fn of(name: &OsString) -> Result<Source, Trouble> {
        let bytes = name.as_bytes().to_vec();
        if bytes == b"-" {
            return Ok(Source {
                name: bytes,
                file: None,
            });
        }
        let path = Path::new(name);
        let file = File::open(path).map_err(|error| Trouble::file(path, Doing::Open, error))?;
        let data = file
            .metadata()
            .map_err(|error| Trouble::file(path, Doing::Read, error))?;
        if data.is_dir() {
            let error = io::Error::from(io::ErrorKind::IsADirectory);
            return Err(Trouble::file(path, Doing::Read, error));
        }
        Ok(Source {
            name: bytes,
            file: Some(file),
        })
    }

    /// What it is read from.
    pub fn open_file(&self) -> io::Result<File> {
        match &self.file {
            Some(file) => file.try_clone(),
            None => Ok(File::from(io::stdin().as_fd().try_clone_to_owned()?)),
        }
    }

    /// The texts of the input; of standard input what was not read before.
    pub fn pieces(self, input: &mut Option<Box<dyn Read>>) -> Pieces<Box<dyn Read>> {
        match self.file {
            Some(file) => Pieces::new(Box::new(file)),
            None => Pieces::new(input.take().unwrap_or_else(|| Box::new(io::empty()))),
        }
    }
}
