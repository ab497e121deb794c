//! Where input comes from.

use crate::failure::Failure;
use crate::memory;
use std::fs::File;
use std::io::{self, Read};
use std::os::fd::AsFd;
use std::path::{Path, PathBuf};

/// Room after the bytes, so that a sheet in them can grow where it stands.
const SPARE: usize = 256 << 10;

/// Standard input, or a file.
pub struct Source(Option<PathBuf>);

impl Source {
    /// The file of that name. None, or `-`, stands for standard input.
    pub fn named(file: Option<PathBuf>) -> Source {
        Source(file.filter(|file| file.as_os_str() != "-"))
    }

    /// The file of that name, whatever its name is.
    pub fn file(file: &Path) -> Source {
        Source(Some(file.to_owned()))
    }

    /// All of it, and what is made of it. A failure of either names the file.
    pub fn take<T>(&self, make: impl FnOnce(Vec<u8>) -> Result<T, Failure>) -> Result<T, Failure> {
        let taken = self.bytes().map_err(Failure::Unread).and_then(make);
        taken.map_err(|failure| match &self.0 {
            Some(file) => failure.of(file),
            None => failure,
        })
    }

    /// All of it. Standard input is read as the file that it may be, whose
    /// length is known: then the memory for it is asked for once.
    fn bytes(&self) -> io::Result<Vec<u8>> {
        let mut file = match &self.0 {
            Some(file) => File::open(file)?,
            None => File::from(io::stdin().as_fd().try_clone_to_owned()?),
        };
        let length = file.metadata().map_or(0, |told| told.len());
        let mut bytes = memory::room(length as usize + SPARE);
        file.read_to_end(&mut bytes)?;
        Ok(bytes)
    }
}
