//! Where the result goes.

use crate::failure::Failure;
use crate::whole_file;
use clap::Args;
use std::fs::File;
use std::io::{self, Write};
use std::os::fd::AsFd;
use std::path::PathBuf;

/// Standard output, or a file.
#[derive(Args)]
pub struct Destination {
    /// Write the result to this file, whole or not at all
    #[arg(short = 'o', long = "output", value_name = "FILE")]
    file: Option<PathBuf>,
}

impl Destination {
    /// Standard output.
    pub fn standard() -> Destination {
        Destination { file: None }
    }

    /// The file of that name.
    pub fn file(name: &str) -> Destination {
        Destination {
            file: Some(PathBuf::from(name)),
        }
    }

    /// Writes the result. A failure names the file.
    pub fn write(&self, result: &[u8]) -> Result<(), Failure> {
        match &self.file {
            Some(file) => {
                whole_file::write(file, result).map_err(|error| Failure::Unwritten(error).of(file))
            }
            None => write_standard(result).map_err(Failure::Unwritten),
        }
    }
}

/// Writes to standard output at once: the standard library's own handle looks
/// for line ends in what may be a hundred million bytes.
fn write_standard(result: &[u8]) -> io::Result<()> {
    File::from(io::stdout().as_fd().try_clone_to_owned()?).write_all(result)
}
