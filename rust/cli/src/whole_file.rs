//! Files that are written whole or not at all.

use std::fs::{self, File, OpenOptions, Permissions};
use std::io::{self, ErrorKind, Read, Seek, Write};
use std::path::{Path, PathBuf};
use std::process;

/// How the name of every draft begins.
pub const DRAFT: &str = ".sehmelir-";

/// Puts bytes in the place of a file: into a draft beside it, which is synced
/// and then renamed, so that a crash or a full disk leaves the old file. What a
/// link points to is replaced, not the link. What is no ordinary file, as a
/// device or a pipe, cannot be replaced and is written as it is; and what may
/// not be written is not replaced either.
pub fn write(path: &Path, bytes: &[u8]) -> io::Result<()> {
    let place = path.canonicalize().unwrap_or_else(|_| path.to_owned());
    match fs::metadata(&place) {
        Ok(there) if !there.is_file() => OpenOptions::new()
            .write(true)
            .open(&place)?
            .write_all(bytes),
        Ok(there) if there.permissions().readonly() => Err(ErrorKind::PermissionDenied.into()),
        Ok(there) => replace(&place, bytes, Some(there.permissions())),
        Err(_) => replace(&place, bytes, None),
    }
}

/// Writes a draft and renames it, with the permissions of the file that it will
/// stand for.
fn replace(place: &Path, bytes: &[u8], permissions: Option<Permissions>) -> io::Result<()> {
    let mut draft = Draft::beside(place)?;
    draft.write(bytes)?;
    if let Some(permissions) = permissions {
        draft.file.set_permissions(permissions)?;
    }
    draft.put()
}

/// A file that will stand in the place of another, and till then beside it; one
/// that never comes to stand there is removed.
pub struct Draft<'a> {
    place: &'a Path,
    beside: PathBuf,
    file: File,
    put: bool,
}

impl Draft<'_> {
    /// A new file beside another, under a name that is not taken: an earlier run
    /// that was killed may have left its own.
    pub fn beside(place: &Path) -> io::Result<Draft<'_>> {
        let mut count = 0;
        loop {
            let beside = place.with_file_name(format!("{DRAFT}{}-{count}", process::id()));
            let mut open = OpenOptions::new();
            match open.read(true).write(true).create_new(true).open(&beside) {
                Err(error) if error.kind() == ErrorKind::AlreadyExists => count += 1,
                opened => {
                    return opened.map(|file| Draft {
                        place,
                        beside,
                        file,
                        put: false,
                    })
                }
            }
        }
    }

    /// Writes bytes after those that are there.
    pub fn write(&mut self, bytes: &[u8]) -> io::Result<()> {
        self.file.write_all(bytes)
    }

    /// Syncs what was written.
    pub fn sync(&self) -> io::Result<()> {
        self.file.sync_all()
    }

    /// Reads back what the file holds from its start on, as many bytes as these.
    pub fn read_back(&mut self, bytes: &mut [u8]) -> io::Result<()> {
        self.file.rewind()?;
        self.file.read_exact(bytes)
    }

    /// Syncs it and puts it in its place.
    pub fn put(mut self) -> io::Result<()> {
        self.sync()?;
        fs::rename(&self.beside, self.place)?;
        self.put = true;
        Ok(())
    }
}

impl Drop for Draft<'_> {
    fn drop(&mut self) {
        if !self.put {
            // what went wrong is told already
            let _ = fs::remove_file(&self.beside);
        }
    }
}
