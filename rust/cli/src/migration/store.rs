//! The directory of the tiles: what a run was asked for, which of its groups are
//! done, and the manifest.
//!
//! A group that is done has its lines of the manifest in a file of its own, its
//! part, which comes after its tiles. When all are done the manifest is made of
//! the parts, and they go. Every file is written beside, synced and renamed, so a
//! run that was stopped has whole files alone, and drafts, which the next start
//! removes, together with tiles whose group has no part.

use super::archive::Archive;
use super::manifest::{Outcome, Tally, HEADER};
use super::{Asked, Job};
use crate::failure::Failure;
use crate::whole_file::{self, Draft, DRAFT};
use sehmelir::table_bytes;
use std::collections::{BTreeMap, HashSet};
use std::ffi::{OsStr, OsString};
use std::fs::{self, File, TryLockError};
use std::io::{self, BufRead, BufReader};
use std::path::{Path, PathBuf};

const SETTINGS: &str = "settings";
const PARTS: &str = "parts";
const MANIFEST: &str = "manifest.tsv";

/// A directory of tiles that no other run is at work on.
pub struct Store {
    directory: PathBuf,
    /// Holds the lock while it is open.
    _lock: File,
}

/// A group that is done: what it comes to, and its tiles, each with its length.
pub struct Done {
    pub tally: Tally,
    pub tiles: BTreeMap<String, usize>,
}

impl Store {
    /// The directory of a run, made if it is not there; its settings are those
    /// asked for, or written now.
    pub fn begin(directory: &Path, asked: &Asked) -> Result<Store, Failure> {
        fs::create_dir_all(directory).map_err(|error| Failure::Unwritten(error).of(directory))?;
        let store = Store::open(directory, File::try_lock)?;
        let settings = store.place(SETTINGS);
        match fs::read_to_string(&settings) {
            Ok(told) if told == asked.told() => {}
            Ok(told) => return Err(Failure::Settings(told, asked.told()).of(directory)),
            Err(error) if error.kind() == io::ErrorKind::NotFound => {
                store.is_empty()?;
                let written = whole_file::write(&settings, asked.told().as_bytes());
                written.map_err(|error| Failure::Unwritten(error).of(&settings))?;
            }
            Err(error) => return Err(Failure::Unread(error).of(&settings)),
        }
        let parts = store.place(PARTS);
        if !store.is_finished() {
            let made = fs::create_dir_all(&parts);
            made.map_err(|error| Failure::Unwritten(error).of(&parts))?;
        }
        Ok(store)
    }

    /// The directory of a run that was finished, and what it was asked for.
    pub fn finished(directory: &Path) -> Result<(Store, Asked), Failure> {
        let store = Store::open(directory, File::try_lock_shared)?;
        let settings = store.place(SETTINGS);
        let told = fs::read_to_string(&settings);
        let told = told.map_err(|error| Failure::Unread(error).of(&settings))?;
        let asked = Asked::of(&told).ok_or_else(|| Failure::Foreign.of(directory))?;
        match store.is_finished() {
            true => Ok((store, asked)),
            false => Err(Failure::Unfinished.of(directory)),
        }
    }

    /// A directory, with a lock on it.
    fn open(
        directory: &Path,
        try_lock: impl FnOnce(&File) -> Result<(), TryLockError>,
    ) -> Result<Store, Failure> {
        let unread = |error| Failure::Unread(error).of(directory);
        let lock = File::open(directory).map_err(unread)?;
        try_lock(&lock).map_err(|error| match error {
            TryLockError::WouldBlock => Failure::Busy.of(directory),
            TryLockError::Error(error) => unread(error),
        })?;
        Ok(Store {
            directory: directory.to_owned(),
            _lock: lock,
        })
    }

    pub fn place(&self, name: &str) -> PathBuf {
        self.directory.join(name)
    }

    /// The manifest, which is there when the run is finished.
    pub fn manifest(&self) -> PathBuf {
        self.place(MANIFEST)
    }

    pub fn is_finished(&self) -> bool {
        self.manifest().exists()
    }

    /// That nothing is there but drafts.
    fn is_empty(&self) -> Result<(), Failure> {
        let is_other = |name: &OsString| !name.to_string_lossy().starts_with(DRAFT);
        match names(&self.directory)?.iter().any(is_other) {
            true => Err(Failure::Foreign.of(&self.directory)),
            false => Ok(()),
        }
    }

    /// The tiles that are there.
    pub fn tiles(&self) -> Result<HashSet<String>, Failure> {
        let names = names(&self.directory)?.into_iter();
        let names = names.filter_map(|name| name.into_string().ok());
        Ok(names.filter(|name| name.ends_with(".tile")).collect())
    }

    /// Removes drafts, and tiles that no part names.
    pub fn clear(&self, kept: &HashSet<String>) -> Result<(), Failure> {
        for directory in [self.directory.clone(), self.place(PARTS)] {
            if !directory.exists() {
                continue;
            }
            for name in names(&directory)? {
                let told = name.to_string_lossy();
                let is_left = told.ends_with(".tile") && !kept.contains(&*told);
                if told.starts_with(DRAFT) || is_left {
                    let place = directory.join(&name);
                    let removed = fs::remove_file(&place);
                    removed.map_err(|error| Failure::Unwritten(error).of(&place))?;
                }
            }
        }
        Ok(())
    }

    fn part(&self, group: usize) -> PathBuf {
        self.place(PARTS).join(format!("{group:06}"))
    }

    /// Notes that a group is done: its tiles are in place.
    pub fn note(&self, group: usize, text: &[u8]) -> Result<(), Failure> {
        let place = self.part(group);
        let written = Draft::beside(&place).and_then(|mut draft| {
            draft.write(text)?;
            draft.put()
        });
        written.map_err(|error| Failure::Unwritten(error).of(&place))
    }

    /// A group that is done; none where it is not, or a tile of it is not as long
    /// as its outlines are.
    pub fn done(&self, job: &Job, group: usize) -> Result<Option<Done>, Failure> {
        let place = self.part(group);
        let Ok(text) = fs::read(&place) else {
            return Ok(None);
        };
        let (mut tally, mut last) = (Tally::default(), String::new());
        let mut tiles = BTreeMap::new();
        let mut lines = text.split_inclusive(|&byte| byte == b'\n');
        for file in job.group(group) {
            let line = lines.next().and_then(|line| line.strip_suffix(b"\n"));
            let Some((name, outcome)) = line.and_then(Outcome::of) else {
                return Ok(None);
            };
            if name != job.archive.name(file) {
                return Err(other_file(&self.directory, &name));
            }
            tally.count(&outcome, &mut last);
            if let Outcome::Taken { tile, bytes, .. } = outcome {
                *tiles.entry(tile).or_insert(table_bytes(job.asked.entries)) += bytes;
            }
        }
        if let Some((name, _)) = lines.next().and_then(Outcome::of) {
            return Err(other_file(&self.directory, &name));
        }
        let whole = tiles.iter().all(|(tile, &bytes)| self.has(tile, bytes));
        Ok(whole.then_some(Done { tally, tiles }))
    }

    /// Whether a tile is there, as long as its table and its outlines are.
    fn has(&self, tile: &str, bytes: usize) -> bool {
        fs::metadata(self.place(tile)).is_ok_and(|told| told.len() == bytes as u64)
    }

    /// Makes the manifest of so many parts.
    pub fn finish(&self, groups: usize) -> Result<(), Failure> {
        let manifest = self.manifest();
        let written = Draft::beside(&manifest).and_then(|mut draft| {
            draft.write(HEADER)?;
            for group in 0..groups {
                draft.write(&fs::read(self.part(group))?)?;
            }
            // the tiles' names, then the manifest's
            self.sync()?;
            draft.put()?;
            self.sync()
        });
        written.map_err(|error| Failure::Unwritten(error).of(&manifest))
    }

    /// Removes the parts of a run whose manifest is there.
    pub fn drop_parts(&self) -> Result<(), Failure> {
        let parts = self.place(PARTS);
        match fs::remove_dir_all(&parts) {
            Err(error) if error.kind() != io::ErrorKind::NotFound => {
                Err(Failure::Unwritten(error).of(&parts))
            }
            _ => Ok(()),
        }
    }

    fn sync(&self) -> io::Result<()> {
        File::open(&self.directory)?.sync_all()
    }

    /// The lines of the manifest, each with its file's name.
    pub fn lines(
        &self,
    ) -> Result<impl Iterator<Item = Result<(OsString, Outcome), Failure>>, Failure> {
        let place = self.manifest();
        let unread = {
            let place = place.clone();
            move |error| Failure::Unread(error).of(&place)
        };
        let damaged = move || Failure::NoManifest.of(&place);
        let file = File::open(self.manifest()).map_err(&unread)?;
        let mut lines = BufReader::new(file).split(b'\n');
        match lines.next() {
            Some(Ok(header)) if [&header[..], b"\n"].concat() == HEADER => {}
            _ => return Err(damaged()),
        }
        Ok(lines.map(move |line| {
            let line = line.map_err(&unread)?;
            Outcome::of(&line).ok_or_else(&damaged)
        }))
    }

    /// What a finished run came to: its manifest has the archive's files, and its
    /// tiles are there.
    pub fn tally(&self, archive: &Archive, asked: &Asked) -> Result<Tally, Failure> {
        let (mut tally, mut last) = (Tally::default(), String::new());
        let mut tile = None;
        for (file, line) in self.lines()?.enumerate() {
            let (name, outcome) = line?;
            if file >= archive.len() || name != archive.name(file) {
                return Err(other_file(&self.directory, &name));
            }
            tally.count(&outcome, &mut last);
            if let Outcome::Taken {
                tile: name, bytes, ..
            } = outcome
            {
                match &mut tile {
                    Some((same, length)) if *same == name => *length += bytes,
                    _ => {
                        self.is_whole(tile.take())?;
                        tile = Some((name, table_bytes(asked.entries) + bytes));
                    }
                }
            }
        }
        self.is_whole(tile)?;
        match archive.len() == tally.files() {
            true => Ok(tally),
            false => Err(other_file(&self.directory, archive.name(tally.files()))),
        }
    }
}

impl Store {
    /// That a tile, if there is one, is there and as long as it must be.
    fn is_whole(&self, tile: Option<(String, usize)>) -> Result<(), Failure> {
        match tile {
            Some((tile, bytes)) if !self.has(&tile, bytes) => {
                Err(Failure::NotWhole.of(&self.place(&tile)))
            }
            _ => Ok(()),
        }
    }
}

/// The failure where the archive's files are no longer those of the run.
fn other_file(directory: &Path, name: &OsStr) -> Failure {
    Failure::OtherFiles(name.to_owned()).of(directory)
}

/// The names in a directory.
fn names(directory: &Path) -> Result<Vec<OsString>, Failure> {
    let unread = |error| Failure::Unread(error).of(directory);
    let entries = fs::read_dir(directory).map_err(unread)?;
    let names = entries.map(|entry| Ok(entry?.file_name()));
    names.collect::<io::Result<_>>().map_err(unread)
}
