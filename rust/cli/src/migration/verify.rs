//! A finished run held against its archive: every line of the manifest is what
//! the file of its name gives, and what stands in the tiles is what the manifest
//! says and nothing else.

use super::archive::Archive;
use super::line::{difference, Back, Line, Trouble};
use super::manifest::{Outcome, Tally};
use super::progress::Progress;
use super::store::Store;
use super::{pool, say, Asked, Job};
use crate::failure::Failure;
use crate::sheet::Header;
use crate::tile::{self, Entry};
use rayon::prelude::*;
use sehmelir::{table_bytes, Refusal};
use std::collections::HashSet;
use std::ffi::OsString;
use std::fs;
use std::iter::from_fn;
use std::path::Path;

/// As many differences are told.
const MOST_TOLD: usize = 100;

/// A line of the manifest: the number of its file, the name, and what became of
/// it.
type Told = (usize, OsString, Outcome);

/// What a group of lines comes to: its counts, its tiles, and what differs.
#[derive(Default)]
struct Held {
    tally: Tally,
    tiles: HashSet<String>,
    faults: Vec<(usize, String)>,
}

impl Held {
    fn and(mut self, other: Held) -> Held {
        self.tally = self.tally.and(other.tally);
        self.tiles.extend(other.tiles);
        self.faults.extend(other.faults);
        self
    }
}

/// Verifies a finished run.
pub fn run(tiles: &Path, old: &Path) -> Result<(Tally, Store), Failure> {
    let (store, asked) = Store::finished(tiles)?;
    let archive = Archive::of(old, asked.keys)?;
    let job = Job {
        progress: Progress::new(archive.len()),
        archive,
        asked,
        tiles: tiles.to_owned(),
    };
    let groups = groups(&store, job.asked.entries as usize)?;
    let held = job.progress.during(|| {
        pool()?.install(|| {
            let held = groups.par_bridge().map(|lines| of_group(&job, lines?));
            held.try_reduce(Held::default, |one, other| Ok(one.and(other)))
        })
    })?;
    let Held {
        tally,
        tiles: named,
        mut faults,
    } = held;
    for file in tally.files()..job.archive.len() {
        let name = job.archive.name(file).display();
        faults.push((file, format!("{name}: the manifest does not have it")));
    }
    let mut others: Vec<String> = store.tiles()?.difference(&named).cloned().collect();
    others.sort_unstable();
    let other = |tile| (usize::MAX, format!("{tile}: the manifest does not have it"));
    faults.extend(others.into_iter().map(other));
    if !faults.is_empty() {
        return Err(Failure::Fault(told(faults)));
    }
    say(&format!(
        "{}each line stands in its tile and exports as the old one, bit for bit, minus zero apart; \
         each refused file is refused again\n",
        tally.told()
    ))?;
    Ok((tally, store))
}

/// The lines of the manifest, a group at a time.
fn groups(
    store: &Store,
    each: usize,
) -> Result<impl Iterator<Item = Result<Vec<Told>, Failure>> + Send, Failure> {
    let mut lines = store.lines()?.enumerate();
    Ok(from_fn(move || {
        let group = lines.by_ref().take(each);
        let group = group.map(|(file, line)| line.map(|(name, outcome)| (file, name, outcome)));
        let group: Result<Vec<Told>, Failure> = group.collect();
        match group {
            Ok(lines) if lines.is_empty() => None,
            group => Some(group),
        }
    }))
}

/// Holds a group of lines against files and tiles.
fn of_group(job: &Job, lines: Vec<Told>) -> Result<Held, Failure> {
    let mut held = Held::default();
    let mut memory = (Line::new(), Back::new());
    let mut tile = Tile::default();
    let mut last = String::new();
    for (file, name, outcome) in lines {
        held.tally.count(&outcome, &mut last);
        job.progress.count(&outcome);
        let fault = |told| (file, format!("{}: {told}", name.display()));
        if file >= job.archive.len() || name != job.archive.name(file) {
            let told = "the archive does not have it at this place".to_string();
            held.faults.push(fault(told));
            continue;
        }
        if last != tile.name {
            held.faults.extend(tile.left(file));
            tile = Tile::of(job, &last).unwrap_or_else(|told| {
                held.faults.push((file, format!("{last}: {told}")));
                Tile::unread(&last)
            });
            held.tiles.insert(last.clone());
        }
        let told = match &outcome {
            Outcome::Taken { .. } => taken(job, file, &outcome, &mut tile, &mut memory),
            Outcome::Refused { .. } => refused(job, file, &outcome, &mut memory.0),
        };
        match told {
            Ok(()) => {}
            Err(Trouble::OfFile(told)) => held.faults.push(fault(told.to_string())),
            Err(Trouble::OfRun(failure)) => return Err(failure),
        }
    }
    held.faults.extend(tile.left(usize::MAX));
    Ok(held)
}

/// A tile at hand: its bytes, and its entries that no line has named yet.
#[derive(Default)]
struct Tile {
    name: String,
    bytes: Vec<u8>,
    entries: std::vec::IntoIter<Entry>,
    /// Whether it could not be read, which is told already.
    is_unread: bool,
}

impl Tile {
    /// The tile of a name, if it is not longer than its table and lines can be.
    fn of(job: &Job, name: &str) -> Result<Tile, Failure> {
        let place = job.tiles.join(name);
        let told = fs::metadata(&place).map_err(Failure::Unread)?;
        if told.len() > job.asked.bytes as u64 {
            let due = format!(
                "it has {} bytes, and at most {} are due",
                told.len(),
                job.asked.bytes
            );
            return Err(Failure::Fault(due));
        }
        let bytes = fs::read(&place).map_err(Failure::Unread)?;
        let entries = tile::entries(&bytes)?.into_iter();
        Ok(Tile {
            name: name.to_string(),
            bytes,
            entries,
            is_unread: false,
        })
    }

    fn unread(name: &str) -> Tile {
        Tile {
            name: name.to_string(),
            is_unread: true,
            ..Tile::default()
        }
    }

    /// What is wrong if entries are left when all its lines were met.
    fn left(&mut self, file: usize) -> Option<(usize, String)> {
        let entry = self.entries.next()?;
        let told = format!("{}: key {} is not in the manifest", self.name, entry.key);
        Some((file, told))
    }
}

/// Holds a line that was taken against its file and its tile.
fn taken(
    job: &Job,
    file: usize,
    outcome: &Outcome,
    tile: &mut Tile,
    (line, back): &mut (Line, Back),
) -> Result<(), Trouble> {
    if tile.is_unread {
        return Ok(());
    }
    let fault = |told: String| Trouble::OfFile(Failure::Fault(told));
    let Some(entry) = tile.entries.next() else {
        return Err(fault(format!("{} does not have it", tile.name)));
    };
    line.read(&job.archive.path(file))?;
    let outline = &tile.bytes[entry.range()];
    let told = difference(outline, line.floats(), job.asked.grade, back);
    told.map_err(|told| fault(format!("key {} in {}: {told}", entry.key, tile.name)))?;
    let due = Outcome::Taken {
        tile: tile.name.clone(),
        key: entry.key,
        vertices: line.floats().len() / 3,
        edges: Header::of(outline).map_or(0, |header| header.edges),
        bytes: entry.length,
    };
    match *outcome == due && job.archive.key(file)? == entry.key {
        true => Ok(()),
        false => Err(fault(
            "the manifest does not say what is in the tile".to_string(),
        )),
    }
}

/// Holds a refusal against what the file gives now.
fn refused(job: &Job, file: usize, outcome: &Outcome, line: &mut Line) -> Result<(), Trouble> {
    let now = match again(job, file, line) {
        Err(Trouble::OfFile(failure)) => failure,
        Err(of_run) => return Err(of_run),
        Ok(()) => {
            return Err(Failure::Fault("it is refused, and could be taken".to_string()).into())
        }
    };
    match Outcome::refused(&now) == *outcome {
        true => Ok(()),
        false => Err(Failure::Fault(format!("it is refused otherwise now: {now}")).into()),
    }
}

/// Whether a file could be taken, or why not: keep, over no room, counts.
fn again(job: &Job, file: usize, line: &mut Line) -> Result<(), Trouble> {
    job.archive.key(file)?;
    let path = line.take(&job.archive.path(file))?;
    let Asked {
        grade,
        entries,
        bytes,
        ..
    } = job.asked;
    let most = bytes - table_bytes(entries);
    match sehmelir::keep(path, grade, &mut []) {
        Err(Refusal::NoRoom(bytes)) if bytes <= most => Ok(()),
        Err(Refusal::NoRoom(bytes)) => Err(Failure::LongerThanTile(bytes, most).into()),
        kept => Ok(kept.map(|_| ()).map_err(Failure::Refused)?),
    }
}

/// What differs, in the manifest's order.
fn told(mut faults: Vec<(usize, String)>) -> String {
    faults.sort_unstable();
    let count = faults.len();
    let mut lines: Vec<String> = faults
        .into_iter()
        .map(|(_, told)| format!("FAULT: {told}"))
        .collect();
    if count > MOST_TOLD {
        lines.truncate(MOST_TOLD);
        lines.push(format!("FAULT: and {} more", count - MOST_TOLD));
    }
    lines.join("\n")
}
