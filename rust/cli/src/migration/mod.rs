//! The migration of an archive: old chunks in, tiles of outlines out, and a
//! manifest that names every file.

mod archive;
mod line;
mod manifest;
mod progress;
mod store;
mod verify;
mod worker;

use crate::calls;
use crate::destination::Destination;
use crate::failure::Failure;
use crate::ranges::{counted, number};
use crate::stack;
use crate::words::whole;
use archive::{Archive, Keys};
use clap::Args;
use manifest::Tally;
use progress::Progress;
use rayon::prelude::*;
use rayon::{ThreadPool, ThreadPoolBuilder};
use sehmelir::{table_bytes, MOST_ENTRIES};
use std::collections::HashSet;
use std::env;
use std::io;
use std::ops::Range;
use std::path::{absolute, Path, PathBuf};
use std::sync::Mutex;
use std::thread::available_parallelism;
use store::Store;
use worker::Worker;

/// What migrate takes.
#[derive(Args)]
pub struct Migrating {
    /// The old archive: each file in it is one line of the oldest chunks
    #[arg(value_name = "OLD_DIR")]
    old: PathBuf,
    /// Where tiles and manifest go; a run that was stopped there goes on
    #[arg(
        short = 'o',
        long = "output",
        value_name = "TILE_DIR",
        required_unless_present = "verify"
    )]
    tiles: Option<PathBuf>,
    /// How finely arcs are drawn, 8 is the finest
    #[arg(
        long,
        allow_negative_numbers = true,
        required_unless_present = "verify"
    )]
    grade: Option<String>,
    /// Where a line's key comes from
    #[arg(long, value_enum, default_value = "name")]
    keys: Keys,
    /// How many lines a tile has room for: 1 to 1024
    #[arg(long, default_value = "1024", allow_negative_numbers = true)]
    entries: String,
    /// How long a tile may be; 134217728 are enough for any line
    #[arg(long, default_value = "134217728", allow_negative_numbers = true)]
    bytes: String,
    /// Hold the tiles and the manifest of a finished run against the archive, and
    /// write nothing
    #[arg(long, value_name = "TILE_DIR", conflicts_with_all = ["tiles", "grade"])]
    verify: Option<PathBuf>,
}

/// What decides what the tiles hold.
#[derive(Clone, Debug, PartialEq)]
pub struct Asked {
    grade: u32,
    keys: Keys,
    entries: u32,
    bytes: usize,
}

impl Asked {
    /// What the arguments ask for. Which grades there are is the library's test.
    fn from(asked: &Migrating) -> Result<Asked, Failure> {
        let due = Failure::Words(
            "--grade, --entries and --bytes are whole numbers, --entries 1 to 1024, \
             --bytes at most 4294967295 and enough for a table",
        );
        let word = |word: &str| whole::<u32>(word.as_bytes());
        let grade = asked.grade.as_deref().and_then(word);
        let (Some(grade), Some(entries), Some(bytes)) =
            (grade, word(&asked.entries), word(&asked.bytes))
        else {
            return Err(due);
        };
        let bytes = bytes as usize;
        if !(1..=MOST_ENTRIES).contains(&entries) || bytes < table_bytes(entries) {
            return Err(due);
        }
        calls::keep(&[], grade)?;
        Ok(Asked {
            grade,
            keys: asked.keys,
            entries,
            bytes,
        })
    }

    /// The same as text, a setting a line.
    fn told(&self) -> String {
        let keys = match self.keys {
            Keys::Name => "name",
            Keys::Running => "running",
        };
        format!(
            "grade {}\nkeys {keys}\nentries {}\nbytes {}\n",
            self.grade, self.entries, self.bytes
        )
    }

    /// The settings of a text.
    fn of(told: &str) -> Option<Asked> {
        let words: Vec<&str> = told.split_whitespace().collect();
        let ["grade", grade, "keys", keys, "entries", entries, "bytes", bytes] = words[..] else {
            return None;
        };
        let asked = Asked {
            grade: whole(grade.as_bytes())?,
            keys: match keys {
                "name" => Keys::Name,
                _ => Keys::Running,
            },
            entries: whole(entries.as_bytes())?,
            bytes: whole(bytes.as_bytes())?,
        };
        let can_be = asked.entries >= 1 && asked.bytes >= table_bytes(asked.entries);
        (can_be && asked.told() == told).then_some(asked)
    }
}

/// A run: the archive, what is asked for, where its tiles go, and how far it is.
pub struct Job {
    archive: Archive,
    asked: Asked,
    tiles: PathBuf,
    progress: Progress,
}

impl Job {
    /// The files of a group, as many as a tile has entries.
    fn group(&self, group: usize) -> Range<usize> {
        self.archive.group(group, self.asked.entries as usize)
    }

    fn groups(&self) -> usize {
        self.archive.groups(self.asked.entries as usize)
    }
}

/// Migrates an archive, or verifies that one was. Every failure but that files
/// are refused is the run's own.
pub fn run(asked: Migrating) -> Result<(), Failure> {
    let ended = match &asked.verify {
        Some(tiles) => verify::run(tiles, &asked.old),
        None => migrate(&asked),
    };
    let (tally, store) = ended.map_err(|failure| Failure::Run(Box::new(failure)))?;
    match tally.refused() {
        0 => Ok(()),
        refused => Err(Failure::Left(refused, store.manifest())),
    }
}

/// Migrates an archive: all of it, or what is left of a run that was stopped.
fn migrate(asked: &Migrating) -> Result<(Tally, Store), Failure> {
    let settings = Asked::from(asked)?;
    let tiles = asked.tiles.clone().unwrap_or_default();
    let archive = Archive::of(&asked.old, settings.keys)?;
    is_apart(&asked.old, &tiles)?;
    let store = Store::begin(&tiles, &settings)?;
    let job = Job {
        progress: Progress::new(archive.len()),
        archive,
        asked: settings,
        tiles,
    };
    if store.is_finished() {
        let tally = store.tally(&job.archive, &job.asked)?;
        store.drop_parts()?;
        say(&format!(
            "{} has all of it already\n{}",
            job.tiles.display(),
            tally.told()
        ))?;
        return Ok((tally, store));
    }
    let (done, left) = so_far(&job, &store)?;
    let tally = job.progress.during(|| take(&job, &store, &left))?;
    store.finish(job.groups())?;
    store.drop_parts()?;
    let tally = done.and(tally);
    say(&format!(
        "{}each line was read back from its tile and exported: bit for bit the old one, minus zero apart\n",
        tally.told()
    ))?;
    Ok((tally, store))
}

/// That the tiles do not go into the archive itself, by the first of their
/// directory's ancestors that is there.
fn is_apart(old: &Path, tiles: &Path) -> Result<(), Failure> {
    let unread = |error| Failure::Unread(error).of(old);
    let (old, tiles) = (
        old.canonicalize().map_err(unread)?,
        absolute(tiles).map_err(unread)?,
    );
    let there = tiles.ancestors().find_map(|path| path.canonicalize().ok());
    match there.is_some_and(|path| path.starts_with(old)) {
        true => Err(Failure::Words("TILE_DIR must not lie in OLD_DIR")),
        false => Ok(()),
    }
}

/// What the groups that are done come to, and those that are left. What stands
/// there of these is removed.
fn so_far(job: &Job, store: &Store) -> Result<(Tally, Vec<usize>), Failure> {
    let (mut done, mut left, mut tiles) = (Tally::default(), Vec::new(), HashSet::new());
    for group in 0..job.groups() {
        match store.done(job, group)? {
            Some(of_group) => {
                done = done.and(of_group.tally);
                tiles.extend(of_group.tiles.into_keys());
            }
            None => left.push(group),
        }
    }
    store.clear(&tiles)?;
    if left.len() < job.groups() {
        let files = counted(done.files(), "file", "files");
        let tiles = counted(done.tiles, "tile", "tiles");
        let all = number(job.archive.len());
        let place = job.tiles.display();
        say(&format!(
            "{place} has {files} of {all} already, in {tiles}; the others follow\n"
        ))?;
        job.progress.skip(done.files());
    }
    Ok((done, left))
}

/// Takes the groups that are left, on all cores.
fn take(job: &Job, store: &Store, left: &[usize]) -> Result<Tally, Failure> {
    let idle = Mutex::new(Vec::<Worker>::new());
    let take = |&group: &usize| {
        let waiting = idle.lock().ok().and_then(|mut idle| idle.pop());
        let mut worker = match waiting {
            Some(worker) => worker,
            None => Worker::new(job)?,
        };
        let (text, tally) = worker.group(group)?;
        store.note(group, &text)?;
        if let Ok(mut idle) = idle.lock() {
            idle.push(worker);
        }
        Ok(tally)
    };
    pool()?.install(|| {
        let tallies = left.par_iter().with_max_len(1).map(take);
        tallies.try_reduce(Tally::default, |one, other| Ok(one.and(other)))
    })
}

/// Threads for all cores: twice as many, since one waits while its tile is
/// synced; or as many as rayon's own variable says.
fn pool() -> Result<ThreadPool, Failure> {
    let threads = match env::var_os("RAYON_NUM_THREADS") {
        Some(_) => 0,
        None => 2 * available_parallelism().map_or(1, usize::from),
    };
    let pool = ThreadPoolBuilder::new().num_threads(threads);
    let built = pool.stack_size(stack::ENOUGH).build();
    built.map_err(|error| Failure::Thread(io::Error::other(error)))
}

/// Says something on standard output.
fn say(text: &str) -> Result<(), Failure> {
    Destination::standard().write(text.as_bytes())
}

#[cfg(test)]
mod tests {
    use super::{Asked, Keys};

    #[test]
    fn settings_are_told_and_read_again() {
        for keys in [Keys::Name, Keys::Running] {
            let asked = Asked {
                grade: 4,
                keys,
                entries: 1024,
                bytes: 20_000,
            };
            assert_eq!(Asked::of(&asked.told()), Some(asked));
        }
        for told in ["", "grade 4\n", "grade 4\nkeys odd\nentries 1\nbytes 99\n"] {
            assert_eq!(Asked::of(told), None);
        }
    }
}
