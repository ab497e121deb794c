//! A worker: takes a group of the archive's files after another, fills tiles
//! with their outlines, and reads each tile back before it stands in its place.
//!
//! Groups are of as many files as a tile has entries, in the archive's order, and
//! a tile holds outlines of one group alone. So what stands in a tile depends on
//! the archive and on what was asked for, not on how many workers there are, nor
//! on which of them was first.

use super::line::{difference, Back, Line, Trouble};
use super::manifest::{Outcome, Tally};
use super::Job;
use crate::failure::Failure;
use crate::memory::zeros;
use crate::sheet::Header;
use crate::tile::{self, Entry};
use crate::whole_file::Draft;
use sehmelir::{table_bytes, Chunk, Refusal};
use std::iter::zip;
use std::ops::Range;
use std::path::Path;

/// A worker's memory: one tile, the floats that its outlines were made of, and
/// what one line needs.
pub struct Worker<'a> {
    job: &'a Job,
    tile: Vec<u8>,
    /// How much of the tile is in use.
    used: usize,
    standing: Vec<Standing>,
    floats: Vec<f32>,
    line: Line,
    back: Back,
}

/// An outline that stands in the tile at work.
struct Standing {
    file: usize,
    entry: Entry,
    floats: Range<usize>,
}

impl Worker<'_> {
    pub fn new(job: &Job) -> Result<Worker<'_>, Failure> {
        Ok(Worker {
            tile: zeros(job.asked.bytes)?,
            used: table_bytes(job.asked.entries),
            standing: Vec::new(),
            floats: Vec::new(),
            line: Line::new(),
            back: Back::new(),
            job,
        })
    }

    /// Takes the files of a group: their tiles are in place then, and its lines
    /// of the manifest and what they come to are handed back.
    pub fn group(&mut self, group: usize) -> Result<(Vec<u8>, Tally), Failure> {
        let (mut text, mut tally, mut last) = (Vec::new(), Tally::default(), String::new());
        let mut tile = 0;
        self.clear();
        for file in self.job.group(group) {
            let outcome = match self.take(file, group, &mut tile) {
                Ok(outcome) => outcome,
                Err(Trouble::OfFile(failure)) => Outcome::refused(&failure),
                Err(Trouble::OfRun(failure)) => return Err(failure),
            };
            tally.count(&outcome, &mut last);
            outcome.push(self.job.archive.name(file), &mut text);
            self.job.progress.count(&outcome);
        }
        self.close(&tile_name(group, tile))?;
        Ok((text, tally))
    }

    /// Takes a file into the tile at work, or where that has no room into the
    /// next one of the group.
    fn take(&mut self, file: usize, group: usize, tile: &mut usize) -> Result<Outcome, Trouble> {
        let Job { archive, asked, .. } = self.job;
        let key = archive.key(file)?;
        let path = self.line.take(&archive.path(file))?;
        let mut kept = sehmelir::keep(path, asked.grade, &mut self.tile[self.used..]);
        if let Err(Refusal::NoRoom(bytes)) = kept {
            let most = asked.bytes - table_bytes(asked.entries);
            if bytes > most {
                return Err(Failure::LongerThanTile(bytes, most).into());
            }
            let full = tile_name(group, *tile);
            *tile += 1;
            self.close(&full).map_err(Trouble::OfRun)?;
            let path = self.line.path();
            kept = sehmelir::keep(path, asked.grade, &mut self.tile[self.used..]);
        }
        let bytes = kept.map_err(Failure::Refused)?;
        let start = self.floats.len();
        self.floats.extend_from_slice(self.line.floats());
        let outline = self.used..self.used + bytes;
        let header = Header::of(&self.tile[outline.clone()]);
        self.used = outline.end;
        self.standing.push(Standing {
            file,
            entry: Entry {
                key,
                offset: outline.start,
                length: bytes,
            },
            floats: start..self.floats.len(),
        });
        Ok(Outcome::Taken {
            tile: tile_name(group, *tile),
            key,
            vertices: self.line.floats().len() / 3,
            edges: header.map_or(0, |header| header.edges),
            bytes,
        })
    }

    /// Puts the tile at work in its place, if anything stands in it: written
    /// beside, synced, read back and checked first. Then the next is empty.
    fn close(&mut self, name: &str) -> Result<(), Failure> {
        if self.standing.is_empty() {
            return Ok(());
        }
        self.lay_table()?;
        let place = self.job.tiles.join(name);
        let unwritten = |error| Failure::Unwritten(error).of(&place);
        let mut draft = Draft::beside(&place).map_err(unwritten)?;
        let bytes = &mut self.tile[..self.used];
        draft.write(bytes).map_err(unwritten)?;
        draft.sync().map_err(unwritten)?;
        draft.read_back(bytes).map_err(unwritten)?;
        self.check(&place)?;
        draft.put().map_err(unwritten)?;
        self.clear();
        Ok(())
    }

    /// Writes the table of what stands in the tile: what adding one outline after
    /// another gives, which tests hold it to.
    fn lay_table(&mut self) -> Result<(), Failure> {
        let bytes = &mut self.tile[..self.used];
        Chunk::make(&mut bytes[..], self.job.asked.entries)?;
        let (rows, _) = bytes[table_bytes(0)..].as_chunks_mut::<12>();
        for (row, standing) in zip(rows, &self.standing) {
            *row = standing.entry.row();
        }
        Ok(())
    }

    /// Holds each outline of the tile, found by its table, against its old line.
    fn check(&mut self, place: &Path) -> Result<(), Failure> {
        let tile = &self.tile[..self.used];
        let fault = |told: String| Failure::Fault(format!("FAULT: {}: {told}", place.display()));
        let entries = tile::entries(tile).map_err(|failure| fault(failure.to_string()))?;
        if !entries
            .iter()
            .eq(self.standing.iter().map(|standing| &standing.entry))
        {
            return Err(fault(
                "its table is not the one that was written".to_string(),
            ));
        }
        for (entry, standing) in zip(&entries, &self.standing) {
            let old = &self.floats[standing.floats.clone()];
            let told = difference(
                &tile[entry.range()],
                old,
                self.job.asked.grade,
                &mut self.back,
            );
            told.map_err(|told| {
                let name = self.job.archive.name(standing.file).display();
                fault(format!("key {}, of {name}: {told}", entry.key))
            })?;
        }
        Ok(())
    }

    /// Empties the tile at work.
    fn clear(&mut self) {
        self.used = table_bytes(self.job.asked.entries);
        self.standing.clear();
        self.floats.clear();
    }
}

/// The name of a tile: its group, and its number among the group's.
fn tile_name(group: usize, tile: usize) -> String {
    format!("{group:06}-{tile:04}.tile")
}

#[cfg(test)]
mod tests {
    use super::{tile_name, Worker};
    use crate::failure::Failure;
    use crate::migration::archive::{Archive, Keys};
    use crate::migration::progress::Progress;
    use crate::migration::{Asked, Job};
    use crate::oldest;
    use std::fs;
    use std::path::{Path, PathBuf};
    use std::process;

    /// A directory for a test, which is removed in the end.
    struct Scratch(PathBuf);

    impl Scratch {
        fn new(name: &str) -> Scratch {
            let place = std::env::temp_dir().join(format!("sehmelir-{name}-{}", process::id()));
            fs::create_dir_all(place.join("old")).unwrap();
            fs::create_dir_all(place.join("tiles")).unwrap();
            Scratch(place)
        }

        fn job(&self) -> Job {
            Job {
                archive: Archive::of(&self.0.join("old"), Keys::Name).unwrap(),
                asked: Asked {
                    grade: 4,
                    keys: Keys::Name,
                    entries: 8,
                    bytes: 100_000,
                },
                tiles: self.0.join("tiles"),
                progress: Progress::new(2),
            }
        }
    }

    impl Drop for Scratch {
        fn drop(&mut self) {
            let _ = fs::remove_dir_all(&self.0);
        }
    }

    fn count(directory: &Path) -> usize {
        fs::read_dir(directory).unwrap().count()
    }

    #[test]
    fn a_tile_that_differs_is_a_fault_and_never_stands() {
        let scratch = Scratch::new("fault");
        for (name, x) in [("7.old", 3.0), ("9.old", -0.0)] {
            let file = oldest::bytes(&[[x, 0.0, 10.0], [40.0, 0.0, 20.0]]);
            fs::write(scratch.0.join("old").join(name), file).unwrap();
        }
        let job = scratch.job();
        let mut worker = Worker::new(&job).unwrap();
        for file in 0..2 {
            worker.take(file, 0, &mut 0).unwrap();
        }
        // as if the second line had been another
        worker.floats[6] = 5.0;
        let name = tile_name(0, 0);
        let told = match worker.close(&name) {
            Err(Failure::Fault(told)) => told,
            other => panic!("{other:?}"),
        };
        assert!(told.starts_with("FAULT: "), "{told}");
        let due = "key 9, of 9.old: x of vertex 0, at place 0, is 0.0, and was 5.0";
        assert!(told.ends_with(due), "{told}");
        assert_eq!(count(&job.tiles), 0);
        worker.floats[6] = -0.0;
        worker.close(&name).unwrap();
        assert_eq!(count(&job.tiles), 1);
        assert!(job.tiles.join(name).is_file());
    }
}
