//! Tiles: many sheets in one file, each under a key. A tile is changed in
//! memory, and its file then replaced whole.

use crate::destination::Destination;
use crate::failure::Failure;
use crate::memory::zeros;
use crate::picture;
use crate::ranges::{counted, number};
use crate::sheet::{Header, Sheet};
use crate::source::Source;
use crate::whole_file;
use crate::words::whole;
use clap::{Args, Subcommand};
use sehmelir::{Chunk, Refusal};
use std::ops::Range;
use std::path::{Path, PathBuf};

/// What can be done with a tile.
#[derive(Subcommand)]
pub enum TileCommand {
    /// A new tile of so many BYTES, with an empty table of so many ENTRIES
    Make(Making),
    /// Add a sheet to a tile, under a key that is not there yet
    Add(Adding),
    /// The sheet of a key
    Find(Finding),
    /// Remove the sheet of a key; its bytes become zeros
    Remove(Keyed),
    /// Move a tile's sheets together, so that what is free is one gap at the end
    Compact(Whole),
    /// The sheets of a tile, one a line: key, offset, length, vertices, edges, grade
    List(Listing),
    /// A picture (SVG) of all sheets of a tile on one page
    Picture(Listing),
    /// Check every sheet of a tile
    Check(Listing),
}

/// What make takes.
#[derive(Args)]
pub struct Making {
    /// The tile; there must be no file of that name
    pub tile: PathBuf,
    /// How many sheets it may hold: 0 to 1024
    #[arg(allow_negative_numbers = true)]
    pub entries: String,
    /// How long it is: the table has 4 bytes and 12 for each entry
    #[arg(allow_negative_numbers = true)]
    pub bytes: String,
}

/// What add takes.
#[derive(Args)]
pub struct Adding {
    /// The tile
    pub tile: PathBuf,
    /// The key: 0 to 4294967295
    #[arg(allow_negative_numbers = true)]
    pub key: String,
    /// The sheet, if not on standard input
    pub sheet: Option<PathBuf>,
}

/// What find takes.
#[derive(Args)]
pub struct Finding {
    #[command(flatten)]
    pub of: Keyed,
    #[command(flatten)]
    pub destination: Destination,
}

/// What remove takes.
#[derive(Args)]
pub struct Keyed {
    /// The tile
    pub tile: PathBuf,
    /// The key: 0 to 4294967295
    #[arg(allow_negative_numbers = true)]
    pub key: String,
}

/// What compact takes.
#[derive(Args)]
pub struct Whole {
    /// The tile
    pub tile: PathBuf,
}

/// What list, picture and check take.
#[derive(Args)]
pub struct Listing {
    /// The tile
    pub tile: PathBuf,
    #[command(flatten)]
    pub destination: Destination,
}

/// Runs a command.
pub fn run(command: TileCommand) -> Result<(), Failure> {
    match command {
        TileCommand::Make(asked) => make(asked),
        TileCommand::Add(asked) => add(asked),
        TileCommand::Find(asked) => find(asked),
        TileCommand::Remove(asked) => remove(asked),
        TileCommand::Compact(asked) => compact(asked),
        TileCommand::List(asked) => told(asked, |tile| listed(tile).map(String::into_bytes)),
        TileCommand::Picture(asked) => told(asked, |tile| pictured(tile).map(String::into_bytes)),
        TileCommand::Check(asked) => told(asked, |tile| checked(tile).map(String::into_bytes)),
    }
}

/// A new tile.
fn make(asked: Making) -> Result<(), Failure> {
    let due = || Failure::Words("ENTRIES and BYTES are whole numbers, ENTRIES 0 to 1024");
    let entries = whole(asked.entries.as_bytes()).ok_or_else(due)?;
    let bytes = whole(asked.bytes.as_bytes()).ok_or_else(due)?;
    if asked.tile.symlink_metadata().is_ok() {
        return Err(Failure::There.of(&asked.tile));
    }
    let made = Chunk::make(zeros(bytes)?, entries);
    let tile = made.map_err(|refusal| refused(refusal, &asked.tile))?;
    put(&asked.tile, tile.bytes())
}

/// A tile with one sheet more.
fn add(asked: Adding) -> Result<(), Failure> {
    let key = key_of(&asked.key)?;
    let mut tile = tile_of(&asked.tile)?;
    let sheet = Source::named(asked.sheet);
    let added = sheet.take(|sheet| match tile.add(key, &sheet) {
        Err(refusal) if !is_tiles_own(refusal) => Err(refusal.into()),
        settled => Ok(settled),
    })?;
    added.map_err(|refusal| refused(refusal, &asked.tile))?;
    put(&asked.tile, tile.bytes())
}

/// Whether a refused add is the tile's doing, and not the sheet's.
fn is_tiles_own(refusal: Refusal) -> bool {
    matches!(
        refusal,
        Refusal::Damaged | Refusal::KeyThere(_) | Refusal::TableFull(_) | Refusal::NoRoom(_)
    )
}

/// The sheet of a key.
fn find(asked: Finding) -> Result<(), Failure> {
    let key = key_of(&asked.of.key)?;
    let find = |tile| Ok(Chunk::over(tile).outline(key)?.to_vec());
    let sheet = Source::named(Some(asked.of.tile)).take(find)?;
    asked.destination.write(&sheet)
}

/// A tile without the sheet of a key.
fn remove(asked: Keyed) -> Result<(), Failure> {
    let key = key_of(&asked.key)?;
    let mut tile = tile_of(&asked.tile)?;
    let removed = tile.remove(key);
    removed.map_err(|refusal| refused(refusal, &asked.tile))?;
    put(&asked.tile, tile.bytes())
}

/// A tile with its sheets moved together.
fn compact(asked: Whole) -> Result<(), Failure> {
    let mut tile = tile_of(&asked.tile)?;
    let compacted = tile.compact();
    compacted.map_err(|refusal| refused(refusal, &asked.tile))?;
    put(&asked.tile, tile.bytes())
}

/// Writes what is told of a tile.
fn told(
    asked: Listing,
    tell: impl FnOnce(&[u8]) -> Result<Vec<u8>, Failure>,
) -> Result<(), Failure> {
    let text = Source::named(Some(asked.tile)).take(|tile| tell(&tile))?;
    asked.destination.write(&text)
}

/// An entry in use of a tile's table.
#[derive(Clone, Copy, Debug, PartialEq)]
pub struct Entry {
    pub key: u32,
    pub offset: usize,
    pub length: usize,
}

impl Entry {
    /// Where its sheet stands in the tile.
    pub fn range(self) -> Range<usize> {
        self.offset..self.offset + self.length
    }

    /// Its words in the table.
    pub fn row(self) -> [u8; 12] {
        let words = [self.key, self.offset as u32, self.length as u32];
        let mut row = [0; 12];
        for (place, word) in row.as_chunks_mut::<4>().0.iter_mut().zip(words) {
            *place = word.to_le_bytes();
        }
        row
    }
}

/// The entries in use of a tile, in their order, if its table is not damaged.
pub fn entries(tile: &[u8]) -> Result<Vec<Entry>, Failure> {
    match Chunk::over(tile).find(0) {
        Ok(_) | Err(Refusal::KeyMissing(_)) => {}
        Err(refusal) => return Err(refusal.into()),
    }
    let (words, _) = tile.as_chunks::<4>();
    let (count, rows) = words.split_first().unwrap_or((&[0; 4], &[]));
    let (rows, _) = rows.as_chunks::<3>();
    let count = u32::from_le_bytes(*count) as usize;
    let entries = rows.iter().take(count).map(|row| {
        let [key, offset, length] = row.map(u32::from_le_bytes);
        Entry {
            key,
            offset: offset as usize,
            length: length as usize,
        }
    });
    Ok(entries.filter(|entry| entry.length > 0).collect())
}

/// The sheets of a tile, a line each: where they stand, and what they say of
/// themselves, which is not checked.
fn listed(tile: &[u8]) -> Result<String, Failure> {
    let line = |entry: Entry| {
        let Entry {
            key,
            offset,
            length,
        } = entry;
        let said = Header::of(&tile[entry.range()]).map_or(String::new(), |header| {
            format!(" {} {} {}", header.vertices, header.edges, header.grade)
        });
        format!("{key} {offset} {length}{said}\n")
    };
    Ok(entries(tile)?.into_iter().map(line).collect())
}

/// The sheets of a tile, each with its key, those that are not sound told.
fn sheets(tile: &[u8]) -> Result<Vec<(u32, Sheet)>, Failure> {
    let entries = entries(tile)?;
    let (mut sheets, mut told) = (Vec::new(), String::new());
    for entry in &entries {
        match Sheet::sound(tile[entry.range()].to_vec()) {
            Ok(sheet) => sheets.push((entry.key, sheet)),
            Err(failure) => told += &format!("key {}: {failure}\n", entry.key),
        }
    }
    if told.is_empty() {
        return Ok(sheets);
    }
    let unsound = number(entries.len() - sheets.len());
    let all = counted(entries.len(), "sheet", "sheets");
    Err(Failure::Unsound(format!(
        "{told}{unsound} of {all} not sound"
    )))
}

/// The picture of a tile's sheets.
fn pictured(tile: &[u8]) -> Result<String, Failure> {
    Ok(picture::of_tile(&sheets(tile)?))
}

/// That every sheet of a tile is sound, in words.
fn checked(tile: &[u8]) -> Result<String, Failure> {
    let sheets = sheets(tile)?;
    let sum = |count: fn(&Sheet) -> usize| sheets.iter().map(|(_, sheet)| count(sheet)).sum();
    let [all, vertices, edges] = [
        counted(sheets.len(), "sheet", "sheets"),
        counted(sum(|sheet| sheet.vertices().len()), "vertex", "vertices"),
        counted(sum(Sheet::edge_count), "edge", "edges"),
    ];
    Ok(format!("{all}, all sound: {vertices}, {edges}\n"))
}

/// The tile of a file.
fn tile_of(file: &Path) -> Result<Chunk<Vec<u8>>, Failure> {
    Source::file(file).take(|bytes| Ok(Chunk::over(bytes)))
}

/// Why a tile refuses something, with its file's name.
fn refused(refusal: Refusal, file: &Path) -> Failure {
    let failure = match refusal {
        Refusal::NoRoom(bytes) => Failure::NoTileRoom(bytes),
        other => other.into(),
    };
    failure.of(file)
}

/// Puts a tile into its file, whole or not at all.
fn put(file: &Path, tile: &[u8]) -> Result<(), Failure> {
    whole_file::write(file, tile).map_err(|error| Failure::Unwritten(error).of(file))
}

/// A number that is a key.
fn key_of(word: &str) -> Result<u32, Failure> {
    let due = Failure::Words("KEY is a whole number, 0 to 4294967295");
    whole(word.as_bytes()).ok_or(due)
}

#[cfg(test)]
mod tests {
    use super::{checked, entries, listed, Entry};
    use crate::calls;
    use crate::failure::Failure;
    use sehmelir::{Chunk, Refusal};

    #[test]
    fn entries_in_use_are_listed() {
        let sheet = calls::keep(&[], 2).unwrap();
        let length = sheet.len();
        let mut tile = Chunk::make(vec![0; 40 + 3 * length], 3).unwrap();
        assert_eq!(listed(tile.bytes()).unwrap(), "");
        for key in [0, 4_294_967_295, 7] {
            tile.add(key, &sheet).unwrap();
        }
        let line = |key: u32, place: usize| {
            let offset = 40 + place * length;
            format!("{key} {offset} {length} 0 0 2\n")
        };
        let due = [line(0, 0), line(4_294_967_295, 1), line(7, 2)].concat();
        assert_eq!(listed(tile.bytes()).unwrap(), due);
        tile.remove(4_294_967_295).unwrap();
        assert_eq!(listed(tile.bytes()).unwrap(), line(0, 0) + &line(7, 2));
        let (words, _) = tile.bytes()[4..].as_chunks::<12>();
        let rows = entries(tile.bytes()).unwrap();
        assert_eq!([rows[0].row(), rows[1].row()], [words[0], words[2]]);
        assert_eq!(rows[1].range(), 40 + 2 * length..40 + 3 * length);
        let Entry { key, .. } = rows[1];
        assert_eq!(key, 7);
    }

    #[test]
    fn every_sheet_is_checked() {
        let sheet = calls::keep(&[0, 0, 10], 2).unwrap();
        let mut tile = Chunk::make(vec![0; 1000], 3).unwrap();
        tile.add(5, &sheet).unwrap();
        tile.add(6, &sheet).unwrap();
        let edges = (sheet.len() - calls::keep(&[], 2).unwrap().len()) / 16;
        let told = checked(tile.bytes()).unwrap();
        assert!(
            told.starts_with("2 sheets, all sound: 2 vertices, "),
            "{told}"
        );
        assert!(edges > 8);
        let mut bytes = tile.into_bytes();
        let first = entries(&bytes).unwrap()[0];
        bytes[first.range().end - 1] ^= 1;
        let refused = checked(&bytes).unwrap_err().to_string();
        assert!(
            refused.starts_with("key 5: refused with reply 8: "),
            "{refused}"
        );
        assert!(refused.ends_with("\n1 of 2 sheets not sound"), "{refused}");
    }

    #[test]
    fn damaged_tables_are_not_listed() {
        let refused = listed(&[9; 16]);
        assert!(matches!(refused, Err(Failure::Refused(Refusal::Damaged))));
        assert_eq!(listed(&[0; 16]).unwrap(), "");
    }
}
