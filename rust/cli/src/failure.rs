//! Why a command gives no result, in the words that go to standard error.

use sehmelir::{Refusal, Untaken};
use std::ffi::OsString;
use std::fmt::{self, Display, Formatter};
use std::io;
use std::path::{Path, PathBuf};

/// Why there is no result.
#[derive(Debug)]
pub enum Failure {
    /// The arguments' numbers are none: what they must be.
    Words(&'static str),
    /// The line of this number is no vertex of a path.
    Line(usize),
    /// The line of this number is no vertex of a kerb.
    PairLine(usize),
    /// The file of the oldest chunks has so many bytes, no multiple of 12.
    Uneven(usize),
    /// The float at this place of the oldest chunks is not taken, and why.
    Untaken(usize, Untaken),
    /// The number at this place of a path cannot be written as a float: this.
    Inexact(usize, i32),
    /// The library refused a call.
    Refused(Refusal),
    /// The sheets to be compared have so many vertices and so many others.
    Unlike(usize, usize),
    /// One of the sheets to be compared is of a path and one of a kerb.
    UnlikeForms,
    /// The sheets to be compared are of this edition and of this other.
    UnlikeEditions(u32, u32),
    /// Of the sheets laid side by side one is of a kerb, of this kind.
    NoBodies(u32),
    /// The sheet that is asked for a body of this number has none.
    NoBody(usize),
    /// The tile has no room for a sheet of so many bytes.
    NoTileRoom(usize),
    /// The file to be made is there already.
    There,
    /// The input cannot be read.
    Unread(io::Error),
    /// The result cannot be written.
    Unwritten(io::Error),
    /// A thread to work on cannot be had.
    Thread(io::Error),
    /// So much memory cannot be had.
    Memory(usize),
    /// Two sheets differ where they cannot, as this report of them says.
    Fault(String),
    /// One of these, of this file.
    Of(PathBuf, Box<Failure>),
    /// A file of the archive is none, but a directory or the like.
    NoFile,
    /// A file's name has no number that could be its key.
    NoNumber,
    /// A file's name has this number, and so has the name of another.
    NumberTwice(u32),
    /// An outline has so many bytes, and a tile has room for so many.
    LongerThanTile(usize, usize),
    /// The directory of the tiles holds what no run put there.
    Foreign,
    /// Another run is at work on the directory of the tiles.
    Busy,
    /// The run that the directory of the tiles is of was not finished.
    Unfinished,
    /// The directory of the tiles is of a run with these settings, and not these.
    Settings(String, String),
    /// The archive's files are not those of the run: this is the first.
    OtherFiles(OsString),
    /// The manifest is not one.
    NoManifest,
    /// A tile of a finished migration is not there, or not as long as it was.
    NotWhole,
    /// So many files of the archive are refused, and this manifest says why.
    Left(usize, PathBuf),
    /// Sheets of a tile are not sound, each told on a line.
    Unsound(String),
    /// A migration failed.
    Run(Box<Failure>),
}

impl Failure {
    /// The same, of a file.
    pub fn of(self, file: &Path) -> Failure {
        Failure::Of(file.to_owned(), Box::new(self))
    }

    /// The exit status: 2 where a migration failed, else 1.
    pub fn status(&self) -> u8 {
        match self {
            Failure::Run(_) => 2,
            _ => 1,
        }
    }
}

impl From<Refusal> for Failure {
    fn from(refusal: Refusal) -> Failure {
        Failure::Refused(refusal)
    }
}

impl Display for Failure {
    fn fmt(&self, formatter: &mut Formatter) -> fmt::Result {
        match self {
            Failure::Words(due) => write!(formatter, "refused: {due}"),
            Failure::Line(number) => write!(
                formatter,
                "refused: line {number} is not a vertex: three whole numbers of 32 bits are due, x y radius, \
                 and a fourth, from 0 on, if it has a point number"
            ),
            Failure::PairLine(number) => write!(
                formatter,
                "refused: line {number} is not a vertex of a kerb: two whole numbers of 32 bits are due, x y"
            ),
            Failure::Uneven(bytes) => write!(
                formatter,
                "refused: {bytes} bytes are not a multiple of 12: \
                 a vertex of the oldest chunks is three 32-bit floats, x y and full width"
            ),
            Failure::Untaken(place, untaken) => {
                let which = which(*place, "width");
                write!(formatter, "refused with reply 13: {which}: {untaken}")
            }
            Failure::Inexact(place, number) => {
                let (which, reason) = (which(*place, "radius"), inexact(*place, *number));
                write!(formatter, "refused with reply 13: {which}: {reason}")
            }
            Failure::Refused(refusal) => fmt_refusal(refusal, formatter),
            Failure::Unlike(first, second) => write!(
                formatter,
                "refused: the first sheet has {first} vertices and the second {second}; \
                 only sheets with as many vertices are held against each other"
            ),
            Failure::UnlikeForms => write!(
                formatter,
                "refused: one sheet is of a path and the other of a kerb; \
                 only sheets of one kind are held against each other"
            ),
            Failure::UnlikeEditions(first, second) => write!(
                formatter,
                "refused: the first sheet is of edition {first} and the second of edition {second}; \
                 only sheets of one edition are held against each other \
                 (read and keep again make edition 2 of a sheet of edition 1)"
            ),
            Failure::NoBodies(kind) => write!(
                formatter,
                "refused with reply 12: one of the sheets is of a kerb, which has no body for each vertex; \
                 its kind is {kind}"
            ),
            Failure::NoBody(vertex) => write!(
                formatter,
                "refused with reply 9: the number is above the number of vertices; it is {vertex} \
                 (bodies are counted from 0, and the closing one comes after the last vertex's)"
            ),
            Failure::NoTileRoom(bytes) => write!(
                formatter,
                "refused with reply 5: the tile has no room for the sheet, not even after compacting; \
                 it needs {bytes} bytes"
            ),
            Failure::There => write!(formatter, "refused: there is a file of that name already"),
            Failure::Unread(error) => {
                write!(formatter, "refused: the input cannot be read: {error}")
            }
            Failure::Unwritten(error) => {
                write!(formatter, "refused: the result cannot be written: {error}")
            }
            Failure::Thread(error) => {
                write!(formatter, "refused: no thread can be started: {error}")
            }
            Failure::Memory(bytes) => {
                write!(formatter, "refused: {bytes} bytes of memory cannot be had")
            }
            Failure::Fault(report) => formatter.write_str(report),
            Failure::Of(file, failure) => write!(formatter, "{}: {failure}", file.display()),
            Failure::NoFile => write!(formatter, "refused: this is no file"),
            Failure::NoNumber => write!(
                formatter,
                "refused: the name has no number of 0 to 4294967295 that could be the key; \
                 --keys running needs none"
            ),
            Failure::NumberTwice(key) => write!(
                formatter,
                "refused with reply 15: the number of the name, {key}, is that of the file before it too"
            ),
            Failure::LongerThanTile(bytes, most) => write!(
                formatter,
                "refused with reply 5: the outline has {bytes} bytes, and a tile has room for {most}"
            ),
            Failure::Foreign => write!(
                formatter,
                "refused: the directory is not empty, and not of a migration"
            ),
            Failure::Busy => write!(formatter, "refused: another migration is at work there"),
            Failure::Unfinished => write!(formatter, "refused: the migration was not finished"),
            Failure::Settings(there, asked) => {
                let [there, asked] = [there, asked].map(|told| told.trim_end().replace('\n', ", "));
                write!(
                    formatter,
                    "refused: the migration there has other settings: {there}; asked for: {asked}"
                )
            }
            Failure::OtherFiles(name) => write!(
                formatter,
                "refused: the archive's files are not those of the migration there; \
                 the first that is not in both is {}",
                name.display()
            ),
            Failure::NoManifest => write!(formatter, "refused: this is no manifest"),
            Failure::NotWhole => write!(
                formatter,
                "refused: the tile is not there, or not as long as what the manifest says of it"
            ),
            Failure::Left(1, manifest) => write!(
                formatter,
                "1 file is refused, and {} says why",
                manifest.display()
            ),
            Failure::Left(count, manifest) => write!(
                formatter,
                "{count} files are refused, and {} says why of each",
                manifest.display()
            ),
            Failure::Unsound(told) => formatter.write_str(told),
            Failure::Run(failure) => failure.fmt(formatter),
        }
    }
}

/// Which number of the oldest chunks, or of a path, is the first not taken.
fn which(place: usize, last: &str) -> String {
    let name = ["x", "y", last][place % 3];
    let vertex = place / 3;
    format!(
        "a number is not taken; the first such is the {name} of vertex {vertex}, \
         at place {place}, counted from 0"
    )
}

/// Why a number of a path is not written as a float.
fn inexact(place: usize, number: i32) -> String {
    let (least, of) = match place % 3 {
        2 => (0, "twice "),
        _ => (-268435456, ""),
    };
    match (least..=268435456).contains(&number) {
        true => format!("no 32-bit float is {of}{number}"),
        false => format!("{number} is not {least} to 268435456"),
    }
}

/// A refusal with its reply's number. The library's own words are shorter and
/// name no number.
fn fmt_refusal(refusal: &Refusal, formatter: &mut Formatter) -> fmt::Result {
    let reply = refusal.reply();
    let meaning = meaning(refusal);
    write!(formatter, "refused with reply {reply}: {meaning}")
}

/// What the documents say of a refusal, and the number beside it.
fn meaning(refusal: &Refusal) -> String {
    match refusal {
        Refusal::Uneven(count) => {
            format!("the numbers lent are not a multiple of three, or of two; there are {count}")
        }
        Refusal::TooMany(count) => format!("above 4096 vertices; there are {count}"),
        Refusal::Grade(1) => "grade 1 is retired: nothing is drawn, kept or replaced at it any more, \
                              and sheets of grade 1 are read, or converted to another; the grade is 1"
            .to_string(),
        Refusal::Grade(grade) => format!("the grade is not 2 to 8; it is {grade}"),
        Refusal::Outside(index) => format!(
            "a vertex is outside the limits; the first such vertex is number {index}, counted from 0 \
             (x and y are -268435456 to 268435456, a radius is 0 to 268435456)"
        ),
        Refusal::NoRoom(needed) => {
            format!("the result is longer than the room lent; it needs {needed}")
        }
        Refusal::NotOutline => "this is no sheet: it has under 24 bytes, or its edition is not 1 or 2, \
                                of a kerb not 1, or it is shorter than its header says"
            .to_string(),
        Refusal::Kind(kind) => format!("the sheet's kind is neither 0 nor 1; it is {kind}"),
        Refusal::NotSound(byte) => format!(
            "the sheet is not sound: its bytes are not those that its own vertices and grade give; \
             the first that differs is number {byte}, counted from 0"
        ),
        Refusal::NoVertex(index) => format!(
            "the index is not below the number of vertices; it is {index} \
             (vertices are counted from 0)"
        ),
        Refusal::NoEdge(edge) => format!(
            "the number is not below the number of edges; it is {edge} (edges are counted from 0)"
        ),
        Refusal::StyleWord(place) => {
            let due = match place {
                5 => "the kerb's radius is not 0 to 268435456",
                6 => "the kerb's join is not 0 (bevel) or 1 (round)",
                _ => "the kerb's closed is not 0 or 1",
            };
            format!("{due}; it is word {place} of the header, counted from 0")
        }
        Refusal::OtherKind(kind) => format!(
            "the sheet is of a kerb, whose vertices are not replaced and whose edges are not explained, \
             and which is not salvaged; its kind is {kind}"
        ),
        Refusal::NotTaken(place) => {
            format!("a number is not taken; the first such is at place {place}, counted from 0")
        }
        Refusal::Damaged => "the tile's table is damaged, or cannot be made: it has above 1024 entries, \
                             or it or a sheet runs past the tile, or they overlap, or a key is in use twice, \
                             or the tile is above 4294967295 bytes"
            .to_string(),
        Refusal::KeyThere(key) => format!("the key is in the tile already; it is {key}"),
        Refusal::KeyMissing(key) => format!("the key is not in the tile; it is {key}"),
        Refusal::TableFull(entries) => {
            format!("all entries of the tile's table are in use; there are {entries}")
        }
        Refusal::WithoutEdges(count) => format!(
            "the path has no edges, so that nothing would be drawn; its vertices are {count} \
             (a radius of 0 or 1 draws nothing, and neither does a kerb whose points are all one)"
        ),
        Refusal::NoListRoom(entries) => {
            format!("the list is longer than the room lent; its entries are {entries}")
        }
        // one that the library has and this command does not know yet
        other => other.to_string(),
    }
}
