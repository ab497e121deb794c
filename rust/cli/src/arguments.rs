//! The command line.

use crate::destination::Destination;
use crate::kerbs::Styling;
use crate::migration::Migrating;
use crate::reasons::Explaining;
use crate::salvage::Salvaging;
use crate::tile::TileCommand;
use clap::{Args, Parser, Subcommand};
use clap_complete::Shell;
use std::ffi::OsString;
use std::path::PathBuf;

const AFTER_HELP: &str = "\
A path text has a vertex a line, three whole numbers: x y radius; a vertex that has a point number,
0 to 4294967295, has that as a fourth, and keep keeps it. Blank lines count for nothing, and neither
does what follows a #. x and y are -268435456 to 268435456, a radius is 0 to 268435456, a path has
at most 4096 vertices. A kerb has one radius for the whole line, and its text has two numbers a
line: x y. Bytes that follow a sheet are passed over. A file of the oldest chunks has 12 bytes a
vertex: x, y and full width in millimetres, as little-endian 32-bit floats; it has no point numbers.

Input comes from standard input, or from the file that is named. The result goes to standard
output, or with -o to a file, which is written whole or not at all. A tile that a command of tile
changes is replaced in the same way.

Exit status: 0 and the result; or 1, why on standard error, and nothing on standard output. Of
migrate: 0 where every file was taken, 1 where some were refused, 2 where it failed.";

/// Lines kept as points with a radius at each, and the boundary drawn about
/// them
#[derive(Parser)]
#[command(name = "sehmelir", bin_name = "sehmelir", version, after_help = AFTER_HELP)]
pub struct Arguments {
    #[command(subcommand)]
    pub command: Option<Command>,
}

/// What can be done.
#[derive(Subcommand)]
pub enum Command {
    /// Keep a path as a sheet, its boundary drawn at a grade of 2 to 8
    Keep(Drawing),
    /// The path of a sheet, as text again
    Read(Reading),
    /// The boundary of a path, an edge a line: x y of its start, x y of its end
    Draw(Drawing),
    /// Keep a kerb, a line of one width, as a sheet
    KeepKerb(Kerbing),
    /// The boundary of a kerb, an edge a line: x y of its start, x y of its end
    DrawKerb(Kerbing),
    /// A sheet with another vertex K; the first vertex is 0
    Replace(Replacing),
    /// A sheet redrawn at another grade of 2 to 8, also one of grade 1; all else of it stays
    Convert(Converting),
    /// Why an edge of a sheet is there, or each of them, a line an edge: edge reason vertex place, and exact or rounded for each end of a side
    Explain(Explaining),
    /// What differs between two sheets, and what cannot
    Changed(Comparing),
    /// The bodies of a vertex in two sheets side by side, an edge a line, those that differ marked
    Side(Siding),
    /// A sheet as a picture (SVG), or two, what differs in a second colour
    Picture(Showing),
    /// A sound sheet from the header and vertices of a spoiled one; what differed is told on standard error
    Salvage(Salvaging),
    /// The path of a file of the oldest chunks, as text
    Import(Importing),
    /// A path as a file of the oldest chunks
    Export(Exporting),
    /// Many sheets in one file, a tile, each under a key
    #[command(subcommand, visible_alias = "chunk")]
    Tile(TileCommand),
    /// An archive of old chunks as tiles of sheets, with a manifest; or, with --verify, whether it is one
    Migrate(Migrating),
    /// A hedge of nine hundred points, one gate post moved; writes hedge.svg here
    Demo,
    /// Completions of this command for a shell
    Completions {
        /// The shell that they are for
        shell: Shell,
    },
}

/// What keep and draw take. Numbers come as words, here and below: one that is
/// none is refused in this command's own words.
#[derive(Args)]
pub struct Drawing {
    /// How finely arcs are drawn: 2 to 8, 8 is the finest
    #[arg(allow_negative_numbers = true)]
    pub grade: String,
    /// The path text, if not on standard input
    pub path: Option<PathBuf>,
    #[command(flatten)]
    pub destination: Destination,
}

/// What keep-kerb and draw-kerb take.
#[derive(Args)]
pub struct Kerbing {
    /// How finely arcs are drawn: 2 to 8, 8 is the finest
    #[arg(allow_negative_numbers = true)]
    pub grade: String,
    #[command(flatten)]
    pub styling: Styling,
    /// The kerb's text, if not on standard input
    pub path: Option<PathBuf>,
    #[command(flatten)]
    pub destination: Destination,
}

/// What read takes.
#[derive(Args)]
pub struct Reading {
    /// The sheet, if not on standard input
    pub sheet: Option<PathBuf>,
    #[command(flatten)]
    pub destination: Destination,
}

/// What replace takes.
#[derive(Args)]
pub struct Replacing {
    /// The number of the vertex, from 0 on
    #[arg(value_name = "K", allow_negative_numbers = true)]
    pub index: String,
    /// Where it stands then, across
    #[arg(allow_negative_numbers = true)]
    pub x: String,
    /// Where it stands then, upwards
    #[arg(allow_negative_numbers = true)]
    pub y: String,
    /// Its radius then
    #[arg(allow_negative_numbers = true)]
    pub radius: String,
    /// The sheet, if not on standard input
    pub sheet: Option<PathBuf>,
    #[command(flatten)]
    pub destination: Destination,
}

/// What convert takes.
#[derive(Args)]
pub struct Converting {
    /// How finely arcs are drawn then: 2 to 8, 8 is the finest
    #[arg(allow_negative_numbers = true)]
    pub grade: String,
    /// The sheet, if not on standard input
    pub sheet: Option<PathBuf>,
    #[command(flatten)]
    pub destination: Destination,
}

/// What changed takes.
#[derive(Args)]
pub struct Comparing {
    /// The sheet before
    pub before: PathBuf,
    /// The sheet after
    pub after: PathBuf,
    #[command(flatten)]
    pub destination: Destination,
}

/// What side takes.
#[derive(Args)]
pub struct Siding {
    /// The sheet before
    pub before: PathBuf,
    /// The sheet after
    pub after: PathBuf,
    /// The number of the vertex, from 0 on; the closing body has the one after the last
    #[arg(allow_negative_numbers = true)]
    pub vertex: OsString,
    #[command(flatten)]
    pub destination: Destination,
}

/// What picture takes.
#[derive(Args)]
pub struct Showing {
    /// The sheet, if not on standard input; or the sheet before, or a spoiled one
    pub sheet: Option<PathBuf>,
    /// The sheet after, or what the spoiled one is salvaged as
    pub after: Option<PathBuf>,
    /// Edges in colours, by why they are there
    #[arg(long, conflicts_with = "after")]
    pub reasons: bool,
    #[command(flatten)]
    pub destination: Destination,
}

/// What import takes.
#[derive(Args)]
pub struct Importing {
    /// The file of the oldest chunks, if not on standard input
    pub old: Option<PathBuf>,
    #[command(flatten)]
    pub destination: Destination,
}

/// What export takes.
#[derive(Args)]
pub struct Exporting {
    /// The path text, if not on standard input
    pub path: Option<PathBuf>,
    #[command(flatten)]
    pub destination: Destination,
}
