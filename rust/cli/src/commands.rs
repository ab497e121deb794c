//! What each command does.

use crate::arguments::{
    Arguments, Command, Comparing, Converting, Drawing, Exporting, Importing, Kerbing, Reading,
    Replacing, Showing,
};
use crate::calls;
use crate::changes::Changes;
use crate::demo;
use crate::destination::Destination;
use crate::failure::Failure;
use crate::kerbs;
use crate::migration;
use crate::oldest;
use crate::path_text::{numbered_rows, numbers, pairs, path, rows};
use crate::picture;
use crate::reasons;
use crate::report;
use crate::salvage;
use crate::sheet::{sheet_of, Sheet};
use crate::sides;
use crate::source::Source;
use crate::tile;
use crate::words::whole;
use clap::CommandFactory;
use clap_complete::{generate, Shell};
use sehmelir::Form;
use std::path::PathBuf;

/// Runs a command.
pub fn run(command: Command) -> Result<(), Failure> {
    match command {
        Command::Keep(asked) => keep(asked),
        Command::Read(asked) => read(asked),
        Command::Draw(asked) => draw(asked),
        Command::KeepKerb(asked) => keep_kerb(asked),
        Command::DrawKerb(asked) => draw_kerb(asked),
        Command::Replace(asked) => replace(asked),
        Command::Convert(asked) => convert(asked),
        Command::Explain(asked) => reasons::run(asked),
        Command::Changed(asked) => compare(asked),
        Command::Side(asked) => sides::run(asked),
        Command::Picture(asked) => show(asked),
        Command::Salvage(asked) => salvage::run(asked),
        Command::Import(asked) => import(asked),
        Command::Export(asked) => export(asked),
        Command::Tile(asked) => tile::run(asked),
        Command::Migrate(asked) => migration::run(asked),
        Command::Demo => demo::run(),
        Command::Completions { shell } => complete(shell),
    }
}

/// A path as a sheet.
fn keep(asked: Drawing) -> Result<(), Failure> {
    let grade = grade_of(&asked.grade)?;
    let keep = |text: Vec<u8>| calls::keep_records(&path(&text)?, grade);
    let sheet = Source::named(asked.path).take(keep)?;
    asked.destination.write(&sheet)
}

/// A sheet's path as text, or a kerb's points after a line that tells its style.
fn read(asked: Reading) -> Result<(), Failure> {
    let text = Source::named(asked.sheet).take(|sheet| as_text(&sheet))?;
    asked.destination.write(&text)
}

/// What a sheet holds, as text.
fn as_text(sheet: &[u8]) -> Result<Vec<u8>, Failure> {
    let read = calls::read(sheet)?;
    Ok(match read.form {
        Form::Stroke => numbered_rows(read.numbers.as_chunks::<3>().0, &calls::numbers(sheet)?),
        Form::Kerb(style) => {
            let points = rows(read.numbers.as_chunks::<2>().0);
            [kerbs::comment(style).into_bytes(), points].concat()
        }
    })
}

/// A kerb as a sheet.
fn keep_kerb(asked: Kerbing) -> Result<(), Failure> {
    let (grade, style) = (grade_of(&asked.grade)?, asked.styling.style()?);
    let keep = |text: Vec<u8>| calls::keep_kerb(&pairs(&text)?, grade, style);
    let sheet = Source::named(asked.path).take(keep)?;
    asked.destination.write(&sheet)
}

/// A kerb's boundary as text.
fn draw_kerb(asked: Kerbing) -> Result<(), Failure> {
    let (grade, style) = (grade_of(&asked.grade)?, asked.styling.style()?);
    let draw = |text: Vec<u8>| calls::draw_kerb(&pairs(&text)?, grade, style);
    let edges = Source::named(asked.path).take(draw)?;
    asked.destination.write(&rows(&edges))
}

/// A path's boundary as text.
fn draw(asked: Drawing) -> Result<(), Failure> {
    let grade = grade_of(&asked.grade)?;
    let draw = |text: Vec<u8>| calls::draw(&path(&text)?, grade);
    let edges = Source::named(asked.path).take(draw)?;
    asked.destination.write(&rows(&edges))
}

/// A sheet with another vertex.
fn replace(asked: Replacing) -> Result<(), Failure> {
    let (index, vertex) = vertex_of(&asked.index, [&asked.x, &asked.y, &asked.radius])?;
    let replace = |sheet| calls::replace(sheet, index, vertex);
    let sheet = Source::named(asked.sheet).take(replace)?;
    asked.destination.write(&sheet)
}

/// A sheet at another grade.
fn convert(asked: Converting) -> Result<(), Failure> {
    let grade = grade_of(&asked.grade)?;
    let convert = |sheet| calls::convert(sheet, grade);
    let sheet = Source::named(asked.sheet).take(convert)?;
    asked.destination.write(&sheet)
}

/// What differs between two sheets.
fn compare(asked: Comparing) -> Result<(), Failure> {
    let before = sheet_of(Some(asked.before))?;
    let after = sheet_of(Some(asked.after))?;
    let report = report::of(&before, &after)?;
    asked.destination.write(report.as_bytes())
}

/// The picture of one sheet, or of two.
fn show(asked: Showing) -> Result<(), Failure> {
    let picture = match (asked.after, asked.reasons) {
        (None, false) => picture::of_one(&sheet_of(asked.sheet)?),
        (None, true) => Source::named(asked.sheet).take(with_reasons)?,
        (Some(after), _) => {
            let (before, after, changes) = two_of(asked.sheet, after)?;
            picture::of_two(&before, &after, &changes)
        }
    };
    asked.destination.write(picture.as_bytes())
}

/// Two sheets and what differs: both of them sound, or the first spoiled and the
/// second what it is salvaged as.
fn two_of(before: Option<PathBuf>, after: PathBuf) -> Result<(Sheet, Sheet, Changes), Failure> {
    let mut spoiled = None;
    let sound = Source::named(before).take(|bytes| Sheet::sound_or(bytes, &mut spoiled));
    let after = || sheet_of(Some(after));
    match (sound, spoiled) {
        (Ok(before), _) => {
            let after = after()?;
            let changes = Changes::between(&before, &after)?;
            Ok((before, after, changes))
        }
        (Err(failure), Some(spoiled)) => {
            let Ok(after) = after() else {
                return Err(failure);
            };
            let (before, changes) = salvage::beside(spoiled, &after).ok_or(failure)?;
            Ok((before, after, changes))
        }
        (Err(failure), None) => Err(failure),
    }
}

/// The picture of a sheet with its edges in colours.
fn with_reasons(sheet: Vec<u8>) -> Result<String, Failure> {
    let sheet = Sheet::sound(sheet)?;
    let reasons = reasons::of_edges(sheet.bytes())?;
    Ok(picture::of_reasons(&sheet, &reasons))
}

/// The path of a file of the oldest chunks as text.
fn import(asked: Importing) -> Result<(), Failure> {
    let import = |bytes: Vec<u8>| calls::import(&oldest::floats(&bytes)?);
    let path = Source::named(asked.old).take(import)?;
    asked.destination.write(&rows(&path))
}

/// A path as a file of the oldest chunks, which have no point numbers.
fn export(asked: Exporting) -> Result<(), Failure> {
    let export = |text: Vec<u8>| calls::export(&numbers(&text)?);
    let vertices = Source::named(asked.path).take(export)?;
    asked.destination.write(&oldest::bytes(&vertices))
}

/// A shell's completions, on standard output.
fn complete(shell: Shell) -> Result<(), Failure> {
    let mut script = Vec::new();
    generate(shell, &mut Arguments::command(), "sehmelir", &mut script);
    Destination::standard().write(&script)
}

/// A number that may be a grade. That grades are 2 to 8 is the library's test.
fn grade_of(word: &str) -> Result<u32, Failure> {
    let due = Failure::Words("GRADE is a whole number, 2 to 8");
    whole(word.as_bytes()).ok_or(due)
}

/// An index, and numbers that may be a vertex. The limits are the library's
/// test.
fn vertex_of(index: &str, vertex: [&str; 3]) -> Result<(usize, [i32; 3]), Failure> {
    let due = "K, X, Y and RADIUS are whole numbers, K from 0 on, the others of 32 bits";
    let index = whole(index.as_bytes()).ok_or(Failure::Words(due))?;
    let [Some(x), Some(y), Some(radius)] = vertex.map(|word| whole(word.as_bytes())) else {
        return Err(Failure::Words(due));
    };
    Ok((index, [x, y, radius]))
}
