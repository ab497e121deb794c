//! Many lines at once: a sheet of short lines, kept on one core and on two, and
//! written as an old archive for the command to migrate.

use crate::archive::{keep_all, needed};
use crate::inputs::Input;
use crate::table::Table;
use std::fs::{create_dir_all, write};
use std::io;
use std::path::Path;
use std::time::Instant;

/// How many lines the sheet has.
const LINES: usize = 10_000;

const GRADES: [u32; 3] = [2, 4, 8];

/// How many times all lines are kept, on one core and on two by turns.
const ROUNDS: usize = 7;

/// How many times faster two cores are to be.
const GOAL: f64 = 1.9;

fn sheet() -> Vec<Vec<i32>> {
    let lines = Input::lines(LINES).into_iter();
    lines.map(|line| line.path).collect()
}

/// A row for each grade, by the clock on the wall.
pub fn timed() -> io::Result<Table<7>> {
    let mut table = Table::new([
        "call",
        "input",
        "grade",
        "vertices",
        "one core ms",
        "two cores ms",
        "times faster",
    ]);
    let lines = sheet();
    let vertices: usize = lines.iter().map(|line| line.len() / 3).sum();
    for grade in GRADES {
        let longest = lines.iter().map(|line| needed(line, grade)).max();
        let mut best = [f64::MAX; 2];
        for _ in 0..ROUNDS {
            for (threads, best) in (1..).zip(&mut best) {
                let start = Instant::now();
                keep_all(&lines, grade, threads, longest.unwrap_or(0))?;
                *best = best.min(start.elapsed().as_secs_f64());
            }
        }
        let [one, two] = best.map(|seconds| format!("{:.1}", 1000.0 * seconds));
        let faster = (100.0 * best[0] / best[1]).round() / 100.0;
        let sign = if faster >= GOAL { '≥' } else { '<' };
        table.push([
            "keep".to_string(),
            format!("{LINES} lines of 2 to 40"),
            grade.to_string(),
            vertices.to_string(),
            one,
            two,
            format!("{faster:.2} {sign} {GOAL}"),
        ]);
    }
    Ok(table)
}

/// Writes the sheet as an old archive, a file a line.
pub fn write_archive(directory: &Path) -> io::Result<()> {
    create_dir_all(directory)?;
    for (key, line) in sheet().iter().enumerate() {
        let mut floats = vec![0.0; line.len()];
        sehmelir::export(line, &mut floats).map_err(io::Error::other)?;
        let bytes: Vec<u8> = floats.iter().flat_map(|f| f.to_le_bytes()).collect();
        write(directory.join(format!("line-{key:05}.old")), bytes)?;
    }
    Ok(())
}
