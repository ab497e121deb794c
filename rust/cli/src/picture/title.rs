//! The lines of words on the page.

use super::pen::decimal;
use super::Shown;
use crate::changes::{count, first_marked};
use crate::kerbs;
use crate::ranges::{counted, number};
use crate::sheet::Sheet;
use sehmelir::Form;

/// The first line of one sheet's picture.
pub fn of_one(sheet: &Sheet) -> String {
    let vertices = counted(sheet.vertices().len(), "vertex", "vertices");
    let edges = counted(sheet.edge_count(), "edge", "edges");
    let kerb = kerbs::of(sheet);
    format!("{vertices}, {edges}, grade {}{kerb}", sheet.grade())
}

/// The first line of two sheets' picture.
pub fn of_two(before: &Sheet, after: &Sheet) -> String {
    let vertices = counted(after.vertices().len(), "vertex", "vertices");
    let edges = counted(before.edge_count(), "edge", "edges");
    let later = number(after.edge_count());
    let grade = match (before.grade(), after.grade()) {
        (old, new) if old == new => new.to_string(),
        (old, new) => format!("{old} before and {new} after"),
    };
    let kerb = kerbs::of(after);
    format!("{vertices}, {edges} before and {later} after, grade {grade}{kerb}")
}

/// The first line of a tile's picture.
pub fn of_tile(sheets: &[(u32, Sheet)]) -> String {
    let sum = |count: fn(&Sheet) -> usize| sheets.iter().map(|(_, sheet)| count(sheet)).sum();
    let lines = counted(sheets.len(), "line", "lines");
    let vertices = sum(|sheet| sheet.vertices().len());
    let vertices = counted(vertices, "vertex", "vertices");
    let edges = counted(sum(Sheet::edge_count), "edge", "edges");
    format!("{lines}, {vertices}, {edges}")
}

/// What differs, in one line.
pub fn of_changes(shown: Shown) -> String {
    let (vertices, bodies) = (&shown.changes.vertices, &shown.changes.bodies);
    let moved = counted(count(vertices, true), "vertex differs", "vertices differ");
    let changed = count(bodies, true);
    let other = counted(changed, "body holds other edges", "bodies hold other edges");
    if changed == 0 {
        return format!("{moved}; {other}");
    }
    format!(
        "{moved}; {other}: {} (<tspan class=\"after\">red: after</tspan>, \
         <tspan class=\"before\">blue dashes: before</tspan>)",
        match shown.after.form() {
            Form::Stroke => span(bodies),
            Form::Kerb(_) => of_kerb(bodies),
        }
    )
}

/// Which bodies of a kerb changed.
fn of_kerb(bodies: &[bool]) -> String {
    let names = ["lines", "corners", "ends"];
    let changed = names.into_iter().zip(bodies).filter(|(_, &mark)| mark);
    let changed: Vec<&str> = changed.map(|(name, _)| name).collect();
    changed.join(", ")
}

/// Which bodies changed, from the first to the last.
fn span(bodies: &[bool]) -> String {
    let first = first_marked(bodies, 0).unwrap_or(0);
    let last = bodies.iter().rposition(|&mark| mark).unwrap_or(0);
    let name = |body| match body {
        closing if closing + 1 == bodies.len() => "the closing one".to_string(),
        body => number(body),
    };
    if first == last {
        return name(first);
    }
    format!("{} the first, {} the last", name(first), name(last))
}

/// What is said of the part that is shown so many times as large.
pub fn of_part(times: i64) -> String {
    match times {
        ..2 => "the marked part, enlarged".to_string(),
        times => format!("the marked part, {times} times as large"),
    }
}

/// What is said where lines stand for more edges than the page can show.
pub fn of_shortcuts(edges: usize, tolerance: i64, lines: usize) -> String {
    format!(
        "drawn no finer than the page can show: true to {} of its units, {} for {} edges",
        decimal(tolerance),
        counted(lines, "line", "lines"),
        number(edges)
    )
}

/// What is said where the boundary does not close.
pub fn of_unfilled() -> String {
    "not filled: a join's arc has one end at its centre, and the edges do not close".to_string()
}

/// What is said where the boundaries of so many lines of a tile do not close.
pub fn of_unfilled_lines(count: usize) -> String {
    let lines = counted(count, "line", "lines");
    format!(
        "{lines} not filled: a join's arc has one end at its centre, and the edges do not close"
    )
}
