//! Draw and keep over vertex records beside the same calls over numbers.

use crate::inputs::Input;
use crate::rounds::best_by_turns;
use crate::table::Table;
use sehmelir::{draw, draw_records, keep, keep_records, Refusal, Vertex};
use std::hint::black_box;

const GRADES: [u32; 3] = [2, 4, 8];

/// How many vertices a timing is of, at least: a short path is called again.
const LEAST_VERTICES: usize = 4096;

/// A row for each call, hedge and grade.
pub fn timed() -> Table<7> {
    let mut table = Table::new([
        "call",
        "input",
        "grade",
        "edges",
        "records ns",
        "numbers ns",
        "ratio",
    ]);
    for (name, call) in [
        ("draw", drawn as fn(&Input, u32) -> (usize, [f64; 2])),
        ("keep", kept),
    ] {
        for count in [5, 100, 900, 4096] {
            let input = Input::hedge(count);
            for grade in GRADES {
                let (edges, [records, numbers]) = call(&input, grade);
                table.push([
                    name.to_string(),
                    input.name.clone(),
                    grade.to_string(),
                    edges.to_string(),
                    format!("{records:.0}"),
                    format!("{numbers:.0}"),
                    format!("{:.3}", records / numbers),
                ]);
            }
        }
    }
    table
}

/// A path as records.
fn records(input: &Input) -> Vec<Vertex> {
    let vertices = input.path.chunks_exact(3);
    vertices
        .map(|vertex| Vertex::from([vertex[0], vertex[1], vertex[2]]))
        .collect()
}

/// The edges of a path, and the best times of drawing them from records and
/// from numbers.
fn drawn(input: &Input, grade: u32) -> (usize, [f64; 2]) {
    let path = records(input);
    let edges = needed(draw(&input.path, grade, &mut []));
    let (mut first, mut second) = (vec![0; 4 * edges], vec![0; 4 * edges]);
    let times = by_turns(
        path.len(),
        || draw_records(black_box(&path), grade, &mut first).unwrap(),
        || draw(black_box(&input.path), grade, &mut second).unwrap(),
    );
    assert_eq!(first, second);
    (edges, times)
}

/// The edges of a path, and the best times of keeping it from records and from
/// numbers.
fn kept(input: &Input, grade: u32) -> (usize, [f64; 2]) {
    let path = records(input);
    let bytes = needed(keep(&input.path, grade, &mut []));
    let (mut first, mut second) = (vec![0; bytes], vec![0; bytes]);
    let times = by_turns(
        path.len(),
        || keep_records(black_box(&path), grade, &mut first).unwrap(),
        || keep(black_box(&input.path), grade, &mut second).unwrap(),
    );
    assert_eq!(first, second);
    ((bytes - 24) / 16 - path.len(), times)
}

fn needed(answer: Result<usize, Refusal>) -> usize {
    match answer {
        Err(Refusal::NoRoom(needed)) => needed,
        other => panic!("{other:?}"),
    }
}

/// The best times of two calls on a path of so many vertices, by turns.
fn by_turns(
    vertices: usize,
    mut first: impl FnMut() -> usize,
    mut second: impl FnMut() -> usize,
) -> [f64; 2] {
    let times = LEAST_VERTICES.div_ceil(vertices);
    let best = best_by_turns(|time| {
        [
            time(&mut || (0..times).map(|_| first()).sum()),
            time(&mut || (0..times).map(|_| second()).sum()),
        ]
    });
    best.map(|all| all / times as f64)
}
