//! Circles at the finest grade, beside plain, which rotates, and beside plain
//! with the half turn of directions ready.

use crate::inputs::Input;
use crate::rounds::best_by_turns;
use crate::table::Table;
use plain::calls;
use plain::ready::{self, FINEST};
use std::hint::black_box;

/// How many circles a sheet has.
const CIRCLES: usize = 512;

pub fn timed() -> Table<8> {
    let mut table = Table::new([
        "call",
        "input",
        "edges",
        "library ns/edge",
        "plain ns/edge",
        "ready ns/edge",
        "to plain",
        "to ready",
    ]);
    for input in [Input::circles(CIRCLES), Input::small_circles(CIRCLES)] {
        let path = black_box(&input.path);
        let edges = calls::draw(path, FINEST, &mut []).number as usize;
        let mut room = [(); 3].map(|()| vec![0; 4 * edges]);
        let best = {
            let [first, second, third] = &mut room;
            best_by_turns(|time| {
                [
                    time(&mut || sehmelir::draw(path, FINEST, first).unwrap()),
                    time(&mut || calls::draw(path, FINEST, second).number as usize),
                    time(&mut || ready::draw(path, third)),
                ]
            })
        };
        let name = &input.name;
        assert!(room[0] == room[1], "{name}: plain has other edges");
        assert!(room[0] == room[2], "{name}: the table has other edges");
        let [library, plain, ready] = best;
        let per = |time: f64| format!("{:.2}", time / edges as f64);
        table.push([
            "draw".to_string(),
            name.clone(),
            edges.to_string(),
            per(library),
            per(plain),
            per(ready),
            format!("{:.2}", library / plain),
            format!("{:.2}", library / ready),
        ]);
    }
    table
}
