//! Every call on the same lines by turns, beside plain's draw and tuned's.

use crate::inputs::Input;
use crate::rounds::best_by_turns;
use plain::calls;
use std::hint::black_box;

/// How many edges a timing is of, at least: short work is done again.
const LEAST_EDGES: usize = 10_000;

/// Nanoseconds a vertex: plain's draw, tuned's, and the library's calls, replace
/// at each of the places.
pub struct Times {
    pub plain: f64,
    pub tuned: f64,
    pub draw: f64,
    pub keep: f64,
    pub read: f64,
    pub replace: [f64; 3],
}

/// Which vertex is replaced: the first, the one in the middle, the last.
const PLACES: [fn(&Input) -> usize; 3] = [|_| 0, Input::middle, |line| line.vertices() - 1];

/// The best times. What is lent for edges, outlines and paths is the same for
/// every line; the stores stand apart.
pub fn best(lines: &[Input], grade: u32) -> Times {
    let mut stores: Vec<Vec<u8>> = lines.iter().map(|line| store(line, grade)).collect();
    let edges = check_all(lines, grade, &stores);
    let longest = stores.iter().map(Vec::len).max().unwrap_or(0);
    let (mut numbers, mut bytes) = (vec![0; longest / 4], vec![0; longest]);

    let times = LEAST_EDGES.div_ceil(edges);
    let of_each = |call: &mut dyn FnMut(usize) -> usize| -> usize {
        (0..times).flat_map(|_| 0..lines.len()).map(call).sum()
    };
    let path = |line: usize| &black_box(lines)[line].path[..];
    let best = best_by_turns(|time| {
        let drawn_plainly = time(&mut || {
            of_each(&mut |line| calls::draw(path(line), grade, &mut numbers).number as usize)
        });
        let tuned = time(&mut || of_each(&mut |line| tuned::draw(path(line), grade, &mut numbers)));
        let drawn = time(&mut || {
            of_each(&mut |line| sehmelir::draw(path(line), grade, &mut numbers).unwrap())
        });
        let kept = time(&mut || {
            of_each(&mut |line| sehmelir::keep(path(line), grade, &mut bytes).unwrap())
        });
        let read = time(&mut || of_each(&mut |line| read(&stores[line], &mut numbers)));
        let [first, middle, last] = PLACES.map(|place| {
            let replaced = time(&mut || {
                of_each(&mut |line| {
                    let (input, store) = (&lines[line], &mut stores[line]);
                    there_and_back(input, place(input), store)
                })
            });
            replaced / 2
        });
        [drawn_plainly, tuned, drawn, kept, read, first, middle, last]
    });
    check_all(lines, grade, &stores);
    let vertices: usize = lines.iter().map(Input::vertices).sum();
    let each = |time: f64| time / (times * vertices) as f64;
    let [plain, tuned, draw, keep, read, replace @ ..] = best.map(each);
    Times {
        plain,
        tuned,
        draw,
        keep,
        read,
        replace,
    }
}

/// A line's outline, with room to grow where a vertex is moved.
fn store(line: &Input, grade: u32) -> Vec<u8> {
    let needed = |path: &[i32]| calls::keep(path, grade, &mut []).number as usize;
    let moved = PLACES.map(|place| needed(&line.moved_path(place(line))));
    let most = moved.into_iter().fold(needed(&line.path), usize::max);
    let mut store = vec![0; most];
    assert_eq!(calls::keep(&line.path, grade, &mut store).reply, 0);
    store
}

fn read(store: &[u8], path: &mut [i32]) -> usize {
    sehmelir::read(store, path).unwrap().vertices
}

/// Moves a vertex of a store and moves it back.
fn there_and_back(line: &Input, index: usize, store: &mut [u8]) -> usize {
    let mut replace = |[x, y, radius]: [i32; 3]| {
        let replaced = sehmelir::replace(store, index, x, y, radius);
        replaced.unwrap()
    };
    replace(line.moved_vertex(index)) + replace(line.vertex(index))
}

fn check_all(lines: &[Input], grade: u32, stores: &[Vec<u8>]) -> usize {
    let checked = lines.iter().zip(stores);
    checked.map(|(line, store)| check(line, grade, store)).sum()
}

/// That plain, tuned and the library agree on a line, whose outline the store
/// begins with; and how many edges it has.
fn check(line: &Input, grade: u32, store: &[u8]) -> usize {
    let name = &line.name;
    let path = &line.path[..];
    let edges = calls::draw(path, grade, &mut []).number as usize;
    let [mut plain, mut fast, mut library] = [(); 3].map(|()| vec![0; 4 * edges]);
    calls::draw(path, grade, &mut plain);
    let same = tuned::draw(path, grade, &mut fast) == edges && fast == plain;
    assert!(same, "{name}: tuned has other edges");
    let same = sehmelir::draw(path, grade, &mut library) == Ok(edges) && library == plain;
    assert!(same, "{name}: draw has other edges");

    let mut kept = vec![0; store.len()];
    sehmelir::keep(path, grade, &mut kept).unwrap();
    assert!(kept == store, "{name}: keep has other bytes");
    let mut back = vec![0; path.len()];
    read(store, &mut back);
    assert!(back == path, "{name}: read has another path");
    for place in PLACES {
        let index = place(line);
        let [x, y, radius] = line.moved_vertex(index);
        let mut due = store.to_vec();
        calls::replace(&mut due, index, x, y, radius);
        sehmelir::replace(&mut kept, index, x, y, radius).unwrap();
        assert!(kept == due, "{name}: replace has other bytes");
        there_and_back(line, index, &mut kept);
        assert!(kept == store, "{name}: replaced back it has other bytes");
    }
    edges
}
