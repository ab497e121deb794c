//! The answer to one case, or nothing if the line is no case.

use plain::arcs::{arc, circle, Edge, Sweep};
use plain::calls::{draw, keep, read, replace, Reply};
use plain::chains::join;
use plain::contacts::{kind, shift, Kind, Section, Trend, Vertex};
use plain::numbers::{
    direction, integer_root, mul_div, product, rotate, scale, step_of_grade, Point,
};

/// Numbers with one space between them.
fn text<T: ToString>(numbers: impl IntoIterator<Item = T>) -> String {
    let words: Vec<String> = numbers.into_iter().map(|n| n.to_string()).collect();
    words.join(" ")
}

fn point(x: i128, y: i128) -> Point {
    Point::new(x as i64, y as i64)
}

fn vertex(x: i128, y: i128, radius: i128) -> Vertex {
    Vertex::new(x as i64, y as i64, radius as i64)
}

/// `1 n` root, `2 a b` product, `3 a b d` quotient and whether nothing is left
/// over, `4 x y` direction, `5 k`
/// step, `6 c s x y` rotation, `7 d r` scaling, `8 sq` shift.
pub fn numbers(case: &[i128]) -> Option<String> {
    let pair = |p: Point| text([p.x, p.y]);
    Some(match *case {
        [1, n] => integer_root(n as u64).to_string(),
        [2, a, b] => {
            let (high, low) = product(a as u64, b as u64);
            text([high, low])
        }
        [3, a, b, d] => {
            let (value, exact) = mul_div(a as i64, b as i64, d as i64);
            text([value, exact as i64])
        }
        [4, x, y] => pair(direction(point(x, y))),
        [5, k] => pair(step_of_grade(k as u32)),
        [6, c, s, x, y] => pair(rotate(point(c, s), point(x, y))),
        [7, d, r] => scale(d as i64, r as i64).to_string(),
        [8, sq] => shift(sq as u64).to_string(),
        _ => return None,
    })
}

/// How many edges, then the four numbers of each.
fn edges(emit: impl FnOnce(&mut Vec<Edge>)) -> String {
    let mut edges = Vec::new();
    emit(&mut edges);
    let count = edges.len() as i32;
    text(std::iter::once(&count).chain(edges.as_flattened()))
}

/// The kind of a step and, if it is not broken, its contacts, its trend and
/// which contacts are exact.
fn contacts(a: Vertex, b: Vertex) -> String {
    let kind = match kind(a, b) {
        Kind::Broken => return "0".to_string(),
        Kind::Drawn => 1,
        Kind::Thin => 2,
    };
    let s = Section::new(a, b);
    let trend = match s.trend {
        Trend::Decreasing => 0,
        Trend::Constant => 1,
        Trend::Increasing => 2,
    };
    let corners = [s.a_left, s.b_left, s.a_right, s.b_right];
    let corners = corners.iter().flat_map(|p| [p.x, p.y]);
    let exact = [
        s.a_left_exact,
        s.b_left_exact,
        s.a_right_exact,
        s.b_right_exact,
    ];
    let numbers = std::iter::once(kind).chain(corners).chain([trend]);
    text(numbers.chain(exact.map(i64::from)))
}

/// `1 grade cx cy radius px py qx qy choice` arc about a vertex, `2 grade cx cy radius`
/// circle, `3` and two vertices contacts, `4` and three vertices covering, `5
/// grade` and four vertices join.
pub fn arcs(case: &[i128]) -> Option<String> {
    let step = |grade: i128| step_of_grade(grade as u32);
    Some(match *case {
        [1, grade, cx, cy, _, px, py, qx, qy, choice] => {
            let (centre, from, to) = (point(cx, cy), point(px, py), point(qx, qy));
            let aligned = if choice == 0 {
                Sweep::Minor
            } else {
                Sweep::Major
            };
            edges(|out| arc(out, step(grade), centre, from, to, aligned))
        }
        [2, grade, cx, cy, radius] => {
            edges(|out| circle(out, step(grade), point(cx, cy), radius as i64))
        }
        [3, ax, ay, ar, bx, by, br] => contacts(vertex(ax, ay, ar), vertex(bx, by, br)),
        [4, ax, ay, ar, bx, by, br, x, y, r] => {
            let section = Section::new(vertex(ax, ay, ar), vertex(bx, by, br));
            (section.covers_circle(vertex(x, y, r)) as u8).to_string()
        }
        [5, grade, ax, ay, ar, bx, by, br, cx, cy, cr, dx, dy, dr] => {
            let prev = Section::new(vertex(ax, ay, ar), vertex(bx, by, br));
            let next = Section::new(vertex(cx, cy, cr), vertex(dx, dy, dr));
            edges(|out| join(out, step(grade), &prev, &next))
        }
        _ => return None,
    })
}

/// Lent memory before a call: entry i holds i mod 251.
fn canary<T: From<u8>>(length: usize) -> Vec<T> {
    (0..length).map(|i| T::from((i % 251) as u8)).collect()
}

/// The checksum of lent memory, over 32-bit patterns.
fn checksum<T: Copy + Into<i64>>(memory: &[T]) -> u64 {
    let add = |sum: u64, &entry: &T| {
        let pattern = entry.into() as u32;
        (sum * 257 + pattern as u64) % 4_294_967_291
    };
    memory.iter().fold(0, add)
}

/// Most entries of lent memory that an answer shows.
const MOST_SHOWN: usize = 64;

/// `reply number grade checksum length` and short memory after ` :`.
fn told<T: Copy + Into<i64>>(reply: Reply, memory: &[T]) -> String {
    let Reply {
        reply,
        number,
        grade,
        ..
    } = reply;
    let sum = checksum(memory);
    let length = memory.len();
    let mut told = format!("{reply} {number} {grade} {sum} {length}");
    if length <= MOST_SHOWN {
        told.push_str(" :");
        for &entry in memory {
            told.push_str(&format!(" {}", entry.into()));
        }
    }
    told
}

/// The bytes that a path needs when it is kept, 0 if it is refused anyhow.
pub fn needed(path: &[i32], grade: u32) -> usize {
    match keep(path, grade, &mut []) {
        Reply {
            reply: 5, number, ..
        } => number as usize,
        _ => 0,
    }
}

/// `1` draw, `2` keep, `3` read, `4` replace, `5` keep, damage, read and
/// replace.
pub fn calls(case: &[i128]) -> Option<String> {
    let (&code, rest) = case.split_first()?;
    let head = match code {
        1 | 2 => 3,
        3 => 2,
        4 => 5,
        5 => 9,
        _ => return None,
    };
    if rest.len() < head {
        return None;
    }
    let (head, lent) = rest.split_at(head);
    if *head.last()? != lent.len() as i128 {
        return None;
    }
    let numbers = || -> Vec<i32> { lent.iter().map(|&n| n as i32).collect() };
    let bytes = || -> Vec<u8> { lent.iter().map(|&n| n as u8).collect() };
    Some(match (code, head) {
        (1, &[grade, room, _]) => {
            let mut room = canary::<i32>(room as usize);
            told(draw(&numbers(), grade as u32, &mut room), &room)
        }
        (2, &[grade, room, _]) => {
            let mut room = canary::<u8>(room as usize);
            told(keep(&numbers(), grade as u32, &mut room), &room)
        }
        (3, &[room, _]) => {
            let mut room = canary::<i32>(room as usize);
            told(read(&bytes(), &mut room), &room)
        }
        (4, &[index, x, y, radius, _]) => {
            let mut store = bytes();
            let (x, y, radius) = (x as i32, y as i32, radius as i32);
            told(replace(&mut store, index as usize, x, y, radius), &store)
        }
        (5, &[grade, extra, at, value, index, x, y, radius, _]) => {
            let (path, grade) = (numbers(), grade as u32);
            let mut store = canary::<u8>(needed(&path, grade) + extra as usize);
            let kept = keep(&path, grade, &mut store);
            let mut answers = told(kept, &store);
            if kept.reply == 0 {
                if let Some(byte) = store.get_mut(at as usize) {
                    *byte = byte.wrapping_add(value as u8);
                }
                let mut room = canary::<i32>(path.len());
                let reply = read(&store, &mut room);
                answers.push(' ');
                answers.push_str(&told(reply, &room));
                let (x, y, radius) = (x as i32, y as i32, radius as i32);
                let reply = replace(&mut store, index as usize, x, y, radius);
                answers.push(' ');
                answers.push_str(&told(reply, &store));
            }
            answers
        }
        _ => return None,
    })
}
