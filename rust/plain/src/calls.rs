//! Document 01, the four calls and "Replies, tested in this order"; in the same
//! replies, document 02's calls of a kerb and of point numbers, its conversion, and
//! how far replacing a vertex shows.
//!
//! "A refusal changes no lent memory."

use crate::chains::{self, walk, Drawing};
use crate::contacts::Vertex;
use crate::kerbs::{self, KerbDrawing, Style, StyleWords};
use crate::numbers::Point;
use crate::outline::{
    first_difference, kerb_words, laid_kerb, point_numbers, points, put, style_words, vertices,
    Edition, Header, Sheet, KERB, LEAST_BYTES, LEAST_KERB_BYTES, STROKE,
};

/// What is ported: "0 to 4,096 vertices".
pub const MOST_VERTICES: u64 = 4096;

/// A reply, the number with it, and beside them what only a reading that is not
/// refused sets: the grade, the kind and, of a kerb, its style.
#[derive(Clone, Copy, Debug, PartialEq, Eq)]
pub struct Reply {
    pub reply: u32,
    pub number: u64,
    pub grade: u32,
    pub kind: u32,
    pub style: StyleWords,
}

impl Reply {
    /// A reply with its number, and nothing beside them.
    pub const fn new(reply: u32, number: u64) -> Reply {
        Reply {
            reply,
            number,
            grade: 0,
            kind: 0,
            style: [0; 3],
        }
    }
}

/// A reply and its number, and beside them where a part of lent memory stands, 0
/// and 0 when refused.
#[derive(Clone, Copy, Debug, PartialEq, Eq)]
pub struct Part {
    pub reply: u32,
    pub number: u64,
    pub offset: u64,
    pub length: u64,
}

impl Part {
    /// A refusal: no part.
    pub(crate) fn refused(refusal: Reply) -> Part {
        Part {
            reply: refusal.reply,
            number: refusal.number,
            offset: 0,
            length: 0,
        }
    }
}

/// Replies: 1, "numbers lent not a multiple of three", with "how many"; of a
/// kerb, "1 for an odd count".
pub(crate) fn tested_numbers(count: usize, each: usize) -> Result<(), Reply> {
    match count % each {
        0 => Ok(()),
        _ => Err(Reply::new(1, count as u64)),
    }
}

/// Replies: 3, "grade not 1 to 8", with "the grade", of a store.
pub(crate) fn tested_grade(grade: u32) -> Result<(), Reply> {
    match grade {
        1..=8 => Ok(()),
        _ => Err(Reply::new(3, grade as u64)),
    }
}

/// Request 13: "Draw and keep refuse grade 1 with 3 from now on." "Replacing a
/// vertex in one is refused with 3, just before 9 and after 12."
fn tested_drawn_grade(grade: u32) -> Result<(), Reply> {
    match grade {
        2..=8 => Ok(()),
        _ => Err(Reply::new(3, grade as u64)),
    }
}

/// Request 3: 11, "the first of radius, join and closed outside its range",
/// with its place in the header, "straight after 3".
fn tested_style(words: StyleWords) -> Result<Style, Reply> {
    Style::of(words).map_err(|place| Reply::new(11, place as u64))
}

/// Replies: 2, "above 4,096 vertices", with "vertices".
pub(crate) fn tested_count(count: u64) -> Result<(), Reply> {
    match count {
        0..=MOST_VERTICES => Ok(()),
        _ => Err(Reply::new(2, count)),
    }
}

/// Replies: 4, "a vertex outside the limits", with "first such index".
pub(crate) fn tested_limits(path: &[Vertex]) -> Result<(), Reply> {
    match path.iter().position(|vertex| !vertex.allowed()) {
        None => Ok(()),
        Some(index) => Err(Reply::new(4, index as u64)),
    }
}

/// Replies: 5, "result longer than the room lent", with what is "needed":
/// `count` things of `size` entries each.
pub(crate) fn tested_room(count: usize, size: usize, room: usize) -> Result<(), Reply> {
    if size * count <= room {
        Ok(())
    } else {
        Err(Reply::new(5, count as u64))
    }
}

/// Document 02, request 9: 18, "a path of one vertex or more that has no
/// edges", "with the number of vertices".
fn tested_edges(vertices: usize, edges: usize) -> Result<(), Reply> {
    if vertices == 0 || edges > 0 {
        Ok(())
    } else {
        Err(Reply::new(18, vertices as u64))
    }
}

/// Request 3: the first point of a kerb outside the limits.
fn tested_points(points: &[Point]) -> Result<(), Reply> {
    let vertex = |point: &Point| Vertex::new(point.x, point.y, 0);
    tested_limits(&points.iter().map(vertex).collect::<Vec<Vertex>>())
}

/// Draw, keep, replace: what a path gives, which "draw, keep and replace
/// refuse" if that is nothing.
fn drawn(path: &[Vertex], grade: u32) -> Result<Drawing, Reply> {
    let drawing = walk(path, grade);
    tested_edges(path.len(), drawing.edges.len())?;
    Ok(drawing)
}

/// The same of a kerb: "18 is for both kinds".
fn drawn_kerb(points: &[Point], grade: u32, style: Style) -> Result<KerbDrawing, Reply> {
    let drawing = kerbs::walk(points, grade, style);
    tested_edges(points.len(), drawing.edges.len())?;
    Ok(drawing)
}

/// Draw, keep: the path of the lent numbers, three a vertex, or the refusal.
fn lent_path(numbers: &[i32], grade: u32) -> Result<Vec<Vertex>, Reply> {
    tested_numbers(numbers.len(), 3)?;
    let vertex = |n: &[i32]| Vertex::new(n[0] as i64, n[1] as i64, n[2] as i64);
    let path: Vec<Vertex> = numbers.chunks_exact(3).map(vertex).collect();
    tested_path(&path, grade)?;
    Ok(path)
}

/// Draw, keep: what is tested of a path, however it is lent.
fn tested_path(path: &[Vertex], grade: u32) -> Result<(), Reply> {
    tested_drawn_grade(grade)?;
    tested_count(path.len() as u64)?;
    tested_limits(path)
}

/// Requests 4 and 11: a vertex record, the point number its "fourth field".
#[derive(Clone, Copy, Debug, PartialEq, Eq)]
pub struct Record {
    pub x: i32,
    pub y: i32,
    pub radius: i32,
    pub number: u32,
}

/// Draw, keep a kerb: the points of the lent numbers, two a point, and its
/// style, or the refusal.
fn lent_kerb(numbers: &[i32], grade: u32, words: StyleWords) -> Result<(Vec<Point>, Style), Reply> {
    tested_numbers(numbers.len(), 2)?;
    tested_drawn_grade(grade)?;
    let style = tested_style(words)?;
    tested_count(numbers.len() as u64 / 2)?;
    let point = |n: &[i32]| Point::new(n[0] as i64, n[1] as i64);
    let points: Vec<Point> = numbers.chunks_exact(2).map(point).collect();
    tested_points(&points)?;
    Ok((points, style))
}

/// Replies: 9, "index not below n", with the "index".
fn tested_index(index: usize, path: &[Vertex]) -> Result<(), Reply> {
    if index < path.len() {
        Ok(())
    } else {
        Err(Reply::new(9, index as u64))
    }
}

/// What a sound outline holds: a path with point numbers in an edition, or the
/// points of a kerb and its style.
pub(crate) enum Line {
    Path(Edition, Vec<Vertex>, Vec<u32>),
    Kerb(Vec<Point>, Style),
}

/// What reading and replacing find in a sound outline.
pub(crate) struct Kept {
    grade: u32,
    line: Line,
    length: usize,
}

/// Replies: 6, "under 24 bytes, or edition not 1", nor, from request 11 on, 2,
/// then 7, the kind.
pub(crate) fn tested_start(store: &[u8]) -> Result<(Header, Edition), Reply> {
    let damaged = Reply::new(6, 0);
    if store.len() < LEAST_BYTES {
        return Err(damaged);
    }
    let header = Header::of(store);
    let edition = Edition::of(header.edition).ok_or(damaged)?;
    if header.kind != STROKE && header.kind != KERB {
        return Err(Reply::new(7, header.kind as u64));
    }
    Ok((header, edition))
}

/// Then, "straight after 7", 6 of a kerb "under 44 bytes" or of edition 2.
fn tested_header(store: &[u8]) -> Result<(Header, Edition), Reply> {
    let (header, edition) = tested_start(store)?;
    let short = store.len() < LEAST_KERB_BYTES;
    if header.kind == KERB && (short || edition == Edition::Second) {
        return Err(Reply::new(6, 0));
    }
    Ok((header, edition))
}

/// Read, replace: what the sound outline that the store begins with holds, its
/// grade and its length, or the refusal.
pub(crate) fn kept(store: &[u8]) -> Result<Kept, Reply> {
    let (header, edition) = tested_header(store)?;
    tested_grade(header.grade)?;
    let style = match header.kind {
        KERB => Some(tested_style(style_words(store))?),
        _ => None,
    };
    tested_count(header.vertices as u64)?;
    if (store.len() as u64) < header.length() {
        return Err(Reply::new(6, 0));
    }
    let (line, words) = kept_line(store, edition, header.grade, style)?;
    let length = header.length() as usize;
    match first_difference(&store[..length], &words) {
        Some(byte) => Err(Reply::new(8, byte as u64)),
        None => Ok(Kept {
            grade: header.grade,
            line,
            length,
        }),
    }
}

/// Read, replace: what a store says that it holds, and the words that this
/// gives; or the first vertex outside the limits.
fn kept_line(
    store: &[u8],
    edition: Edition,
    grade: u32,
    style: Option<Style>,
) -> Result<(Line, Vec<u32>), Reply> {
    match style {
        None => {
            let path = vertices(store, edition);
            tested_limits(&path)?;
            let numbers = point_numbers(store, edition);
            let sheet = Sheet {
                edition,
                path: &path,
                numbers: &numbers,
                grade,
            };
            let words = sheet.words();
            Ok((Line::Path(edition, path, numbers), words))
        }
        Some(style) => {
            let points = points(store);
            tested_points(&points)?;
            let words = kerb_words(&points, grade, style);
            Ok((Line::Kerb(points, style), words))
        }
    }
}

/// What is found in a sound outline of kind 0.
pub(crate) struct KeptPath {
    pub edition: Edition,
    pub grade: u32,
    pub path: Vec<Vertex>,
    pub numbers: Vec<u32>,
    pub length: usize,
}

impl Kept {
    /// Request 3: "replacing or explaining kind 1 is 12, with the kind, just
    /// before 9 or 10". Request 11: of point numbers "kind 1 is 12, just before
    /// 5". Request 10: "either sheet of kind 1 is 12, just before 9".
    pub(crate) fn path(self) -> Result<KeptPath, Reply> {
        match self.line {
            Line::Path(edition, path, numbers) => Ok(KeptPath {
                edition,
                grade: self.grade,
                path,
                numbers,
                length: self.length,
            }),
            Line::Kerb(..) => Err(Reply::new(12, KERB as u64)),
        }
    }
}

/// What a store of kind 0 holds, or the refusal.
fn kept_path(store: &[u8]) -> Result<KeptPath, Reply> {
    kept(store)?.path()
}

/// The length of the sound outline that a store begins with, or the refusal.
pub(crate) fn kept_length(store: &[u8]) -> Result<usize, Reply> {
    kept(store).map(|kept| kept.length)
}

/// The path of the sound outline that a store begins with and its grade, or the
/// refusal.
pub(crate) fn kept_drawing(store: &[u8]) -> Result<(Vec<Vertex>, u32), Reply> {
    kept_path(store).map(|kept| (kept.path, kept.grade))
}

/// A call's reply, whether it refused or not.
pub(crate) fn settle(call: impl FnOnce() -> Result<Reply, Reply>) -> Reply {
    call().unwrap_or_else(|refusal| refusal)
}

/// Four calls: "draw a path's edges into lent numbers, four an edge".
pub fn draw(numbers: &[i32], grade: u32, room: &mut [i32]) -> Reply {
    settle(|| {
        let path = lent_path(numbers, grade)?;
        let edges = drawn(&path, grade)?.edges;
        tested_room(edges.len(), 4, room.len())?;
        room[..4 * edges.len()].copy_from_slice(edges.as_flattened());
        Ok(Reply::new(0, edges.len() as u64))
    })
}

/// Four calls: "keep them as bytes". Request 11: "Numbers come in request 4's
/// records as a fourth field, else are 0".
pub fn keep(numbers: &[i32], grade: u32, room: &mut [u8]) -> Reply {
    settle(|| kept_anew(&lent_path(numbers, grade)?, &[], grade, room))
}

/// Requests 4 and 11: the same of a path lent as vertex records. "Same edges,
/// same refusals, but 1 can't occur there."
pub fn keep_records(records: &[Record], grade: u32, room: &mut [u8]) -> Reply {
    settle(|| {
        let vertex = |r: &Record| Vertex::new(r.x as i64, r.y as i64, r.radius as i64);
        let path: Vec<Vertex> = records.iter().map(vertex).collect();
        let numbers: Vec<u32> = records.iter().map(|record| record.number).collect();
        tested_path(&path, grade)?;
        kept_anew(&path, &numbers, grade, room)
    })
}

/// Request 11: we "write edition 2".
fn kept_anew(
    path: &[Vertex],
    numbers: &[u32],
    grade: u32,
    room: &mut [u8],
) -> Result<Reply, Reply> {
    let sheet = Sheet {
        edition: Edition::Second,
        path,
        numbers,
        grade,
    };
    let words = sheet.laid(&drawn(path, grade)?);
    let length = 4 * words.len();
    tested_room(length, 1, room.len())?;
    put(&words, &mut room[..length]);
    Ok(Reply::new(0, length as u64))
}

/// Request 3: draws a kerb's edges into lent numbers, four an edge.
pub fn draw_kerb(numbers: &[i32], grade: u32, style: StyleWords, room: &mut [i32]) -> Reply {
    settle(|| {
        let (points, style) = lent_kerb(numbers, grade, style)?;
        let edges = drawn_kerb(&points, grade, style)?.edges;
        tested_room(edges.len(), 4, room.len())?;
        room[..4 * edges.len()].copy_from_slice(edges.as_flattened());
        Ok(Reply::new(0, edges.len() as u64))
    })
}

/// Request 3: keeps a kerb as bytes.
pub fn keep_kerb(numbers: &[i32], grade: u32, style: StyleWords, room: &mut [u8]) -> Reply {
    settle(|| {
        let (points, style) = lent_kerb(numbers, grade, style)?;
        let drawing = drawn_kerb(&points, grade, style)?;
        let words = laid_kerb(&points, grade, style, &drawing);
        let length = 4 * words.len();
        tested_room(length, 1, room.len())?;
        put(&words, &mut room[..length]);
        Ok(Reply::new(0, length as u64))
    })
}

/// Four calls: "read the path of a sound outline into lent numbers, three a
/// vertex, its grade beside the reply (0 when refused)". Of a kerb, two a
/// vertex, with its kind and its style beside the reply too.
pub fn read(store: &[u8], room: &mut [i32]) -> Reply {
    settle(|| {
        let Kept { grade, line, .. } = kept(store)?;
        let (kind, style, each, numbers) = match line {
            Line::Path(_, path, _) => {
                let numbers = path.iter().flat_map(|v| [v.x, v.y, v.radius]);
                (STROKE, [0; 3], 3, numbers.collect::<Vec<i64>>())
            }
            Line::Kerb(points, style) => {
                let numbers = points.iter().flat_map(|point| [point.x, point.y]);
                (KERB, style.words(), 2, numbers.collect())
            }
        };
        let vertices = numbers.len() / each;
        tested_room(vertices, each, room.len())?;
        for (entry, number) in room.iter_mut().zip(numbers) {
            *entry = number as i32;
        }
        Ok(Reply {
            reply: 0,
            number: vertices as u64,
            grade,
            kind,
            style,
        })
    })
}

/// Request 11: "a call like reading gives them back (edition 1: zeros; kind 1 is
/// 12, just before 5)".
pub fn numbers(store: &[u8], room: &mut [u32]) -> Reply {
    settle(|| {
        let numbers = kept_path(store)?.numbers;
        tested_room(numbers.len(), 1, room.len())?;
        room[..numbers.len()].copy_from_slice(&numbers);
        Ok(Reply::new(0, numbers.len() as u64))
    })
}

/// Four calls: "replace a vertex". "After 0, memory past the result is
/// unchanged, except that a replaced outline that shrank is followed by zeros
/// up to its old end." Request 11: "Replacing a vertex keeps its number, and
/// replacing in an edition 1 outline gives edition 1."
pub fn replace(store: &mut [u8], index: usize, x: i32, y: i32, radius: i32) -> Reply {
    settle(|| {
        let KeptPath {
            edition,
            grade,
            mut path,
            numbers,
            length: old,
        } = kept_path(store)?;
        tested_drawn_grade(grade)?;
        tested_index(index, &path)?;
        path[index] = Vertex::new(x as i64, y as i64, radius as i64);
        if !path[index].allowed() {
            return Err(Reply::new(4, index as u64));
        }
        let sheet = Sheet {
            edition,
            path: &path,
            numbers: &numbers,
            grade,
        };
        put_in_place(&sheet.laid(&drawn(&path, grade)?), store, old)
    })
}

/// Replace, convert: an outline in the place of another of `old` bytes, in
/// "replacement's room and zeros".
fn put_in_place(words: &[u32], store: &mut [u8], old: usize) -> Result<Reply, Reply> {
    let length = 4 * words.len();
    tested_room(length, 1, store.len())?;
    put(words, &mut store[..length]);
    if length < old {
        store[length..old].fill(0);
    }
    Ok(Reply::new(0, length as u64))
}

/// Request 13: "A conversion call redraws in place … any sound outline, one
/// without edges too, at a grade its caller names; edition, vertices and point
/// numbers stay. It is refused as reading is but 5, then 3 if the named grade
/// isn't 2 to 8, then 5." "Conversion takes kind 1 too."
pub fn convert(store: &mut [u8], grade: u32) -> Reply {
    settle(|| {
        let Kept { line, length, .. } = kept(store)?;
        tested_drawn_grade(grade)?;
        let words = match &line {
            Line::Path(edition, path, numbers) => {
                let sheet = Sheet {
                    edition: *edition,
                    path,
                    numbers,
                    grade,
                };
                sheet.words()
            }
            Line::Kerb(points, style) => kerb_words(points, grade, *style),
        };
        put_in_place(&words, store, length)
    })
}

/// Demand 3 as a call: replace's refusals of the store and of the index, else
/// the vertex up to which replacing the one at `index` shows, or how many
/// vertices there are where no vertex ends it.
pub fn reach(store: &[u8], index: usize) -> Reply {
    settle(|| {
        let path = kept_path(store)?.path;
        tested_index(index, &path)?;
        let reach = chains::reach(&path, index).unwrap_or(path.len());
        Ok(Reply::new(0, reach as u64))
    })
}
