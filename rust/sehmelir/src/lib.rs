#![doc = include_str!("../README.md")]
#![warn(missing_docs)]

mod chunk;
mod foreign;
mod form;
mod reason;
mod records;
mod refusal;
mod salvage;
mod side;
mod untaken;

use std::ops::RangeInclusive;

pub use chunk::{table_bytes, Chunk, MOST_ENTRIES};
pub use form::{Form, Join, Kept, Style};
pub use reason::{explain, list, whys, Reason, Why};
pub use records::{draw_records, keep_records, outline_of_records, records, Vertex};
pub use refusal::Refusal;
pub use salvage::{salvage, salvaged, Difference, Differs, Salvaged};
pub use side::{side, side_range, Sheet};
pub use untaken::Untaken;

/// The most vertices that a path may have.
pub const MOST_VERTICES: usize = 4_096;

/// The coordinates that a vertex may have.
pub const COORDINATES: RangeInclusive<i32> = -268_435_456..=268_435_456;

/// The radii that a vertex may have.
pub const RADII: RangeInclusive<i32> = 0..=268_435_456;

/// The grades that lines are drawn and kept at, from the coarsest to the finest.
/// Outlines of grade 1, which is retired, are still read, and [`convert`] redraws
/// them.
pub const GRADES: RangeInclusive<u32> = 2..=8;

/// The bytes of stack that a call takes at most: a thread that calls needs
/// more than that.
pub const STACK: usize = 608 << 10;

/// The bytes of an outline with so many vertices and edges, as [`keep`] writes
/// it.
///
/// ```
/// let store = sehmelir::outline(&[0, 0, 10], 2)?;
/// assert_eq!(store.len(), sehmelir::outline_bytes(1, 14));
/// # Ok::<(), sehmelir::Refusal>(())
/// ```
pub const fn outline_bytes(vertices: usize, edges: usize) -> usize {
    24 + 20 * vertices + 16 * edges
}

/// The bytes of a kept kerb with so many vertices and edges.
///
/// ```
/// use sehmelir::{kerb, kerb_bytes, Join, Style};
///
/// let style = Style { radius: 5, join: Join::Bevel, closed: false };
/// assert_eq!(kerb(&[0, 0, 20, 0], 2, style)?.len(), kerb_bytes(2, 4));
/// # Ok::<(), sehmelir::Refusal>(())
/// ```
pub const fn kerb_bytes(vertices: usize, edges: usize) -> usize {
    44 + 8 * vertices + 16 * edges
}

/// Draws a path's edges into lent numbers, four an edge, and returns how many
/// edges there are.
///
/// The path is x, y and radius of each vertex. An edge is x and y of its start,
/// then x and y of its end. Numbers of `out` past the edges stay as they were.
///
/// ```
/// let mut out = [7; 60];
/// assert_eq!(sehmelir::draw(&[0, 0, 10], 2, &mut out), Ok(14));
/// assert_eq!(out[..8], [10, 0, 9, 5, 9, 5, 6, 8]);
/// assert_eq!(out[56..], [7; 4]);
/// ```
///
/// # Errors
///
/// In this order: [`Uneven`](Refusal::Uneven), [`Grade`](Refusal::Grade),
/// [`TooMany`](Refusal::TooMany), [`Outside`](Refusal::Outside),
/// [`WithoutEdges`](Refusal::WithoutEdges), [`NoRoom`](Refusal::NoRoom) with
/// the edges needed. A refusal leaves `out` as it was.
///
/// ```
/// use sehmelir::{draw, Refusal};
///
/// assert_eq!(draw(&[0, 0], 2, &mut []), Err(Refusal::Uneven(2)));
/// assert_eq!(draw(&[0, 0, 10], 1, &mut []), Err(Refusal::Grade(1)));
/// assert_eq!(draw(&[0, 0, -1], 2, &mut []), Err(Refusal::Outside(0)));
/// assert_eq!(draw(&[0, 0, 1], 2, &mut []), Err(Refusal::WithoutEdges(1)));
/// assert_eq!(draw(&[0, 0, 10], 2, &mut [0; 55]), Err(Refusal::NoRoom(14)));
/// ```
pub fn draw(path: &[i32], grade: u32, out: &mut [i32]) -> Result<usize, Refusal> {
    foreign::draw(path, grade, out).number()
}

/// Keeps a path, its grade and its edges as an outline in lent bytes, and
/// returns how many bytes it has: 24, 20 for each vertex and 16 for each edge.
///
/// The outline is of edition 2, and every point number in it is 0. Bytes of
/// `out` past the outline stay as they were.
///
/// ```
/// let mut out = [7; 270];
/// assert_eq!(sehmelir::keep(&[0, 0, 10], 2, &mut out), Ok(268));
/// assert_eq!(out[..20], [2, 0, 0, 0, 0, 0, 0, 0, 2, 0, 0, 0, 1, 0, 0, 0, 14, 0, 0, 0]);
/// assert_eq!(out[268..], [7, 7]);
/// ```
///
/// # Errors
///
/// Those of [`draw`], with the bytes needed beside
/// [`NoRoom`](Refusal::NoRoom). A refusal leaves `out` as it was.
///
/// ```
/// use sehmelir::{keep, Refusal};
///
/// assert_eq!(keep(&[0, 0, 10], 2, &mut []), Err(Refusal::NoRoom(268)));
/// ```
pub fn keep(path: &[i32], grade: u32, out: &mut [u8]) -> Result<usize, Refusal> {
    foreign::keep(path, grade, out).number()
}

/// Draws a kerb's edges, a line of one width, into lent numbers, four an edge,
/// and returns how many edges there are.
///
/// The points are x and y of each vertex. Points that follow one another and are
/// equal count as one. First come two edges for each line between points, then
/// those of the corners, then the two flat ends of an open kerb. Numbers of `out`
/// past the edges stay as they were.
///
/// ```
/// use sehmelir::{draw_kerb, Join, Style};
///
/// let style = Style { radius: 5, join: Join::Round, closed: false };
/// let mut out = [7; 18];
/// assert_eq!(draw_kerb(&[0, 0, 20, 0], 2, style, &mut out), Ok(4));
/// assert_eq!(out[..8], [20, 5, 0, 5, 0, -5, 20, -5]);
/// assert_eq!(out[8..], [0, 5, 0, -5, 20, -5, 20, 5, 7, 7]);
/// ```
///
/// # Errors
///
/// In this order: [`Uneven`](Refusal::Uneven) of an odd count,
/// [`Grade`](Refusal::Grade), [`StyleWord`](Refusal::StyleWord) of a radius
/// above 268,435,456, [`TooMany`](Refusal::TooMany),
/// [`Outside`](Refusal::Outside), [`WithoutEdges`](Refusal::WithoutEdges),
/// [`NoRoom`](Refusal::NoRoom) with the edges needed. A refusal leaves `out` as
/// it was.
///
/// ```
/// use sehmelir::{draw_kerb, Join, Refusal, Style};
///
/// let style = Style { radius: 5, join: Join::Bevel, closed: true };
/// let wide = Style { radius: 268435457, ..style };
/// let thin = Style { radius: 1, ..style };
/// let line = [0, 0, 20, 0];
/// assert_eq!(draw_kerb(&line[..3], 2, style, &mut []), Err(Refusal::Uneven(3)));
/// assert_eq!(draw_kerb(&line, 2, wide, &mut []), Err(Refusal::StyleWord(5)));
/// assert_eq!(draw_kerb(&line, 2, thin, &mut []), Err(Refusal::WithoutEdges(2)));
/// assert_eq!(draw_kerb(&line, 2, style, &mut []), Err(Refusal::NoRoom(10)));
/// ```
pub fn draw_kerb(
    points: &[i32],
    grade: u32,
    style: Style,
    out: &mut [i32],
) -> Result<usize, Refusal> {
    foreign::draw_kerb(points, grade, style, out).number()
}

/// Keeps a kerb, its grade, its style and its edges as an outline in lent bytes,
/// and returns how many bytes it has: 44, 8 for each vertex and 16 for each edge.
///
/// Bytes of `out` past the outline stay as they were.
///
/// ```
/// use sehmelir::{keep_kerb, Join, Style};
///
/// let style = Style { radius: 5, join: Join::Round, closed: false };
/// let mut out = [7; 126];
/// assert_eq!(keep_kerb(&[0, 0, 20, 0], 2, style, &mut out), Ok(124));
/// assert_eq!(out[4..8], [1, 0, 0, 0]);
/// assert_eq!(out[20..32], [5, 0, 0, 0, 1, 0, 0, 0, 0, 0, 0, 0]);
/// assert_eq!(out[124..], [7, 7]);
/// ```
///
/// # Errors
///
/// Those of [`draw_kerb`], with the bytes needed beside
/// [`NoRoom`](Refusal::NoRoom). A refusal leaves `out` as it was.
pub fn keep_kerb(
    points: &[i32],
    grade: u32,
    style: Style,
    out: &mut [u8],
) -> Result<usize, Refusal> {
    foreign::keep_kerb(points, grade, style, out).number()
}

/// Reads the vertices of a sound outline into lent numbers, three a vertex of a
/// path and two of a kerb, and returns how many there are, the grade, and what
/// the outline is of.
///
/// The store begins with the outline, of edition 1 or 2, and may go on after it.
/// Numbers of `out` past the vertices stay as they were. An outline without
/// edges, as they were kept once, still reads.
///
/// ```
/// use sehmelir::{kerb, outline, read, Form, Join, Style};
///
/// let store = outline(&[0, 0, 5, 20, 0, 5], 3)?;
/// let mut out = [7; 8];
/// let kept = read(&store, &mut out)?;
/// assert_eq!((kept.vertices, kept.grade, kept.form), (2, 3, Form::Stroke));
/// assert_eq!(out, [0, 0, 5, 20, 0, 5, 7, 7]);
///
/// let style = Style { radius: 5, join: Join::Bevel, closed: true };
/// let kept = read(&kerb(&[1, 2, 20, 0], 3, style)?, &mut out)?;
/// assert_eq!((kept.vertices, kept.grade, kept.form), (2, 3, Form::Kerb(style)));
/// assert_eq!(out[..4], [1, 2, 20, 0]);
/// # Ok::<(), sehmelir::Refusal>(())
/// ```
///
/// # Errors
///
/// In this order: [`NotOutline`](Refusal::NotOutline),
/// [`Kind`](Refusal::Kind), [`NotOutline`](Refusal::NotOutline) of a kerb under
/// 44 bytes or of edition 2, [`Grade`](Refusal::Grade), [`StyleWord`](Refusal::StyleWord) of a
/// kerb, [`TooMany`](Refusal::TooMany), [`NotOutline`](Refusal::NotOutline) of a
/// store shorter than its header says, [`Outside`](Refusal::Outside),
/// [`NotSound`](Refusal::NotSound), [`NoRoom`](Refusal::NoRoom) with the
/// vertices needed. A refusal leaves `out` as it was.
///
/// ```
/// use sehmelir::{outline, read, Refusal};
///
/// let mut store = outline(&[0, 0, 10], 2)?;
/// assert_eq!(read(&store, &mut [0; 2]), Err(Refusal::NoRoom(1)));
/// store[50] ^= 1;
/// assert_eq!(read(&store, &mut [0; 3]), Err(Refusal::NotSound(50)));
/// # Ok::<(), Refusal>(())
/// ```
pub fn read(store: &[u8], out: &mut [i32]) -> Result<Kept, Refusal> {
    foreign::read(store, out).kept()
}

/// Reads the point numbers of a sound outline of a path into lent numbers, one a
/// vertex, and returns how many there are.
///
/// A point number is any 32-bit word: the vertex's number in the survey book.
/// [`keep_records`] writes those of its records, [`keep`] writes 0, and edition 1
/// has none, which gives 0 too. Numbers of `out` past them stay as they were.
///
/// ```
/// use sehmelir::{numbers, outline_of_records, replace, Vertex};
///
/// let mut hedge = [[0, 0, 5], [20, 0, 5], [40, 0, 5]].map(Vertex::from);
/// hedge[0].number = 411;
/// let mut store = outline_of_records(&hedge, 2)?;
/// let mut out = [7; 4];
/// assert_eq!(numbers(&store, &mut out), Ok(3));
/// assert_eq!(out, [411, 0, 0, 7]);
///
/// // a replaced vertex keeps its number
/// store.resize(1000, 0);
/// replace(&mut store, 0, 0, 7, 5)?;
/// assert_eq!(numbers(&store, &mut out), Ok(3));
/// assert_eq!(out, [411, 0, 0, 7]);
/// # Ok::<(), sehmelir::Refusal>(())
/// ```
///
/// # Errors
///
/// Those of [`read`] up to [`NotSound`](Refusal::NotSound), then
/// [`OtherKind`](Refusal::OtherKind) of a kerb, [`NoRoom`](Refusal::NoRoom)
/// with the vertices. A refusal leaves `out` as it was.
///
/// ```
/// use sehmelir::{kerb, numbers, outline, Join, Refusal, Style};
///
/// let style = Style { radius: 5, join: Join::Bevel, closed: false };
/// let store = kerb(&[0, 0, 20, 0], 2, style)?;
/// assert_eq!(numbers(&store, &mut []), Err(Refusal::OtherKind(1)));
/// let store = outline(&[0, 0, 5, 20, 0, 5], 2)?;
/// assert_eq!(numbers(&store, &mut [7]), Err(Refusal::NoRoom(2)));
/// # Ok::<(), Refusal>(())
/// ```
pub fn numbers(store: &[u8], out: &mut [u32]) -> Result<usize, Refusal> {
    foreign::numbers(store, out).number()
}

/// Replaces one vertex in a sound outline, at the same grade, and returns how
/// many bytes the changed outline has. Its edition and all point numbers stay.
///
/// The whole store is its room. Where it outgrows the old outline it takes the
/// bytes after that; where it shrinks, zeros follow up to the old end. Bytes
/// past both stay as they were.
///
/// ```
/// let mut store = sehmelir::outline(&[0, 0, 10, 3, 0, 2], 2)?;
/// store.push(7);
/// assert_eq!(sehmelir::replace(&mut store, 1, 20, 0, 10)?, 320);
/// assert_eq!(store[..320], sehmelir::outline(&[0, 0, 10, 20, 0, 10], 2)?);
/// assert_eq!(store[320..480], [0; 160]);
/// assert_eq!(store[480..], [7]);
/// # Ok::<(), sehmelir::Refusal>(())
/// ```
///
/// # Errors
///
/// Those of [`read`] up to [`NotSound`](Refusal::NotSound), then
/// [`OtherKind`](Refusal::OtherKind) of a kerb, [`Grade`](Refusal::Grade) of an
/// outline of grade 1, [`NoVertex`](Refusal::NoVertex),
/// [`Outside`](Refusal::Outside) of the new vertex with its index, [`WithoutEdges`](Refusal::WithoutEdges) of the
/// changed path, [`NoRoom`](Refusal::NoRoom) with the bytes needed. A refusal
/// leaves the store as it was.
///
/// ```
/// use sehmelir::{outline, replace, Refusal};
///
/// let mut store = outline(&[0, 0, 5, 3, 4, 0], 2)?;
/// assert_eq!(replace(&mut store, 2, 0, 0, 10), Err(Refusal::NoVertex(2)));
/// assert_eq!(replace(&mut store, 0, 0, 0, -1), Err(Refusal::Outside(0)));
/// assert_eq!(replace(&mut store, 0, 0, 0, 1), Err(Refusal::WithoutEdges(2)));
/// assert_eq!(replace(&mut store, 1, 20, 0, 5), Err(Refusal::NoRoom(320)));
/// # Ok::<(), Refusal>(())
/// ```
pub fn replace(
    store: &mut [u8],
    index: usize,
    x: i32,
    y: i32,
    radius: i32,
) -> Result<usize, Refusal> {
    foreign::replace(store, index, x, y, radius).number()
}

/// Redraws a sound outline, of a path or of a kerb, at another grade in its place,
/// and returns how many bytes it then has. Its edition, vertices and point numbers
/// stay.
///
/// It is then, byte for byte, what [`keep`] writes of the same path at that grade,
/// in the outline's own edition. Outlines of grade 1 are taken, and those without
/// edges. The store is its room, as in [`replace`]: where it outgrows the old
/// outline it takes the bytes after that; where it shrinks, zeros follow up to the
/// old end. Bytes past both stay as they were.
///
/// ```
/// use sehmelir::{convert, outline};
///
/// let mut store = outline(&[0, 0, 10], 4)?;
/// let old = store.len();
/// store.push(7);
/// assert_eq!(convert(&mut store, 2)?, 268);
/// assert_eq!(store[..268], outline(&[0, 0, 10], 2)?);
/// assert!(store[268..old].iter().all(|&byte| byte == 0));
/// assert_eq!(store[old..], [7]);
/// # Ok::<(), sehmelir::Refusal>(())
/// ```
///
/// # Errors
///
/// Those of [`read`] up to [`NotSound`](Refusal::NotSound), then
/// [`Grade`](Refusal::Grade) of a grade to convert to that is not 2 to 8,
/// [`NoRoom`](Refusal::NoRoom) with the bytes needed. A refusal leaves the store as
/// it was.
///
/// ```
/// use sehmelir::{convert, outline, Refusal};
///
/// let mut store = outline(&[0, 0, 10], 2)?;
/// assert_eq!(convert(&mut store, 1), Err(Refusal::Grade(1)));
/// assert_eq!(convert(&mut store, 3), Err(Refusal::NoRoom(460)));
/// store[50] ^= 1;
/// assert_eq!(convert(&mut store, 1), Err(Refusal::NotSound(50)));
/// # Ok::<(), Refusal>(())
/// ```
pub fn convert(store: &mut [u8], grade: u32) -> Result<usize, Refusal> {
    foreign::convert(store, grade).number()
}

/// How far replacing a vertex of a sound outline can reach: returns j, the
/// first vertex at `index + 2` or later that is reached by a drawn or a broken
/// step, or the number of vertices where there is none.
///
/// Whatever vertex [`replace`] puts in its place, the bodies before `index` stay
/// as they are, byte for byte, and so do those after j, the closing one among
/// them, unless j is the last vertex or there is none. A step is thin only
/// where both radii are below 2; almost every step is drawn or broken.
///
/// ```
/// let hedge = [0, 0, 5, 20, 0, 5, 40, 0, 5, 60, 0, 5];
/// let store = sehmelir::outline(&hedge, 2)?;
/// assert_eq!(sehmelir::reach(&store, 0)?, 2);
/// assert_eq!(sehmelir::reach(&store, 1)?, 3);
/// assert_eq!(sehmelir::reach(&store, 2)?, 4);
///
/// // the step to vertex 2 is thin
/// let store = sehmelir::outline(&[0, 0, 5, 20, 0, 1, 40, 0, 1, 60, 0, 5], 2)?;
/// assert_eq!(sehmelir::reach(&store, 0)?, 3);
/// # Ok::<(), sehmelir::Refusal>(())
/// ```
///
/// # Errors
///
/// Those of [`read`] up to [`NotSound`](Refusal::NotSound), then
/// [`OtherKind`](Refusal::OtherKind) of a kerb,
/// [`NoVertex`](Refusal::NoVertex).
///
/// ```
/// use sehmelir::{outline, reach, Refusal};
///
/// let store = outline(&[0, 0, 10], 2)?;
/// assert_eq!(reach(&store, 0), Ok(1));
/// assert_eq!(reach(&store, 1), Err(Refusal::NoVertex(1)));
/// assert_eq!(reach(&[], 0), Err(Refusal::NotOutline));
/// # Ok::<(), Refusal>(())
/// ```
pub fn reach(store: &[u8], index: usize) -> Result<usize, Refusal> {
    foreign::reach(store, index).number()
}

/// Takes a float of the oldest chunks as a coordinate: a whole number from
/// -268,435,456 to 268,435,456. Minus zero counts as zero. Else the float comes
/// back, with the first reason that applies.
///
/// # Errors
///
/// [`Untaken`], with the float: the first reason that applies.
///
/// ```
/// use sehmelir::{take_coordinate, Untaken};
///
/// assert_eq!(take_coordinate(-1500.0), Ok(-1500));
/// assert_eq!(take_coordinate(-0.0), Ok(0));
/// assert_eq!(take_coordinate(2.5), Err(Untaken::Fraction(2.5)));
/// assert_eq!(take_coordinate(1e30), Err(Untaken::TooLarge(1e30)));
/// ```
pub fn take_coordinate(value: f32) -> Result<i32, Untaken> {
    foreign::take_coordinate(value).whole(value)
}

/// Takes a float of the oldest chunks as a full width, an even whole number
/// from 0 to 536,870,912, and returns the radius, which is half of it. Minus
/// zero counts as zero. Else the float comes back, with the first reason that
/// applies.
///
/// # Errors
///
/// [`Untaken`], with the float: the first reason that applies.
///
/// ```
/// use sehmelir::{take_width, Untaken};
///
/// assert_eq!(take_width(650.0), Ok(325));
/// assert_eq!(take_width(3.0), Err(Untaken::OddWidth(3.0)));
/// assert_eq!(take_width(-3.0), Err(Untaken::NegativeWidth(-3.0)));
/// assert_eq!(take_width(-2.5), Err(Untaken::Fraction(-2.5)));
/// ```
pub fn take_width(value: f32) -> Result<i32, Untaken> {
    foreign::take_width(value).whole(value)
}

/// Imports the floats of the oldest chunks, x, y and full width of each vertex
/// in millimetres, as a path in lent numbers, x, y and radius of each vertex,
/// and returns how many vertices there are.
///
/// Numbers of `out` past the path stay as they were. What is imported is within
/// the limits of a path.
///
/// ```
/// let old = [0.0, -0.0, 10.0, 20.0, 0.0, 10.0];
/// let mut path = [7; 8];
/// assert_eq!(sehmelir::import(&old, &mut path), Ok(2));
/// assert_eq!(path, [0, 0, 5, 20, 0, 5, 7, 7]);
/// ```
///
/// # Errors
///
/// In this order: [`Uneven`](Refusal::Uneven), [`TooMany`](Refusal::TooMany),
/// [`NotTaken`](Refusal::NotTaken), [`NoRoom`](Refusal::NoRoom) with the
/// vertices needed. A refusal leaves `out` as it was. Beside `NotTaken` the
/// reason is had by [`take_coordinate`] or, at every third place, by
/// [`take_width`].
///
/// ```
/// use sehmelir::{import, take_width, Refusal, Untaken};
///
/// let old = [0.0, 0.0, 10.0, 20.0, 0.0, 7.0];
/// assert_eq!(import(&old, &mut [0; 6]), Err(Refusal::NotTaken(5)));
/// assert_eq!(take_width(old[5]), Err(Untaken::OddWidth(7.0)));
/// assert_eq!(import(&old[..3], &mut []), Err(Refusal::NoRoom(1)));
/// ```
pub fn import(numbers: &[f32], out: &mut [i32]) -> Result<usize, Refusal> {
    foreign::import(numbers, out).number()
}

/// Exports a path as the floats of the oldest chunks, x, y and full width of
/// each vertex, into lent floats, and returns how many vertices there are.
///
/// A number is written only where its float gives it back unchanged: within the
/// limits, and of at most 24 binary digits but for zeros at the end. Floats of
/// `out` past the vertices stay as they were.
///
/// ```
/// let mut old = [7.0; 4];
/// assert_eq!(sehmelir::export(&[-1500, 20, 325], &mut old), Ok(1));
/// assert_eq!(old, [-1500.0, 20.0, 650.0, 7.0]);
/// ```
///
/// # Errors
///
/// Those of [`import`]; [`NotTaken`](Refusal::NotTaken) is of a number that no
/// float is, or that lies outside the limits.
///
/// ```
/// use sehmelir::{export, Refusal};
///
/// assert_eq!(export(&[0, 16777217, 5], &mut [0.0; 3]), Err(Refusal::NotTaken(1)));
/// assert_eq!(export(&[0, 16777218, -1], &mut [0.0; 3]), Err(Refusal::NotTaken(2)));
/// ```
pub fn export(path: &[i32], out: &mut [f32]) -> Result<usize, Refusal> {
    foreign::export(path, out).number()
}

/// A path's edges in memory of their own: [`draw`] without a room.
///
/// ```
/// let edges = sehmelir::edges(&[0, 0, 5, 20, 0, 5], 2)?;
/// assert_eq!(edges.len(), 16);
/// assert_eq!(edges[0], [20, 5, 0, 5]);
/// # Ok::<(), sehmelir::Refusal>(())
/// ```
///
/// # Errors
///
/// Those of [`draw`] but [`NoRoom`](Refusal::NoRoom).
pub fn edges(path: &[i32], grade: u32) -> Result<Vec<[i32; 4]>, Refusal> {
    with_room(|out| draw(path, grade, out.as_flattened_mut()))
}

/// A path's outline in memory of its own: [`keep`] without a room.
///
/// ```
/// assert_eq!(sehmelir::outline(&[], 2)?.len(), 24);
/// assert_eq!(sehmelir::outline(&[0, 0, 10], 2)?.len(), 268);
/// # Ok::<(), sehmelir::Refusal>(())
/// ```
///
/// # Errors
///
/// Those of [`keep`] but [`NoRoom`](Refusal::NoRoom).
pub fn outline(path: &[i32], grade: u32) -> Result<Vec<u8>, Refusal> {
    with_room(|out| keep(path, grade, out))
}

/// A kept kerb in memory of its own: [`keep_kerb`] without a room.
///
/// ```
/// use sehmelir::{kerb, Join, Style};
///
/// let style = Style { radius: 5, join: Join::Round, closed: true };
/// assert_eq!(kerb(&[], 2, style)?.len(), 44);
/// # Ok::<(), sehmelir::Refusal>(())
/// ```
///
/// # Errors
///
/// Those of [`keep_kerb`] but [`NoRoom`](Refusal::NoRoom).
pub fn kerb(points: &[i32], grade: u32, style: Style) -> Result<Vec<u8>, Refusal> {
    with_room(|out| keep_kerb(points, grade, style, out))
}

/// What a call writes when it has just the room that it needs, which it tells
/// when it has none.
fn with_room<T: Clone + Default>(
    mut call: impl FnMut(&mut [T]) -> Result<usize, Refusal>,
) -> Result<Vec<T>, Refusal> {
    let needed = match call(&mut []) {
        Err(Refusal::NoRoom(needed)) => needed,
        settled => settled?,
    };
    let mut out = vec![T::default(); needed];
    call(&mut out)?;
    Ok(out)
}
