//! A path as the vertex records that its host holds.

use crate::{foreign, numbers, read, with_room, Refusal};

/// A vertex of a path with its point number, laid out as C's
/// `struct sehmelir_vertex` is.
///
/// ```
/// use sehmelir::Vertex;
///
/// let vertex = Vertex { x: 20, y: 0, radius: 5, number: 0 };
/// assert_eq!(Vertex::from([20, 0, 5]), vertex);
/// let post = Vertex { number: 411, ..vertex };
/// assert_eq!(<[i32; 3]>::from(post), [20, 0, 5]);
/// ```
#[repr(C)]
#[derive(Clone, Copy, Debug, Default, PartialEq, Eq, Hash)]
pub struct Vertex {
    /// From -268,435,456 to 268,435,456.
    pub x: i32,
    /// From -268,435,456 to 268,435,456.
    pub y: i32,
    /// From 0 to 268,435,456.
    pub radius: i32,
    /// The vertex's number in the survey book: any word, 0 where there is none.
    pub number: u32,
}

/// A vertex without a point number.
impl From<[i32; 3]> for Vertex {
    fn from([x, y, radius]: [i32; 3]) -> Vertex {
        Vertex {
            x,
            y,
            radius,
            number: 0,
        }
    }
}

/// x, y and radius; the point number is left out.
impl From<Vertex> for [i32; 3] {
    fn from(vertex: Vertex) -> [i32; 3] {
        [vertex.x, vertex.y, vertex.radius]
    }
}

/// Draws the edges of a path of vertex records into lent numbers, four an edge,
/// and returns how many edges there are.
///
/// The records are read where they lie. Answer and memory are those of
/// [`draw`](crate::draw) for x, y and radius of each; point numbers draw nothing.
///
/// ```
/// use sehmelir::{draw_records, Vertex};
///
/// let mut out = [7; 60];
/// let post = Vertex { x: 0, y: 0, radius: 10, number: 411 };
/// assert_eq!(draw_records(&[post], 2, &mut out), Ok(14));
/// assert_eq!(out[..8], [10, 0, 9, 5, 9, 5, 6, 8]);
/// assert_eq!(out[56..], [7; 4]);
/// ```
///
/// # Errors
///
/// In this order: [`Grade`](Refusal::Grade), [`TooMany`](Refusal::TooMany),
/// [`Outside`](Refusal::Outside), [`WithoutEdges`](Refusal::WithoutEdges),
/// [`NoRoom`](Refusal::NoRoom) with the edges needed. A refusal leaves `out` as
/// it was.
///
/// ```
/// use sehmelir::{draw_records, Refusal, Vertex};
///
/// let point = Vertex::from([0, 0, 10]);
/// let outside = Vertex { radius: -1, ..point };
/// assert_eq!(draw_records(&[point], 1, &mut []), Err(Refusal::Grade(1)));
/// assert_eq!(draw_records(&[point; 4097], 2, &mut []), Err(Refusal::TooMany(4097)));
/// assert_eq!(draw_records(&[point, outside], 2, &mut []), Err(Refusal::Outside(1)));
/// assert_eq!(draw_records(&[point], 2, &mut [0; 55]), Err(Refusal::NoRoom(14)));
/// ```
pub fn draw_records(path: &[Vertex], grade: u32, out: &mut [i32]) -> Result<usize, Refusal> {
    foreign::draw_records(path, grade, out).number()
}

/// Keeps a path of vertex records, its point numbers, its grade and its edges as
/// an outline in lent bytes, and returns how many bytes it has: 24, 20 for each
/// vertex and 16 for each edge.
///
/// The records are read where they lie. Answer and memory are those of
/// [`keep`](crate::keep) for x, y and radius of each, but for the point numbers,
/// which [`keep`](crate::keep) writes as 0.
///
/// ```
/// use sehmelir::{keep_records, numbers, outline, Vertex};
///
/// let hedge = [[0, 0, 5], [20, 0, 5], [40, 0, 5]];
/// let mut posts = hedge.map(Vertex::from);
/// let mut out = vec![0; 596];
/// assert_eq!(keep_records(&posts, 2, &mut out), Ok(596));
/// assert_eq!(out, outline(hedge.as_flattened(), 2)?);
///
/// posts[1].number = 411;
/// keep_records(&posts, 2, &mut out)?;
/// let mut told = [7; 3];
/// assert_eq!(numbers(&out, &mut told), Ok(3));
/// assert_eq!(told, [0, 411, 0]);
/// # Ok::<(), sehmelir::Refusal>(())
/// ```
///
/// # Errors
///
/// Those of [`draw_records`], with the bytes needed beside
/// [`NoRoom`](Refusal::NoRoom). A refusal leaves `out` as it was.
pub fn keep_records(path: &[Vertex], grade: u32, out: &mut [u8]) -> Result<usize, Refusal> {
    foreign::keep_records(path, grade, out).number()
}

/// The outline of a path of vertex records in memory of its own:
/// [`keep_records`] without a room.
///
/// ```
/// let post = sehmelir::Vertex { x: 0, y: 0, radius: 10, number: 411 };
/// assert_eq!(sehmelir::outline_of_records(&[post], 2)?.len(), 268);
/// # Ok::<(), sehmelir::Refusal>(())
/// ```
///
/// # Errors
///
/// Those of [`keep_records`] but [`NoRoom`](Refusal::NoRoom).
pub fn outline_of_records(path: &[Vertex], grade: u32) -> Result<Vec<u8>, Refusal> {
    with_room(|out| keep_records(path, grade, out))
}

/// The vertices of a sound outline of a path with their point numbers, in memory
/// of their own: what [`read`](crate::read) and [`numbers`](crate::numbers) give,
/// each of which checks the store.
///
/// ```
/// use sehmelir::{outline_of_records, records, Vertex};
///
/// let mut posts = [[0, 0, 5], [20, 0, 5]].map(Vertex::from);
/// posts[1].number = 411;
/// let store = outline_of_records(&posts, 2)?;
/// assert_eq!(records(&store)?, posts);
/// # Ok::<(), sehmelir::Refusal>(())
/// ```
///
/// # Errors
///
/// Those of [`numbers`](crate::numbers) but [`NoRoom`](Refusal::NoRoom).
///
/// ```
/// use sehmelir::{kerb, records, Join, Refusal, Style};
///
/// assert_eq!(records(&[]), Err(Refusal::NotOutline));
/// let style = Style { radius: 5, join: Join::Bevel, closed: false };
/// let store = kerb(&[0, 0, 20, 0], 2, style)?;
/// assert_eq!(records(&store), Err(Refusal::OtherKind(1)));
/// # Ok::<(), Refusal>(())
/// ```
pub fn records(store: &[u8]) -> Result<Vec<Vertex>, Refusal> {
    let numbers = with_room(|out| numbers(store, out))?;
    let mut path = vec![[0; 3]; numbers.len()];
    read(store, path.as_flattened_mut())?;
    let vertex = |(vertex, number)| Vertex {
        number,
        ..Vertex::from(vertex)
    };
    Ok(path.into_iter().zip(numbers).map(vertex).collect())
}
