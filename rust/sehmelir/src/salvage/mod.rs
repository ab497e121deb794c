//! What a spoiled outline's header and vertices still give.

mod foreign;

use crate::{with_room, Refusal, MOST_VERTICES};

/// How much [`salvage`] wrote.
#[derive(Clone, Copy, Debug, PartialEq, Eq)]
pub struct Salvaged {
    /// The bytes of the outline.
    pub bytes: usize,
    /// The entries of the list, two words each.
    pub entries: usize,
}

/// What of a body stood otherwise in a spoiled outline.
#[derive(Clone, Copy, Debug, PartialEq, Eq, Hash)]
pub enum Differs {
    /// Its edge count.
    Count,
    /// Its edges.
    Edges,
    /// Its edge count and its edges.
    Both,
}

/// What stood otherwise in a spoiled outline: an entry of [`salvage`]'s list.
#[derive(Clone, Copy, Debug, PartialEq, Eq, Hash)]
pub enum Difference {
    /// Something of this vertex's body.
    Vertex(usize, Differs),
    /// Something of the closing body.
    Closing(Differs),
    /// The header's edge total.
    Total,
}

impl Difference {
    /// The difference of an entry's two words, place and what, where there are so
    /// many vertices; none of words that [`salvage`] does not write.
    ///
    /// ```
    /// use sehmelir::{Difference, Differs};
    ///
    /// assert_eq!(Difference::of([4, 3], 9), Some(Difference::Vertex(4, Differs::Both)));
    /// assert_eq!(Difference::of([9, 1], 9), Some(Difference::Closing(Differs::Count)));
    /// assert_eq!(Difference::of([10, 4], 9), Some(Difference::Total));
    /// assert_eq!(Difference::of([9, 0], 9), None);
    /// ```
    pub fn of([place, what]: [u32; 2], vertices: usize) -> Option<Difference> {
        let place = place as usize;
        let differs = match what {
            1 => Differs::Count,
            2 => Differs::Edges,
            3 => Differs::Both,
            4 if place == vertices + 1 => return Some(Difference::Total),
            _ => return None,
        };
        match place {
            _ if place < vertices => Some(Difference::Vertex(place, differs)),
            _ if place == vertices => Some(Difference::Closing(differs)),
            _ => None,
        }
    }
}

/// Salvages a spoiled outline of a path: reads its header and vertices only,
/// draws them anew, and writes the sound outline into lent bytes and what stood
/// otherwise into lent words. Grade, edition, vertices and point numbers stay.
///
/// The list has two words an entry. The first is a place: the index of a vertex,
/// or how many vertices there are for the closing body; the second is 1 where its
/// edge count differs, 2 where its edges do, 3 where both do. A last entry, one
/// place further, is 4 where the header's edge total differs. Old edges are found
/// by the old counts, and compared up to the smaller count; those past the end of
/// the store differ. [`Difference::of`] tells an entry. The list is empty exactly
/// if the store was sound.
///
/// Bytes of `out` past the outline and words of `list` past its entries stay as
/// they were.
///
/// ```
/// use sehmelir::{outline, salvage};
///
/// let sound = outline(&[0, 0, 5, 20, 0, 5], 2)?;
/// let mut spoiled = sound.clone();
/// spoiled[56] ^= 1; // the edge count of vertex 1
/// let last = spoiled.len() - 1;
/// spoiled[last] ^= 1; // an edge of the closing body
///
/// let (mut out, mut list) = ([7; 1000], [7; 9]);
/// let salvaged = salvage(&spoiled, &mut out, &mut list)?;
/// assert_eq!((salvaged.bytes, salvaged.entries), (sound.len(), 2));
/// assert_eq!(out[..sound.len()], sound);
/// assert_eq!(list, [1, 1, 2, 2, 7, 7, 7, 7, 7]);
/// # Ok::<(), sehmelir::Refusal>(())
/// ```
///
/// # Errors
///
/// In this order: [`NotOutline`](Refusal::NotOutline) of a store under 24 bytes
/// or of an edition that is not 1 or 2, [`Kind`](Refusal::Kind),
/// [`OtherKind`](Refusal::OtherKind) of a kerb, [`Grade`](Refusal::Grade),
/// [`TooMany`](Refusal::TooMany), [`NotOutline`](Refusal::NotOutline) of a store
/// that ends before the closing count does, [`Outside`](Refusal::Outside),
/// [`NoRoom`](Refusal::NoRoom) with the outline's bytes,
/// [`NoListRoom`](Refusal::NoListRoom) with the list's entries. A refusal leaves
/// `out` and `list` as they were.
///
/// ```
/// use sehmelir::{kerb, outline, salvage, Join, Refusal, Style};
///
/// let mut store = outline(&[0, 0, 10], 2)?;
/// store.truncate(44); // all of its edges
/// let mut out = [0; 268];
/// assert_eq!(salvage(&store, &mut out[1..], &mut []), Err(Refusal::NoRoom(268)));
/// assert_eq!(salvage(&store, &mut out, &mut [0]), Err(Refusal::NoListRoom(1)));
/// assert_eq!(salvage(&store[..43], &mut out, &mut []), Err(Refusal::NotOutline));
/// let style = Style { radius: 5, join: Join::Bevel, closed: false };
/// let store = kerb(&[0, 0, 20, 0], 2, style)?;
/// assert_eq!(salvage(&store, &mut out, &mut []), Err(Refusal::OtherKind(1)));
/// # Ok::<(), Refusal>(())
/// ```
pub fn salvage(store: &[u8], out: &mut [u8], list: &mut [u32]) -> Result<Salvaged, Refusal> {
    foreign::salvage(store, out, list).salvaged()
}

/// A spoiled outline's sound one, and what stood otherwise, in memory of their
/// own: [`salvage`] without rooms.
///
/// ```
/// use sehmelir::{outline, salvaged, Difference, Differs};
///
/// let sound = outline(&[0, 0, 5, 20, 0, 5], 2)?;
/// let (out, list) = salvaged(&sound[..sound.len() - 1])?;
/// assert_eq!(out, sound);
/// assert_eq!(list, [Difference::Closing(Differs::Edges)]);
/// assert_eq!(salvaged(&sound)?, (sound, vec![]));
/// # Ok::<(), sehmelir::Refusal>(())
/// ```
///
/// # Errors
///
/// Those of [`salvage`] but [`NoRoom`](Refusal::NoRoom) and
/// [`NoListRoom`](Refusal::NoListRoom).
pub fn salvaged(store: &[u8]) -> Result<(Vec<u8>, Vec<Difference>), Refusal> {
    // an entry for each vertex, the closing body and the total is the longest list
    let mut list = vec![[0; 2]; MOST_VERTICES + 2];
    let mut entries = 0;
    let out = with_room(|out| {
        let salvaged = salvage(store, out, list.as_flattened_mut())?;
        entries = salvaged.entries;
        Ok(salvaged.bytes)
    })?;
    let vertices = u32::from_le_bytes([out[12], out[13], out[14], out[15]]) as usize;
    let differences = list[..entries].iter().map(|&entry| {
        let known = Difference::of(entry, vertices);
        known.unwrap_or_else(|| {
            panic!("the archive lists {entry:?}, which this crate does not know")
        })
    });
    Ok((out, differences.collect()))
}
