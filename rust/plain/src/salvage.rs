//! Document 02, request 14, "Salvage".

use crate::arcs::Edge;
use crate::calls::{tested_count, tested_grade, tested_limits, tested_room, tested_start, Reply};
use crate::chains::{walk, Drawing};
use crate::outline::{
    point_numbers, put, vertices, word, Edition, Header, Sheet, KERB, LEAST_BYTES,
};

/// An entry of the list, two words. The first is its place: "a vertex's index or
/// n for the closing part", n + 1 "for the header's total". The second is what
/// differs there.
pub type Entry = [u32; 2];

/// "whether its edge count, its edges or both differ": both is the sum.
pub const COUNT: u32 = 1;
pub const EDGES: u32 = 2;

/// "then the header's edge total".
pub const TOTAL: u32 = 4;

/// A reply, the number with it, and how many entries the list has; none when
/// refused.
#[derive(Clone, Copy, Debug, PartialEq, Eq)]
pub struct Salvaged {
    pub reply: u32,
    pub number: u64,
    pub entries: u64,
}

/// "It takes kind 0 only; kind 1 is 12, straight after 7 and ahead of 6."
fn tested_kind(header: Header) -> Result<(), Reply> {
    match header.kind {
        KERB => Err(Reply::new(12, KERB as u64)),
        _ => Ok(()),
    }
}

/// The bytes of header, entries and closing count.
fn front(header: Header, edition: Edition) -> usize {
    LEAST_BYTES + 4 * edition.entry_words() * header.vertices as usize
}

/// "a cut before the closing count's end is 6".
fn tested_front(store: &[u8], front: usize) -> Result<(), Reply> {
    if store.len() < front {
        Err(Reply::new(6, 0))
    } else {
        Ok(())
    }
}

/// The edge counts that stand in a store: the last word of each entry, then the
/// closing count.
fn old_counts(store: &[u8], header: Header, edition: Edition) -> Vec<u32> {
    let (vertices, entry) = (header.vertices as usize, edition.entry_words());
    let entries = (1..=vertices).map(|vertex| 5 + entry * vertex - 1);
    let closing = 5 + entry * vertices;
    entries
        .chain([closing])
        .map(|place| word(store, place))
        .collect()
}

/// Whether an edge stands in a store from this byte on; what lies past the bytes
/// does not.
fn stands(store: &[u8], at: u64, edge: &Edge) -> bool {
    let due = edge.iter().flat_map(|number| number.to_le_bytes());
    let bytes = usize::try_from(at).ok().and_then(|at| store.get(at..));
    bytes.is_some_and(|bytes| bytes.len() >= 16 && due.eq(bytes[..16].iter().copied()))
}

/// "Old edges are found by the old counts and compared up to the smaller count;
/// where counts or edges run past the bytes, that part counts as differing." Old
/// counts may add up to more than 32 bits hold.
fn differences(store: &[u8], header: Header, edition: Edition, due: &Drawing) -> Vec<Entry> {
    let mut list = Vec::new();
    let (mut at, mut first) = (front(header, edition) as u64, 0);
    let old_counts = old_counts(store, header, edition);
    for (body, (&old, &count)) in old_counts.iter().zip(&due.counts).enumerate() {
        let edges = &due.edges[first..first + count as usize];
        let edges_differ = (0..old as u64)
            .zip(edges)
            .any(|(place, edge)| !stands(store, at + 16 * place, edge));
        let what = COUNT * u32::from(old != count) + EDGES * u32::from(edges_differ);
        if what != 0 {
            list.push([body as u32, what]);
        }
        at += 16 * old as u64;
        first += count as usize;
    }
    if header.edges as usize != due.edges.len() {
        list.push([header.vertices + 1, TOTAL]);
    }
    list
}

/// "then 19 for the list, with the entries needed". "Room for the list is counted
/// in whole entries."
fn tested_list(entries: usize, room: usize) -> Result<(), Reply> {
    match entries <= room / 2 {
        true => Ok(()),
        false => Err(Reply::new(19, entries as u64)),
    }
}

/// What is written: the outline's words and the list.
fn drawn_anew(store: &[u8]) -> Result<(Vec<u32>, Vec<Entry>), Reply> {
    let (header, edition) = tested_start(store)?;
    tested_kind(header)?;
    tested_grade(header.grade)?;
    tested_count(header.vertices as u64)?;
    tested_front(store, front(header, edition))?;
    let path = vertices(store, edition);
    tested_limits(&path)?;
    let drawing = walk(&path, header.grade);
    let sheet = Sheet {
        edition,
        path: &path,
        numbers: &point_numbers(store, edition),
        grade: header.grade,
    };
    let list = differences(store, header, edition, &drawing);
    Ok((sheet.laid(&drawing), list))
}

/// "The tool reads header and vertices only, redraws, and writes a sound outline
/// into a second lent buffer, with a list of what differed". "Refusals: as reading
/// up to 4, without 8 and without the length test on bodies; a cut before the
/// closing count's end is 6; then 5 for the output, then 19 for the list".
pub fn salvage(store: &[u8], room: &mut [u8], list: &mut [u32]) -> Salvaged {
    let mut written = || -> Result<(usize, usize), Reply> {
        let (words, entries) = drawn_anew(store)?;
        let length = 4 * words.len();
        tested_room(length, 1, room.len())?;
        tested_list(entries.len(), list.len())?;
        put(&words, &mut room[..length]);
        list[..2 * entries.len()].copy_from_slice(entries.as_flattened());
        Ok((length, entries.len()))
    };
    match written() {
        Ok((length, entries)) => Salvaged {
            reply: 0,
            number: length as u64,
            entries: entries as u64,
        },
        Err(Reply { reply, number, .. }) => Salvaged {
            reply,
            number,
            entries: 0,
        },
    }
}
