//! Document 01, "The kept outline", kind 1 of document 02's request 3, and
//! edition 2 of its request 11.

use crate::chains::{walk, Drawing};
use crate::contacts::Vertex;
use crate::kerbs::{self, KerbDrawing, Style, StyleWords};
use crate::numbers::Point;

/// The kept outline: "Header: edition 1, kind 0, grade, vertices n, edges m."
/// Other editions and kinds begin in the same way.
#[derive(Clone, Copy, Debug, PartialEq, Eq)]
pub struct Header {
    pub edition: u32,
    pub kind: u32,
    pub grade: u32,
    pub vertices: u32,
    pub edges: u32,
}

/// Request 11: "We read both editions and write edition 2."
#[derive(Clone, Copy, Debug, PartialEq, Eq)]
pub enum Edition {
    First = 1,
    Second,
}

impl Edition {
    /// The edition of a header's first word, if there is one.
    pub fn of(word: u32) -> Option<Edition> {
        match word {
            1 => Some(Edition::First),
            2 => Some(Edition::Second),
            _ => None,
        }
    }

    /// The words of a vertex's entry: "Edition 2 of kind 0 has one more word".
    pub fn entry_words(self) -> usize {
        match self {
            Edition::First => 4,
            Edition::Second => 5,
        }
    }
}

/// "Kinds are appended, never renumbered": a line with a radius at each vertex.
pub const STROKE: u32 = 0;

/// Request 3: "Add them as kind 1."
pub const KERB: u32 = 1;

/// The bytes that the header and the count of closing edges take: those of an
/// outline of no vertices.
pub const LEAST_BYTES: usize = 24;

/// Request 3: the bytes of a kerb of no vertices.
pub const LEAST_KERB_BYTES: usize = 44;

impl Header {
    /// The header of a store, which has at least `LEAST_BYTES` bytes.
    pub fn of(store: &[u8]) -> Header {
        Header {
            edition: word(store, 0),
            kind: word(store, 1),
            grade: word(store, 2),
            vertices: word(store, 3),
            edges: word(store, 4),
        }
    }

    /// The kept outline: "Length 24 + 16n + 16m bytes." Request 3: "Length is
    /// 44 + 8n + 16m." Request 11: "Length is 24 + 20n + 16m."
    pub fn length(&self) -> u64 {
        let (vertices, edges) = (self.vertices as u64, self.edges as u64);
        match (self.kind, Edition::of(self.edition)) {
            (KERB, _) => LEAST_KERB_BYTES as u64 + 8 * vertices + 16 * edges,
            (_, Some(Edition::Second)) => LEAST_BYTES as u64 + 20 * vertices + 16 * edges,
            _ => LEAST_BYTES as u64 + 16 * vertices + 16 * edges,
        }
    }
}

/// The kept outline: "32-bit little-endian words": the one at `index`.
pub fn word(store: &[u8], index: usize) -> u32 {
    let at = 4 * index;
    u32::from_le_bytes([store[at], store[at + 1], store[at + 2], store[at + 3]])
}

/// Where the entries of a store's vertices begin, in words.
fn entries(store: &[u8], edition: Edition) -> impl Iterator<Item = usize> {
    (0..Header::of(store).vertices as usize).map(move |vertex| 5 + edition.entry_words() * vertex)
}

/// The kept outline: "Per vertex: x, y, radius, number of edges": the vertices
/// of a store that holds as many as its header says; "x, y and edge points in
/// two's complement, the rest unsigned".
pub fn vertices(store: &[u8], edition: Edition) -> Vec<Vertex> {
    let coordinate = |index| word(store, index) as i32 as i64;
    entries(store, edition)
        .map(|at| {
            Vertex::new(
                coordinate(at),
                coordinate(at + 1),
                word(store, at + 2) as i64,
            )
        })
        .collect()
}

/// Request 11: "one more word in each vertex's entry, after the radius; anything
/// is allowed in it": the point numbers of such a store, "edition 1: zeros".
pub fn point_numbers(store: &[u8], edition: Edition) -> Vec<u32> {
    entries(store, edition)
        .map(|at| match edition {
            Edition::First => 0,
            Edition::Second => word(store, at + 3),
        })
        .collect()
}

/// What is kept: a path, its vertices' point numbers, those that are missing
/// being 0, and its grade, in an edition. Edition 1 has no point numbers.
#[derive(Clone, Copy)]
pub struct Sheet<'a> {
    pub edition: Edition,
    pub path: &'a [Vertex],
    pub numbers: &'a [u32],
    pub grade: u32,
}

impl Sheet<'_> {
    /// The kept outline, in words: header, "Per vertex: x, y, radius, number of
    /// edges emitted on reaching it. One word: number of closing edges. Bodies:
    /// m edges of four words, start then end." In edition 2 the point number
    /// stands "after the radius".
    pub fn laid(&self, drawing: &Drawing) -> Vec<u32> {
        let Drawing { edges, counts } = drawing;
        let (vertices, count) = (self.path.len(), edges.len());
        let entry = self.edition.entry_words();
        let mut words = Vec::with_capacity(6 + entry * vertices + 4 * count);
        let edition = self.edition as u32;
        words.extend([edition, STROKE, self.grade, vertices as u32, count as u32]);
        for (k, (vertex, count)) in self.path.iter().zip(counts).enumerate() {
            words.extend([vertex.x as u32, vertex.y as u32, vertex.radius as u32]);
            if self.edition == Edition::Second {
                words.push(self.numbers.get(k).copied().unwrap_or(0));
            }
            words.push(*count);
        }
        words.extend(counts.last());
        words.extend(edges.as_flattened().iter().map(|&number| number as u32));
        words
    }

    /// The kept outline, in words: what "its own vertices and grade give".
    pub fn words(&self) -> Vec<u32> {
        self.laid(&walk(self.path, self.grade))
    }

    /// The kept outline, in bytes.
    pub fn bytes(&self) -> Vec<u8> {
        in_bytes(&self.words())
    }
}

/// Request 3: "three words after the edge count: radius, join …, closed", of a
/// store of at least `LEAST_KERB_BYTES` bytes.
pub fn style_words(store: &[u8]) -> StyleWords {
    [word(store, 5), word(store, 6), word(store, 7)]
}

/// Request 3: "Entries are x and y": the points of a store that holds as many
/// as its header says.
pub fn points(store: &[u8]) -> Vec<Point> {
    let coordinate = |index| word(store, index) as i32 as i64;
    (0..Header::of(store).vertices as usize)
        .map(|vertex| 8 + 2 * vertex)
        .map(|at| Point::new(coordinate(at), coordinate(at + 1)))
        .collect()
}

/// Request 3: a kept kerb, in words: header, "radius, join (0 bevel, 1 round),
/// closed (0 or 1). Entries are x and y; three words follow with the counts of
/// section, join and cap edges; bodies stand in that order."
pub fn laid_kerb(points: &[Point], grade: u32, style: Style, drawing: &KerbDrawing) -> Vec<u32> {
    let KerbDrawing { edges, counts } = drawing;
    let mut words = Vec::with_capacity(11 + 2 * points.len() + 4 * edges.len());
    let (vertices, count) = (points.len() as u32, edges.len() as u32);
    words.extend([Edition::First as u32, KERB, grade, vertices, count]);
    words.extend(style.words());
    words.extend(points.iter().flat_map(|p| [p.x as u32, p.y as u32]));
    words.extend(counts);
    words.extend(edges.as_flattened().iter().map(|&number| number as u32));
    words
}

/// Request 3: a kept kerb, in words: what its own points, grade and style give.
pub fn kerb_words(points: &[Point], grade: u32, style: Style) -> Vec<u32> {
    laid_kerb(points, grade, style, &kerbs::walk(points, grade, style))
}

/// The kept outline: the words, "little-endian", into as many lent bytes.
pub fn put(words: &[u32], room: &mut [u8]) {
    for (bytes, word) in room.chunks_exact_mut(4).zip(words) {
        bytes.copy_from_slice(&word.to_le_bytes());
    }
}

/// Words as bytes of their own.
fn in_bytes(words: &[u32]) -> Vec<u8> {
    let mut bytes = vec![0; 4 * words.len()];
    put(words, &mut bytes);
    bytes
}

/// The outline of edition 1 of a path, in bytes, as it was kept once.
pub fn first_edition(path: &[Vertex], grade: u32) -> Vec<u8> {
    let sheet = Sheet {
        edition: Edition::First,
        path,
        numbers: &[],
        grade,
    };
    sheet.bytes()
}

/// Request 11: the outline of edition 2 of a path with these point numbers, in
/// bytes.
pub fn second_edition(path: &[Vertex], numbers: &[u32], grade: u32) -> Vec<u8> {
    let sheet = Sheet {
        edition: Edition::Second,
        path,
        numbers,
        grade,
    };
    sheet.bytes()
}

/// Request 3: a kept kerb, in bytes.
pub fn kerb_bytes(points: &[Point], grade: u32, style: Style) -> Vec<u8> {
    in_bytes(&kerb_words(points, grade, style))
}

/// The kept outline: "Sound means: equal to what its own vertices and grade
/// give. Lent bytes may go on after it." `outline` is the store up to the
/// length that its header says, `words` is what vertices and grade give. The
/// answer is the first byte that differs, or nothing if the store is sound.
///
/// Where the lengths differ the two edge totals differ, so a byte of them is
/// found before either ends.
pub fn first_difference(outline: &[u8], words: &[u32]) -> Option<usize> {
    let place = outline
        .chunks_exact(4)
        .zip(words)
        .position(|(bytes, word)| bytes != word.to_le_bytes())?;
    let expected = words[place].to_le_bytes();
    let byte = (0..4).find(|&byte| outline[4 * place + byte] != expected[byte])?;
    Some(4 * place + byte)
}

#[cfg(test)]
mod tests {
    use super::*;

    #[test]
    fn an_outline_of_no_vertices_has_24_bytes() {
        for (edition, first) in [(Edition::First, 1), (Edition::Second, 2)] {
            let sheet = Sheet {
                edition,
                path: &[],
                numbers: &[7],
                grade: 3,
            };
            assert_eq!(sheet.words(), [first, 0, 3, 0, 0, 0]);
            assert_eq!(sheet.bytes().len(), LEAST_BYTES);
        }
    }

    #[test]
    fn the_point_number_stands_after_the_radius() {
        let path = [Vertex::new(-5, 7, 1), Vertex::new(11, -13, 0)];
        let store = second_edition(&path, &[70, u32::MAX], 2);
        let due = [2, 0, 2, 2, 0, -5i32 as u32, 7, 1, 70, 0];
        assert_eq!((0..10).map(|at| word(&store, at)).collect::<Vec<_>>(), due);
        assert_eq!(store.len() as u64, Header::of(&store).length());
        assert_eq!(store.len(), 24 + 20 * 2);
        assert_eq!(point_numbers(&store, Edition::Second), [70, u32::MAX]);
        let missing = second_edition(&path, &[70], 2);
        assert_eq!(point_numbers(&missing, Edition::Second), [70, 0]);
        let old = first_edition(&path, 2);
        assert_eq!(old.len(), 24 + 16 * 2);
        assert_eq!(point_numbers(&old, Edition::First), [0, 0]);
    }

    #[test]
    fn lengths_pass_32_bits() {
        for (edition, entry) in [(1, 16), (2, 20)] {
            let header = Header {
                edition,
                kind: 0,
                grade: 1,
                vertices: 4096,
                edges: u32::MAX,
            };
            assert_eq!(header.length(), 24 + entry * 4096 + 16 * (u32::MAX as u64));
        }
    }

    #[test]
    fn vertices_are_read_with_their_signs() {
        let path = [Vertex::new(-5, 7, 3), Vertex::new(11, -13, 0)];
        assert_eq!(vertices(&first_edition(&path, 2), Edition::First), path);
        let store = second_edition(&path, &[1 << 31], 2);
        assert_eq!(vertices(&store, Edition::Second), path);
    }

    #[test]
    fn the_first_differing_byte_is_found() {
        for edition in [Edition::First, Edition::Second] {
            let sheet = Sheet {
                edition,
                path: &[Vertex::new(0, 0, 10)],
                numbers: &[3],
                grade: 1,
            };
            let (words, bytes) = (sheet.words(), sheet.bytes());
            assert_eq!(first_difference(&bytes, &words), None);
            for at in 0..bytes.len() {
                let mut damaged = bytes.clone();
                damaged[at] ^= 0x80;
                assert_eq!(first_difference(&damaged, &words), Some(at));
            }
        }
    }
}
