//! A sheet: a kept outline, byte for byte as the documents have it.

use crate::calls::{self, Read};
use crate::failure::Failure;
use crate::source::Source;
use sehmelir::Form;
use std::ops::Range;
use std::path::PathBuf;

/// Words of an edge.
const ROW: usize = 4;

/// Where words stand in a sheet of a kind and edition.
#[derive(Debug, PartialEq)]
struct Layout {
    /// Words before the vertices.
    header: usize,
    /// Words of a vertex.
    entry: usize,
    /// Words between the vertices and the edges.
    counts: usize,
}

impl Layout {
    /// Document 01's, edition 2 with a point number in each entry, and a kerb's,
    /// both of document 02.
    const STROKE: Layout = Layout {
        header: 5,
        entry: 4,
        counts: 1,
    };
    const NUMBERED: Layout = Layout {
        entry: 5,
        ..Layout::STROKE
    };
    const KERB: Layout = Layout {
        header: 8,
        entry: 2,
        counts: 3,
    };

    /// That of these words, if there are so many: edition, then kind.
    fn of(bytes: &[u8]) -> Option<Layout> {
        Some(match (word(bytes, 0)?, word(bytes, 1)?) {
            (_, 1) => Layout::KERB,
            (2, _) => Layout::NUMBERED,
            _ => Layout::STROKE,
        })
    }

    /// Words before the edges of so many vertices.
    fn front(&self, vertices: usize) -> usize {
        self.header + self.entry * vertices + self.counts
    }
}

/// A sheet that the library found sound, or a spoiled one beside the sound one that
/// it is salvaged as.
pub struct Sheet {
    bytes: Vec<u8>,
    layout: Layout,
    grade: u32,
    form: Form,
    vertices: Vec<[i32; 3]>,
    bodies: Vec<Range<usize>>,
    is_sound: bool,
}

impl Sheet {
    /// The sheet of these bytes, if they are sound.
    pub fn sound(bytes: Vec<u8>) -> Result<Sheet, Failure> {
        Sheet::sound_or(bytes, &mut None)
    }

    /// The sheet of these bytes, if they are sound; if not, the bytes are left there.
    pub fn sound_or(bytes: Vec<u8>, left: &mut Option<Vec<u8>>) -> Result<Sheet, Failure> {
        match calls::read(&bytes) {
            Ok(read) => Ok(Sheet::of(bytes, read)),
            Err(failure) => {
                *left = Some(bytes);
                Err(failure)
            }
        }
    }

    /// A spoiled sheet of a path beside the sound one that it is salvaged as: its own
    /// bodies by its own counts, as far as its bytes go.
    pub fn spoiled(bytes: Vec<u8>, sound: &Sheet) -> Sheet {
        let (layout, vertices) = (
            Layout::of(&bytes).unwrap_or(Layout::STROKE),
            &sound.vertices,
        );
        let front = 4 * layout.front(vertices.len());
        let edges = bytes.len().saturating_sub(front) / (4 * ROW);
        let bodies = bodies(&bytes, sound.form, &layout, vertices.len()).into_iter();
        Sheet {
            bodies: bodies
                .map(|body| body.start.min(edges)..body.end.min(edges))
                .collect(),
            bytes,
            layout,
            grade: sound.grade,
            form: sound.form,
            vertices: vertices.clone(),
            is_sound: false,
        }
    }

    /// The sheet of these bytes, which were read.
    fn of(bytes: Vec<u8>, read: Read) -> Sheet {
        let Read {
            numbers,
            grade,
            form,
        } = read;
        let vertices = match form {
            Form::Stroke => numbers.as_chunks::<3>().0.to_vec(),
            Form::Kerb(_) => {
                let points = numbers.as_chunks::<2>().0.iter();
                points.map(|&[x, y]| [x, y, 0]).collect()
            }
        };
        let layout = Layout::of(&bytes).unwrap_or(Layout::STROKE);
        let bodies = bodies(&bytes, form, &layout, vertices.len());
        Sheet {
            bytes,
            layout,
            grade,
            form,
            vertices,
            bodies,
            is_sound: true,
        }
    }

    /// Whether it is sound. The edges of a spoiled one may be anywhere.
    pub fn is_sound(&self) -> bool {
        self.is_sound
    }

    /// The bytes, and what may stand after the sheet.
    pub fn bytes(&self) -> &[u8] {
        &self.bytes
    }

    /// Its edition, 1 or 2.
    pub fn edition(&self) -> u32 {
        word(&self.bytes, 0).unwrap_or(0)
    }

    /// The point number of each vertex; 0 of a kerb's, which has none.
    pub fn numbers(&self) -> Result<Vec<u32>, Failure> {
        match self.form {
            Form::Stroke => calls::numbers(&self.bytes),
            Form::Kerb(_) => Ok(vec![0; self.vertices.len()]),
        }
    }

    /// How finely arcs are drawn.
    pub fn grade(&self) -> u32 {
        self.grade
    }

    /// What it is of.
    pub fn form(&self) -> Form {
        self.form
    }

    /// x, y and radius of each vertex; 0 of a kerb's, which has one for the
    /// whole line.
    pub fn vertices(&self) -> &[[i32; 3]] {
        &self.vertices
    }

    /// The edges of each body, by their numbers: one body a vertex, and the
    /// closing one; of a kerb those of its lines, of its corners and of its
    /// ends.
    pub fn bodies(&self) -> &[Range<usize>] {
        &self.bodies
    }

    /// How many edges there are.
    pub fn edge_count(&self) -> usize {
        self.bodies.last().map_or(0, |closing| closing.end)
    }

    /// x and y of the start, then of the end, of each of these edges.
    pub fn edges(&self, numbers: Range<usize>) -> impl Iterator<Item = [i32; 4]> + '_ {
        edges_of(self.edge_bytes(numbers))
    }

    /// The bytes of these edges.
    pub fn edge_bytes(&self, numbers: Range<usize>) -> &[u8] {
        let first = 4 * self.layout.front(self.vertices.len());
        &self.bytes[first + 4 * ROW * numbers.start..first + 4 * ROW * numbers.end]
    }
}

/// A sound sheet from a file or from standard input.
pub fn sheet_of(file: Option<PathBuf>) -> Result<Sheet, Failure> {
    Source::named(file).take(Sheet::sound)
}

/// x and y of the start, then of the end, of each edge whose bytes these are.
pub fn edges_of(bytes: &[u8]) -> impl Iterator<Item = [i32; 4]> + '_ {
    let (rows, _) = bytes.as_chunks::<16>();
    rows.iter().map(|row| {
        let (words, _) = row.as_chunks::<4>();
        [words[0], words[1], words[2], words[3]].map(i32::from_le_bytes)
    })
}

/// The bodies of a sheet of so many vertices, by its counts.
fn bodies(bytes: &[u8], form: Form, layout: &Layout, vertices: usize) -> Vec<Range<usize>> {
    let front = layout.front(vertices);
    let last = front - layout.counts..front;
    let places: Vec<usize> = match form {
        Form::Stroke => {
            let entries = (1..=vertices).map(|body| layout.header + layout.entry * body - 1);
            entries.chain(last).collect()
        }
        Form::Kerb(_) => last.collect(),
    };
    let mut end = 0;
    places
        .into_iter()
        .map(|place| {
            let start = end;
            end += word(bytes, place).unwrap_or(0) as usize;
            start..end
        })
        .collect()
}

/// What bytes that may be a sheet say of themselves.
#[derive(Debug, PartialEq)]
pub struct Header {
    pub grade: u32,
    pub edges: usize,
    layout: Layout,
    pub vertices: usize,
}

impl Header {
    /// The header, if there are bytes enough for one.
    pub fn of(bytes: &[u8]) -> Option<Header> {
        Some(Header {
            layout: Layout::of(bytes)?,
            grade: word(bytes, 2)?,
            vertices: word(bytes, 3)? as usize,
            edges: word(bytes, 4)? as usize,
        })
    }

    /// How long the sheet must be.
    pub fn length(&self) -> usize {
        4 * (self.layout.front(self.vertices) + ROW * self.edges)
    }
}

/// The word at a place, if the bytes reach that far.
fn word(bytes: &[u8], place: usize) -> Option<u32> {
    let (words, _) = bytes.as_chunks::<4>();
    words.get(place).copied().map(u32::from_le_bytes)
}

#[cfg(test)]
mod tests {
    use super::{Header, Sheet};
    use crate::calls;
    use sehmelir::{Form, Join, Style};

    #[test]
    fn a_sheet_is_taken_apart() {
        let path = [[0, 0, 10], [3, 0, 2], [6, 0, 10]];
        let bytes = calls::keep(path.as_flattened(), 2).unwrap();
        let header = Header::of(&bytes).unwrap();
        assert_eq!((header.grade, header.length()), (2, bytes.len()));
        let sheet = Sheet::sound(bytes).unwrap();
        assert_eq!(sheet.vertices(), path);
        assert_eq!(sheet.bodies(), [0..0, 0..14, 14..14, 14..28]);
        assert_eq!(sheet.edge_count(), 28);
        assert_eq!(sheet.edges(0..2).last(), Some([9, 5, 6, 8]));
        assert_eq!((sheet.edition(), sheet.numbers().unwrap()), (2, vec![0; 3]));
    }

    /// The same path as it was kept once: entries without point numbers.
    #[test]
    fn a_sheet_of_edition_1_is_taken_apart() {
        let path = [[0, 0, 10], [3, 0, 2], [6, 0, 10]];
        let now = calls::keep(path.as_flattened(), 2).unwrap();
        let mut once = [&[1], &now[1..20]].concat();
        for entry in now[20..80].chunks_exact(20) {
            once.extend([&entry[..12], &entry[16..]].concat());
        }
        once.extend(&now[80..]);
        let header = Header::of(&once).unwrap();
        assert_eq!((header.grade, header.length()), (2, once.len()));
        let sheet = Sheet::sound(once).unwrap();
        assert_eq!(sheet.vertices(), path);
        assert_eq!(sheet.bodies(), [0..0, 0..14, 14..14, 14..28]);
        assert_eq!(sheet.edges(0..2).last(), Some([9, 5, 6, 8]));
        assert_eq!((sheet.edition(), sheet.numbers().unwrap()), (1, vec![0; 3]));
    }

    #[test]
    fn a_kerb_is_taken_apart() {
        let style = Style {
            radius: 5,
            join: Join::Round,
            closed: false,
        };
        let bytes = calls::keep_kerb(&[0, 0, 20, 0, 20, 20], 2, style).unwrap();
        let header = Header::of(&bytes).unwrap();
        assert_eq!((header.grade, header.length()), (2, bytes.len()));
        let sheet = Sheet::sound(bytes).unwrap();
        assert_eq!(sheet.form(), Form::Kerb(style));
        assert_eq!(sheet.vertices(), [[0, 0, 0], [20, 0, 0], [20, 20, 0]]);
        assert_eq!(sheet.bodies(), [0..4, 4..10, 10..12]);
        assert_eq!(sheet.edges(10..11).last(), Some([0, 5, 0, -5]));
    }

    #[test]
    fn few_bytes_tell_nothing() {
        assert_eq!(Header::of(&[1; 19]), None);
    }
}
