//! The library's calls in memory of their own. How much to lend first is a
//! guess, which decides nothing but time: where it is too little, the call's
//! own reply 5 says how much is needed. Memory that is asked for and never
//! written costs nothing, so the guess is generous, and one call mostly enough.

use crate::failure::Failure;
use crate::memory::{lengthen, zeros};
use crate::oldest::{not_exported, not_imported};
use crate::progress;
use crate::salvage::Salvaged;
use crate::sheet::Header;
use sehmelir::{Difference, Form, Kept, Refusal, Style, Vertex};

/// The most vertices that a path may have: what a read, an import and an export
/// lend room for.
const MOST_VERTICES: usize = 4096;

/// About as many bodies change where a vertex does.
const CHANGED_BODIES: usize = 4;

/// A path's boundary.
pub fn draw(path: &[Vertex], grade: u32) -> Result<Vec<[i32; 4]>, Failure> {
    let edges = likely_edges(path.len(), grade);
    progress::during("drawing", || {
        with_room(edges, |room: &mut [[i32; 4]]| {
            sehmelir::draw_records(path, grade, room.as_flattened_mut())
        })
    })
}

/// The sheet of a path with point numbers.
pub fn keep_records(path: &[Vertex], grade: u32) -> Result<Vec<u8>, Failure> {
    let bytes = likely_bytes(path.len(), grade);
    progress::during("keeping", || {
        with_room(bytes, |room| sehmelir::keep_records(path, grade, room))
    })
}

/// The sheet of a path without point numbers.
pub fn keep(path: &[i32], grade: u32) -> Result<Vec<u8>, Failure> {
    let bytes = likely_bytes(path.len() / 3, grade);
    progress::during("keeping", || {
        with_room(bytes, |room| sehmelir::keep(path, grade, room))
    })
}

/// A kerb's boundary.
pub fn draw_kerb(points: &[i32], grade: u32, style: Style) -> Result<Vec<[i32; 4]>, Failure> {
    let edges = likely_edges(points.len() / 2, grade);
    progress::during("drawing", || {
        with_room(edges, |room: &mut [[i32; 4]]| {
            sehmelir::draw_kerb(points, grade, style, room.as_flattened_mut())
        })
    })
}

/// The sheet of a kerb.
pub fn keep_kerb(points: &[i32], grade: u32, style: Style) -> Result<Vec<u8>, Failure> {
    let vertices = points.len() / 2;
    let bytes = sehmelir::kerb_bytes(vertices, likely_edges(vertices, grade));
    progress::during("keeping", || {
        with_room(bytes, |room| {
            sehmelir::keep_kerb(points, grade, style, room)
        })
    })
}

/// What a sheet holds: the numbers of its vertices, its grade, and what it is
/// of.
#[derive(Debug, PartialEq)]
pub struct Read {
    pub numbers: Vec<i32>,
    pub grade: u32,
    pub form: Form,
}

/// What a sheet holds.
pub fn read(sheet: &[u8]) -> Result<Read, Failure> {
    let mut numbers = zeros(3 * MOST_VERTICES)?;
    let Kept {
        vertices,
        grade,
        form,
    } = progress::during("reading", || sehmelir::read(sheet, &mut numbers))?;
    numbers.truncate(form.numbers() * vertices);
    Ok(Read {
        numbers,
        grade,
        form,
    })
}

/// The point numbers of a sheet of a path.
pub fn numbers(sheet: &[u8]) -> Result<Vec<u32>, Failure> {
    progress::during("reading", || {
        with_room(MOST_VERTICES, |room| sehmelir::numbers(sheet, room))
    })
}

/// The sheet with another vertex.
pub fn replace(sheet: Vec<u8>, index: usize, [x, y, radius]: [i32; 3]) -> Result<Vec<u8>, Failure> {
    let grade = Header::of(&sheet).map_or(0, |header| header.grade);
    let more = 16 * likely_edges(CHANGED_BODIES, grade);
    progress::during("replacing", || {
        in_place(sheet, more, |sheet| {
            sehmelir::replace(sheet, index, x, y, radius)
        })
    })
}

/// The sheet at another grade. Each finer one has about twice the edges.
pub fn convert(sheet: Vec<u8>, grade: u32) -> Result<Vec<u8>, Failure> {
    let more = match Header::of(&sheet) {
        Some(header) if header.grade < grade => {
            let finer = grade.min(8).saturating_sub(header.grade);
            let edges = header.edges << finer;
            16 * edges.min(likely_edges(header.vertices, grade))
        }
        _ => 0,
    };
    progress::during("converting", || {
        in_place(sheet, more, |sheet| sehmelir::convert(sheet, grade))
    })
}

/// What a call makes of a sheet in its place. The memory that it stands in is lent
/// with so much room after it, and with as much as it needs where that is too
/// little, but only if the sheet is as long as its header says: room must not make
/// a sheet whole that was cut short.
fn in_place(
    mut sheet: Vec<u8>,
    more: usize,
    call: impl Fn(&mut [u8]) -> Result<usize, Refusal>,
) -> Result<Vec<u8>, Failure> {
    let whole = Header::of(&sheet).is_some_and(|header| header.length() <= sheet.len());
    if whole {
        lengthen(&mut sheet, more)?;
    }
    let mut made = call(&mut sheet);
    if let Err(Refusal::NoRoom(needed)) = made {
        let more = needed.saturating_sub(sheet.len());
        lengthen(&mut sheet, more)?;
        made = call(&mut sheet);
    }
    sheet.truncate(made?);
    Ok(sheet)
}

/// The body of a vertex in one of two sheets, as a part of it.
pub fn side<'a>(
    before: &'a [u8],
    after: &'a [u8],
    which: sehmelir::Sheet,
    vertex: usize,
) -> Result<&'a [u8], Failure> {
    let part = progress::during("comparing", || sehmelir::side(before, after, which, vertex));
    part.map_err(|refusal| match refusal {
        Refusal::OtherKind(kind) => Failure::NoBodies(kind),
        Refusal::NoVertex(vertex) => Failure::NoBody(vertex),
        other => Failure::Refused(other),
    })
}

/// What is salvaged from a spoiled sheet. Its list has an entry for each vertex, the
/// closing body and the total at most.
pub fn salvage(spoiled: &[u8]) -> Result<Salvaged, Failure> {
    // a header may say anything
    let bytes = Header::of(spoiled).map_or(0, |header| {
        likely_bytes(header.vertices.min(MOST_VERTICES), header.grade)
    });
    let mut list: Vec<[u32; 2]> = zeros(MOST_VERTICES + 2)?;
    let mut entries = 0;
    let sheet = progress::during("salvaging", || {
        with_room(bytes, |room| {
            let salvaged = sehmelir::salvage(spoiled, room, list.as_flattened_mut())?;
            entries = salvaged.entries;
            Ok(salvaged.bytes)
        })
    })?;
    let vertices = Header::of(&sheet).map_or(0, |header| header.vertices);
    let differences = list[..entries].iter().map(|&entry| {
        Difference::of(entry, vertices).expect("the library lists the differences that it has")
    });
    let differences = differences.collect();
    Ok(Salvaged { sheet, differences })
}

/// Why each edge of a sheet is there: the number of its reason, its vertex, its
/// place, and whether its start and its end are exact.
pub fn list(sheet: &[u8]) -> Result<Vec<[usize; 5]>, Failure> {
    // a header may say anything, but an edge has sixteen bytes
    let most = sheet.len() / 16;
    let edges = Header::of(sheet).map_or(0, |header| header.edges.min(most));
    progress::during("explaining", || {
        with_room(edges, |room: &mut [[usize; 5]]| {
            sehmelir::list(sheet, room.as_flattened_mut())
        })
    })
}

/// The path of the oldest chunks' floats.
pub fn import(floats: &[f32]) -> Result<Vec<[i32; 3]>, Failure> {
    let path = with_room(MOST_VERTICES, |room: &mut [[i32; 3]]| {
        sehmelir::import(floats, room.as_flattened_mut())
    });
    path.map_err(|failure| not_imported(failure, floats))
}

/// A path as the oldest chunks' floats.
pub fn export(path: &[i32]) -> Result<Vec<[f32; 3]>, Failure> {
    let vertices = with_room(MOST_VERTICES, |room: &mut [[f32; 3]]| {
        sehmelir::export(path, room.as_flattened_mut())
    });
    vertices.map_err(|failure| not_exported(failure, path))
}

/// So many edges hold the boundary of most paths: sixteen a vertex at grade 1,
/// and twice as many at each finer one.
fn likely_edges(vertices: usize, grade: u32) -> usize {
    vertices.min(MOST_VERTICES) * (8 << grade.min(8))
}

/// So many bytes hold the sheets of most paths.
fn likely_bytes(vertices: usize, grade: u32) -> usize {
    sehmelir::outline_bytes(vertices, likely_edges(vertices, grade))
}

/// What a call writes, which it counts, in room enough for it.
fn with_room<T: Clone + Default>(
    guess: usize,
    mut call: impl FnMut(&mut [T]) -> Result<usize, Refusal>,
) -> Result<Vec<T>, Failure> {
    let mut room = zeros(guess).unwrap_or_default();
    let length = match call(&mut room) {
        Err(Refusal::NoRoom(needed)) => {
            room = zeros(needed)?;
            call(&mut room)?
        }
        settled => settled?,
    };
    room.truncate(length);
    Ok(room)
}

#[cfg(test)]
mod tests {
    use super::{convert, keep, keep_kerb, keep_records, numbers, read, replace, with_room, Read};
    use crate::failure::Failure;
    use sehmelir::{Form, Join, Refusal, Style, Vertex};

    #[test]
    fn a_guess_that_is_too_short_changes_nothing() {
        let fill = |room: &mut [u8]| match room.len() {
            0..5 => Err(Refusal::NoRoom(5)),
            _ => {
                room[..5].fill(7);
                Ok(5)
            }
        };
        for guess in [0, 4, 5, 60] {
            assert_eq!(with_room(guess, fill).unwrap(), [7; 5]);
        }
    }

    #[test]
    fn a_vertex_is_replaced_by_one_of_any_size() {
        let sheet = keep(&[0, 0, 2], 8).unwrap();
        for radius in [2, 10, 1 << 28] {
            let replaced = replace(sheet.clone(), 0, [1, 2, radius]).unwrap();
            assert_eq!(replaced, keep(&[1, 2, radius], 8).unwrap());
            let expected = Read {
                numbers: vec![1, 2, radius],
                grade: 8,
                form: Form::Stroke,
            };
            assert_eq!(read(&replaced).unwrap(), expected);
        }
    }

    #[test]
    fn a_sheet_is_converted_to_any_grade() {
        let hedge = [0, 0, 500, 2000, 0, 300, 4000, 900, 450];
        let style = Style {
            radius: 50,
            join: Join::Round,
            closed: true,
        };
        for (from, to) in (2..=8).flat_map(|from| (2..=8).map(move |to| (from, to))) {
            let converted = convert(keep(&hedge, from).unwrap(), to).unwrap();
            assert_eq!(converted, keep(&hedge, to).unwrap());
            let kerb = keep_kerb(&hedge[..8], from, style).unwrap();
            let converted = convert(kerb, to).unwrap();
            assert_eq!(converted, keep_kerb(&hedge[..8], to, style).unwrap());
        }
        let refused = convert(keep(&hedge, 4).unwrap(), 1);
        assert!(matches!(refused, Err(Failure::Refused(Refusal::Grade(1)))));
    }

    #[test]
    fn a_replaced_vertex_keeps_its_number() {
        let sheet = keep(&[0, 0, 5, 20, 0, 5], 8).unwrap();
        assert_eq!(numbers(&sheet).unwrap(), [0, 0]);
        let mut path = [[0, 0, 5], [20, 0, 5]].map(Vertex::from);
        assert_eq!(keep_records(&path, 8).unwrap(), sheet);
        (path[0].number, path[1].number) = (411, u32::MAX);
        let replaced = replace(keep_records(&path, 8).unwrap(), 1, [20, 7, 90]).unwrap();
        assert_eq!(numbers(&replaced).unwrap(), [411, u32::MAX]);
    }

    #[test]
    fn room_makes_no_sheet_whole_that_was_cut_short() {
        let style = Style {
            radius: 5,
            join: Join::Bevel,
            closed: false,
        };
        let sheets = [
            keep(&[0, 0, 10], 2).unwrap(),
            keep_kerb(&[0, 0, 9, 9], 2, style).unwrap(),
        ];
        for mut sheet in sheets {
            sheet.pop();
            let refused = [replace(sheet.clone(), 0, [0, 0, 0]), convert(sheet, 2)];
            for refused in refused {
                assert!(matches!(
                    refused,
                    Err(Failure::Refused(Refusal::NotOutline))
                ));
            }
        }
    }
}
