//! The calls on memory between canaries.

use sehmelir::{Chunk, Join, Kept, Refusal, Salvaged, Sheet, Style, Vertex, Why};
use std::fmt::Debug;
use std::ops::Range;

/// What a call answers, and the lent memory that it may write, afterwards.
pub type Outcome<A, T> = (Result<A, Refusal>, Vec<T>);

/// Canaries before lent memory: an odd number, so that lent bytes do not begin
/// at a word.
const BEFORE: usize = 13;

/// Canaries after lent memory.
const AFTER: usize = 24;

/// Canaries, all different and none of them 0.
fn canaries<T: From<u8>>(count: usize) -> Vec<T> {
    (0..count).map(|place| T::from(255 - place as u8)).collect()
}

/// Room with something in it.
pub fn room<T: From<u8>>(length: usize) -> Vec<T> {
    (0..length)
        .map(|place| T::from((place % 251) as u8))
        .collect()
}

/// Lends these entries to a call. The answer, and the entries afterwards.
fn lend<A, T>(entries: &[T], call: impl FnOnce(&mut [T]) -> A) -> (A, Vec<T>)
where
    T: Copy + Debug + From<u8> + PartialEq,
{
    let (before, after) = (canaries::<T>(BEFORE), canaries::<T>(AFTER));
    let mut memory = [&before, entries, &after].concat();
    let end = BEFORE + entries.len();
    let answer = call(&mut memory[BEFORE..end]);
    assert_eq!(memory[..BEFORE], before, "written before the lent memory");
    assert_eq!(memory[end..], after, "written after the lent memory");
    (answer, memory[BEFORE..end].to_vec())
}

/// Lends these entries to a call that may not write them.
fn lend_to_read<A, T>(entries: &[T], call: impl FnOnce(&[T]) -> A) -> A
where
    T: Copy + Debug + From<u8> + PartialEq,
{
    let (answer, afterwards) = lend(entries, |lent| call(lent));
    assert_eq!(afterwards, entries, "written where it only reads");
    answer
}

pub fn draw(path: &[i32], grade: u32, room: &[i32]) -> Outcome<usize, i32> {
    lend_to_read(path, |path| {
        lend(room, |out| sehmelir::draw(path, grade, out))
    })
}

pub fn keep(path: &[i32], grade: u32, room: &[u8]) -> Outcome<usize, u8> {
    lend_to_read(path, |path| {
        lend(room, |out| sehmelir::keep(path, grade, out))
    })
}

/// A path of records between canaries that are records too, in memory that is
/// only read, lent beside room.
fn lend_records<T>(
    path: &[Vertex],
    room: &[T],
    call: impl FnOnce(&[Vertex], &mut [T]) -> Result<usize, Refusal>,
) -> Outcome<usize, T>
where
    T: Copy + Debug + From<u8> + PartialEq,
{
    let canary = Vertex {
        x: i32::MIN,
        y: i32::MAX,
        radius: -1,
        number: 7,
    };
    let mut memory = vec![canary; path.len() + 2];
    memory[1..=path.len()].copy_from_slice(path);
    let before = memory.clone();
    let outcome = lend(room, |out| call(&memory[1..=path.len()], out));
    assert_eq!(memory, before, "written where it only reads");
    outcome
}

pub fn draw_records(path: &[Vertex], grade: u32, room: &[i32]) -> Outcome<usize, i32> {
    lend_records(path, room, |path, out| {
        sehmelir::draw_records(path, grade, out)
    })
}

pub fn keep_records(path: &[Vertex], grade: u32, room: &[u8]) -> Outcome<usize, u8> {
    lend_records(path, room, |path, out| {
        sehmelir::keep_records(path, grade, out)
    })
}

/// A style's three words, of any size, as C hands them over.
pub type StyleWords = [u32; 3];

/// What C gets of a call with such words.
#[repr(C)]
struct Reply {
    reply: u32,
    grade: u32,
    number: u64,
}

extern "C" {
    fn sehmelir_draw_kerb(
        points: *const i32,
        points_len: usize,
        grade: u32,
        radius: u32,
        join: u32,
        closed: u32,
        out: *mut i32,
        out_len: usize,
    ) -> Reply;

    fn sehmelir_keep_kerb(
        points: *const i32,
        points_len: usize,
        grade: u32,
        radius: u32,
        join: u32,
        closed: u32,
        out: *mut u8,
        out_len: usize,
    ) -> Reply;
}

/// The style of words, where join and closed are within their ranges.
fn style([radius, join, closed]: StyleWords) -> Option<Style> {
    let join = match join {
        0 => Join::Bevel,
        1 => Join::Round,
        _ => return None,
    };
    (closed < 2).then_some(Style {
        radius,
        join,
        closed: closed == 1,
    })
}

/// A kerb's call: the wrapper's where the words are a style, else as C makes it,
/// the reply and its number as an error then.
fn kerb_call<T>(
    words: StyleWords,
    out: &mut [T],
    wrapped: impl FnOnce(Style, &mut [T]) -> Result<usize, Refusal>,
    raw: impl FnOnce(&mut [T]) -> Reply,
) -> Result<usize, (u32, u64)> {
    if let Some(style) = style(words) {
        return wrapped(style, out).map_err(|refusal| (refusal.reply(), number(refusal)));
    }
    let Reply {
        reply,
        grade,
        number,
    } = raw(out);
    assert_eq!(grade, 0);
    match reply {
        0 => Ok(number as usize),
        reply => Err((reply, number)),
    }
}

/// The number with a refusal of a kerb's call.
fn number(refusal: Refusal) -> u64 {
    match refusal {
        Refusal::Grade(word) | Refusal::StyleWord(word) => word as u64,
        Refusal::Uneven(number)
        | Refusal::TooMany(number)
        | Refusal::Outside(number)
        | Refusal::NoRoom(number)
        | Refusal::WithoutEdges(number) => number as u64,
        other => panic!("{other:?} is no refusal of a kerb's call"),
    }
}

/// What a kerb's call answers, or the reply and its number; and the room
/// afterwards.
pub type KerbOutcome<T> = (Result<usize, (u32, u64)>, Vec<T>);

pub fn draw_kerb(points: &[i32], grade: u32, words: StyleWords, room: &[i32]) -> KerbOutcome<i32> {
    let [radius, join, closed] = words;
    lend_to_read(points, |points| {
        lend(room, |out| {
            let (from, count) = (points.as_ptr(), points.len());
            kerb_call(
                words,
                out,
                |style, out| sehmelir::draw_kerb(points, grade, style, out),
                // SAFETY: pointers and lengths are those of slices
                |out| unsafe {
                    let (to, room) = (out.as_mut_ptr(), out.len());
                    sehmelir_draw_kerb(from, count, grade, radius, join, closed, to, room)
                },
            )
        })
    })
}

pub fn keep_kerb(points: &[i32], grade: u32, words: StyleWords, room: &[u8]) -> KerbOutcome<u8> {
    let [radius, join, closed] = words;
    lend_to_read(points, |points| {
        lend(room, |out| {
            let (from, count) = (points.as_ptr(), points.len());
            kerb_call(
                words,
                out,
                |style, out| sehmelir::keep_kerb(points, grade, style, out),
                // SAFETY: pointers and lengths are those of slices
                |out| unsafe {
                    let (to, room) = (out.as_mut_ptr(), out.len());
                    sehmelir_keep_kerb(from, count, grade, radius, join, closed, to, room)
                },
            )
        })
    })
}

pub fn read(store: &[u8], room: &[i32]) -> Outcome<Kept, i32> {
    lend_to_read(store, |store| lend(room, |out| sehmelir::read(store, out)))
}

pub fn numbers(store: &[u8], room: &[u32]) -> Outcome<usize, u32> {
    lend_to_read(store, |store| {
        lend(room, |out| sehmelir::numbers(store, out))
    })
}

pub fn replace(store: &[u8], index: usize, [x, y, radius]: [i32; 3]) -> Outcome<usize, u8> {
    lend(store, |store| sehmelir::replace(store, index, x, y, radius))
}

pub fn convert(store: &[u8], grade: u32) -> Outcome<usize, u8> {
    lend(store, |store| sehmelir::convert(store, grade))
}

pub fn reach(store: &[u8], index: usize) -> Result<usize, Refusal> {
    lend_to_read(store, |store| sehmelir::reach(store, index))
}

pub fn explain(store: &[u8], edge: usize) -> Result<Why, Refusal> {
    lend_to_read(store, |store| sehmelir::explain(store, edge))
}

pub fn list(store: &[u8], room: &[usize]) -> Outcome<usize, usize> {
    lend_to_read(store, |store| lend(room, |out| sehmelir::list(store, out)))
}

pub fn side(
    before: &[u8],
    after: &[u8],
    sheet: Sheet,
    vertex: usize,
) -> Result<Range<usize>, Refusal> {
    lend_to_read(before, |before| {
        lend_to_read(after, |after| {
            sehmelir::side_range(before, after, sheet, vertex)
        })
    })
}

/// The outcome with the outline's room, and the list's room afterwards.
pub fn salvage(store: &[u8], room: &[u8], list: &[u32]) -> (Outcome<Salvaged, u8>, Vec<u32>) {
    lend_to_read(store, |store| {
        lend(list, |list| {
            lend(room, |out| sehmelir::salvage(store, out, list))
        })
    })
}

pub fn import(numbers: &[f32], room: &[i32]) -> Outcome<usize, i32> {
    // NaNs are compared by their bits, which is how they are lent
    let bits: Vec<u32> = numbers.iter().map(|value| value.to_bits()).collect();
    lend_to_read(&bits, |bits| {
        lend(room, |out| sehmelir::import(as_floats(bits), out))
    })
}

pub fn export(path: &[i32], room: &[f32]) -> Outcome<usize, f32> {
    lend_to_read(path, |path| lend(room, |out| sehmelir::export(path, out)))
}

pub fn chunk_make(chunk: &[u8], entries: u32) -> Outcome<(), u8> {
    lend(chunk, |chunk| Chunk::make(chunk, entries).map(drop))
}

pub fn chunk_add(chunk: &[u8], key: u32, outline: &[u8]) -> Outcome<usize, u8> {
    lend_to_read(outline, |outline| {
        lend(chunk, |chunk| Chunk::over(chunk).add(key, outline))
    })
}

pub fn chunk_find(chunk: &[u8], key: u32) -> Result<Range<usize>, Refusal> {
    lend_to_read(chunk, |chunk| Chunk::over(chunk).find(key))
}

pub fn chunk_remove(chunk: &[u8], key: u32) -> Outcome<usize, u8> {
    lend(chunk, |chunk| Chunk::over(chunk).remove(key))
}

pub fn chunk_compact(chunk: &[u8]) -> Outcome<usize, u8> {
    lend(chunk, |chunk| Chunk::over(chunk).compact())
}

/// The floats of these bits, where they lie.
fn as_floats(bits: &[u32]) -> &[f32] {
    // SAFETY: both types have the same size and alignment, and any bits are a
    // float
    unsafe { std::slice::from_raw_parts(bits.as_ptr().cast(), bits.len()) }
}
