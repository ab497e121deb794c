//! The archive's calls, as `include/sehmelir.h` declares them, on slices.

use crate::{Form, Join, Kept, Refusal, Style, Untaken, Vertex};
use std::ops::Range;

/// `struct sehmelir_reply`.
#[repr(C)]
pub struct Reply {
    reply: u32,
    grade: u32,
    number: u64,
}

impl Reply {
    /// The number with reply 0, or the refusal.
    pub fn number(&self) -> Result<usize, Refusal> {
        match self.reply {
            0 => Ok(self.number as usize),
            reply => Err(refused(reply, self.number)),
        }
    }
}

/// The refusal of a reply that is not 0 and its number.
pub fn refused(reply: u32, number: u64) -> Refusal {
    // both casts keep the number: the archive links only where usize has
    // 64 bits, and grades, kinds, places and keys are 32-bit words
    let (long, word) = (number as usize, number as u32);
    match reply {
        1 => Refusal::Uneven(long),
        2 => Refusal::TooMany(long),
        3 => Refusal::Grade(word),
        4 => Refusal::Outside(long),
        5 => Refusal::NoRoom(long),
        6 => Refusal::NotOutline,
        7 => Refusal::Kind(word),
        8 => Refusal::NotSound(long),
        9 => Refusal::NoVertex(long),
        10 => Refusal::NoEdge(long),
        11 => Refusal::StyleWord(word),
        12 => Refusal::OtherKind(word),
        13 => Refusal::NotTaken(long),
        14 => Refusal::Damaged,
        15 => Refusal::KeyThere(word),
        16 => Refusal::KeyMissing(word),
        17 => Refusal::TableFull(long),
        18 => Refusal::WithoutEdges(long),
        19 => Refusal::NoListRoom(long),
        reply => panic!("the archive gives reply {reply}, which this crate does not know"),
    }
}

/// `struct sehmelir_path`, which begins as a reply does.
#[repr(C)]
pub struct Path {
    reply: Reply,
    kind: u32,
    radius: u32,
    join: u32,
    closed: u32,
}

impl Path {
    /// What was read, or the refusal.
    pub fn kept(&self) -> Result<Kept, Refusal> {
        let vertices = self.reply.number()?;
        let form = match self.kind {
            0 => Form::Stroke,
            1 => Form::Kerb(Style {
                radius: self.radius,
                join: match self.join {
                    0 => Join::Bevel,
                    _ => Join::Round,
                },
                closed: self.closed == 1,
            }),
            kind => panic!("the archive gives kind {kind}, which this crate does not know"),
        };
        Ok(Kept {
            vertices,
            grade: self.reply.grade,
            form,
        })
    }
}

/// `struct sehmelir_part`.
#[repr(C)]
pub struct Part {
    reply: u32,
    zero: u32,
    number: u64,
    offset: u64,
    length: u64,
}

impl Part {
    /// The bytes of the part, or the refusal.
    pub fn range(&self) -> Result<Range<usize>, Refusal> {
        match self.reply {
            0 => Ok(self.offset as usize..(self.offset + self.length) as usize),
            reply => Err(refused(reply, self.number)),
        }
    }
}

/// `struct sehmelir_taken`.
#[repr(C)]
pub struct Taken {
    reason: u32,
    whole: i32,
}

impl Taken {
    /// The whole number, or why there is none, of the float that was asked
    /// about.
    pub fn whole(&self, value: f32) -> Result<i32, Untaken> {
        Err(match self.reason {
            0 => return Ok(self.whole),
            1 => Untaken::NotANumber(value),
            2 => Untaken::Infinite(value),
            3 => Untaken::Fraction(value),
            4 => Untaken::TooLarge(value),
            5 => Untaken::NegativeWidth(value),
            6 => Untaken::OddWidth(value),
            reason => panic!("the archive gives reason {reason}, which this crate does not know"),
        })
    }
}

extern "C" {
    fn sehmelir_draw(
        path: *const i32,
        path_len: usize,
        grade: u32,
        out: *mut i32,
        out_len: usize,
    ) -> Reply;

    fn sehmelir_keep(
        path: *const i32,
        path_len: usize,
        grade: u32,
        out: *mut u8,
        out_len: usize,
    ) -> Reply;

    fn sehmelir_draw_kerb(
        points: *const i32,
        points_len: usize,
        grade: u32,
        radius: u32,
        join: u32,
        closed: u32,
        out: *mut i32,
        out_len: usize,
    ) -> Reply;

    fn sehmelir_keep_kerb(
        points: *const i32,
        points_len: usize,
        grade: u32,
        radius: u32,
        join: u32,
        closed: u32,
        out: *mut u8,
        out_len: usize,
    ) -> Reply;

    fn sehmelir_read(store: *const u8, store_len: usize, out: *mut i32, out_len: usize) -> Path;

    fn sehmelir_numbers(store: *const u8, store_len: usize, out: *mut u32, out_len: usize)
        -> Reply;

    fn sehmelir_replace(
        store: *mut u8,
        store_len: usize,
        index: usize,
        x: i32,
        y: i32,
        radius: i32,
    ) -> Reply;

    fn sehmelir_convert(store: *mut u8, store_len: usize, grade: u32) -> Reply;

    fn sehmelir_reach(store: *const u8, store_len: usize, index: usize) -> Reply;

    fn sehmelir_side(
        before: *const u8,
        before_len: usize,
        after: *const u8,
        after_len: usize,
        later: bool,
        vertex: usize,
    ) -> Part;

    fn sehmelir_take_coordinate(value: f32) -> Taken;

    fn sehmelir_take_width(value: f32) -> Taken;

    fn sehmelir_import(
        numbers: *const f32,
        numbers_len: usize,
        out: *mut i32,
        out_len: usize,
    ) -> Reply;

    fn sehmelir_export(path: *const i32, path_len: usize, out: *mut f32, out_len: usize) -> Reply;

    fn sehmelir_draw_records(
        path: *const Vertex,
        vertices: usize,
        grade: u32,
        out: *mut i32,
        out_len: usize,
    ) -> Reply;

    fn sehmelir_keep_records(
        path: *const Vertex,
        vertices: usize,
        grade: u32,
        out: *mut u8,
        out_len: usize,
    ) -> Reply;
}

// SAFETY, of every call below: the archive asks for pointers that are not null
// and aligned, of an empty slice too, to memory of the length beside them that
// nobody else writes meanwhile, nor reads where the call writes, and where it
// writes does not overlap. A slice's pointer and length are that, and a mutable
// slice is borrowed by nobody else.

pub fn draw(path: &[i32], grade: u32, out: &mut [i32]) -> Reply {
    unsafe {
        sehmelir_draw(
            path.as_ptr(),
            path.len(),
            grade,
            out.as_mut_ptr(),
            out.len(),
        )
    }
}

pub fn keep(path: &[i32], grade: u32, out: &mut [u8]) -> Reply {
    unsafe {
        sehmelir_keep(
            path.as_ptr(),
            path.len(),
            grade,
            out.as_mut_ptr(),
            out.len(),
        )
    }
}

pub fn draw_kerb(points: &[i32], grade: u32, style: Style, out: &mut [i32]) -> Reply {
    unsafe {
        sehmelir_draw_kerb(
            points.as_ptr(),
            points.len(),
            grade,
            style.radius,
            style.join.word(),
            style.closed as u32,
            out.as_mut_ptr(),
            out.len(),
        )
    }
}

pub fn keep_kerb(points: &[i32], grade: u32, style: Style, out: &mut [u8]) -> Reply {
    unsafe {
        sehmelir_keep_kerb(
            points.as_ptr(),
            points.len(),
            grade,
            style.radius,
            style.join.word(),
            style.closed as u32,
            out.as_mut_ptr(),
            out.len(),
        )
    }
}

pub fn read(store: &[u8], out: &mut [i32]) -> Path {
    unsafe { sehmelir_read(store.as_ptr(), store.len(), out.as_mut_ptr(), out.len()) }
}

pub fn numbers(store: &[u8], out: &mut [u32]) -> Reply {
    unsafe { sehmelir_numbers(store.as_ptr(), store.len(), out.as_mut_ptr(), out.len()) }
}

pub fn replace(store: &mut [u8], index: usize, x: i32, y: i32, radius: i32) -> Reply {
    unsafe { sehmelir_replace(store.as_mut_ptr(), store.len(), index, x, y, radius) }
}

pub fn convert(store: &mut [u8], grade: u32) -> Reply {
    unsafe { sehmelir_convert(store.as_mut_ptr(), store.len(), grade) }
}

pub fn reach(store: &[u8], index: usize) -> Reply {
    unsafe { sehmelir_reach(store.as_ptr(), store.len(), index) }
}

pub fn side(before: &[u8], after: &[u8], later: bool, vertex: usize) -> Part {
    unsafe {
        sehmelir_side(
            before.as_ptr(),
            before.len(),
            after.as_ptr(),
            after.len(),
            later,
            vertex,
        )
    }
}

pub fn take_coordinate(value: f32) -> Taken {
    unsafe { sehmelir_take_coordinate(value) }
}

pub fn take_width(value: f32) -> Taken {
    unsafe { sehmelir_take_width(value) }
}

pub fn import(numbers: &[f32], out: &mut [i32]) -> Reply {
    unsafe { sehmelir_import(numbers.as_ptr(), numbers.len(), out.as_mut_ptr(), out.len()) }
}

pub fn export(path: &[i32], out: &mut [f32]) -> Reply {
    unsafe { sehmelir_export(path.as_ptr(), path.len(), out.as_mut_ptr(), out.len()) }
}

pub fn draw_records(path: &[Vertex], grade: u32, out: &mut [i32]) -> Reply {
    unsafe {
        sehmelir_draw_records(
            path.as_ptr(),
            path.len(),
            grade,
            out.as_mut_ptr(),
            out.len(),
        )
    }
}

pub fn keep_records(path: &[Vertex], grade: u32, out: &mut [u8]) -> Reply {
    unsafe {
        sehmelir_keep_records(
            path.as_ptr(),
            path.len(),
            grade,
            out.as_mut_ptr(),
            out.len(),
        )
    }
}
