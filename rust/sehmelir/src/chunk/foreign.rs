//! The archive's calls of a chunk, as `include/sehmelir.h` declares them, on
//! slices.

use crate::foreign::{Part, Reply};

extern "C" {
    fn sehmelir_chunk_make(chunk: *mut u8, chunk_len: usize, entries: u32) -> Reply;

    fn sehmelir_chunk_add(
        chunk: *mut u8,
        chunk_len: usize,
        key: u32,
        outline: *const u8,
        outline_len: usize,
    ) -> Reply;

    fn sehmelir_chunk_find(chunk: *const u8, chunk_len: usize, key: u32) -> Part;

    fn sehmelir_chunk_remove(chunk: *mut u8, chunk_len: usize, key: u32) -> Reply;

    fn sehmelir_chunk_compact(chunk: *mut u8, chunk_len: usize) -> Reply;
}

// SAFETY, of every call below: as in `crate::foreign`.

pub fn make(chunk: &mut [u8], entries: u32) -> Reply {
    unsafe { sehmelir_chunk_make(chunk.as_mut_ptr(), chunk.len(), entries) }
}

pub fn add(chunk: &mut [u8], key: u32, outline: &[u8]) -> Reply {
    unsafe {
        sehmelir_chunk_add(
            chunk.as_mut_ptr(),
            chunk.len(),
            key,
            outline.as_ptr(),
            outline.len(),
        )
    }
}

pub fn find(chunk: &[u8], key: u32) -> Part {
    unsafe { sehmelir_chunk_find(chunk.as_ptr(), chunk.len(), key) }
}

pub fn remove(chunk: &mut [u8], key: u32) -> Reply {
    unsafe { sehmelir_chunk_remove(chunk.as_mut_ptr(), chunk.len(), key) }
}

pub fn compact(chunk: &mut [u8]) -> Reply {
    unsafe { sehmelir_chunk_compact(chunk.as_mut_ptr(), chunk.len()) }
}
