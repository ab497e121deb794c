//! The archive's calls that tell why edges are there, as `include/sehmelir.h`
//! declares them, on slices.

use crate::foreign::{refused, Reply};
use crate::{Reason, Refusal, Why};

/// `struct sehmelir_reason`.
#[repr(C)]
pub struct Explained {
    reply: u32,
    reason: u32,
    number: u64,
    vertex: u64,
    place: u64,
    start_exact: u32,
    end_exact: u32,
}

impl Explained {
    /// Why the edge is there, or the refusal.
    pub fn why(&self) -> Result<Why, Refusal> {
        match self.reply {
            0 => Ok(Why {
                reason: reason(self.reason as usize),
                vertex: self.vertex as usize,
                place: self.place as usize,
                start_exact: self.start_exact == 1,
                end_exact: self.end_exact == 1,
            }),
            reply => Err(refused(reply, self.number)),
        }
    }
}

/// The reason of a number.
pub fn reason(number: usize) -> Reason {
    match Reason::of(number) {
        Some(reason) => reason,
        None => panic!("the archive gives reason {number}, which this crate does not know"),
    }
}

extern "C" {
    fn sehmelir_explain(store: *const u8, store_len: usize, edge: usize) -> Explained;

    fn sehmelir_list(store: *const u8, store_len: usize, out: *mut usize, out_len: usize) -> Reply;
}

// SAFETY, of both calls below: as in `crate::foreign`.

pub fn explain(store: &[u8], edge: usize) -> Explained {
    unsafe { sehmelir_explain(store.as_ptr(), store.len(), edge) }
}

pub fn list(store: &[u8], out: &mut [usize]) -> Reply {
    unsafe { sehmelir_list(store.as_ptr(), store.len(), out.as_mut_ptr(), out.len()) }
}
