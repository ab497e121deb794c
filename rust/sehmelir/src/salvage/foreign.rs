//! The archive's call that salvages, as `include/sehmelir.h` declares it, on
//! slices.

use super::Salvaged;
use crate::foreign::refused;
use crate::Refusal;

/// `struct sehmelir_salvaged`.
#[repr(C)]
pub struct Reply {
    reply: u32,
    zero: u32,
    number: u64,
    entries: u64,
}

impl Reply {
    /// How much was written, or the refusal.
    pub fn salvaged(&self) -> Result<Salvaged, Refusal> {
        match self.reply {
            0 => Ok(Salvaged {
                bytes: self.number as usize,
                entries: self.entries as usize,
            }),
            reply => Err(refused(reply, self.number)),
        }
    }
}

extern "C" {
    fn sehmelir_salvage(
        store: *const u8,
        store_len: usize,
        out: *mut u8,
        out_len: usize,
        list: *mut u32,
        list_len: usize,
    ) -> Reply;
}

// SAFETY: as in `crate::foreign`.
pub fn salvage(store: &[u8], out: &mut [u8], list: &mut [u32]) -> Reply {
    unsafe {
        sehmelir_salvage(
            store.as_ptr(),
            store.len(),
            out.as_mut_ptr(),
            out.len(),
            list.as_mut_ptr(),
            list.len(),
        )
    }
}
