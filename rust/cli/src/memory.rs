//! Memory for sheets, which may have a hundred million bytes: asked for so that
//! its lack is a failure and no crash, and so that the system gives it in large
//! pages. In small ones, handing it over takes as long as the library's calls.

use crate::failure::Failure;
use std::hint::black_box;

/// A large page, and the smallest that there is.
const LARGE: usize = 2 << 20;
const SMALL: usize = 4096;

/// So many zeros. A vector of zeros that finds no memory would end the process,
/// so this asks first. Those that are never written cost nothing.
pub fn zeros<T: Clone + Default>(length: usize) -> Result<Vec<T>, Failure> {
    let mut asked = Vec::<T>::new();
    let had = asked.try_reserve_exact(length);
    drop(black_box(asked));
    had.map_err(|_| Failure::Memory(length.saturating_mul(size_of::<T>())))?;
    let zeros = vec![T::default(); length];
    advise(&zeros);
    Ok(zeros)
}

/// An empty vector with room for so many bytes, or without any where there is no
/// memory: then reading into it says so.
pub fn room(bytes: usize) -> Vec<u8> {
    let mut room = Vec::new();
    if room.try_reserve_exact(bytes).is_ok() {
        advise(&room);
    }
    room
}

/// Puts so many zeros after the bytes.
pub fn lengthen(bytes: &mut Vec<u8>, more: usize) -> Result<(), Failure> {
    let had = bytes.try_reserve_exact(more);
    had.map_err(|_| Failure::Memory(more))?;
    bytes.resize(bytes.len() + more, 0);
    Ok(())
}

/// Tells the system that a vector's memory is worth large pages.
fn advise<T>(room: &Vec<T>) {
    let start = room.as_ptr() as usize;
    let end = start + room.capacity() * size_of::<T>();
    if end - start < LARGE {
        return;
    }
    let first = start / SMALL * SMALL;
    // SAFETY: advice changes nothing that memory holds, nor who may use it; the
    // system refuses addresses that it does not like, and no harm is done
    unsafe {
        libc::madvise(first as *mut _, end - first, libc::MADV_HUGEPAGE);
    }
}

#[cfg(test)]
mod tests {
    use super::{lengthen, room, zeros, LARGE};
    use crate::failure::Failure;

    #[test]
    fn zeros_are_zeros() {
        for length in [0, 1, 5_000_000] {
            let zeros = zeros::<u32>(length).unwrap();
            assert_eq!(zeros.len(), length);
            assert!(zeros.iter().all(|&zero| zero == 0));
        }
    }

    #[test]
    fn memory_that_is_not_to_be_had_is_a_failure() {
        assert!(matches!(zeros::<u8>(1 << 62), Err(Failure::Memory(_))));
        let mut bytes = vec![1, 2];
        assert!(lengthen(&mut bytes, 1 << 62).is_err());
        assert_eq!(bytes, [1, 2]);
    }

    #[test]
    fn there_is_as_much_room_as_was_asked_for() {
        for bytes in [0, 1, 3 * LARGE] {
            assert!(room(bytes).capacity() >= bytes);
        }
        assert_eq!(room(1 << 63).capacity(), 0);
    }

    #[test]
    fn zeros_follow() {
        let mut bytes = vec![1];
        lengthen(&mut bytes, 2).unwrap();
        assert_eq!(bytes, [1, 0, 0]);
    }
}
