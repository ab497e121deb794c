//! Enough stack for the library's calls.

use std::io;
use std::panic::resume_unwind;
use std::thread;

/// What a command runs on, with room to spare.
pub const ENOUGH: usize = sehmelir::STACK + (3 << 20);

/// Does the work where there is stack enough: here, if this thread's limit, which
/// its user may have set, allows it; else on a thread that is given as much.
pub fn with_enough<T: Send>(work: impl FnOnce() -> T + Send) -> io::Result<T> {
    if limit() >= ENOUGH {
        return Ok(work());
    }
    thread::scope(|scope| {
        let worker = thread::Builder::new().stack_size(ENOUGH);
        let done = worker.spawn_scoped(scope, work)?.join();
        Ok(done.unwrap_or_else(|panic| resume_unwind(panic)))
    })
}

/// How far the main thread's stack may grow; 0 where that is not known.
fn limit() -> usize {
    let mut limit = libc::rlimit {
        rlim_cur: 0,
        rlim_max: 0,
    };
    // SAFETY: the call writes the one struct that it is lent
    let told = unsafe { libc::getrlimit(libc::RLIMIT_STACK, &mut limit) };
    if told == 0 {
        limit.rlim_cur.try_into().unwrap_or(usize::MAX)
    } else {
        0
    }
}

#[cfg(test)]
mod tests {
    use super::with_enough;

    #[test]
    fn the_work_is_done() {
        assert_eq!(with_enough(|| 7).unwrap(), 7);
    }
}
