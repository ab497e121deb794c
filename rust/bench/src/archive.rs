//! The library's keep calls alone, on every line of an old archive and on all
//! cores: what a migration's time is held against.

use crate::clock::process_time;
use std::fs::{read, read_dir};
use std::io;
use std::path::Path;
use std::sync::atomic::{AtomicUsize, Ordering::Relaxed};
use std::thread::{available_parallelism, scope, Builder};
use std::time::Instant;

/// Lines that a thread takes at once.
const AT_ONCE: usize = 64;

/// How many times all lines are kept, and the best taken.
const ROUNDS: usize = 3;

/// What a thread needs beside the stack of a call.
const STACK: usize = sehmelir::STACK + (1 << 20);

/// Keeps each line of an archive at a grade, and says how long the best of some
/// rounds took, with how many lines, vertices and bytes.
pub fn timed(directory: &Path, grade: u32) -> io::Result<String> {
    let lines = lines(directory)?;
    let threads = available_parallelism().map_or(1, usize::from);
    let longest = lines.iter().map(|line| needed(line, grade)).max();
    let (mut best, mut processor, mut bytes) = (f64::MAX, f64::MAX, 0);
    for _ in 0..ROUNDS {
        let (start, before) = (Instant::now(), process_time());
        bytes = keep_all(&lines, grade, threads, longest.unwrap_or(0))?;
        best = best.min(start.elapsed().as_secs_f64());
        processor = processor.min((process_time() - before).as_secs_f64());
    }
    let kept = lines.iter().filter(|line| needed(line, grade) > 0);
    let vertices: usize = kept.clone().map(|line| line.len() / 3).sum();
    Ok(format!(
        "seconds {best:.4} processor {processor:.4} lines {} vertices {vertices} \
         bytes {bytes} threads {threads}",
        kept.count()
    ))
}

/// The paths of the files that import takes.
fn lines(directory: &Path) -> io::Result<Vec<Vec<i32>>> {
    let mut lines = Vec::new();
    let mut room = vec![0; 3 * sehmelir::MOST_VERTICES];
    for entry in read_dir(directory)? {
        let bytes = read(entry?.path())?;
        let (words, _) = bytes.as_chunks::<4>();
        let floats: Vec<f32> = words.iter().map(|&word| f32::from_le_bytes(word)).collect();
        if let Ok(vertices) = sehmelir::import(&floats, &mut room) {
            lines.push(room[..3 * vertices].to_vec());
        }
    }
    Ok(lines)
}

/// The bytes of a line's outline; 0 of one that keep refuses.
pub fn needed(line: &[i32], grade: u32) -> usize {
    match sehmelir::keep(line, grade, &mut []) {
        Err(sehmelir::Refusal::NoRoom(bytes)) => bytes,
        _ => 0,
    }
}

/// Keeps all lines, each thread in a room of its own: how many bytes that is.
pub fn keep_all(
    lines: &[Vec<i32>],
    grade: u32,
    threads: usize,
    longest: usize,
) -> io::Result<usize> {
    let (next, bytes) = (AtomicUsize::new(0), AtomicUsize::new(0));
    let work = || {
        let mut room = vec![0; longest];
        loop {
            let first = next.fetch_add(AT_ONCE, Relaxed);
            let last = lines.len().min(first + AT_ONCE);
            if first >= last {
                break;
            }
            let kept = lines[first..last].iter();
            let kept = kept.filter_map(|line| sehmelir::keep(line, grade, &mut room).ok());
            bytes.fetch_add(kept.sum(), Relaxed);
        }
    };
    scope(|scope| {
        for _ in 0..threads {
            Builder::new().stack_size(STACK).spawn_scoped(scope, work)?;
        }
        Ok(())
    })
    .map(|()| bytes.load(Relaxed))
}
