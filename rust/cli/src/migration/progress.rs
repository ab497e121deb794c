//! How far a run is: files, vertices and the time that is left, for who looks at
//! a terminal.

use super::manifest::Outcome;
use crate::ranges::number;
use indicatif::{ProgressBar, ProgressStyle};
use std::io::{stderr, IsTerminal};
use std::sync::atomic::{AtomicUsize, Ordering::Relaxed};
use std::sync::mpsc::{channel, Receiver, RecvTimeoutError};
use std::thread;
use std::time::Duration;

/// How often what is shown moves.
const TICK: Duration = Duration::from_millis(200);

/// What is shown: a bar, files, vertices, and the time left.
const LOOKS: &str = "{wide_bar} {msg}, {eta} left";

/// The counts of a run at work.
pub struct Progress {
    all: usize,
    /// Files that a run before this one took.
    before: AtomicUsize,
    files: AtomicUsize,
    vertices: AtomicUsize,
}

impl Progress {
    /// Nothing yet of so many files.
    pub fn new(all: usize) -> Progress {
        let [before, files, vertices] = [0, 0, 0].map(AtomicUsize::new);
        Progress {
            all,
            before,
            files,
            vertices,
        }
    }

    /// So many files need no work.
    pub fn skip(&self, files: usize) {
        self.before.store(files, Relaxed);
    }

    /// One file more.
    pub fn count(&self, outcome: &Outcome) {
        self.files.fetch_add(1, Relaxed);
        if let Outcome::Taken { vertices, .. } = outcome {
            self.vertices.fetch_add(*vertices, Relaxed);
        }
    }

    /// Does the work; where standard error is a terminal, a bar shows there how
    /// far it is.
    pub fn during<T>(&self, work: impl FnOnce() -> T) -> T {
        if !stderr().is_terminal() {
            return work();
        }
        let (working, ended) = channel::<()>();
        thread::scope(|scope| {
            scope.spawn(move || self.show(ended));
            let result = work();
            drop(working);
            result
        })
    }

    /// Shows the bar until its end of the channel is dropped.
    fn show(&self, ended: Receiver<()>) {
        let before = self.before.load(Relaxed);
        let bar = ProgressBar::new((self.all - before) as u64);
        if let Ok(style) = ProgressStyle::with_template(LOOKS) {
            bar.set_style(style);
        }
        loop {
            let (files, vertices) = (self.files.load(Relaxed), self.vertices.load(Relaxed));
            let [done, all, vertices] = [before + files, self.all, vertices].map(number);
            bar.set_message(format!("{done} of {all} files, {vertices} vertices"));
            bar.set_position(files as u64);
            if ended.recv_timeout(TICK) != Err(RecvTimeoutError::Timeout) {
                return bar.finish_and_clear();
            }
        }
    }
}
