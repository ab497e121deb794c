//! Progress on long work, for who looks at a terminal.

use indicatif::ProgressBar;
use std::io::{stderr, IsTerminal};
use std::sync::mpsc::{channel, Receiver, RecvTimeoutError};
use std::thread;
use std::time::Duration;

/// Work that ends within this shows nothing.
const PATIENCE: Duration = Duration::from_millis(400);

/// How often what is shown moves.
const TICK: Duration = Duration::from_millis(100);

/// Does the work; where it takes long and standard error is a terminal, says
/// so there until it has ended.
pub fn during<T>(doing: &'static str, work: impl FnOnce() -> T) -> T {
    if !stderr().is_terminal() {
        return work();
    }
    let (working, ended) = channel::<()>();
    thread::scope(|scope| {
        scope.spawn(move || show(doing, ended));
        let result = work();
        drop(working);
        result
    })
}

/// Shows that work goes on, until its end of the channel is dropped.
fn show(doing: &'static str, ended: Receiver<()>) {
    let goes_on = |time| ended.recv_timeout(time) == Err(RecvTimeoutError::Timeout);
    if !goes_on(PATIENCE) {
        return;
    }
    let spinner = ProgressBar::new_spinner();
    spinner.set_message(doing);
    while goes_on(TICK) {
        spinner.tick();
    }
    spinner.finish_and_clear();
}
