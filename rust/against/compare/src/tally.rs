//! Many paths on both sides.

use crate::text::Text;
use crate::trial::{Setting, Trial, Verdict};
use against::paths::{self, size, Path, Size, STYLES};
use std::collections::BTreeSet;
use std::sync::atomic::{AtomicU64, Ordering::Relaxed};
use std::thread;

/// How many paths, and how many of them disagree.
#[derive(Clone, Copy, Debug, Default)]
pub struct Count {
    pub paths: u64,
    pub disagree: u64,
}

/// Paths that disagree, smallest first, each with the number that picked its
/// setting.
pub type Found = BTreeSet<(Size, Path, u64)>;

/// What a run found. The last place of `compared` and `set_aside` is for the
/// small paths, the others for the styles.
#[derive(Clone, Debug, Default)]
pub struct Tally {
    pub compared: [Count; STYLES.len() + 1],
    pub set_aside: [Count; STYLES.len() + 1],
    pub found: Found,
    pub found_aside: Found,
}

/// The place of the small paths.
pub const SMALL: usize = STYLES.len();

/// Numbers that a thread takes at once.
const SHARE: u64 = 4096;

impl Tally {
    /// All small paths, and `count` random ones. At most `keep` disagreements
    /// are kept, the smallest.
    pub fn of(seed: u64, count: u64, keep: usize) -> Tally {
        let next = AtomicU64::new(0);
        let all = paths::small_count() + count;
        let work = || {
            let mut tally = Tally::default();
            let mut text = Text::new();
            loop {
                let start = next.fetch_add(SHARE, Relaxed);
                if start >= all {
                    return tally;
                }
                for number in start..all.min(start + SHARE) {
                    tally.take(&mut text, seed, number, keep);
                }
            }
        };
        let threads = thread::available_parallelism().map_or(1, |n| n.get());
        thread::scope(|scope| {
            let workers: Vec<_> = (0..threads).map(|_| scope.spawn(work)).collect();
            let mut whole = Tally::default();
            for worker in workers {
                whole.add(worker.join().expect("no run may stop"), keep);
            }
            whole
        })
    }

    fn take(&mut self, text: &mut Text, seed: u64, number: u64, keep: usize) {
        let (place, path) = match number.checked_sub(paths::small_count()) {
            None => (SMALL, paths::small(number)),
            Some(number) => paths::random(seed, number),
        };
        let trial = Trial::new(text, &path, Setting::of(number));
        let (counts, found) = match trial.set_aside {
            false => (&mut self.compared, &mut self.found),
            true => (&mut self.set_aside, &mut self.found_aside),
        };
        counts[place].paths += 1;
        if trial.verdict() != Verdict::Agree {
            counts[place].disagree += 1;
            found.insert((size(&path), path, number));
            trim(found, keep);
        }
    }

    fn add(&mut self, other: Tally, keep: usize) {
        let both = [
            (&mut self.compared, other.compared),
            (&mut self.set_aside, other.set_aside),
        ];
        for (counts, others) in both {
            for (count, other) in counts.iter_mut().zip(others) {
                count.paths += other.paths;
                count.disagree += other.disagree;
            }
        }
        self.found.extend(other.found);
        self.found_aside.extend(other.found_aside);
        trim(&mut self.found, keep);
        trim(&mut self.found_aside, keep);
    }
}

fn trim(found: &mut Found, keep: usize) {
    while found.len() > keep {
        found.pop_last();
    }
}

/// The sum of counts.
pub fn sum(counts: &[Count]) -> Count {
    counts.iter().fold(Count::default(), |sum, count| Count {
        paths: sum.paths + count.paths,
        disagree: sum.disagree + count.disagree,
    })
}
