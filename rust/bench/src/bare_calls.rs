//! Calls that have next to nothing to draw, or refuse: what they take is the
//! call's own cost.

use crate::rounds::best_by_turns;
use plain::calls;
use plain::contacts::{Vertex, LIMIT};
use plain::outline::first_edition;
use sehmelir::Refusal;
use std::hint::black_box;

/// How many calls a timing is of.
const CALLS: usize = 1_000;

/// Nanoseconds a call: plain's draw, and the library's calls.
pub struct CallTimes {
    pub plain: f64,
    pub draw: f64,
    pub keep: f64,
    pub read: f64,
    pub replace: f64,
}

/// What is lent to the calls, and what they reply.
pub struct BareCalls {
    pub name: &'static str,
    /// To draw and keep.
    path: &'static [i32],
    /// To read, and to replace, which puts a thin vertex at index 0: the bytes
    /// at a grade.
    store: fn(u32) -> Vec<u8>,
    /// Of draw and keep, of read, and of replace.
    replies: [u32; 3],
}

pub fn each() -> [BareCalls; 4] {
    [
        BareCalls {
            name: "no vertices",
            path: &[],
            store: |grade| first_edition(&[], grade),
            replies: [0, 0, 9],
        },
        BareCalls {
            name: "a thin vertex",
            path: &[0, 0, 1],
            store: |grade| first_edition(&[Vertex::new(0, 0, 1)], grade),
            replies: [18, 0, 18],
        },
        BareCalls {
            name: "a vertex outside the limits",
            path: &[0, LIMIT as i32 + 1, 1],
            store: |grade| first_edition(&[Vertex::new(0, LIMIT + 1, 1)], grade),
            replies: [4, 4, 4],
        },
        BareCalls {
            name: "too few numbers or bytes",
            path: &[0, 0],
            store: |_| vec![0; 20],
            replies: [1, 6, 6],
        },
    ]
}

impl BareCalls {
    /// The best times at a grade.
    pub fn best(&self, grade: u32) -> CallTimes {
        let (path, mut store) = (black_box(self.path), (self.store)(grade));
        let (mut numbers, mut bytes) = ([0; 8], [0; 64]);
        let mut draw_plainly = || calls::draw(path, grade, &mut [0; 8]).reply;
        let mut draw = || reply(sehmelir::draw(path, grade, &mut numbers));
        let mut keep = || reply(sehmelir::keep(path, grade, &mut bytes));
        let mut read = || reply(sehmelir::read(&store, &mut [0; 8]));
        let replies = [draw_plainly(), draw(), keep(), read()];
        let [of_path, of_read, of_replace] = self.replies;
        assert_eq!(replies, [of_path, of_path, of_path, of_read]);
        let best = best_by_turns(|time| {
            [
                time(&mut || often(&mut draw_plainly)),
                time(&mut || often(&mut draw)),
                time(&mut || often(&mut keep)),
                time(&mut || often(&mut read)),
            ]
        });
        let mut replace = || reply(sehmelir::replace(&mut store, 0, 0, 0, 1));
        assert_eq!(replace(), of_replace);
        let [replace] = best_by_turns(|time| [time(&mut || often(&mut replace))]);
        let [plain, draw, keep, read] = best.map(each_call);
        CallTimes {
            plain,
            draw,
            keep,
            read,
            replace: each_call(replace),
        }
    }
}

fn often(call: &mut dyn FnMut() -> u32) -> usize {
    (0..CALLS).map(|_| call() as usize).sum()
}

fn each_call(time: f64) -> f64 {
    time / CALLS as f64
}

/// The reply of an answer, 0 if nothing was refused.
fn reply<T>(answer: Result<T, Refusal>) -> u32 {
    answer.map_or_else(|refusal| refusal.reply(), |_| 0)
}
