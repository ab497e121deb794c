//! The two programs by turns, on one input and grade.

use crate::clock::processor_time;
use crate::inputs::Input;
use crate::programs::{Call, Memory, LIBRARY, PLAIN};
use std::hint::black_box;
use std::time::{Duration, Instant};

/// How many runs of each program the best is taken of, at least.
pub const LEAST_RUNS: usize = 15;

/// How long rounds go on, at least.
const LEAST_TIME: Duration = Duration::from_millis(500);

pub struct Rounds<'a> {
    input: &'a Input,
    grade: u32,
    library: Memory,
    plain: Memory,
}

impl Rounds<'_> {
    pub fn new(input: &Input, grade: u32) -> Rounds<'_> {
        let memory = Memory::new(input, grade);
        Rounds {
            input,
            grade,
            library: memory.clone(),
            plain: memory,
        }
    }

    pub fn edges(&self) -> usize {
        self.plain.edges()
    }

    /// The best times of a call, of the library and of plain, in nanoseconds.
    pub fn best(&mut self, call: Call) -> [f64; 2] {
        self.check(call);
        let (input, grade) = (self.input, self.grade);
        let programs = [(&LIBRARY, &mut self.library), (&PLAIN, &mut self.plain)];
        let [(library, first), (plain, second)] = programs;
        let best = best_by_turns(|time| {
            [
                time(&mut || library.run(call, black_box(input), grade, first).0),
                time(&mut || plain.run(call, black_box(input), grade, second).0),
            ]
        });
        self.check(call);
        let calls = match call {
            Call::Replace => 2.0,
            _ => 1.0,
        };
        best.map(|time| time / calls)
    }

    /// That both programs give the same answer and the same memory.
    fn check(&mut self, call: Call) {
        let (input, grade) = (self.input, self.grade);
        if let Call::Replace = call {
            let moved = input.moved_vertex(input.middle());
            let library = LIBRARY.replace(input, moved, &mut self.library);
            let plain = PLAIN.replace(input, moved, &mut self.plain);
            assert_eq!(library, plain);
            self.check_memory(call);
        }
        let library = LIBRARY.run(call, input, grade, &mut self.library);
        let plain = PLAIN.run(call, input, grade, &mut self.plain);
        assert_eq!(library, plain);
        self.check_memory(call);
    }

    fn check_memory(&self, call: Call) {
        let (name, input, grade) = (call.name(), &self.input.name, self.grade);
        let same = self.library == self.plain;
        assert!(same, "{name}, {input}, grade {grade}: not the same memory");
    }
}

/// How long one run of something takes.
pub type Timing = dyn Fn(&mut dyn FnMut() -> usize) -> Duration;

/// The best times of some programs by turns, in nanoseconds: `round` times one
/// run of each.
pub fn best_by_turns<const PROGRAMS: usize>(
    mut round: impl FnMut(&Timing) -> [Duration; PROGRAMS],
) -> [f64; PROGRAMS] {
    let mut best = [Duration::MAX; PROGRAMS];
    let start = Instant::now();
    let mut runs = 0;
    while runs < LEAST_RUNS || start.elapsed() < LEAST_TIME {
        for (best, time) in best.iter_mut().zip(round(&time)) {
            *best = time.min(*best);
        }
        runs += 1;
    }
    best.map(|time| time.as_nanos() as f64)
}

/// How long one run takes.
fn time(run: &mut dyn FnMut() -> usize) -> Duration {
    let start = processor_time();
    black_box(run());
    processor_time() - start
}
