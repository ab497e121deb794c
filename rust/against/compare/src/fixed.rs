//! The paths of list.txt.

use against::paths::{random, Path, STYLES};

/// The lines that the list begins with.
pub const HEAD: &str = "\
# Paths, and what the crate's own text gave for them: `-` is a straight edge,
# `~` a run of arc edges from its first start to its last end. README.md says
# how this list was made; `run FOLDER list` prints it again.
";

/// The line before a path that another rule for halves would draw otherwise.
pub const HALF: &str = "# the next line rests on the rule for halves";

/// Document 01, "Marked examples".
const EXAMPLES: [&[[i32; 3]]; 11] = [
    &[],
    &[[0, 0, 10]],
    &[[0, 0, 1]],
    &[[0, 0, 2]],
    &[[0, 0, 5], [20, 0, 5]],
    &[[0, 0, 5], [20, 0, 5], [40, 0, 5]],
    &[[0, 0, 10], [3, 0, 2], [6, 0, 10]],
    &[[0, 0, 10], [3, 0, 2]],
    &[[0, 0, 5], [3, 4, 0]],
    &[[0, 0, 1], [20, 0, 1]],
    &[[268435456, 0, 10]],
];

/// The paths that READINGS.md names, and others that a reading is told by.
const READINGS: [&[[i32; 3]]; 12] = [
    &[[0, 0, 2], [10, 10, 2], [20, 20, 2]],
    &[[0, 0, 5], [20, 0, 5], [10, 0, 5]],
    &[[0, 0, 5], [20, 0, 5], [10, 0, 4]],
    &[[0, 0, 5], [20, 0, 5], [10, 0, 4], [10, 0, 4]],
    &[[0, 0, 5], [20, 0, 5], [20, 0, 5], [10, 0, 2]],
    &[[0, 0, 0], [40, 0, 20], [12, 0, 1]],
    &[[40, 0, 20], [0, 0, 0], [12, 0, 1]],
    &[[0, 0, 2], [2, 0, 1]],
    &[[0, -46, 267688968], [0, 0, 267688965], [0, 138, 267688956]],
    &[[0, 0, 5], [3, 4, 10]],
    &[[0, 0, 5], [20, 0, 1], [40, 0, 1], [60, 0, 5]],
    &[[0, 0, 5], [20, 0, 1], [40, 0, 1], [20, 0, 1], [20, 20, 5]],
];

/// Small paths that one changed rule each would draw otherwise.
const TELLING: [&[[i32; 3]]; 26] = [
    &[[0, 0, 0], [0, 2, 1]],
    &[[0, 0, 0], [0, 2, 2]],
    &[[0, 0, 1], [0, 2, 2]],
    &[[0, 0, 0], [0, 3, 2]],
    &[[0, 0, 2], [0, 0, 3]],
    &[[0, 0, 2], [1, 1, 2]],
    &[[0, 0, 2], [0, 2, 3]],
    &[[0, 0, 0], [0, 3, 2], [0, 0, 0]],
    &[[0, 0, 0], [0, 3, 2], [0, 0, 1]],
    &[[0, 0, 1], [0, 0, 1], [0, 2, 2]],
    &[[0, 0, 1], [0, 2, 2], [0, 0, 1]],
    &[[0, 0, 2], [0, 1, 2], [0, 0, 2]],
    &[[0, 0, 2], [0, 1, 2], [0, 2, 2]],
    &[[0, 0, 0], [1, 2, 2], [2, 0, 0]],
    &[[0, 0, 0], [1, 2, 2], [-2, 3, 0]],
    &[[0, 0, 1], [2, 2, 2], [0, 0, 1]],
    &[[0, 0, 2], [0, 4, 2], [0, 2, 2]],
    &[[0, 0, 3], [0, 4, 2], [0, 3, 2]],
    &[[0, 0, 0], [1, 4, 4], [0, 0, 0]],
    &[[0, -2, 2], [0, 0, 3], [3, 1, 1]],
    &[[-1, 1, 2], [3, 3, 3], [1, 1, 1], [-2, 3, 2]],
    &[[-1, 2, 2], [2, 0, 1], [-1, 4, 0], [-2, -1, 1], [1, -1, 2]],
    &[[3, -4, 2], [-4, 2, 1], [-3, 1, 3], [0, 0, 0], [-1, 2, 1]],
    &[[-2, 29, 2], [-1, 20, 11]],
    &[[0, 1, 268435455], [0, 268435455, 2]],
    &[
        [0, 0, 1048576],
        [28085, -56073, 1045539],
        [56169, -112146, 1042502],
    ],
];

/// Major arcs of very small angles: just compared, and just set aside.
const NEARLY_CLOSED: [&[[i32; 3]]; 2] = [
    &[[-101, 0, 10323], [0, 0, 10322], [305, 0, 10319]],
    &[[-102, 0, 10352], [0, 0, 10353], [203, 0, 10355]],
];

/// Paths of each style in the list, and the seed they come from.
const OF_EACH: usize = 20;
const SEED: u64 = 2;

/// Most vertices of a random path in the list.
const LONGEST: usize = 6;

/// The paths, under their titles.
pub fn paths() -> Vec<(String, Vec<Path>)> {
    let owned = |paths: &[&[[i32; 3]]]| paths.iter().map(|path| path.to_vec()).collect();
    let mut all = vec![
        ("document 01's examples".to_string(), owned(&EXAMPLES)),
        ("the readings' paths".to_string(), owned(&READINGS)),
        ("telling".to_string(), owned(&TELLING)),
        ("nearly closed".to_string(), owned(&NEARLY_CLOSED)),
    ];
    for (place, style) in STYLES.iter().enumerate() {
        let numbers = (place as u64..).step_by(STYLES.len());
        let paths = numbers
            .map(|number| random(SEED, number).1)
            .filter(|path| (2..=LONGEST).contains(&path.len()))
            .take(OF_EACH)
            .collect();
        all.push((format!("random, {}", style.name), paths));
    }
    all
}
