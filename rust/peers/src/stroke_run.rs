//! Strokes beside unions of circles and of what lies between them.

use crate::fill::{faces, filled, hulls, winding, Face};
use crate::geos::Geos;
use crate::inputs::Input;
use crate::rounding::{beyond, round, rounded};
use crate::strokes::{any, dense, hedge, line, swallowed, walk, Stroke};
use plain::random::Random;

/// How far a stroke's boundary may lie from the true one. A contact is rounded,
/// an arc's radius is the root of the distance of one, cut short, and the points
/// that are so far out are rounded again.
fn allowed(stroke: &Stroke) -> f64 {
    let radius = stroke.radius();
    rounded(radius) + 1.0 + round(radius, stroke.grade)
}

/// The area of the faces that are run round so often.
fn area(faces: &[Face], times: impl Fn(i64) -> bool) -> f64 {
    let some = faces.iter().filter(|face| times(face.times));
    some.fold(0.0, |area, face| area + face.shape.area())
}

/// How much of what is filled is run round twice or more.
fn twice(faces: &[Face]) -> f64 {
    let filled = area(faces, |times| times != 0);
    area(faces, |times| times >= 2) / filled.max(f64::MIN_POSITIVE)
}

/// Areas of what a stroke fills, beside what it should.
struct Areas {
    /// How much of what is filled is run round twice or more.
    twice: f64,
    /// Run round less than 0 times.
    negative: f64,
    /// Filled, and farther out than is allowed.
    over: f64,
    /// Due, and farther from what is filled than is allowed.
    bite: f64,
    /// Farther within two circles and what lies between them than is allowed,
    /// and not filled.
    hollow: f64,
    /// Due and not filled.
    missing: f64,
    due: f64,
}

impl Areas {
    fn of(geos: &Geos, stroke: &Stroke, edges: &[[i32; 4]]) -> Areas {
        let faces = faces(geos, edges);
        let twice = twice(&faces);
        let negative = area(&faces, |times| times < 0);
        let ours = filled(geos, faces);
        let most = allowed(stroke);
        let hulls = hulls(geos, stroke);
        // what shrinks is off by up to a hundredth of how far
        let cores = hulls.iter().map(|hull| hull.grown(-1.03 * most));
        let (cores, due) = (geos.union(cores.collect()), geos.union(hulls));
        Areas {
            twice,
            negative,
            over: beyond(&ours, &due, most),
            bite: beyond(&due, &ours, most),
            hollow: cores.without(&ours).area(),
            missing: due.without(&ours).area(),
            due: due.area(),
        }
    }
}

/// Less than this is no finding: regions are brought to a grid.
const LEAST: f64 = 0.01;

/// What a comparison found.
#[derive(Default)]
struct Found {
    strokes: usize,
    /// Those not compared: without edges, and with a boundary that need not close.
    empty: usize,
    stray: usize,
    over: usize,
    bitten: usize,
    hollow: usize,
    negative: usize,
    /// The sum of the shares that are run round twice or more, and the most of
    /// what is due that is bitten off.
    twice: f64,
    bite: f64,
}

impl Found {
    fn take(&mut self, geos: &Geos, stroke: &Stroke) {
        let edges = stroke.edges();
        if edges.is_empty() {
            self.empty += 1;
        } else if stroke.stray() {
            self.stray += 1;
        } else {
            self.compare(stroke, &Areas::of(geos, stroke, &edges));
        }
    }

    fn compare(&mut self, stroke: &Stroke, areas: &Areas) {
        let bitten = areas.bite > LEAST;
        let hollow = !bitten && areas.hollow > LEAST;
        self.strokes += 1;
        self.over += (areas.over > LEAST) as usize;
        self.bitten += bitten as usize;
        self.hollow += hollow as usize;
        self.negative += (areas.negative > LEAST) as usize;
        self.twice += areas.twice;
        if bitten {
            self.bite = self.bite.max(areas.missing / areas.due);
        }
        for (name, area, count) in [
            ("over", areas.over, self.over),
            ("bitten", areas.bite, self.bitten),
            (
                "hollow",
                if hollow { areas.hollow } else { 0.0 },
                self.hollow,
            ),
            ("negative", areas.negative, self.negative),
        ] {
            if area > LEAST && count <= 2 {
                println!("  {name}: {area:.3} of {:.0}: {stroke:?}", areas.due);
            }
        }
    }

    fn tell(&self, name: &str) {
        println!(
            "{name}: {} strokes; {} filled too far out, {} bitten (at most {:.1}% of what is due), \
             {} hollow, {} run round some face less than 0 times; run round twice or more on average {:.1}%; \
             not compared: {} without edges, {} that need not close",
            self.strokes,
            self.over,
            self.bitten,
            100.0 * self.bite,
            self.hollow,
            self.negative,
            100.0 * self.twice / self.strokes as f64,
            self.empty,
            self.stray
        );
    }
}

/// A path, a point that should be filled, and how often it is run round at
/// grade 8.
type Known = (&'static [[i32; 3]], [f64; 2], i64);

/// The paths that docs/PROMISES.md names.
const NAMED: [Known; 5] = [
    (&[[0, 0, 2], [10, 0, 2], [20, 0, 2]], [10.0, 0.5], 2),
    (&[[-3, -3, 0], [0, 0, 4], [3, 3, 0]], [-2.0, 2.0], 0),
    (
        &[[0, 0, 907], [-3, 1453, 2360], [0, 2630, 1183]],
        [1182.0, 1453.0],
        0,
    ),
    (&[[0, 0, 4], [2, 1, 6], [2, 1, 21]], [-2.1, -3.5], 0),
    (&[[0, 0, 14], [1, 1, 14], [3, 2, 14]], [9.15, -10.25], -1),
];

/// Prints what is known of the named paths; whether it is so.
fn named(geos: &Geos) -> bool {
    let mut held = true;
    for (path, point, times) in NAMED {
        let path = path.to_vec();
        let stroke = Stroke { path, grade: 8 };
        let edges = stroke.edges();
        let seen = winding(&edges, point);
        let due = geos.union(hulls(geos, &stroke)).holds(point);
        let areas = Areas::of(geos, &stroke, &edges);
        println!(
            "{:?}, grade 8: {point:?} is {}due and run round {seen} times; of {:.1} due {:.1} is not filled, \
             {:.2} of it farther in than is allowed; {:.2} is run round less than 0 times",
            stroke.path,
            if due { "" } else { "not " },
            areas.due,
            areas.missing,
            areas.hollow,
            areas.negative
        );
        held &= due && seen == times;
    }
    held
}

/// Prints how much of what lines fill is run round twice or more.
fn overlap(geos: &Geos, random: &mut Random) {
    let share = |stroke: &Stroke| 100.0 * twice(&faces(geos, &stroke.edges()));
    for count in [100, 900] {
        let input = Input::hedge(count);
        let vertex = |at: &[i32]| [at[0], at[1], at[2]];
        let path = input.path.chunks(3).map(vertex).collect();
        let twice = share(&Stroke { path, grade: 4 });
        println!(
            "{}, grade 4: {twice:.1}% is run round twice or more",
            input.name
        );
    }
    for radii in [1, 2, 4, 8] {
        let line = |_| share(&line(random, [100 * radii, 100 * radii], [0, 6_000], 50));
        let twice = (0..200).map(line).sum::<f64>() / 200.0;
        println!(
            "200 lines with steps of {radii} times the largest radius: {twice:.1}% on average"
        );
    }
}

/// A sort of path, and whether it is an ordinary line.
type Sort = (&'static str, fn(&mut Random) -> Stroke, bool);

const SORTS: [Sort; 5] = [
    ("hedges", hedge, true),
    ("walks", walk, true),
    ("dense lines", dense, false),
    ("any paths", any, false),
    ("steps nearly swallowed", swallowed, false),
];

/// Compares so many of each sort. Whether none is filled too far out, the named
/// paths are as they are said to be, and ordinary lines are filled as is due.
pub fn run(geos: &Geos, count: u64, seed: u64) -> bool {
    let mut random = Random::new(seed);
    let mut held = named(geos);
    overlap(geos, &mut random);
    for (name, sort, ordinary) in SORTS {
        let mut found = Found::default();
        for _ in 0..count {
            found.take(geos, &sort(&mut random));
        }
        found.tell(name);
        let left_out = found.bitten + found.hollow + found.negative;
        held &= found.over == 0 && (!ordinary || left_out == 0);
    }
    held
}
