//! Strokes to compare.

use plain::closing::watched;
use plain::contacts::Vertex;
use plain::random::Random;
use sehmelir::{edges, Refusal, COORDINATES};
use std::f64::consts::PI;

/// A path at a grade.
#[derive(Clone, Debug)]
pub struct Stroke {
    pub path: Vec<[i32; 3]>,
    pub grade: u32,
}

impl Stroke {
    /// Its edges, as the proved library draws them.
    pub fn edges(&self) -> Vec<[i32; 4]> {
        match edges(self.path.as_flattened(), self.grade) {
            Ok(edges) => edges,
            Err(Refusal::WithoutEdges(_)) => Vec::new(),
            other => panic!("{other:?} of {self:?}"),
        }
    }

    pub fn vertices(&self) -> Vec<Vertex> {
        let vertex = |&[x, y, radius]: &[i32; 3]| Vertex::new(x as i64, y as i64, radius as i64);
        self.path.iter().map(vertex).collect()
    }

    /// Whether a join's arc has one end at its centre and one elsewhere: then
    /// the edges need not close.
    pub fn stray(&self) -> bool {
        watched(&self.vertices(), self.grade).stray
    }

    /// The largest radius.
    pub fn radius(&self) -> f64 {
        let radii = self.path.iter().map(|vertex| vertex[2]);
        f64::from(radii.max().unwrap_or(0))
    }
}

fn grade(random: &mut Random) -> u32 {
    random.pick(&[2, 2, 3, 4, 6, 8])
}

/// A hedge as rust/bench has them, of 2 to 12 points.
pub fn hedge(random: &mut Random) -> Stroke {
    let (mut x, mut y) = (0, 0);
    let count = random.between(2, 12);
    let mut vertex = || {
        let vertex = [x, y, random.between(400, 699) as i32];
        x += random.between(1500, 2499) as i32;
        y += random.between(-800, 800) as i32;
        vertex
    };
    let path = (0..count).map(|_| vertex()).collect();
    let grade = grade(random);
    Stroke { path, grade }
}

/// A line of 3 to 13 points whose steps are so many hundredths of its largest
/// radius long, which turns by up to so many hundredths of a degree, and whose
/// radii lie between that and so many hundredths of it.
pub fn line(random: &mut Random, lengths: [i64; 2], turns: [i64; 2], least: i64) -> Stroke {
    let most = random.pick(&[100, 1_000, 30_000, 1_000_000]);
    let largest = random.between(20, most);
    let (mut x, mut y) = (0.0f64, 0.0f64);
    let mut way = random.between(0, 360) as f64 * PI / 180.0;
    let mut path = Vec::new();
    for _ in 0..random.between(3, 13) {
        let radius = random.between(largest * least / 100, largest) as i32;
        path.push([x.round() as i32, y.round() as i32, radius]);
        let length = (largest * random.between(lengths[0], lengths[1])) as f64 / 100.0;
        (x, y) = (x + length * way.cos(), y + length * way.sin());
        let turn = random.between(turns[0], turns[1]) as f64 / 100.0;
        way += random.pick(&[1.0, -1.0]) * turn * PI / 180.0;
    }
    let grade = grade(random);
    Stroke { path, grade }
}

/// A random walk: its steps are four to twelve radii long, it turns by 3 to 120
/// degrees, and its radius is never below a quarter of the largest.
pub fn walk(random: &mut Random) -> Stroke {
    line(random, [400, 1200], [300, 12_000], 25)
}

/// A dense line that is nearly straight: its steps are at most half a radius
/// long, it turns by up to 3 degrees, and its radius hardly changes.
pub fn dense(random: &mut Random) -> Stroke {
    line(random, [5, 50], [0, 300], 98)
}

/// A path whose steps are nearly swallowed: the radii of neighbours differ by
/// little less than they lie apart. Half of its steps go on as the one before.
pub fn swallowed(random: &mut Random) -> Stroke {
    let side = random.pick(&[4, 30, 1_000, 100_000]);
    let (mut x, mut y, mut radius) = (0, 0, random.between(0, side));
    let (mut across, mut up) = (0, 0);
    let mut path = vec![[x as i32, y as i32, radius as i32]];
    for place in 0..random.between(2, 4) {
        (across, up) = match place > 0 && random.chance(50) {
            true => (across + random.between(-3, 3), up + random.between(-3, 3)),
            false => (random.between(-side, side), random.between(-side, side)),
        };
        let apart = (across as f64).hypot(up as f64).ceil() as i64;
        let change = random.between(apart - 2, apart - 1).max(0);
        radius = match random.chance(50) && change <= radius {
            true => radius - change,
            false => radius + change,
        };
        (x, y) = (x + across, y + up);
        path.push([x as i32, y as i32, radius as i32]);
    }
    let grade = grade(random);
    Stroke { path, grade }
}

/// Any path: steps shorter than the radius, circles that hold others, thin
/// steps, points again, straight on and back.
pub fn any(random: &mut Random) -> Stroke {
    let most = *COORDINATES.end() as i64;
    let side = random.pick(&[8, 30, 1_000, 100_000, most]);
    let widest = side / random.pick(&[1, 3, 20]);
    let mut path: Vec<[i32; 3]> = Vec::new();
    for _ in 0..random.between(2, 9) {
        let mut coordinate = || random.between(-side, side) as i32;
        let (x, y) = (coordinate(), coordinate());
        let radius = random.between(0, widest) as i32;
        let vertex = match path.len() {
            0 => [x, y, radius],
            n if random.chance(8) => [path[n - 1][0], path[n - 1][1], radius],
            n if random.chance(8) => [x, path[n - 1][1], radius],
            n if n > 1 && random.chance(8) => path[n - 2],
            _ => [x, y, radius],
        };
        path.push(vertex);
    }
    let grade = grade(random);
    Stroke { path, grade }
}
