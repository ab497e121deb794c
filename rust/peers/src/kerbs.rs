//! Kerbs to compare.

use plain::random::Random;
use sehmelir::{draw_kerb, Join, Refusal, Style, COORDINATES};
use std::f64::consts::PI;

/// A kerb at a grade.
#[derive(Clone, Debug)]
pub struct Kerb {
    pub points: Vec<[i32; 2]>,
    pub style: Style,
    pub grade: u32,
}

impl Kerb {
    /// Its edges, as the proved library draws them.
    pub fn edges(&self) -> Vec<[i32; 4]> {
        let draw = |out: &mut [[i32; 4]]| {
            let out = out.as_flattened_mut();
            draw_kerb(self.points.as_flattened(), self.grade, self.style, out)
        };
        let count = match draw(&mut []) {
            Err(Refusal::NoRoom(count)) => count,
            Err(Refusal::WithoutEdges(_)) => 0,
            other => panic!("{other:?} of {self:?}"),
        };
        let mut edges = vec![[0; 4]; count];
        if count > 0 {
            assert_eq!(draw(&mut edges), Ok(count));
        }
        edges
    }

    /// The line, from its first point back to that if it is closed, runs of
    /// equal points made into one.
    pub fn line(&self) -> Vec<[f64; 2]> {
        let mut line = self.points.clone();
        if self.style.closed {
            line.extend(self.points.first());
        }
        line.dedup();
        line.iter().map(|&[x, y]| [x as f64, y as f64]).collect()
    }
}

fn style(random: &mut Random, radius: i64) -> Style {
    Style {
        radius: radius as u32,
        join: random.pick(&[Join::Bevel, Join::Round]),
        closed: random.chance(40),
    }
}

fn grade(random: &mut Random) -> u32 {
    random.pick(&[2, 2, 3, 4, 6, 8])
}

/// A kerb as they are built: its lines are four to twelve radii long, and it
/// turns by 3 to 120 degrees.
pub fn built(random: &mut Random) -> Kerb {
    let most = random.pick(&[100, 1_000, 30_000, 1_000_000]);
    let radius = random.between(20, most);
    loop {
        let count = random.between(2, 12);
        let (mut x, mut y) = (0.0f64, 0.0f64);
        let mut way = random.between(0, 360) as f64 * PI / 180.0;
        let mut points = vec![[0, 0]];
        for _ in 0..count {
            let length = radius as f64 * random.between(400, 1200) as f64 / 100.0;
            (x, y) = (x + length * way.cos(), y + length * way.sin());
            points.push([x.round() as i32, y.round() as i32]);
            let turn = random.between(300, 12_000) as f64 / 100.0;
            way += random.pick(&[1.0, -1.0]) * turn * PI / 180.0;
        }
        let kerb = Kerb {
            points,
            style: style(random, radius),
            grade: grade(random),
        };
        if !kerb.style.closed || closes(&kerb) {
            return kerb;
        }
    }
}

/// Whether the line back to the first point is no shorter and turns no sharper
/// than the others.
fn closes(kerb: &Kerb) -> bool {
    let line = kerb.line();
    let count = line.len() - 1;
    let way = |place: usize| {
        let (from, to) = (line[place % count], line[place % count + 1]);
        [to[0] - from[0], to[1] - from[1]]
    };
    let length = |[x, y]: [f64; 2]| x.hypot(y);
    let turns = |place: usize| {
        let ([ax, ay], [bx, by]) = (way(place), way(place + 1));
        let turn = (ax * by - ay * bx).atan2(ax * bx + ay * by).abs();
        (3.0 * PI / 180.0..120.0 * PI / 180.0).contains(&turn)
    };
    count > 2
        && length(way(count - 1)) >= 4.0 * kerb.style.radius as f64
        && turns(count - 2)
        && turns(count - 1)
}

/// Any kerb: short lines beside its radius, points again, straight on and back.
pub fn any(random: &mut Random) -> Kerb {
    let most = *COORDINATES.end() as i64;
    let side = random.pick(&[8, 30, 1_000, 100_000, most]);
    let part = random.pick(&[1, 3, 20]);
    let radius = random.between(2, (side / part).max(2));
    let mut points: Vec<[i32; 2]> = Vec::new();
    for _ in 0..random.between(2, 9) {
        let mut coordinate = || random.between(-side, side) as i32;
        let fresh = [coordinate(), coordinate()];
        let point = match points.len() {
            0 => fresh,
            n if random.chance(8) => points[n - 1],
            n if random.chance(8) => [fresh[0], points[n - 1][1]],
            n if n > 1 && random.chance(8) => points[n - 2],
            _ => fresh,
        };
        points.push(point);
    }
    Kerb {
        points,
        style: style(random, radius),
        grade: grade(random),
    }
}
