//! Paths to compare: all small ones, and random ones of many styles.
//!
//! The number of a path determines it, so that a run can be shared out between
//! threads and still be the same run.

use plain::contacts::LIMIT;
use plain::random::Random;

/// Vertices of x, y and radius.
pub type Path = Vec<[i32; 3]>;

/// What makes a path smaller than another: the sum of all sizes, then the
/// vertices, then the negative numbers.
pub type Size = (u64, usize, usize);

pub fn size(path: &[[i32; 3]]) -> Size {
    let numbers = || path.iter().flatten();
    let sum = numbers().map(|n| n.unsigned_abs() as u64).sum();
    (sum, path.len(), numbers().filter(|&&n| n < 0).count())
}

/// A range of small paths: the first vertex at the origin, the others in a
/// square about it.
struct Small {
    vertices: u32,
    side: i32,
    radius: i32,
}

/// What "all small paths" means, in words and in numbers.
pub const SMALL_TEXT: &str = "the empty path; from (0,0): one vertex, radius to 20; \
     two, coordinates to 12 and radii to 8; three, coordinates to 4 and radii to 4";

const SMALL: [Small; 4] = [
    Small::new(0, 0, 0),
    Small::new(1, 0, 20),
    Small::new(2, 12, 8),
    Small::new(3, 4, 4),
];

impl Small {
    const fn new(vertices: u32, side: i32, radius: i32) -> Small {
        Small {
            vertices,
            side,
            radius,
        }
    }

    const fn radii(&self) -> u64 {
        self.radius as u64 + 1
    }

    const fn columns(&self) -> u64 {
        2 * self.side as u64 + 1
    }

    /// How many paths there are.
    const fn count(&self) -> u64 {
        let (all, columns) = (self.radii().pow(self.vertices), self.columns());
        match self.vertices {
            0 | 1 => all,
            more => all * (columns * columns).pow(more - 1),
        }
    }

    fn path(&self, mut number: u64) -> Path {
        let mut digit = |base: u64| {
            let digit = number % base;
            number /= base;
            digit as i32
        };
        let vertex = |place| {
            let radius = digit(self.radii());
            if place == 0 {
                return [0, 0, radius];
            }
            let x = digit(self.columns()) - self.side;
            [x, digit(self.columns()) - self.side, radius]
        };
        (0..self.vertices).map(vertex).collect()
    }
}

/// How many small paths there are.
pub fn small_count() -> u64 {
    SMALL.iter().map(Small::count).sum()
}

/// One of the small paths.
pub fn small(mut number: u64) -> Path {
    for small in &SMALL {
        if number < small.count() {
            return small.path(number);
        }
        number -= small.count();
    }
    panic!("there are only {} small paths", small_count());
}

/// A way to make random paths.
pub struct Style {
    pub name: &'static str,
    make: fn(&mut Random, usize) -> Path,
}

/// The first ten are those of plain's own generator.
pub const STYLES: [Style; 16] = [
    Style::new("near", |random, count| scattered(random, count, 30, 12)),
    Style::new("close", |random, count| scattered(random, count, 4, 3)),
    Style::new("wide", |random, count| scattered(random, count, 1000, 300)),
    Style::new("whole", |random, count| {
        scattered(random, count, LIMIT, LIMIT)
    }),
    Style::new("hair", |random, count| {
        scattered(random, count, LIMIT, 1000)
    }),
    Style::new("discs", |random, count| {
        scattered(random, count, 300, LIMIT)
    }),
    Style::new("corners", corners),
    Style::new("run", run),
    Style::new("cover", cover),
    Style::new("pile", pile),
    Style::new("thin", thin),
    Style::new("axis", axis),
    Style::new("triples", triples),
    Style::new("brim", brim),
    Style::new("loop", loops),
    Style::new("straight", straight),
];

impl Style {
    const fn new(name: &'static str, make: fn(&mut Random, usize) -> Path) -> Style {
        Style { name, make }
    }
}

/// The random path of a number, and the number of its style.
pub fn random(seed: u64, number: u64) -> (usize, Path) {
    let style = (number % STYLES.len() as u64) as usize;
    let mut random = Random::new(Random::new(seed.rotate_left(40) ^ number).word());
    let count = match random.below(100) {
        0 => 0,
        1..7 => 1,
        7..62 => random.between(2, 4),
        62..93 => random.between(5, 9),
        _ => random.between(10, 40),
    } as usize;
    let mut path = (STYLES[style].make)(&mut random, count);
    for place in 1..path.len() {
        let [x, y, radius] = path[place - 1];
        match random.below(40) {
            0 => path[place] = [x, y, radius],
            1 => path[place] = [x, y, path[place][2]],
            2 => path[place] = [path[place][0], y, radius],
            _ => (),
        }
    }
    (style, path)
}

/// The nearest vertex inside the limits.
fn inside(x: i64, y: i64, radius: i64) -> [i32; 3] {
    let side = |c: i64| c.clamp(-LIMIT, LIMIT) as i32;
    [side(x), side(y), radius.clamp(0, LIMIT) as i32]
}

fn vertex(random: &mut Random, side: i64, radius: i64) -> [i32; 3] {
    let (x, y) = (random.between(-side, side), random.between(-side, side));
    inside(x, y, random.between(0, radius))
}

/// A path whose next vertex is made from the one before.
fn steps(
    random: &mut Random,
    count: usize,
    first: [i32; 3],
    mut step: impl FnMut(&mut Random, [i64; 3]) -> [i64; 3],
) -> Path {
    let next = |&before: &[i32; 3]| {
        let [x, y, radius] = step(random, before.map(i64::from));
        Some(inside(x, y, radius))
    };
    std::iter::successors(Some(first), next)
        .take(count)
        .collect()
}

/// Vertices anywhere in a square.
fn scattered(random: &mut Random, count: usize, side: i64, radius: i64) -> Path {
    (0..count).map(|_| vertex(random, side, radius)).collect()
}

/// Vertices at the ends of the limits.
fn corners(random: &mut Random, count: usize) -> Path {
    let sides = [-LIMIT, 1 - LIMIT, -1, 0, 1, LIMIT - 1, LIMIT];
    let radii = [0, 1, 2, LIMIT / 2, LIMIT - 1, LIMIT];
    let corner = |_| {
        let (x, y) = (random.pick(&sides), random.pick(&sides));
        inside(x, y, random.pick(&radii))
    };
    (0..count).map(corner).collect()
}

/// Vertices on a line, ahead and back, of much the same radius.
fn run(random: &mut Random, count: usize) -> Path {
    let (dx, dy) = (random.between(-5, 5), random.between(-5, 5));
    let radius = random.between(0, 12);
    let mut place = random.between(-4, 4);
    let vertex = |_| {
        let change = random.pick(&[0, 0, 0, 0, 1, -1]);
        let vertex = inside(dx * place, dy * place, radius + change);
        place += random.pick(&[1, 1, 1, 2, 3, 0, -1, -2]);
        vertex
    };
    (0..count).map(vertex).collect()
}

/// Wide sections and small circles between their ends.
fn cover(random: &mut Random, count: usize) -> Path {
    let mut path: Path = Vec::new();
    for place in 0..count {
        let next = if place % 3 < 2 {
            vertex(random, 60, 25)
        } else {
            let ([ax, ay, _], [bx, by, _]) = (path[place - 2], path[place - 1]);
            let part = random.between(0, 4) as i32;
            let [dx, dy, radius] = vertex(random, 3, 8);
            let (x, y) = (ax + (bx - ax) * part / 4, ay + (by - ay) * part / 4);
            [x + dx, y + dy, radius]
        };
        path.push(next);
    }
    path
}

/// Wide circles that all but lie on one another, on a line, their radii in
/// proportion: there rays differ where their directions do not.
fn pile(random: &mut Random, count: usize) -> Path {
    let radius = random.between(LIMIT / 4, LIMIT - 20_000);
    let (dx, dy) = random.pick(&[(0, 1), (1, 0), (0, -1), (-1, 0), (1, 1), (2, -1)]);
    let spread = random.between(2, 50);
    let slope = random.between(1 - spread, spread - 1);
    let mut place = 0;
    let vertex = |_| {
        let vertex = inside(
            dx * spread * place,
            dy * spread * place,
            radius + slope * place,
        );
        place += random.pick(&[1, 1, 2, 3, 5, 8, -1]);
        vertex
    };
    (0..count).map(vertex).collect()
}

/// Radii about 1, so that many steps are thin.
fn thin(random: &mut Random, count: usize) -> Path {
    let vertex = |_| {
        let (x, y) = (random.between(-6, 6), random.between(-6, 6));
        inside(x, y, random.pick(&[0, 0, 1, 1, 1, 2, 3]))
    };
    (0..count).map(vertex).collect()
}

/// Steps along the axes, of even length: contacts stand at exact halves.
fn axis(random: &mut Random, count: usize) -> Path {
    let first = vertex(random, 10, 12);
    steps(random, count, first, |random, [x, y, radius]| {
        let d = 2 * random.between(-12, 12);
        let radius = radius + random.between(-d.abs(), d.abs());
        match random.chance(50) {
            true => [x + d, y, radius],
            false => [x, y + d, radius],
        }
    })
}

/// Steps along Pythagorean triples, with changes of radius that make a whole
/// tangent, that just break the chain, or that just do not.
fn triples(random: &mut Random, count: usize) -> Path {
    let most = random.pick(&[1, 1, 3, 10, 1000, 100_000]);
    let start = random.pick(&[2, 5, 25, 100, 5 * most]);
    let first = vertex(random, 10, start);
    steps(random, count, first, |random, [x, y, radius]| {
        let triples = [(3, 4, 5), (5, 12, 13), (8, 15, 17), (7, 24, 25)];
        let (a, b, c) = random.pick(&triples);
        let times = random.between(1, most);
        let sizes = [0, a, b, c].map(|size| size * times);
        let change = random.pick(&sizes) + random.pick(&[0, 0, 0, -1, 1]);
        let sign = random.pick(&[1, -1]);
        let (a, b) = (sizes[1] * random.pick(&[1, -1]), sizes[2]);
        let (dx, dy) = random.pick(&[(a, b), (b, a), (-b, a), (a, -b)]);
        [x + dx, y + dy, radius + sign * change]
    })
}

/// A section along an axis, and a circle that lies inside it or sticks out of
/// it by one.
fn brim(random: &mut Random, count: usize) -> Path {
    let mut path = Vec::new();
    while path.len() < count {
        let wide = random.between(2, 20);
        let long = random.between(2, 60);
        let narrow = wide - random.between(0, wide) * random.pick(&[0, 0, 1]);
        let radius = random.between(0, wide - 1);
        let near = |random: &mut Random, place: i64| place + random.between(-1, 1);
        let x = match random.below(3) {
            0 => near(random, radius),
            1 => near(random, long - radius),
            _ => random.between(0, long),
        };
        let y = match random.below(3) {
            0 => near(random, wide - radius),
            1 => near(random, radius - wide),
            _ => random.between(-wide, wide),
        };
        let turned = random.chance(50);
        let place = |x: i64, y: i64, radius| match turned {
            true => inside(-y, x, radius),
            false => inside(x, y, radius),
        };
        path.extend([place(0, 0, wide), place(long, 0, narrow)]);
        path.push(place(x, y, radius));
    }
    path.truncate(count);
    path
}

/// Sections that end at radius 0 or 1, thin steps away and back, and sections
/// that go on from there.
fn loops(random: &mut Random, count: usize) -> Path {
    let mut path = Vec::new();
    while path.len() < count {
        let [x, y, _] = vertex(random, 20, 0);
        path.push(vertex(random, 20, 8));
        path.push([x, y, random.pick(&[0, 1])]);
        for _ in 0..random.below(4) {
            path.push(vertex(random, 20, 1));
        }
        path.push([x, y, random.pick(&[0, 1, 1, 2])]);
    }
    path.truncate(count);
    path
}

/// Nearly straight lines of nearly even change in radius, at every scale:
/// arcs of very small angles, on both sides of what document 01 sets aside.
fn straight(random: &mut Random, count: usize) -> Path {
    let scale = 1 << random.between(3, 24);
    let (dx, dy) = (random.between(-scale, scale), random.between(-scale, scale));
    let slope = random.between(-scale / 2, scale / 2) * random.pick(&[0, 0, 1]);
    let times = 1 << random.between(0, 4);
    let first = [0, 0, (times * scale).min(LIMIT) as i32];
    let noise = |random: &mut Random| random.pick(&[0, 0, 0, 1, -1]);
    steps(random, count, first, |random, [x, y, radius]| {
        [
            x + dx + noise(random),
            y + dy + noise(random),
            radius + slope + noise(random),
        ]
    })
}

#[cfg(test)]
mod tests {
    use super::*;
    use crate::labels::vertices;

    #[test]
    fn small_paths_are_as_many_as_told_and_all_different() {
        let mut paths: Vec<Path> = (0..small_count()).map(small).collect();
        let inside = |v: &[i32; 3]| v.iter().all(|n| n.abs() <= 20) && v[2] >= 0;
        assert!(paths.iter().flatten().all(inside));
        paths.sort();
        paths.dedup();
        assert_eq!(paths.len() as u64, small_count());
        assert_eq!(
            small_count(),
            1 + 21 + 9 * 25 * 25 * 9 + 5 * (81 * 5) * (81 * 5)
        );
    }

    #[test]
    fn random_paths_lie_inside_the_limits() {
        for number in 0..16_000 {
            let (_, path) = random(7, number);
            assert!(vertices(&path).iter().all(|v| v.allowed()));
            assert!(path.len() <= 40);
        }
    }
}
