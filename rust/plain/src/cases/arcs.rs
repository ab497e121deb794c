//! Cases of contacts, covering, arcs and joins, at the limits and among small
//! numbers.

use super::line;
use plain::contacts::{kind, Kind, Section, Vertex, LIMIT};
use plain::numbers::{direction, integer_root, scale, Point};
use plain::random::Random;

type Cases = Vec<Vec<i64>>;

pub fn list() -> Vec<String> {
    let mut random = Random::new(2);
    let mut cases = Vec::new();
    circles(&mut cases);
    aligned_arcs(&mut cases);
    near_arcs(&mut cases);
    landing_arcs(&mut cases);
    large_arcs(&mut cases);
    random_arcs(&mut cases, &mut random);
    known_contacts(&mut cases);
    random_contacts(&mut cases, &mut random);
    coverings(&mut cases, &mut random);
    joins(&mut cases, &mut random);
    cases.iter().map(|case| line(case)).collect()
}

fn arc(cases: &mut Cases, grade: i64, centre: Point, inner: i64, from: Point, to: Point) {
    for choice in [0, 1] {
        let ends = [from.x, from.y, to.x, to.y, choice];
        cases.push([&[1, grade, centre.x, centre.y, inner], ends.as_slice()].concat());
        if (from - centre).cross(to - centre) != 0 {
            return;
        }
    }
}

/// The point of a circle that a ray looks at, as arcs round it.
fn contact(centre: Point, ray: Point, radius: i64) -> Point {
    let d = direction(ray);
    centre + Point::new(scale(d.x, radius), scale(d.y, radius))
}

fn circles(cases: &mut Cases) {
    for grade in [1, 4, 8] {
        for radius in [0, 1, 2, 3, 5, 10] {
            cases.push(vec![2, grade, 0, 0, radius]);
            cases.push(vec![2, grade, -7, 11, radius]);
        }
    }
    for grade in 1..=4 {
        cases.push(vec![2, grade, LIMIT, -LIMIT, LIMIT]);
        cases.push(vec![2, grade, -LIMIT, LIMIT, LIMIT - 1]);
    }
    cases.push(vec![2, 8, LIMIT, LIMIT, LIMIT]);
}

/// Aligned rays, ends that coincide, ends at the centre.
fn aligned_arcs(cases: &mut Cases) {
    let rays = [(1, 0), (0, 1), (-1, 0), (0, -1), (1, 1), (-3, 4), (-2, -1)];
    for (x, y) in rays {
        let ray = Point::new(x, y);
        for radius in [0, 1, 2, 5, 1000] {
            let centre = Point::new(3, -8);
            let end = contact(centre, ray, radius);
            arc(cases, 1, centre, radius, end, end);
        }
        let centre = Point::new(3, -8);
        let (short, long) = (centre + ray, centre + ray + ray);
        arc(cases, 1, centre, 10, short, long);
        arc(cases, 1, centre, 10, long, short);
        arc(cases, 1, centre, 10, centre, long);
        arc(cases, 1, centre, 10, long, centre);
        arc(cases, 1, centre, 10, long, centre - ray);
    }
    let (centre, ray) = (Point::new(-LIMIT, LIMIT), Point::new(-1, 1));
    let end = contact(centre, ray, LIMIT);
    arc(cases, 4, centre, LIMIT, end, end);
}

/// Ends one unit apart on either side: arcs of no interior and arcs that
/// nearly close.
fn near_arcs(cases: &mut Cases) {
    let rays = [
        (1, 0),
        (0, 1),
        (-1, 0),
        (0, -1),
        (1, 1),
        (-1, 1),
        (-3, -4),
        (4, -3),
    ];
    for (x, y) in rays {
        for (centre, radius) in [
            (Point::ORIGIN, 2),
            (Point::new(5, 5), 12),
            (Point::new(LIMIT, -LIMIT), LIMIT - 1),
        ] {
            let from = contact(centre, Point::new(x, y), radius);
            let aside = Point::new(-y.signum(), x.signum());
            arc(cases, 1, centre, radius, from, from + aside);
            arc(cases, 1, centre, radius, from, from - aside);
        }
    }
    // Rays whose directions are the same though their cross product is not 0.
    let half = LIMIT / 2;
    for (x, y) in [(half + 1, half), (-half - 1, half), (half, -half - 1)] {
        let aside = Point::new(x.signum(), y.signum());
        let from = Point::new(x, y);
        let inner = integer_root(from.squared()) as i64;
        arc(cases, 1, Point::ORIGIN, inner, from, from - aside);
        arc(cases, 1, Point::ORIGIN, inner, from - aside, from);
    }
    let right = Point::new(LIMIT, 0);
    let below = Point::new(LIMIT, -1);
    for grade in [1, 2, 3, 4, 5, 8] {
        arc(cases, grade, Point::ORIGIN, LIMIT, right, below);
        arc(cases, grade, Point::ORIGIN, LIMIT, below, right);
    }
}

/// Arcs whose first rotation has the very direction of the end, which stands
/// on the circle or nearer to the centre.
fn landing_arcs(cases: &mut Cases) {
    for grade in 1..=8 {
        let (c, s) = ((1 << (2 * grade)) - 1, 1 << (grade + 1));
        let length = (1 << (2 * grade)) + 1;
        for inner in [length, 2 * length] {
            let axis = Point::new(inner, 0);
            arc(cases, grade, Point::ORIGIN, inner, axis, Point::new(c, s));
            let axis = Point::new(0, -inner);
            arc(cases, grade, Point::ORIGIN, inner, axis, Point::new(s, -c));
        }
    }
}

/// Arcs of the largest circle that has its corners at the ends of the plane.
fn large_arcs(cases: &mut Cases) {
    let rays = [(1, 0), (4, 3), (1, 1), (0, 1), (-1, 5), (-1, -1), (2, -7)];
    let rays = rays.map(|(x, y)| Point::new(x, y));
    for (centre, radius) in [
        (Point::new(LIMIT, LIMIT), LIMIT),
        (Point::new(-LIMIT, -LIMIT), LIMIT - 1),
    ] {
        for (i, &ray) in rays.iter().enumerate() {
            for (j, &other) in rays.iter().enumerate() {
                let grade = if i + 1 == j { 4 } else { 1 };
                let (from, to) = (contact(centre, ray, radius), contact(centre, other, radius));
                if i != j {
                    arc(cases, grade, centre, radius, from, to);
                }
            }
        }
    }
    // A few degrees at the finest grade.
    let centre = Point::new(LIMIT, -LIMIT);
    for (x, y) in [(10, 1), (-10, 1), (0, -1), (7, -8)] {
        let from = contact(centre, Point::new(x, y), LIMIT);
        let to = contact(centre, Point::new(50 * x - 9 * y, 50 * y + 9 * x), LIMIT);
        arc(cases, 8, centre, LIMIT, from, to);
    }
}

/// Ends anywhere near the circle, as rounded contacts are.
fn random_arcs(cases: &mut Cases, random: &mut Random) {
    for turn in 0..170 {
        let radius = match turn % 5 {
            0 => random.between(1, 3),
            1 | 2 => random.between(1, 12),
            3 => random.between(1, 1000),
            _ => random.between(1, LIMIT),
        };
        let centre = Point::new(random.between(-30, 30), random.between(-30, 30));
        let mut end = || loop {
            let ray = Point::new(random.between(-99, 99), random.between(-99, 99));
            if ray != Point::ORIGIN {
                let d = direction(ray);
                let (x, y) = (scale(d.x, radius), scale(d.y, radius));
                let x = (x + random.between(-1, 1)).clamp(-radius, radius);
                let y = (y + random.between(-1, 1)).clamp(-radius, radius);
                return centre + Point::new(x, y);
            }
        };
        let (from, to) = (end(), end());
        let grade = [1, 1, 1, 2, 3][turn / 5 % 5];
        arc(cases, grade, centre, radius, from, to);
    }
}

fn step(cases: &mut Cases, code: &[i64], vertices: &[Vertex]) {
    let mut case = code.to_vec();
    for vertex in vertices {
        case.extend([vertex.x, vertex.y, vertex.radius]);
    }
    cases.push(case);
}

fn known_contacts(cases: &mut Cases) {
    let v = Vertex::new;
    let far = v(-LIMIT, -LIMIT, LIMIT);
    for (a, b) in [
        (v(0, 0, 5), v(20, 0, 5)),
        (v(0, 0, 10), v(3, 0, 2)),
        (v(0, 0, 5), v(3, 4, 0)),
        (v(0, 0, 5), v(3, 4, 10)),
        (v(0, 0, 5), v(3, 4, 1)),
        (v(0, 0, 1), v(20, 0, 1)),
        (v(0, 0, 1), v(1, 0, 1)),
        (v(0, 0, 0), v(1, 0, 0)),
        (v(0, 0, 2), v(2, 0, 1)),
        (v(2, 0, 1), v(0, 0, 2)),
        (v(0, 0, 2), v(10, 10, 2)),
        (v(0, -46, 267688968), v(0, 0, 267688965)),
        (v(0, 0, 267688965), v(0, 138, 267688956)),
        (far, v(LIMIT, LIMIT, LIMIT)),
        (far, v(LIMIT, LIMIT, 0)),
        (far, v(LIMIT, LIMIT, 1)),
        (far, v(-LIMIT, -LIMIT, LIMIT)),
        (far, v(-LIMIT, -LIMIT, 0)),
        (far, v(-LIMIT + 1, -LIMIT, LIMIT)),
        (far, v(0, -LIMIT, 0)),
        (far, v(1, -LIMIT, 0)),
        (far, v(0, -LIMIT, 1)),
        (v(0, 0, 3), v(0, 0, 3)),
    ] {
        step(cases, &[3], &[a, b]);
        step(cases, &[3], &[b, a]);
    }
    // Circles that nearly lie in one another, along (3, 4).
    for size in [1, 2, 5, 1000, LIMIT / 5] {
        for less in [0, 1, 2] {
            let (outer, inner) = (v(0, 0, 5 * size), v(3 * size, 4 * size, less));
            step(cases, &[3], &[outer, inner]);
            step(cases, &[3], &[inner, outer]);
        }
    }
}

/// A vertex among small numbers, at some scale, or at the ends of the plane.
fn random_vertex(random: &mut Random, turn: usize) -> Vertex {
    let sides = [-LIMIT, 1 - LIMIT, -1, 0, 1, LIMIT - 1, LIMIT];
    let radii = [0, 1, 2, 3, LIMIT / 2, LIMIT - 1, LIMIT];
    let (side, radius) = match turn % 6 {
        0 | 1 => (30, 12),
        2 => (4, 3),
        3 => (1000, 400),
        4 => (LIMIT, LIMIT),
        _ => {
            let (x, y) = (random.pick(&sides), random.pick(&sides));
            return Vertex::new(x, y, random.pick(&radii));
        }
    };
    let (x, y) = (random.between(-side, side), random.between(-side, side));
    Vertex::new(x, y, random.between(0, radius))
}

fn random_contacts(cases: &mut Cases, random: &mut Random) {
    for turn in 0..220 {
        let (a, b) = (random_vertex(random, turn), random_vertex(random, turn));
        step(cases, &[3], &[a, b]);
    }
}

/// A drawn step.
fn random_drawn(random: &mut Random, turn: usize) -> (Vertex, Vertex) {
    loop {
        let (a, b) = (random_vertex(random, turn), random_vertex(random, turn));
        if kind(a, b) == Kind::Drawn {
            return (a, b);
        }
    }
}

/// A circle between a and b with the largest radius that is covered, the next
/// radius, and the circle moved by one unit.
fn coverings(cases: &mut Cases, random: &mut Random) {
    for turn in 0..62 {
        let (a, b) = random_drawn(random, turn);
        let part = random.between(0, 8);
        let x = a.x + (b.x - a.x) * part / 8;
        let y = a.y + (b.y - a.y) * part / 8;
        let section = Section::new(a, b);
        let covers = |radius| section.covers_circle(Vertex::new(x, y, radius));
        let (mut fits, mut fails) = (-1, LIMIT + 1);
        while fails - fits > 1 {
            let middle = (fits + fails) / 2;
            if covers(middle) {
                fits = middle;
            } else {
                fails = middle;
            }
        }
        let (dx, dy) = (random.between(-1, 1), random.between(-1, 1));
        if fits >= 0 {
            step(cases, &[4], &[a, b, Vertex::new(x, y, fits)]);
        }
        if fails <= LIMIT {
            step(cases, &[4], &[a, b, Vertex::new(x, y, fails)]);
        }
        let beside = Vertex::new(x + dx, y + dy, fits.max(0));
        if beside.allowed() {
            step(cases, &[4], &[a, b, beside]);
        }
    }
    // A wedge either way, and sides that touch.
    let v = Vertex::new;
    let (point, disc) = (v(0, 0, 0), v(40, 0, 20));
    let (left, right) = (v(0, 0, 5), v(20, 0, 5));
    for circle in [
        v(12, 0, 1),
        v(12, 0, 4),
        v(12, 0, 5),
        v(0, 0, 0),
        v(25, 0, 0),
    ] {
        step(cases, &[4], &[point, disc, circle]);
        step(cases, &[4], &[disc, point, circle]);
        step(cases, &[4], &[left, right, circle]);
    }
    for circle in [
        v(10, 0, 5),
        v(10, 1, 5),
        v(5, 0, 5),
        v(4, 0, 5),
        v(20, 5, 0),
        v(21, 5, 0),
    ] {
        step(cases, &[4], &[left, right, circle]);
        step(cases, &[4], &[right, left, circle]);
    }
}

fn joins(cases: &mut Cases, random: &mut Random) {
    let v = Vertex::new;
    let mut join = |grade, vertices: [Vertex; 4]| step(cases, &[5, grade], &vertices);
    // Straight on, straight back, and at right angles.
    let (start, middle) = (v(0, 0, 5), v(20, 0, 5));
    for end in [
        v(40, 0, 5),
        v(0, 0, 5),
        v(20, 20, 5),
        v(20, -20, 5),
        v(40, 1, 5),
        v(40, -1, 5),
    ] {
        for grade in [1, 2, 4] {
            join(grade, [start, middle, middle, end]);
        }
    }
    let path = [
        v(0, -46, 267688968),
        v(0, 0, 267688965),
        v(0, 138, 267688956),
    ];
    for grade in [1, 2, 4] {
        join(grade, [path[0], path[1], path[1], path[2]]);
        join(grade, [path[2], path[1], path[1], path[0]]);
    }
    // A return over thin steps: centres equal, radii 0 or 1.
    for (before, after) in [(0, 0), (0, 1), (1, 0), (1, 1)] {
        for end in [v(40, 0, 5), v(20, 20, 5), v(20, -20, 5)] {
            join(1, [start, v(20, 0, before), v(20, 0, after), end]);
        }
    }
    // Centres that differ.
    for turn in 0..40 {
        let ((a, b), (c, d)) = (random_drawn(random, turn), random_drawn(random, turn));
        if b.centre() != c.centre() {
            join(1, [a, b, c, d]);
        }
    }
    let mut made = 0;
    while made < 150 {
        let (a, b) = random_drawn(random, made);
        let c = match made % 7 {
            // On the same line, ahead or behind.
            5 => {
                let part = random.between(-2, 2);
                let (x, y) = (b.x + (b.x - a.x) * part, b.y + (b.y - a.y) * part);
                v(x, y, random.pick(&[a.radius, b.radius, 2]))
            }
            _ => random_vertex(random, made),
        };
        if c.allowed() && kind(b, c) == Kind::Drawn {
            join([1, 1, 1, 1, 2, 3][made / 6 % 6], [a, b, b, c]);
            made += 1;
        }
    }
}
