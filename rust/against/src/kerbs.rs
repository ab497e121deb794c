//! Kerbs: what of a stroke of one width can be compared where contacts round
//! unlike: the order of everything, and each join's side.
//!
//! Both sides draw two edges for each section, then the joins, then the caps of
//! an open kerb. So the contacts that a side goes by stand in its own first
//! edges, and what follows can be read with their help.

use plain::arcs::Edge;
use plain::contacts::LIMIT;
use plain::kerbs::{Join, Style};
use plain::random::Random;
use std::f64::consts::PI;

/// A point as lent.
pub type Point = [i32; 2];

/// A kerb: its points and its style.
#[derive(Clone, Debug, PartialEq, Eq)]
pub struct Kerb {
    pub points: Vec<Point>,
    pub style: Style,
}

/// Which edge of a section stands first.
#[derive(Clone, Copy, Debug, PartialEq, Eq)]
pub enum Order {
    /// Document 01's: b_left to a_left, then a_right to b_right.
    LeftFirst,
    /// The crate's: a_right to b_right, then b_left to a_left.
    RightFirst,
}

/// The four contacts of a section, and its ends.
#[derive(Clone, Copy, Debug)]
struct Contacts {
    a: Point,
    b: Point,
    a_left: Point,
    a_right: Point,
    b_left: Point,
    b_right: Point,
}

/// A join as it is drawn.
#[derive(Clone, Copy, Debug, PartialEq)]
pub struct Joint {
    /// That the right side is the outer one fits the edges.
    pub right: bool,
    /// That the left side is fits them: both do where the line turns back.
    pub left: bool,
    /// How many edges the outer side has.
    pub outer: usize,
    /// How far the outer side turns about the vertex, counterclockwise.
    pub turn: f64,
}

/// What can be compared of a kerb's edges.
#[derive(Clone, Debug, PartialEq)]
pub struct Shape {
    /// The contacts, left and right of each section's start.
    pub contacts: Vec<[Point; 2]>,
    pub joints: Vec<Joint>,
}

/// The ends of a kerb's sections: runs of equal points count as one, and a
/// closed kerb goes back to its first point.
fn lines(kerb: &Kerb) -> Vec<[Point; 2]> {
    if kerb.style.radius <= 1 {
        return vec![];
    }
    let mut points = kerb.points.clone();
    if kerb.style.closed {
        points.extend(kerb.points.first());
    }
    points.dedup();
    points.windows(2).map(|ends| [ends[0], ends[1]]).collect()
}

/// Edges that are still to be read.
#[derive(Clone, Copy)]
struct Rest<'a>(&'a [Edge]);

impl Rest<'_> {
    /// The next edge, if it runs so; none is due where it has no length.
    fn edge(&mut self, from: Point, to: Point) -> bool {
        let due = [from[0], from[1], to[0], to[1]];
        match self.0 {
            _ if from == to => true,
            [edge, rest @ ..] if *edge == due => {
                self.0 = rest;
                true
            }
            _ => false,
        }
    }

    /// The runs of edges from one point to another about a centre, how many
    /// each has and how far they turn: one edge of a bevel; of an arc all that
    /// end there, since it may come by its end before, where points inside it
    /// round to that.
    fn runs(&self, centre: Point, from: Point, to: Point, join: Join) -> Vec<(usize, f64)> {
        let (mut at, mut count, mut turn) = (from, 0, 0.0);
        let mut runs = Vec::new();
        for &[ax, ay, bx, by] in self.0 {
            if at == to {
                runs.push((count, turn));
            }
            if [ax, ay] != at || (join == Join::Bevel && count == 1) {
                return runs;
            }
            turn += angle(centre, at, [bx, by]);
            (at, count) = ([bx, by], count + 1);
        }
        if at == to {
            runs.push((count, turn));
        }
        runs
    }
}

/// The angle between two rays from a centre, from minus a half turn to a half.
fn angle(centre: Point, from: Point, to: Point) -> f64 {
    let ray = |point: Point| {
        let [x, y] = [point[0] - centre[0], point[1] - centre[1]];
        (y as f64).atan2(x as f64)
    };
    let turn = ray(to) - ray(from);
    turn - 2.0 * PI * (turn / (2.0 * PI)).round()
}

/// The contacts of a section, from its two edges.
fn contacts(rest: &mut Rest, [a, b]: [Point; 2], order: Order) -> Option<Contacts> {
    let (&[first, second], after) = rest.0.split_first_chunk()?;
    let (left, right) = match order {
        Order::LeftFirst => (first, second),
        Order::RightFirst => (second, first),
    };
    rest.0 = after;
    Some(Contacts {
        a,
        b,
        a_left: [left[2], left[3]],
        a_right: [right[0], right[1]],
        b_left: [left[0], left[1]],
        b_right: [right[2], right[3]],
    })
}

/// A join's outer side, read as if the right side were that, or the left: the
/// edges that follow, and how many of them and how far they turn.
fn side<'a>(
    mut rest: Rest<'a>,
    prev: &Contacts,
    next: &Contacts,
    right: bool,
    join: Join,
) -> Option<(Rest<'a>, Vec<(usize, f64)>)> {
    let centre = prev.b;
    let (inner_from, inner_to, from, to) = match right {
        true => (next.a_left, prev.b_left, prev.b_right, next.a_right),
        false => (prev.b_right, next.a_right, next.a_left, prev.b_left),
    };
    if !rest.edge(inner_from, centre) || !rest.edge(centre, inner_to) {
        return None;
    }
    Some((rest, rest.runs(centre, from, to, join)))
}

/// The joins of pairs of sections, whichever side is the outer one of each, and
/// the caps, which must be all that is left.
fn joints(
    rest: Rest,
    pairs: &[(Contacts, Contacts)],
    caps: &[[Point; 2]],
    join: Join,
) -> Option<Vec<Joint>> {
    let Some(((prev, next), others)) = pairs.split_first() else {
        let mut rest = rest;
        let there = caps.iter().all(|&[from, to]| rest.edge(from, to));
        return (there && rest.0.is_empty()).then(Vec::new);
    };
    let read = |right| side(rest, prev, next, right, join);
    let (right, left) = (read(true), read(false));
    for (after, runs) in [&right, &left].into_iter().flatten() {
        for &(outer, turn) in runs {
            if let Some(mut found) = joints(Rest(&after.0[outer..]), others, caps, join) {
                let joint = Joint {
                    right: right.is_some(),
                    left: left.is_some(),
                    outer,
                    turn,
                };
                found.insert(0, joint);
                return Some(found);
            }
        }
    }
    None
}

/// What can be compared of these edges of a kerb; nothing if they are not its
/// sections, joins and caps in this order.
pub fn shape(kerb: &Kerb, edges: &[Edge], order: Order) -> Option<Shape> {
    let lines = lines(kerb);
    let mut rest = Rest(edges);
    let sections: Vec<Contacts> = lines
        .iter()
        .map(|&line| contacts(&mut rest, line, order))
        .collect::<Option<_>>()?;
    let mut pairs: Vec<_> = sections.windows(2).map(|pair| (pair[0], pair[1])).collect();
    let mut caps = Vec::new();
    if let (Some(&first), Some(&last)) = (sections.first(), sections.last()) {
        match kerb.style.closed {
            true => pairs.push((last, first)),
            false => caps.extend([[first.a_left, first.a_right], [last.b_right, last.b_left]]),
        }
    }
    let joints = joints(rest, &pairs, &caps, kerb.style.join)?;
    let contacts = |s: &Contacts| {
        let from_centre = |point: Point| [point[0] - s.a[0], point[1] - s.a[1]];
        [s.a_left, s.a_right].map(from_centre)
    };
    Some(Shape {
        contacts: sections.iter().map(contacts).collect(),
        joints,
    })
}

/// Whether both are drawn alike: as many joins, one and the same outer side of
/// each, and round ones turned once the same way.
pub fn alike(join: Join, one: &Shape, other: &Shape) -> bool {
    let same_way = |one: &Joint, other: &Joint| (one.turn - other.turn).abs() < PI;
    let same_side = |one: &Joint, other: &Joint| {
        (one.right && other.right || one.left && other.left)
            && (join == Join::Bevel || same_way(one, other))
    };
    one.joints.len() == other.joints.len()
        && one
            .joints
            .iter()
            .zip(&other.joints)
            .all(|(one, other)| same_side(one, other))
}

/// How far the contacts of both lie apart at most, in x or y.
pub fn apart(one: &Shape, other: &Shape) -> i32 {
    let numbers = |shape: &Shape| -> Vec<i32> {
        let points = shape.contacts.iter().flatten();
        points.flatten().copied().collect()
    };
    let pairs = numbers(one).into_iter().zip(numbers(other));
    pairs
        .map(|(one, other)| (one - other).abs())
        .max()
        .unwrap_or(0)
}

/// Plain's shape of a kerb.
pub fn plain_shape(kerb: &Kerb, grade: u32) -> Option<Shape> {
    let point = |&[x, y]: &Point| plain::numbers::Point::new(x as i64, y as i64);
    let points: Vec<_> = kerb.points.iter().map(point).collect();
    let drawing = plain::kerbs::walk(&points, grade, kerb.style);
    shape(kerb, &drawing.edges, Order::LeftFirst)
}

/// What "all small kerbs" means.
pub const SMALL_TEXT: &str =
    "from (0,0): three points, coordinates to 4, and four, coordinates to 2; \
     radius 1 to 5, both joins, open and closed";

/// How many small kerbs there are: styles, and two points, then three.
pub const fn small_count() -> u64 {
    20 * (81 * 81 + 25 * 25 * 25)
}

/// One of the small kerbs.
pub fn small(number: u64) -> Kerb {
    let mut number = number;
    let mut digit = |base: u64| {
        let digit = number % base;
        number /= base;
        digit
    };
    let style = Style {
        radius: 1 + digit(5) as i64,
        join: if digit(2) == 0 {
            Join::Bevel
        } else {
            Join::Round
        },
        closed: digit(2) == 1,
    };
    let place = digit(81 * 81 + 25 * 25 * 25);
    let (count, side, mut place) = match place.checked_sub(81 * 81) {
        None => (2, 4, place),
        Some(place) => (3, 2, place),
    };
    let base = 2 * side + 1;
    let mut coordinate = || {
        let digit = place % base;
        place /= base;
        digit as i32 - side as i32
    };
    let mut points = vec![[0, 0]];
    points.extend((0..count).map(|_| [coordinate(), coordinate()]));
    Kerb { points, style }
}

/// The random kerb of a number: the points of a random path, at some radius.
pub fn random(seed: u64, number: u64) -> Kerb {
    let (_, path) = crate::paths::random(seed, number);
    let mut random = Random::new(Random::new(seed.rotate_left(20) ^ number).word());
    let most = random.pick(&[3, 12, 12, 300, 100_000, LIMIT]);
    Kerb {
        points: path.iter().map(|&[x, y, _]| [x, y]).collect(),
        style: Style {
            radius: random.between(0, most),
            join: random.pick(&[Join::Bevel, Join::Round]),
            closed: random.chance(50),
        },
    }
}
