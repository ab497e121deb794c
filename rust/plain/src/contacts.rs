//! Document 01, "Contacts", "Three kinds of step", and covering from "Chains".
//! Document 02, request 7: whether contacts are exact.

use crate::numbers::{integer_root, mul_div, Point};

/// What is ported: "x and y from -268,435,456 to 268,435,456; radius 0 to
/// 268,435,456".
pub const LIMIT: i64 = 268_435_456;

/// What is ported: "A vertex is x, y, radius."
#[derive(Clone, Copy, Debug, PartialEq, Eq)]
pub struct Vertex {
    pub x: i64,
    pub y: i64,
    pub radius: i64,
}

impl Vertex {
    pub const fn new(x: i64, y: i64, radius: i64) -> Vertex {
        Vertex { x, y, radius }
    }

    /// The vertex without its radius.
    pub const fn centre(self) -> Point {
        Point::new(self.x, self.y)
    }

    /// What is ported: whether the vertex lies inside the limits.
    pub fn allowed(self) -> bool {
        let side = -LIMIT..=LIMIT;
        side.contains(&self.x) && side.contains(&self.y) && (0..=LIMIT).contains(&self.radius)
    }
}

/// Contacts: "Trend is decreasing, constant or increasing as ra is above,
/// equal to or below rb."
#[derive(Clone, Copy, Debug, PartialEq, Eq)]
pub enum Trend {
    Decreasing,
    Constant,
    Increasing,
}

/// Contacts: the trend from radius `ra` to radius `rb`.
pub fn trend(ra: i64, rb: i64) -> Trend {
    match ra.cmp(&rb) {
        std::cmp::Ordering::Greater => Trend::Decreasing,
        std::cmp::Ordering::Equal => Trend::Constant,
        std::cmp::Ordering::Less => Trend::Increasing,
    }
}

/// Contacts: "the shift is (leading zeros of sq in 64 bits, less 1) / 2,
/// rounded down".
pub const fn shift(sq: u64) -> u32 {
    (sq.leading_zeros() - 1) / 2
}

/// Contacts, `tangent_offsets`: from the centres to a_left, a_right, b_left
/// and b_right, where v = b - a and |ra - rb|² is below |v|²; and whether each
/// is exact.
pub const fn tangent_offsets(v: Point, ra: i64, rb: i64) -> [(Point, bool); 4] {
    let delta = ra - rb;
    let sq = v.squared();
    let shift = shift(sq);
    let tangent = integer_root((sq - (delta * delta) as u64) << (2 * shift)) as i64;
    let along = Point::new((delta * v.x) << shift, (delta * v.y) << shift);
    let across = Point::new(-v.y * tangent, v.x * tangent);
    let left = Point::new(along.x + across.x, along.y + across.y);
    let right = Point::new(along.x - across.x, along.y - across.y);
    let divisor = (sq << shift) as i64;
    [
        offset(ra, left, divisor),
        offset(ra, right, divisor),
        offset(rb, left, divisor),
        offset(rb, right, divisor),
    ]
}

/// Contacts: "Each contact is its centre plus
/// `mul_div`(radius, numerator, sq·2^shift)": what is added to the centre.
/// Document 02, request 7: a contact is exact "when both components came out
/// even".
const fn offset(radius: i64, numerator: Point, divisor: i64) -> (Point, bool) {
    let (x, x_exact) = mul_div(radius, numerator.x, divisor);
    let (y, y_exact) = mul_div(radius, numerator.y, divisor);
    (Point::new(x, y), x_exact && y_exact)
}

/// Two vertices, the four contacts between them and the trend. Document 02,
/// request 7: "Sections carry four such marks, one for each contact".
#[derive(Clone, Copy, Debug, PartialEq, Eq)]
pub struct Section {
    pub a: Vertex,
    pub b: Vertex,
    pub a_left: Point,
    pub a_right: Point,
    pub b_left: Point,
    pub b_right: Point,
    pub trend: Trend,
    pub a_left_exact: bool,
    pub a_right_exact: bool,
    pub b_left_exact: bool,
    pub b_right_exact: bool,
}

impl Section {
    /// Contacts: the section of a step that is not broken.
    pub fn new(a: Vertex, b: Vertex) -> Section {
        let (from, to) = (a.centre(), b.centre());
        let [al, ar, bl, br] = tangent_offsets(to - from, a.radius, b.radius);
        Section {
            a,
            b,
            a_left: from + al.0,
            a_right: from + ar.0,
            b_left: to + bl.0,
            b_right: to + br.0,
            trend: trend(a.radius, b.radius),
            a_left_exact: al.1,
            a_right_exact: ar.1,
            b_left_exact: bl.1,
            b_right_exact: br.1,
        }
    }

    /// The larger radius of the section's two vertices.
    pub fn larger_radius(&self) -> i64 {
        self.a.radius.max(self.b.radius)
    }

    /// Chains, `covers_circle`: "the quadrilateral is a_left, b_left,
    /// b_right, a_right; a zero turn at its second corner covers nothing; for
    /// each side the inward cross product is at least radius times the side's
    /// length rounded up."
    pub fn covers_circle(&self, circle: Vertex) -> bool {
        let corners = [self.a_left, self.b_left, self.b_right, self.a_right];
        let turn = (corners[1] - corners[0]).cross(corners[2] - corners[1]);
        turn != 0
            && (0..4).all(|i| {
                let side = corners[(i + 1) % 4] - corners[i];
                let inward = side.cross(circle.centre() - corners[i]) * turn.signum();
                inward >= circle.radius * root_up(side.squared()) as i64
            })
    }
}

/// Chains, covering: the root "rounded up".
pub const fn root_up(n: u64) -> u64 {
    let root = integer_root(n);
    root + (root * root < n) as u64
}

/// Three kinds of step.
#[derive(Clone, Copy, Debug, PartialEq, Eq)]
pub enum Kind {
    Broken,
    Drawn,
    Thin,
}

/// Three kinds of step: "**broken** if delta² ≥ sq (equal points always);
/// else **drawn** if the larger radius is at least 2; else **thin**."
pub fn kind(a: Vertex, b: Vertex) -> Kind {
    let delta = a.radius - b.radius;
    if (delta * delta) as u64 >= (b.centre() - a.centre()).squared() {
        Kind::Broken
    } else if a.radius.max(b.radius) >= 2 {
        Kind::Drawn
    } else {
        Kind::Thin
    }
}

#[cfg(test)]
mod tests {
    use super::*;
    use crate::random::Random;

    #[test]
    fn limits_take_their_ends() {
        assert!(Vertex::new(LIMIT, -LIMIT, LIMIT).allowed());
        assert!(!Vertex::new(LIMIT + 1, 0, 0).allowed());
        assert!(!Vertex::new(0, -LIMIT - 1, 0).allowed());
        assert!(!Vertex::new(0, 0, LIMIT + 1).allowed());
        assert!(!Vertex::new(0, 0, -1).allowed());
    }

    #[test]
    fn contacts_of_equal_radii_stand_across() {
        let section = Section::new(Vertex::new(0, 0, 5), Vertex::new(20, 0, 5));
        assert_eq!(section.a_left, Point::new(0, 5));
        assert_eq!(section.b_right, Point::new(20, -5));
        assert_eq!(section.trend, Trend::Constant);
    }

    #[test]
    fn a_half_rounds_away_from_the_centre() {
        let section = Section::new(Vertex::new(0, 0, 2), Vertex::new(2, 0, 1));
        assert_eq!(section.a_left, Point::new(1, 2));
        assert_eq!(section.b_left, Point::new(3, 1));
        assert_eq!(section.b_right, Point::new(3, -1));
    }

    /// The last two have a root that was cut short, which clears no mark.
    #[test]
    fn exact_contacts() {
        let exact = |[ax, ay, ar]: [i64; 3], [bx, by, br]: [i64; 3]| {
            let s = Section::new(Vertex::new(ax, ay, ar), Vertex::new(bx, by, br));
            [
                s.a_left_exact,
                s.b_left_exact,
                s.a_right_exact,
                s.b_right_exact,
            ]
        };
        assert_eq!(exact([0, 0, 5], [20, 0, 5]), [true; 4]);
        assert_eq!(exact([0, 0, 5], [3, 4, 5]), [true; 4]);
        assert_eq!(exact([0, 0, 2], [2, 0, 1]), [false; 4]);
        assert_eq!(
            exact([0, 0, 5], [7, 2, 0]),
            [false, true, false, true],
            "a radius of 0 is exact"
        );
        assert_eq!(
            exact([0, 0, 131072], [9, 7, 131068]),
            [true, false, false, false]
        );
        assert_eq!(
            exact([0, 0, 819200], [25, 0, 819187]),
            [true, false, true, false]
        );
    }

    #[test]
    fn shifts_run_from_1_to_31() {
        assert_eq!([1, 2, 3, 4, 1 << 59].map(shift), [31, 30, 30, 30, 1]);
    }

    #[test]
    fn equality_breaks_a_step() {
        let a = Vertex::new(0, 0, 5);
        assert_eq!(kind(a, Vertex::new(3, 4, 0)), Kind::Broken);
        assert_eq!(kind(a, Vertex::new(3, 4, 1)), Kind::Drawn);
        assert_eq!(kind(a, a), Kind::Broken);
        assert_eq!(kind(Vertex::new(0, 0, 1), Vertex::new(2, 0, 0)), Kind::Thin);
    }

    #[test]
    fn a_contact_is_no_further_than_its_radius_and_never_the_centre() {
        let mut random = Random::new(4);
        let mut drawn = 0;
        while drawn < 20_000 {
            let bits = random.between(2, 28);
            let most = 1 << bits;
            let mut vertex = || {
                let x = random.between(-most, most);
                let y = random.between(-most, most);
                Vertex::new(x, y, random.between(0, most))
            };
            let (a, b) = (vertex(), vertex());
            if kind(a, b) == Kind::Broken {
                continue;
            }
            drawn += 1;
            let offsets = tangent_offsets(b.centre() - a.centre(), a.radius, b.radius);
            for ((offset, exact), r) in offsets
                .into_iter()
                .zip([a.radius, a.radius, b.radius, b.radius])
            {
                assert!(offset.x.abs() <= r && offset.y.abs() <= r);
                assert_eq!(offset == Point::ORIGIN, r == 0);
                assert!(exact || r != 0);
            }
        }
    }

    #[test]
    fn covering_asks_the_second_corner() {
        let wedge = |a, b| Section::new(a, b).covers_circle(Vertex::new(10, 0, 1));
        let (point, disc) = (Vertex::new(0, 0, 0), Vertex::new(40, 0, 20));
        assert!(wedge(point, disc));
        assert!(!wedge(disc, point));
    }

    #[test]
    fn covering_takes_a_circle_that_touches() {
        let section = Section::new(Vertex::new(0, 0, 5), Vertex::new(20, 0, 5));
        assert!(section.covers_circle(Vertex::new(10, 0, 5)));
        assert!(!section.covers_circle(Vertex::new(10, 1, 5)));
        assert!(section.covers_circle(Vertex::new(5, 0, 5)));
        assert!(!section.covers_circle(Vertex::new(4, 0, 5)));
        assert!(section.covers_circle(Vertex::new(20, 5, 0)));
    }
}
