//! Which points of a line can be left out so that nobody sees it: a straight
//! line from one point to another may stand for all between, if none of them
//! lies farther from it than a tolerance.

use super::view::Spot;

/// The directions from a place that pass all points left out since near enough.
/// One look at each point is enough, however many are left out.
pub struct Shortcut {
    from: Spot,
    tolerance: f64,
    farthest: f64,
    bounds: Option<(Vector, Vector)>,
}

/// A direction.
#[derive(Clone, Copy)]
struct Vector(f64, f64);

impl Vector {
    /// By the root alone, which every machine rounds alike.
    fn length(self) -> f64 {
        (self.0 * self.0 + self.1 * self.1).sqrt()
    }

    /// Above 0 if the other direction lies to the left of this one.
    fn cross(self, other: Vector) -> f64 {
        self.0 * other.1 - self.1 * other.0
    }
}

impl Shortcut {
    /// From a place on; nothing is left out yet.
    pub fn new(from: Spot, tolerance: i64) -> Shortcut {
        Shortcut {
            from,
            tolerance: tolerance as f64,
            farthest: 0.0,
            bounds: None,
        }
    }

    /// Whether a line straight to this place passes all points left out near
    /// enough; then it may be left out too. With a tolerance of 0 none does.
    pub fn passes(&mut self, to: Spot) -> bool {
        let along = Vector((to.x - self.from.x) as f64, (to.y - self.from.y) as f64);
        let length = along.length();
        let turned_back = length + self.tolerance < self.farthest;
        if self.tolerance == 0.0 || turned_back || !self.holds(along) {
            return false;
        }
        self.farthest = self.farthest.max(length);
        if length > self.tolerance {
            self.narrow(along, self.tolerance / length);
        }
        true
    }

    /// Whether a direction lies between the bounds.
    fn holds(&self, along: Vector) -> bool {
        self.bounds
            .is_none_or(|(right, left)| right.cross(along) >= 0.0 && along.cross(left) >= 0.0)
    }

    /// Draws the bounds in to those that pass the end of a vector near enough.
    fn narrow(&mut self, Vector(x, y): Vector, slope: f64) {
        let right = Vector(x + y * slope, y - x * slope);
        let left = Vector(x - y * slope, y + x * slope);
        self.bounds = Some(match self.bounds {
            None => (right, left),
            Some((before, after)) => (
                if before.cross(right) > 0.0 {
                    right
                } else {
                    before
                },
                if after.cross(left) < 0.0 { left } else { after },
            ),
        });
    }
}

#[cfg(test)]
mod tests {
    use super::Shortcut;
    use crate::picture::view::Spot;

    /// How many of these places a line from the first goes on through.
    fn passed(places: &[(i64, i64)], tolerance: i64) -> usize {
        let spot = |&(x, y): &(i64, i64)| Spot { x, y };
        let mut shortcut = Shortcut::new(spot(&places[0]), tolerance);
        let later = places[1..].iter();
        later
            .take_while(|place| shortcut.passes(spot(place)))
            .count()
    }

    #[test]
    fn a_straight_line_goes_on() {
        assert_eq!(
            passed(&[(0, 0), (100, 0), (200, 1), (300, -1), (400, 0)], 5),
            4
        );
        assert_eq!(passed(&[(0, 0), (100, 0), (200, 0)], 0), 0);
    }

    #[test]
    fn a_corner_ends_it() {
        assert_eq!(passed(&[(0, 0), (100, 0), (100, 50)], 5), 1);
        assert_eq!(passed(&[(0, 0), (2, 3), (-4, 1), (100, 50)], 5), 3);
    }

    #[test]
    fn a_way_back_ends_it() {
        assert_eq!(passed(&[(0, 0), (100, 0), (50, 0)], 5), 1);
    }

    #[test]
    fn a_bow_is_left_before_it_is_seen() {
        let bow: Vec<(i64, i64)> = (0..100).map(|x| (10 * x, x * x / 10)).collect();
        let count = passed(&bow, 5);
        let (end_x, end_y) = bow[count];
        for &(x, y) in &bow[..count] {
            let off = (end_x * y - end_y * x).abs() as f64;
            assert!(off <= 5.5 * ((end_x * end_x + end_y * end_y) as f64).sqrt());
        }
        assert!((3..30).contains(&count));
    }
}
