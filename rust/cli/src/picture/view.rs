//! A view: the part of a sheet that a panel shows, and how large. What is
//! printed are hundredths of the page's unit, from the panel's corner.

use super::frame::{Frame, Point};

/// Places beyond this are not told apart, or a browser would mind.
const FARTHEST: i64 = 100_000_000;

/// A panel of the page, in the page's units.
#[derive(Clone, Copy)]
pub struct Panel {
    pub x: i64,
    pub y: i64,
    pub wide: i64,
    pub tall: i64,
}

/// The frame that a panel shows, of the panel's own shape, and the panel's
/// width in hundredths.
#[derive(Clone, Copy)]
pub struct View {
    pub frame: Frame,
    pub wide: i64,
}

/// A place on a panel, in hundredths: x to the right and y downwards, as pages
/// have it.
#[derive(Clone, Copy, Debug, PartialEq)]
pub struct Spot {
    pub x: i64,
    pub y: i64,
}

impl View {
    /// The view of the least frame of the panel's shape about a frame.
    pub fn of(frame: Frame, panel: Panel) -> View {
        let wide = frame.height() * panel.wide / panel.tall;
        let tall = frame.width() * panel.tall / panel.wide;
        let frame = if frame.width() < wide {
            frame.widened((wide - frame.width()) / 2, 0)
        } else {
            frame.widened(0, (tall - frame.height()).max(0) / 2)
        };
        View {
            frame,
            wide: 100 * panel.wide,
        }
    }

    /// A length on the sheet, in hundredths.
    pub fn hundredths(self, length: i64) -> i64 {
        (length * self.wide / self.frame.width()).clamp(-FARTHEST, FARTHEST)
    }

    /// Where a point is shown.
    pub fn spot(self, point: Point) -> Spot {
        Spot {
            x: self.hundredths(point.x - self.frame.left),
            y: self.hundredths(self.frame.high - point.y),
        }
    }

    /// Whether something of a frame is to be seen.
    pub fn shows(self, frame: Frame) -> bool {
        self.frame.meets(frame)
    }

    /// How many times it enlarges what another view shows.
    pub fn times(self, other: View) -> i64 {
        other.frame.width() * self.wide / self.frame.width() / other.wide
    }
}

#[cfg(test)]
mod tests {
    use super::{Panel, Spot, View};
    use crate::picture::frame::{Frame, Point};

    #[test]
    fn a_view_has_its_panels_shape() {
        let panel = Panel {
            x: 0,
            y: 0,
            wide: 400,
            tall: 100,
        };
        let square = Frame::about(Point::of(0, 0), 256 * 50);
        let view = View::of(square, panel);
        assert_eq!(view.frame.width(), 4 * view.frame.height());
        assert_eq!(view.spot(Point::of(0, 50)), Spot { x: 20_000, y: 0 });
        assert_eq!(view.spot(Point::of(-200, -50)), Spot { x: 0, y: 10_000 });
        assert_eq!(view.times(view), 1);
    }
}
