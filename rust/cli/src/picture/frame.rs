//! Frames: upright rectangles on a sheet. They count in 256ths of a coordinate,
//! or a frame about a single point would have no shape.

/// The parts of a coordinate that frames count in.
const FINE: i64 = 256;

/// A coordinate or a length of a sheet, as frames count.
pub fn fine(number: i32) -> i64 {
    FINE * i64::from(number)
}

/// A point of a sheet, as frames count.
#[derive(Clone, Copy, PartialEq)]
pub struct Point {
    pub x: i64,
    pub y: i64,
}

impl Point {
    /// The point of two coordinates.
    pub fn of(x: i32, y: i32) -> Point {
        Point {
            x: fine(x),
            y: fine(y),
        }
    }
}

/// A frame's sides.
#[derive(Clone, Copy)]
pub struct Frame {
    pub left: i64,
    pub right: i64,
    pub low: i64,
    pub high: i64,
}

impl Frame {
    /// The frame about a disc, or about a point, whose radius is 0.
    pub fn about(centre: Point, radius: i64) -> Frame {
        Frame {
            left: centre.x - radius,
            right: centre.x + radius,
            low: centre.y - radius,
            high: centre.y + radius,
        }
    }

    /// The least frame that holds this one and another.
    pub fn and(self, other: Frame) -> Frame {
        Frame {
            left: self.left.min(other.left),
            right: self.right.max(other.right),
            low: self.low.min(other.low),
            high: self.high.max(other.high),
        }
    }

    /// The frame with so much more on the left and right, and above and below.
    pub fn widened(self, across: i64, upwards: i64) -> Frame {
        Frame {
            left: self.left - across,
            right: self.right + across,
            low: self.low - upwards,
            high: self.high + upwards,
        }
    }

    pub fn width(self) -> i64 {
        self.right - self.left
    }

    pub fn height(self) -> i64 {
        self.high - self.low
    }

    /// The larger of width and height.
    pub fn side(self) -> i64 {
        self.width().max(self.height())
    }

    /// Whether it is higher than wide.
    pub fn is_upright(self) -> bool {
        self.width() < self.height()
    }

    /// Whether two frames have a point in common.
    pub fn meets(self, other: Frame) -> bool {
        self.left <= other.right
            && other.left <= self.right
            && self.low <= other.high
            && other.low <= self.high
    }
}

/// A frame with room about it: a part of its larger side, and one coordinate.
/// Where there is nothing to be framed, it stands about the middle.
pub fn roomy(frame: Option<Frame>, part: i64) -> Frame {
    let Some(frame) = frame else {
        return Frame::about(Point::of(0, 0), FINE);
    };
    let more = frame.side() / part + FINE;
    frame.widened(more, more)
}

#[cfg(test)]
mod tests {
    use super::{roomy, Frame, Point};

    #[test]
    fn a_frame_holds_what_it_was_made_of() {
        let disc = Frame::about(Point::of(10, 0), 256 * 4);
        let point = Frame::about(Point::of(0, -2), 0);
        let both = disc.and(point);
        assert_eq!([both.left, both.right], [0, 256 * 14]);
        assert_eq!([both.low, both.high], [-256 * 4, 256 * 4]);
        assert!(both.meets(point) && both.meets(disc) && !point.meets(disc));
        assert!(!both.is_upright());
    }

    #[test]
    fn there_is_always_room() {
        assert_eq!(roomy(None, 20).side(), 512);
        let point = Frame::about(Point::of(7, 7), 0);
        assert_eq!(roomy(Some(point), 20).side(), 512);
        let wide = Frame::about(Point::of(0, 0), 2560);
        assert_eq!(roomy(Some(wide), 20).side(), 5120 + 2 * (256 + 256));
    }
}
