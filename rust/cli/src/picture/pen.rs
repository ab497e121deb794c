//! The pen: writes the lines of an SVG path, each from where the last one ended
//! if it goes on there, and leaves out what nobody would see.

use super::bounds::of_line;
use super::frame::Point;
use super::shortcut::Shortcut;
use super::view::{Spot, View};

/// A pen over a view. Where points are left out, the line is true to its
/// tolerance, in hundredths; with a tolerance of 0 it goes through every place
/// that hundredths tell apart.
pub struct Pen {
    view: View,
    tolerance: i64,
    text: String,
    lines: usize,
    /// The run at work, and the point of the sheet where its last line ends.
    run: Option<(Run, Point)>,
}

/// Lines that go on from one another: where the last one that is written ended,
/// and the place to go to next.
struct Run {
    at: Spot,
    next: Spot,
    shortcut: Shortcut,
}

impl Pen {
    /// A pen that has drawn nothing.
    pub fn new(view: View, tolerance: i64) -> Pen {
        Pen {
            view,
            tolerance,
            text: String::new(),
            lines: 0,
            run: None,
        }
    }

    /// Draws a line, if the view shows something of it.
    pub fn line(&mut self, start: Point, end: Point) {
        if self.view.shows(of_line(start, end)) {
            self.line_anywhere(start, end);
        }
    }

    /// Draws a line, to be seen or not.
    pub fn line_anywhere(&mut self, start: Point, end: Point) {
        let to = self.view.spot(end);
        let run = match self.run.take() {
            Some((run, at)) if at == start => self.go_on(run, to),
            ended => {
                self.end(ended);
                self.begin(self.view.spot(start), to)
            }
        };
        self.run = Some((run, end));
    }

    /// What was written, and how many lines that is.
    pub fn finish(mut self) -> (String, usize) {
        let ended = self.run.take();
        self.end(ended);
        (self.text, self.lines)
    }

    /// A run that starts at a place.
    fn begin(&mut self, at: Spot, to: Spot) -> Run {
        self.text.push('M');
        push_decimal(&mut self.text, at.x);
        push_spaced(&mut self.text, at.y);
        self.text.push('l');
        self.turned(at, to)
    }

    /// The run after a line to a place; one that is no other writes nothing.
    fn go_on(&mut self, mut run: Run, to: Spot) -> Run {
        if run.next == to {
            return run;
        }
        if run.shortcut.passes(to) {
            return Run { next: to, ..run };
        }
        self.go(run.at, run.next);
        self.turned(run.next, to)
    }

    /// A run that takes a direction from a place where a line ended.
    fn turned(&self, at: Spot, to: Spot) -> Run {
        let mut shortcut = Shortcut::new(at, self.tolerance);
        shortcut.passes(to);
        Run {
            at,
            next: to,
            shortcut,
        }
    }

    /// Writes what is left of a run, if there is one.
    fn end(&mut self, run: Option<(Run, Point)>) {
        if let Some((run, _)) = run {
            self.go(run.at, run.next);
        }
    }

    /// Writes a line, by how far it goes.
    fn go(&mut self, from: Spot, to: Spot) {
        push_spaced(&mut self.text, to.x - from.x);
        push_spaced(&mut self.text, to.y - from.y);
        self.lines += 1;
    }
}

/// Hundredths as a decimal number, without needless digits.
pub fn push_decimal(text: &mut String, hundredths: i64) {
    if hundredths < 0 {
        text.push('-');
    }
    let (whole, rest) = (hundredths.abs() / 100, hundredths.abs() % 100);
    if whole > 0 || rest == 0 {
        text.push_str(&whole.to_string());
    }
    if rest > 0 {
        text.push('.');
        text.push(digit(rest / 10));
    }
    if rest % 10 > 0 {
        text.push(digit(rest % 10));
    }
}

/// The same after a space, which a minus makes needless.
fn push_spaced(text: &mut String, hundredths: i64) {
    if hundredths >= 0 {
        text.push(' ');
    }
    push_decimal(text, hundredths);
}

/// Hundredths as a decimal number.
pub fn decimal(hundredths: i64) -> String {
    let mut text = String::new();
    push_decimal(&mut text, hundredths);
    text
}

/// A digit below ten.
fn digit(value: i64) -> char {
    char::from(b'0' + value as u8)
}

#[cfg(test)]
mod tests {
    use super::{decimal, Pen};
    use crate::picture::frame::{Frame, Point};
    use crate::picture::view::{Panel, View};

    fn pen(tolerance: i64) -> Pen {
        let panel = Panel {
            x: 0,
            y: 0,
            wide: 100,
            tall: 100,
        };
        let frame = Frame::about(Point::of(0, 0), 256 * 50);
        Pen::new(View::of(frame, panel), tolerance)
    }

    #[test]
    fn decimals_are_short() {
        let told = [0, 5, 50, 123, 1000, -40, -307].map(decimal);
        assert_eq!(told, ["0", ".05", ".5", "1.23", "10", "-.4", "-3.07"]);
    }

    #[test]
    fn lines_that_go_on_are_one_run() {
        let mut pen = pen(0);
        let points = [(0, 0), (10, 0), (10, 5)].map(|(x, y)| Point::of(x, y));
        pen.line(points[0], points[1]);
        pen.line(points[1], points[2]);
        pen.line(points[0], points[2]);
        let due = "M50 50l 10 0 0-5M50 50l 10-5".to_string();
        assert_eq!(pen.finish(), (due, 3));
    }

    #[test]
    fn what_lies_outside_is_left_out() {
        let mut pen = pen(0);
        pen.line(Point::of(60, 60), Point::of(70, 60));
        assert_eq!(pen.finish(), (String::new(), 0));
    }

    #[test]
    fn points_between_are_left_out_within_the_tolerance() {
        let mut pen = pen(200);
        for x in 0..40 {
            pen.line(Point::of(x, x % 2), Point::of(x + 1, (x + 1) % 2));
        }
        pen.line(Point::of(40, 0), Point::of(40, 30));
        assert_eq!(pen.finish(), ("M50 50l 40 0 0-30".to_string(), 2));
    }
}
