//! Whether all that the cases of the calls draw is balanced, as document 02's
//! request 12 says, and how many rotations their arcs take.

use plain::calls::{draw, draw_kerb, read};
use plain::closing::{unbalanced, watched, Watched};
use plain::contacts::Vertex;
use plain::kerbs::{self, Style, StyleWords};
use plain::numbers::Point;
use plain::outline::KERB;
use std::fmt;

/// What was counted so far.
#[derive(Default)]
pub struct Tally {
    drawings: usize,
    kerbs: usize,
    edges: usize,
    stray: usize,
    stray_unbalanced: usize,
    /// The most rotations of an arc, by grade.
    rotations: [usize; 8],
}

/// A line as lent numbers, its grade and, of a kerb, its style.
struct Line {
    numbers: Vec<i32>,
    grade: u32,
    style: Option<StyleWords>,
}

impl Line {
    fn path(numbers: &[i128], grade: i128) -> Line {
        Line {
            numbers: numbers.iter().map(|&number| number as i32).collect(),
            grade: grade as u32,
            style: None,
        }
    }

    /// The line of a store that is read.
    fn kept(store: &[i128]) -> Option<Line> {
        let store: Vec<u8> = store.iter().map(|&byte| byte as u8).collect();
        let mut numbers = vec![0; store.len()];
        let reply = read(&store, &mut numbers);
        let (each, style) = match reply.kind {
            KERB => (2, Some(reply.style)),
            _ => (3, None),
        };
        numbers.truncate(each * reply.number as usize);
        (reply.reply == 0).then_some(Line {
            numbers,
            grade: reply.grade,
            style,
        })
    }

    /// The path with another vertex, if it has one of that index.
    fn replaced(&self, index: i128, vertex: [i128; 3]) -> Option<Line> {
        let at = usize::try_from(index).ok()?.checked_mul(3)?;
        let mut numbers = self.numbers.clone();
        let place = numbers.get_mut(at..)?.get_mut(..3)?;
        place.copy_from_slice(&vertex.map(|number| number as i32));
        self.style.is_none().then_some(Line { numbers, ..*self })
    }

    /// Whether it is drawn, in whatever room. Outlines of grade 1 were drawn once,
    /// and stand in stores.
    fn accepted(&self) -> bool {
        let grade = if self.grade == 1 { 2 } else { self.grade };
        let reply = match self.style {
            None => draw(&self.numbers, grade, &mut []),
            Some(style) => draw_kerb(&self.numbers, grade, style, &mut []),
        };
        matches!(reply.reply, 0 | 5)
    }

    /// What is drawn of it. A kerb has no arc with an end at its centre, and its
    /// rotations are not counted.
    fn watched(&self) -> Watched {
        let number = |place: usize| self.numbers[place] as i64;
        let Some(Ok(style)) = self.style.map(Style::of) else {
            let vertex = |at| Vertex::new(number(at), number(at + 1), number(at + 2));
            let path: Vec<Vertex> = (0..self.numbers.len()).step_by(3).map(vertex).collect();
            return watched(&path, self.grade);
        };
        let point = |at| Point::new(number(at), number(at + 1));
        let points: Vec<Point> = (0..self.numbers.len()).step_by(2).map(point).collect();
        Watched {
            edges: kerbs::walk(&points, self.grade, style).edges,
            ..Watched::default()
        }
    }
}

/// The lines that a case may draw, or nothing if it is no case: those of the
/// calls, and `6 grade radius join closed n` and the numbers of a kerb.
fn lines(case: &[i128]) -> Option<Vec<Line>> {
    let mut lines = Vec::new();
    match *case {
        [1 | 2, grade, _, _, ref numbers @ ..] => lines.push(Line::path(numbers, grade)),
        [3, _, _, ref store @ ..] => lines.extend(Line::kept(store)),
        [4, index, x, y, radius, _, ref store @ ..] => {
            let before = Line::kept(store);
            let after = before.as_ref();
            lines.extend(after.and_then(|line| line.replaced(index, [x, y, radius])));
            lines.extend(before);
        }
        [5, grade, _, _, _, index, x, y, radius, _, ref numbers @ ..] => {
            let before = Line::path(numbers, grade);
            lines.extend(before.replaced(index, [x, y, radius]));
            lines.push(before);
        }
        [6, grade, radius, join, closed, _, ref numbers @ ..] => lines.push(Line {
            style: Some([radius, join, closed].map(|word| word as u32)),
            ..Line::path(numbers, grade)
        }),
        _ => return None,
    }
    Some(lines)
}

impl Tally {
    /// Counts what a case draws, or says why it must not be.
    pub fn count(&mut self, case: &[i128]) -> Result<(), String> {
        let lines = lines(case).ok_or("it is no case")?;
        for line in lines.iter().filter(|line| line.accepted()) {
            self.draw(line)?;
        }
        Ok(())
    }

    fn draw(&mut self, line: &Line) -> Result<(), String> {
        let Watched {
            edges,
            stray,
            rotations,
        } = line.watched();
        let open = unbalanced(&edges);
        self.drawings += 1;
        self.kerbs += line.style.is_some() as usize;
        self.edges += edges.len();
        self.stray += stray as usize;
        self.stray_unbalanced += (stray && open.is_some()) as usize;
        let most = &mut self.rotations[line.grade as usize - 1];
        *most = rotations.max(*most);
        match open {
            Some([x, y]) if !stray => {
                let Line {
                    numbers,
                    grade,
                    style,
                } = line;
                Err(format!(
                    "{numbers:?} {style:?} at grade {grade} is not balanced at {x} {y}, and no join's arc has one end at the centre and one elsewhere"
                ))
            }
            _ => Ok(()),
        }
    }
}

impl fmt::Display for Tally {
    fn fmt(&self, out: &mut fmt::Formatter) -> fmt::Result {
        let closed = self.drawings - self.stray;
        writeln!(
            out,
            "{} drawings of {} edges, {} of them kerbs: {closed} without the exception, all balanced; {} with it, {} of them not balanced",
            self.drawings, self.edges, self.kerbs, self.stray, self.stray_unbalanced
        )?;
        let most = self.rotations.map(|count| count.to_string());
        write!(
            out,
            "most rotations of an arc, grades 1 to 8: {}",
            most.join(", ")
        )
    }
}

#[cfg(test)]
mod tests {
    use super::*;

    #[test]
    fn each_case_is_counted_with_what_it_draws() {
        let mut tally = Tally::default();
        tally.count(&[1, 1, 0, 3, 0, 0, 10]).unwrap();
        assert_eq!((tally.drawings, tally.edges), (1, 8));
        tally.count(&[2, 9, 0, 3, 0, 0, 10]).unwrap();
        tally.count(&[3, 0, 0]).unwrap();
        assert_eq!(tally.drawings, 1);
        tally
            .count(&[5, 1, 0, 0, 0, 0, 0, 0, 2, 3, 0, 0, 10])
            .unwrap();
        assert_eq!((tally.drawings, tally.edges), (3, 24));
        tally
            .count(&[5, 1, 0, 0, 0, 1, 0, 0, 2, 3, 0, 0, 10])
            .unwrap();
        assert_eq!(tally.drawings, 4);
        assert_eq!(tally.rotations, [3, 0, 0, 0, 0, 0, 0, 0]);
        let kerb = [6, 2, 5, 1, 1, 6, 0, 0, 20, 0, 9, 30];
        tally.count(&kerb).unwrap();
        assert_eq!((tally.drawings, tally.kerbs), (5, 1));
        assert!(tally.count(&[7]).is_err());
    }
}
