//! The numbers of the vertices: as many as do not crowd, the first, the last
//! and the changed ones always.

use super::discs::{is_seen, spot_of};
use super::pen::decimal;
use super::view::{Spot, View};
use crate::changes::first_marked;
use crate::sheet::Sheet;

/// What a number needs along the path on average, in hundredths of the page's
/// unit.
const ROOM: i64 = 3600;

/// About as many numbers at most leave something of the sheet to be seen, where
/// its path goes to and fro over the page.
const MOST: i64 = 120;

/// A number stands so far to the right of its dot and above it, in hundredths.
pub const BESIDE: i64 = 500;

/// Which numbers are shown: every 1st, 2nd, 5th, 10th, 20th and so on, the
/// first of these that leaves room.
pub fn every(view: View, sheet: &Sheet) -> usize {
    let steps = sheet.vertices().windows(2);
    let seen = steps.filter(|step| is_seen(view, &step[1]));
    let lengths = seen.map(|step| apart(spot_of(view, &step[0]), spot_of(view, &step[1])));
    let (count, length) = lengths.fold((0, 0), |(count, sum), length| (count + 1, sum + length));
    let rounds = (0..4).flat_map(|power| [1, 2, 5].map(|digit| digit * 10i64.pow(power)));
    let roomy = |every: &i64| ROOM * count <= length * every && count <= MOST * every;
    rounds.into_iter().find(roomy).unwrap_or(10_000) as usize
}

/// How far two places are apart, across or down, whichever is more.
fn apart(a: Spot, b: Spot) -> i64 {
    (a.x - b.x).abs().max((a.y - b.y).abs())
}

/// Each number that is shown.
pub fn labels(view: View, sheet: &Sheet, marks: &[bool], every: usize) -> String {
    let shown = |(place, vertex): &(usize, &[i32; 3])| {
        is_labelled(marks, *place, every) && is_seen(view, vertex)
    };
    let label = |(place, vertex): (usize, &[i32; 3])| {
        let spot = spot_of(view, vertex);
        let class = if marks[place] { "class=\"moved\" " } else { "" };
        let [x, y] = [spot.x + BESIDE, spot.y - BESIDE].map(decimal);
        format!("<text {class}x=\"{x}\" y=\"{y}\">{place}</text>\n")
    };
    let vertices = sheet.vertices().iter().enumerate();
    vertices.filter(shown).map(label).collect()
}

/// Whether a vertex has its number shown. A changed one keeps others off, and
/// so does the last.
fn is_labelled(marks: &[bool], place: usize, every: usize) -> bool {
    if marks[place] || place == 0 || place + 1 == marks.len() {
        return true;
    }
    let (from, to) = ((place + 1).saturating_sub(every), place + every);
    let near = first_marked(marks, from).is_some_and(|changed| changed < to);
    place.is_multiple_of(every) && to < marks.len() && !near
}

#[cfg(test)]
mod tests {
    use super::is_labelled;

    fn labelled(marks: &[bool], every: usize) -> Vec<usize> {
        let shown = |&place: &usize| is_labelled(marks, place, every);
        (0..marks.len()).filter(shown).collect()
    }

    #[test]
    fn first_last_and_changed_ones_are_shown() {
        let mut marks = [false; 100];
        assert_eq!(labelled(&marks[..23], 10), [0, 10, 22]);
        marks[47] = true;
        assert_eq!(labelled(&marks, 10), [0, 10, 20, 30, 47, 60, 70, 80, 99]);
        assert_eq!(labelled(&marks[..2], 1), [0, 1]);
    }
}
