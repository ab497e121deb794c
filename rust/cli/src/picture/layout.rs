//! The page: where its panels stand, and all that it shows.

use super::frame::{roomy, Frame};
use super::region::Loops;
use super::view::{Panel, View};
use super::{bounds, panel, reasons, title, Shown};
use crate::changes::Changes;
use crate::sheet::Sheet;
use sehmelir::Reason;
use std::iter::zip;

const STYLE: &str = include_str!("style.css");

/// How far a line may be off, in hundredths of the page's unit, and how many
/// lines there may then be: each pen is tried until its lines are few enough,
/// and none is coarser than the last. As many lines take some 2.5 MB.
const PENS: [(i64, usize); 6] = [
    (0, 60_000),
    (5, MOST_LINES),
    (10, MOST_LINES),
    (20, MOST_LINES),
    (40, MOST_LINES),
    (80, usize::MAX),
];

const MOST_LINES: usize = 200_000;

/// A page's sides and its panels: one for the whole sheet, and one for the part
/// that is enlarged, if there is one.
pub struct Page {
    wide: i64,
    tall: i64,
    pub whole: (Panel, View),
    part: Option<(Panel, View)>,
}

/// What a page has beside its panels.
pub struct Words {
    pub heading: String,
    /// What is said where the region is not filled.
    pub unfilled: Option<String>,
    pub colours: &'static str,
    /// How many edges there are, of which the page may show fewer lines.
    pub edges: usize,
}

/// The picture of one sheet.
pub fn of_one(sheet: &Sheet) -> String {
    let heading = words("title", 20, 34, &title::of_one(sheet));
    alone(sheet, None, |_| heading)
}

/// The picture of one sheet with its edges in colours, by why they are there.
pub fn of_reasons(sheet: &Sheet, told: &[Reason]) -> String {
    let heading = words("title", 20, 24, &title::of_one(sheet));
    alone(sheet, Some(told), |page| {
        heading + &reasons::legend(page.wide, told)
    })
}

/// The picture of one sheet, with a heading that fits its page.
fn alone(
    sheet: &Sheet,
    reasons: Option<&[Reason]>,
    heading: impl FnOnce(&Page) -> String,
) -> String {
    let changes = Changes {
        vertices: vec![false; sheet.vertices().len()],
        numbers: vec![],
        bodies: vec![false; sheet.bodies().len()],
    };
    let region = Loops::of(sheet);
    let shown = Shown {
        before: sheet,
        after: sheet,
        changes: &changes,
        region: region.as_ref(),
        reasons,
    };
    let page = page_of_one(frame_of(shown));
    let heading = heading(&page);
    of_shown(&page, shown, heading)
}

/// The picture of two sheets with as many vertices, and of what differs.
pub fn of_two(before: &Sheet, after: &Sheet, changes: &Changes) -> String {
    let region = Loops::of(after);
    let shown = Shown {
        before,
        after,
        changes,
        region: region.as_ref(),
        reasons: None,
    };
    let heading = words("title", 20, 28, &title::of_two(before, after))
        + &words("told", 20, 48, &title::of_changes(shown));
    let frame = frame_of(shown);
    let part = roomy(bounds::of_changed(shown), 2);
    let page = if shown.any_changed() && part.side() < frame.side() / 3 {
        page_of_two(frame, part)
    } else {
        page_of_one(frame)
    };
    of_shown(&page, shown, heading)
}

/// A page of one sheet or of two.
fn of_shown(page: &Page, shown: Shown, heading: String) -> String {
    let words = Words {
        heading,
        unfilled: shown.region.is_none().then(title::of_unfilled),
        colours: shown.reasons.map_or("", |_| reasons::STYLE),
        edges: shown.after.edge_count(),
    };
    fitted(page, words, |tolerance| drawn(page, shown, tolerance))
}

/// The frame of all that is shown, with a margin.
fn frame_of(shown: Shown) -> Frame {
    roomy(bounds::of_all(shown), 20)
}

/// A page for one panel, upright or not.
pub fn page_of_one(frame: Frame) -> Page {
    let (wide, tall) = if frame.is_upright() {
        (707, 1000)
    } else {
        (1000, 707)
    };
    let whole = Panel {
        x: 20,
        y: 60,
        wide: wide - 40,
        tall: tall - 80,
    };
    Page {
        wide,
        tall,
        whole: (whole, View::of(frame, whole)),
        part: None,
    }
}

/// A page for two panels, side by side where the sheet is upright, else one
/// below the other.
fn page_of_two(frame: Frame, changed: Frame) -> Page {
    let (x, y) = (20, 60);
    let panel = |x, y, wide, tall| Panel { x, y, wide, tall };
    let (whole, part) = if frame.is_upright() {
        (panel(x, y, 470, 920), panel(510, y, 470, 920))
    } else {
        (panel(x, y, 960, 560), panel(x, 640, 960, 340))
    };
    Page {
        wide: 1000,
        tall: 1000,
        whole: (whole, View::of(frame, whole)),
        part: Some((part, View::of(changed, part))),
    }
}

/// The page drawn with the finest pen that keeps its lines few enough. Notes
/// say what is not as it might be: points left out, a region not filled.
pub fn fitted(page: &Page, words: Words, draw: impl Fn(i64) -> (String, usize)) -> String {
    let Words {
        heading,
        unfilled,
        colours,
        edges,
    } = words;
    let mut panels = String::new();
    let mut shortcuts = None;
    for (tolerance, most) in PENS {
        let (text, lines) = draw(tolerance);
        panels = text;
        if tolerance > 0 {
            shortcuts = Some(title::of_shortcuts(edges, tolerance, lines));
        }
        if lines <= most {
            break;
        }
    }
    let notes = notes(page, [shortcuts, unfilled]);
    let Page { wide, tall, .. } = page;
    format!(
        "<svg xmlns=\"http://www.w3.org/2000/svg\" viewBox=\"0 0 {wide} {tall}\" \
         width=\"{wide}\" height=\"{tall}\">\n<style>\n{STYLE}{colours}</style>\n\
         <rect width=\"100%\" height=\"100%\" fill=\"#fff\"/>\n{heading}{panels}{notes}</svg>\n"
    )
}

/// Notes at the foot of the page, one above the other.
fn notes(page: &Page, notes: [Option<String>; 2]) -> String {
    let feet = [page.tall - 6, page.tall - 20].into_iter();
    let note = |(told, foot): (String, i64)| words("note", 20, foot, &told);
    zip(notes.into_iter().flatten(), feet).map(note).collect()
}

/// A page's panels, and how many lines their edges have.
fn drawn(page: &Page, shown: Shown, tolerance: i64) -> (String, usize) {
    let (panel, all) = page.whole;
    let (whole, lines) = panel::begin(panel, all, shown, tolerance);
    let Some((place, view)) = page.part else {
        return (whole + "</svg>\n", lines);
    };
    let (part, more) = panel::begin(place, view, shown, tolerance);
    let told = title::of_part(view.times(all));
    let text = [
        whole,
        panel::mark(all, view.frame),
        "</svg>\n".to_string(),
        part,
        words("told", 10, 20, &told),
        "</svg>\n".to_string(),
        panel::border(place),
    ];
    (text.concat(), lines + more)
}

/// A line of words.
pub fn words(class: &str, x: i64, y: i64, told: &str) -> String {
    format!("<text class=\"{class}\" x=\"{x}\" y=\"{y}\">{told}</text>\n")
}

#[cfg(test)]
mod tests {
    use super::{of_one, MOST_LINES};
    use crate::calls;
    use crate::sheet::Sheet;

    /// Wide circles far apart.
    fn beads(count: i32) -> Sheet {
        let path: Vec<[i32; 3]> = (0..count).map(|i| [i * 1_000, 0, 400 - i % 7]).collect();
        Sheet::sound(calls::keep(path.as_flattened(), 8).unwrap()).unwrap()
    }

    #[test]
    fn a_small_sheet_is_drawn_as_it_stands() {
        let picture = of_one(&beads(10));
        assert!(picture.contains("<text class=\"title\" x=\"20\" y=\"34\">10 vertices, "));
        assert!(!picture.contains("no finer"));
    }

    #[test]
    fn a_large_one_says_what_it_leaves_out() {
        let sheet = beads(4096);
        assert!(sheet.edge_count() > MOST_LINES);
        let picture = of_one(&sheet);
        assert!(picture.contains("drawn no finer than the page can show"));
        assert!(picture.len() < 3_000_000);
    }
}
