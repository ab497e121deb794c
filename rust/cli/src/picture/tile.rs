//! The picture of a tile: all its lines on one page, each filled, with its way
//! and its key.

use super::discs::spot_of;
use super::frame::roomy;
use super::labels::BESIDE;
use super::layout::{fitted, page_of_one, words, Words};
use super::lines::{bodies, way};
use super::panel::place;
use super::pen::decimal;
use super::region::Loops;
use super::view::View;
use super::{bounds, title};
use crate::ranges::counted;
use crate::sheet::Sheet;
use std::iter::zip;

/// As many keys leave something of the tile to be seen.
const MOST_KEYS: usize = 120;

/// The picture of sheets, each with its key.
pub fn of_tile(sheets: &[(u32, Sheet)]) -> String {
    let frames = sheets
        .iter()
        .filter_map(|(_, sheet)| bounds::of_sheet(sheet));
    let page = page_of_one(roomy(bounds::together(frames), 20));
    let regions: Vec<Option<Loops>> = sheets.iter().map(|(_, sheet)| Loops::of(sheet)).collect();
    let open = regions.iter().filter(|region| region.is_none()).count();
    let words = Words {
        heading: words("title", 20, 34, &title::of_tile(sheets)),
        unfilled: (open > 0).then(|| title::of_unfilled_lines(open)),
        colours: "",
        edges: sheets.iter().map(|(_, sheet)| sheet.edge_count()).sum(),
    };
    let (panel, view) = page.whole;
    let ways: String = sheets.iter().map(|(_, sheet)| way(view, sheet)).collect();
    let keys = keys(view, sheets);
    fitted(&page, words, |tolerance| {
        let (lines, count) = lines(view, sheets, &regions, tolerance);
        let text = format!(
            "<svg{} class=\"fine\">\n{lines}<path class=\"way\" d=\"{ways}\"/>\n\
             <g class=\"numbers\">\n{keys}</g>\n</svg>\n",
            place(panel)
        );
        (text, count)
    })
}

/// The boundary of each sheet, which says what it is to who points at it, and how
/// many lines all have.
fn lines(
    view: View,
    sheets: &[(u32, Sheet)],
    regions: &[Option<Loops>],
    tolerance: i64,
) -> (String, usize) {
    let (mut text, mut count) = (String::new(), 0);
    for ((key, sheet), region) in zip(sheets, regions) {
        let (class, (data, lines)) = match region {
            Some(region) => ("edge region", region.drawn(view, tolerance)),
            None => {
                let all = vec![false; sheet.bodies().len()];
                ("edge", bodies(view, tolerance, sheet, &all, false))
            }
        };
        let vertices = counted(sheet.vertices().len(), "vertex", "vertices");
        text += &format!(
            "<path class=\"{class}\" d=\"{data}\"><title>key {key}, {vertices}</title></path>\n"
        );
        count += lines;
    }
    (text, count)
}

/// The keys of so many sheets as have room, each beside its sheet's first vertex.
fn keys(view: View, sheets: &[(u32, Sheet)]) -> String {
    let every = sheets.len().div_ceil(MOST_KEYS).max(1);
    let key = |(key, sheet): &(u32, Sheet)| {
        let spot = spot_of(view, sheet.vertices().first()?);
        let [x, y] = [spot.x + BESIDE, spot.y - BESIDE].map(decimal);
        Some(format!("<text x=\"{x}\" y=\"{y}\">{key}</text>\n"))
    };
    sheets.iter().step_by(every).filter_map(key).collect()
}

#[cfg(test)]
mod tests {
    use super::of_tile;
    use crate::calls;
    use crate::sheet::Sheet;

    #[test]
    fn every_line_is_on_the_page() {
        let sheet =
            |x| Sheet::sound(calls::keep(&[x, 0, 40, x + 100, 50, 20], 2).unwrap()).unwrap();
        let sheets: Vec<(u32, Sheet)> =
            (0..300).map(|key| (key as u32, sheet(200 * key))).collect();
        let picture = of_tile(&sheets);
        assert!(picture.contains(">300 lines, 600 vertices, "));
        assert_eq!(picture.matches("class=\"edge region\"").count(), 300);
        assert_eq!(picture.matches("</text>").count(), 1 + 100);
        assert!(picture.contains("<title>key 299, 2 vertices</title>"));
        assert!(of_tile(&[]).contains(">0 lines, 0 vertices, 0 edges<"));
    }
}
