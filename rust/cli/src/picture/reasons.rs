//! Edges in colours, by why they are there, and the legend that names them.

use super::frame::Point;
use super::pen::Pen;
use super::view::View;
use super::Shown;
use crate::ranges::number;
use sehmelir::Reason;
use std::iter::zip;

/// The colours, one for each reason.
pub const STYLE: &str = include_str!("reasons.css");

/// What a name of the legend may take, and where its rows stand.
const WIDEST: i64 = 160;
const ROWS: [i64; 2] = [42, 56];

/// A page narrower than that has its legend in two rows.
const NARROW: i64 = 800;

/// The data of SVG paths, each with its class and how many lines it has: what is
/// filled, where the boundary closes, and the edges of each reason.
pub fn paths(
    view: View,
    shown: Shown,
    told: &[Reason],
    tolerance: i64,
) -> Vec<(&'static str, (String, usize))> {
    let mut pens = Reason::ALL.map(|_| Pen::new(view, tolerance));
    let edges = shown.after.edges(0..shown.after.edge_count());
    for ([ax, ay, bx, by], reason) in zip(edges, told) {
        pens[reason.number()].line(Point::of(ax, ay), Point::of(bx, by));
    }
    let filled = shown.region.map(|region| region.drawn(view, tolerance));
    let edges = zip(Reason::ALL, pens).map(|(reason, pen)| (reason.word(), pen.finish()));
    let paths = filled.map(|data| ("region", data)).into_iter().chain(edges);
    paths.filter(|(_, (_, lines))| *lines > 0).collect()
}

/// The names of the reasons that are there, each after its colour and with how
/// many edges it has, on a page of that width.
pub fn legend(wide: i64, told: &[Reason]) -> String {
    let counted =
        Reason::ALL.map(|reason| (reason, told.iter().filter(|&&of| of == reason).count()));
    let there: Vec<_> = counted.iter().filter(|(_, count)| *count > 0).collect();
    let rows = if wide < NARROW { 2 } else { 1 };
    let columns = there.len().div_ceil(rows).max(1);
    let apart = ((wide - 40) / columns as i64).min(WIDEST);
    let name = |(place, (reason, count)): (usize, &&(Reason, usize))| {
        let (x, y) = (20 + apart * (place % columns) as i64, ROWS[place / columns]);
        format!(
            "<path class=\"{reason}\" d=\"M{x} {}h10\"/><text x=\"{}\" y=\"{y}\">{reason} {}</text>\n",
            y - 4,
            x + 14,
            number(*count)
        )
    };
    let names: String = there.iter().enumerate().map(name).collect();
    format!("<g class=\"legend\">\n{names}</g>\n")
}

#[cfg(test)]
mod tests {
    use super::{legend, STYLE};
    use sehmelir::Reason;

    #[test]
    fn each_reason_has_its_colour() {
        for reason in Reason::ALL {
            assert!(STYLE.contains(&format!(".{reason}{{stroke:#")));
        }
    }

    #[test]
    fn what_is_there_is_named() {
        let told = [Reason::Circle, Reason::Gap, Reason::Circle];
        let wide = legend(1000, &told);
        assert!(wide.contains(">gap 1</text>") && wide.contains(">circle 2</text>"));
        assert!(!wide.contains("cap"));
        assert_eq!(wide.matches("y=\"42\"").count(), 2);
        let narrow = legend(707, &Reason::ALL);
        assert_eq!(narrow.matches("y=\"42\"").count(), 4);
        assert_eq!(narrow.matches("y=\"56\"").count(), 4);
        assert_eq!(legend(1000, &[]), "<g class=\"legend\">\n</g>\n");
    }
}
