//! One path on both sides.

use crate::text::Text;
use against::labels::{labelled, Kind};
use against::radii::as_far_out;
use against::runs::{collapsed, collapsed_by_kind};
use plain::arcs::Edge;

/// What a path shows.
#[derive(Clone, Copy, Debug, PartialEq, Eq)]
pub enum Verdict {
    Agree,
    /// The collapsed edges are not the same.
    Edges,
    /// The collapsed edges are the same, but not the kinds of their edges.
    Kinds,
    /// The kinds are the same too, but a point inside an arc of the text lies
    /// nearer or farther than the arc's start contact.
    Radii,
}

/// What collapsed edges must not depend on.
#[derive(Clone, Copy, Debug, PartialEq, Eq)]
pub struct Setting {
    /// Plain's grade.
    pub grade: u32,
    /// Which of the text's step angles.
    pub step: usize,
    /// Whether the text's widths are odd.
    pub odd: bool,
}

impl Setting {
    pub const COARSE: Setting = Setting {
        grade: 1,
        step: 0,
        odd: false,
    };

    /// The setting that a number picks: mostly a coarse one, which is quick.
    pub fn of(number: u64) -> Setting {
        let number = number / 16;
        Setting {
            grade: match number % 64 {
                few @ 0..8 => 8 - few as u32,
                8..14 => 2,
                _ => 1,
            },
            step: match number % 61 {
                few @ 0..12 => few as usize % Text::STEPS,
                _ => 0,
            },
            odd: number % 2 == 1,
        }
    }
}

/// A path on both sides.
pub struct Trial {
    pub plain: Vec<(Edge, Kind)>,
    pub text: Vec<(Edge, Kind)>,
    pub set_aside: bool,
    pub as_far_out: bool,
}

impl Trial {
    pub fn new(text: &mut Text, path: &[[i32; 3]], setting: Setting) -> Trial {
        let labelled = labelled(path, setting.grade);
        let text = text.edges(path, setting.step, setting.odd);
        Trial {
            set_aside: labelled.set_aside(),
            as_far_out: as_far_out(&text, &labelled),
            plain: labelled.edges,
            text,
        }
    }

    pub fn verdict(&self) -> Verdict {
        if collapsed(&self.plain) != collapsed(&self.text) {
            Verdict::Edges
        } else if collapsed_by_kind(&self.plain) != collapsed_by_kind(&self.text) {
            Verdict::Kinds
        } else if !self.as_far_out {
            Verdict::Radii
        } else {
            Verdict::Agree
        }
    }
}
