//! What is salvaged from a spoiled sheet, and what stood otherwise in it, in words.

use crate::calls;
use crate::changes::Changes;
use crate::destination::Destination;
use crate::failure::Failure;
use crate::ranges::counted;
use crate::report::some_bodies;
use crate::sheet::{Header, Sheet};
use crate::source::Source;
use clap::Args;
use sehmelir::{Difference, Differs};
use std::path::PathBuf;

/// What salvage takes.
#[derive(Args)]
pub struct Salvaging {
    /// The spoiled sheet, if not on standard input
    spoiled: Option<PathBuf>,
    #[command(flatten)]
    destination: Destination,
}

/// Writes the sound sheet, and then tells on standard error what stood otherwise.
pub fn run(asked: Salvaging) -> Result<(), Failure> {
    let salvaged = Source::named(asked.spoiled).take(|spoiled| calls::salvage(&spoiled))?;
    asked.destination.write(&salvaged.sheet)?;
    eprint!("{}", told(&salvaged));
    Ok(())
}

/// A sound sheet, and what stood otherwise in the spoiled one.
pub struct Salvaged {
    pub sheet: Vec<u8>,
    pub differences: Vec<Difference>,
}

impl Salvaged {
    /// How many vertices and edges it has.
    fn counts(&self) -> (usize, usize) {
        Header::of(&self.sheet).map_or((0, 0), |header| (header.vertices, header.edges))
    }

    /// One mark a body, the closing one among them: whether something differs there
    /// that is wanted.
    fn marks(&self, wanted: impl Fn(Differs) -> bool) -> Vec<bool> {
        let (vertices, _) = self.counts();
        let mut marks = vec![false; vertices + 1];
        for difference in &self.differences {
            match *difference {
                Difference::Vertex(vertex, differs) => marks[vertex] = wanted(differs),
                Difference::Closing(differs) => marks[vertices] = wanted(differs),
                Difference::Total => {}
            }
        }
        marks
    }
}

/// What is on the sheet, a line, and a line for each way in which bodies differed,
/// and for the total.
fn told(salvaged: &Salvaged) -> String {
    let (vertices, edges) = salvaged.counts();
    let vertices = counted(vertices, "vertex", "vertices");
    let edges = counted(edges, "edge", "edges");
    if salvaged.differences.is_empty() {
        return format!("salvaged: {vertices}, {edges}; nothing differed, the sheet was sound\n");
    }
    let mut lines = vec![format!("salvaged: {vertices}, {edges}")];
    for (differs, one, many) in [
        (
            Differs::Count,
            "body had another edge count",
            "bodies had other edge counts",
        ),
        (
            Differs::Edges,
            "body had other edges",
            "bodies had other edges",
        ),
        (
            Differs::Both,
            "body had another edge count and other edges",
            "bodies had other edge counts and other edges",
        ),
    ] {
        let marks = salvaged.marks(|other| other == differs);
        if marks.contains(&true) {
            lines.push(some_bodies(&marks, true, one, many));
        }
    }
    if salvaged.differences.contains(&Difference::Total) {
        lines.push("the header had another edge total".to_string());
    }
    lines.join("\n") + "\n"
}

/// A spoiled sheet beside the sound one that it is salvaged as, and what differs, if
/// that is the one.
pub fn beside(spoiled: Vec<u8>, sound: &Sheet) -> Option<(Sheet, Changes)> {
    let salvaged = calls::salvage(&spoiled).ok()?;
    if !sound.bytes().starts_with(&salvaged.sheet) {
        return None;
    }
    let vertices = sound.vertices().len();
    let changes = Changes {
        vertices: vec![false; vertices],
        numbers: vec![false; vertices],
        bodies: salvaged.marks(|_| true),
    };
    Some((Sheet::spoiled(spoiled, sound), changes))
}

#[cfg(test)]
mod tests {
    use super::{beside, told};
    use crate::calls;
    use crate::sheet::Sheet;

    /// A sheet with other words in these places, cut by so many bytes.
    fn spoiled(sheet: &[u8], words: &[(usize, u32)], cut: usize) -> Vec<u8> {
        let mut spoiled = sheet.to_vec();
        for (place, word) in words {
            spoiled[4 * place..4 * place + 4].copy_from_slice(&word.to_le_bytes());
        }
        spoiled.truncate(sheet.len() - cut);
        spoiled
    }

    fn hedge() -> Vec<u8> {
        calls::keep(&[0, 0, 5, 20, 0, 5, 40, 0, 5], 2).unwrap()
    }

    #[test]
    fn what_differed_is_told() {
        let told = |words: &[(usize, u32)], cut| {
            let salvaged = calls::salvage(&spoiled(&hedge(), words, cut)).unwrap();
            assert_eq!(salvaged.sheet, hedge());
            told(&salvaged)
        };
        assert_eq!(
            told(&[], 0),
            "salvaged: 3 vertices, 32 edges; nothing differed, the sheet was sound\n"
        );
        // the closing count, and no edge of body 2 nor of the closing one
        assert_eq!(
            told(&[(20, 1), (4, 0)], 16 * 23),
            "salvaged: 3 vertices, 32 edges\n1 body had other edges: 2\n\
             1 body had another edge count and other edges: closing\n\
             the header had another edge total\n"
        );
        assert_eq!(
            told(&[(9, 9), (14, 0)], 0),
            "salvaged: 3 vertices, 32 edges\n2 bodies had other edge counts: 0 to 1\n"
        );
    }

    #[test]
    fn a_spoiled_sheet_stands_beside_its_own_alone() {
        let sound = Sheet::sound(hedge()).unwrap();
        let (before, changes) = beside(spoiled(&hedge(), &[(14, 20)], 16), &sound).unwrap();
        assert_eq!(changes.bodies, [false, true, true, true]);
        // what the old counts say, as far as the bytes go
        assert_eq!(before.bodies(), [0..0, 0..20, 20..31, 31..31]);
        assert_eq!(before.vertices(), sound.vertices());
        let other = calls::keep(&[0, 0, 5, 20, 0, 5, 40, 0, 6], 2).unwrap();
        assert!(beside(other, &sound).is_none());
        assert!(beside(vec![0; 23], &sound).is_none());
    }
}
