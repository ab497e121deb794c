//! Document 02, request 10: "Side by side".
//!
//! "A reviewer has the sheet before an edit and the sheet after it, both lent."

use crate::calls::{kept, KeptPath, Part, Reply};
use crate::chains::walk;
use crate::outline::LEAST_BYTES;

/// The bytes of an edge: "edges of four words".
const EDGE_BYTES: u64 = 16;

/// "For a vertex number and a choice of sheet we want its body handed back as a
/// part of that sheet." The choice is the later sheet, or not. The number with 0
/// is the part's edges.
pub fn side(before: &[u8], after: &[u8], later: bool, vertex: usize) -> Part {
    match chosen(before, after, later) {
        Ok(sheet) => body(&sheet, vertex).unwrap_or_else(Part::refused),
        Err(refusal) => Part::refused(refusal),
    }
}

/// "Both outlines are checked and refused as in reading, without 5, the earlier
/// first." "Either sheet of kind 1 is 12, just before 9."
fn chosen(before: &[u8], after: &[u8], later: bool) -> Result<KeptPath, Reply> {
    let (before, after) = (kept(before)?, kept(after)?);
    let (before, after) = (before.path()?, after.path()?);
    Ok(if later { after } else { before })
}

/// "The closing body goes by the number n of the chosen sheet; above that, 9."
/// "An empty body is an empty part."
fn body(sheet: &KeptPath, vertex: usize) -> Result<Part, Reply> {
    let vertices = sheet.path.len();
    if vertex > vertices {
        return Err(Reply::new(9, vertex as u64));
    }
    let counts = walk(&sheet.path, sheet.grade).counts;
    let edges = |counts: &[u32]| counts.iter().map(|&count| count as u64).sum::<u64>();
    let front = LEAST_BYTES + 4 * sheet.edition.entry_words() * vertices;
    let number = edges(&counts[vertex..=vertex]);
    Ok(Part {
        reply: 0,
        number,
        offset: front as u64 + EDGE_BYTES * edges(&counts[..vertex]),
        length: EDGE_BYTES * number,
    })
}
