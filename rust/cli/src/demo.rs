//! The demo: the hedge kept, a gate post moved, what that changed, and the
//! picture of it. Its files are held here, so that it runs in any folder.

use crate::calls;
use crate::changes::Changes;
use crate::destination::Destination;
use crate::failure::Failure;
use crate::path_text::path;
use crate::picture;
use crate::report;
use crate::sheet::Sheet;
use crate::words::whole;

const HEDGE: &[u8] = include_bytes!("../../../demo/hedge.txt");

/// A vertex's number, and where it stands then.
const GATE_POST: &str = include_str!("../../../demo/gate-post.txt");

const GRADE: u32 = 4;

const PICTURE: &str = "hedge.svg";

/// Writes the picture here, and what changed to standard output.
pub fn run() -> Result<(), Failure> {
    let (index, vertex) = gate_post().ok_or(Failure::Words("demo/gate-post.txt is no vertex"))?;
    let hedge = calls::keep_records(&path(HEDGE)?, GRADE)?;
    let before = Sheet::sound(hedge.clone())?;
    let after = Sheet::sound(calls::replace(hedge, index, vertex)?)?;
    let told = report::of(&before, &after)?;
    let changes = Changes::between(&before, &after)?;
    let shown = picture::of_two(&before, &after, &changes);
    Destination::file(PICTURE).write(shown.as_bytes())?;
    let [x, y, radius] = vertex;
    let text = format!(
        "the hedge of demo/hedge.txt, kept at grade {GRADE}; \
         vertex {index} moved to {x} {y}, radius {radius}\n\
         {told}the picture is in {PICTURE}\n"
    );
    Destination::standard().write(text.as_bytes())
}

/// The number and the new place of the post.
fn gate_post() -> Option<(usize, [i32; 3])> {
    let words: Vec<&[u8]> = GATE_POST.split_whitespace().map(str::as_bytes).collect();
    let [index, x, y, radius] = words[..] else {
        return None;
    };
    Some((whole(index)?, [whole(x)?, whole(y)?, whole(radius)?]))
}
