//! The body of a vertex as a part of one of two sheets.

use crate::{foreign, Refusal};
use std::ops::Range;

/// Which of two sheets is meant: the one before an edit, or the one after it.
#[derive(Clone, Copy, Debug, PartialEq, Eq, Hash)]
pub enum Sheet {
    /// The earlier one.
    Before,
    /// The later one.
    After,
}

/// The body of a vertex, sixteen bytes an edge, as a part of one of two sound
/// outlines: the chosen one's own bytes, for as long as both are lent.
///
/// A body is the edges that are drawn on reaching its vertex; of as many
/// vertices as the chosen outline has, the body of that number is the closing
/// one. An empty body is an empty part. Either store may go on after its outline.
///
/// ```
/// use sehmelir::{outline, replace, side, Sheet};
///
/// let before = outline(&[0, 0, 5, 20, 0, 5, 40, 0, 5, 60, 0, 5], 2)?;
/// let mut after = before.clone();
/// after.resize(before.len() + 1000, 0);
/// replace(&mut after, 0, 0, 9, 5)?;
///
/// let body = |sheet, vertex| side(&before, &after, sheet, vertex);
/// assert_eq!(body(Sheet::Before, 0)?, []);
/// assert_ne!(body(Sheet::Before, 1)?, body(Sheet::After, 1)?);
/// assert_eq!(body(Sheet::Before, 3)?, body(Sheet::After, 3)?);
/// assert_eq!(body(Sheet::Before, 4)?, body(Sheet::After, 4)?);
/// assert!(before.ends_with(body(Sheet::Before, 4)?));
/// # Ok::<(), sehmelir::Refusal>(())
/// ```
///
/// # Errors
///
/// In this order: those of [`read`](crate::read) up to
/// [`NotSound`](Refusal::NotSound) of the earlier outline, then of the later one,
/// [`OtherKind`](Refusal::OtherKind) where either is of a kerb,
/// [`NoVertex`](Refusal::NoVertex) of a number above the vertices of the chosen
/// one.
///
/// ```
/// use sehmelir::{kerb, outline, side, Join, Refusal, Sheet, Style};
///
/// let (one, two) = (outline(&[0, 0, 10], 2)?, outline(&[0, 0, 5, 20, 0, 5], 2)?);
/// assert!(side(&one, &two, Sheet::After, 2).is_ok());
/// assert_eq!(side(&one, &two, Sheet::Before, 2), Err(Refusal::NoVertex(2)));
/// assert_eq!(side(&one, &[], Sheet::Before, 9), Err(Refusal::NotOutline));
/// let style = Style { radius: 5, join: Join::Bevel, closed: false };
/// let kerb = kerb(&[0, 0, 20, 0], 2, style)?;
/// assert_eq!(side(&one, &kerb, Sheet::Before, 9), Err(Refusal::OtherKind(1)));
/// # Ok::<(), Refusal>(())
/// ```
pub fn side<'a>(
    before: &'a [u8],
    after: &'a [u8],
    sheet: Sheet,
    vertex: usize,
) -> Result<&'a [u8], Refusal> {
    let range = side_range(before, after, sheet, vertex)?;
    Ok(match sheet {
        Sheet::Before => &before[range],
        Sheet::After => &after[range],
    })
}

/// Where the part that [`side`] gives stands in the chosen outline.
///
/// ```
/// use sehmelir::{outline, side_range, Sheet};
///
/// let hedge = outline(&[0, 0, 5, 20, 0, 5], 2)?;
/// let first = side_range(&hedge, &hedge, Sheet::Before, 0)?;
/// let second = side_range(&hedge, &hedge, Sheet::Before, 1)?;
/// let closing = side_range(&hedge, &hedge, Sheet::Before, 2)?;
/// assert_eq!(first, 64..64);
/// assert_eq!((second.start, second.end), (64, closing.start));
/// assert_eq!(closing.end, hedge.len());
/// # Ok::<(), sehmelir::Refusal>(())
/// ```
///
/// # Errors
///
/// Those of [`side`].
pub fn side_range(
    before: &[u8],
    after: &[u8],
    sheet: Sheet,
    vertex: usize,
) -> Result<Range<usize>, Refusal> {
    foreign::side(before, after, sheet == Sheet::After, vertex).range()
}
