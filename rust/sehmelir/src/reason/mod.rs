mod foreign;

use crate::{with_room, Refusal};
use std::fmt::{self, Display, Formatter};

/// The rule that draws an edge.
///
/// The first vertex's body is empty; each other one holds what is drawn on
/// reaching its vertex, and the closing body what is drawn at the end. In a body
/// each rule is at work once at most.
#[derive(Clone, Copy, Debug, PartialEq, Eq, Hash)]
pub enum Reason {
    /// 0: the left side of the section to a vertex.
    LeftSide,
    /// 1: its right side.
    RightSide,
    /// 2: the cap at a chain's start, and a circle within it.
    StartCap,
    /// 3: the cap at a chain's end, and a circle within it.
    EndCap,
    /// 4: the left join of two sections, and a circle within it.
    LeftJoin,
    /// 5: their right join, and a circle within it.
    RightJoin,
    /// 6: the two flat caps of a join whose centres differ.
    Gap,
    /// 7: the circle of a vertex by itself.
    Circle,
}

impl Reason {
    /// All reasons, in the order of their numbers.
    pub const ALL: [Reason; 8] = [
        Reason::LeftSide,
        Reason::RightSide,
        Reason::StartCap,
        Reason::EndCap,
        Reason::LeftJoin,
        Reason::RightJoin,
        Reason::Gap,
        Reason::Circle,
    ];

    /// The reason of a number, as [`list`] writes them.
    ///
    /// ```
    /// use sehmelir::Reason;
    ///
    /// assert_eq!(Reason::of(7), Some(Reason::Circle));
    /// assert_eq!(Reason::of(8), None);
    /// ```
    pub fn of(number: usize) -> Option<Reason> {
        Reason::ALL.get(number).copied()
    }

    /// Its number, as [`list`] writes it.
    pub fn number(self) -> usize {
        self as usize
    }

    /// Whether it is a side of a section, whose ends can be exact.
    ///
    /// ```
    /// use sehmelir::Reason;
    ///
    /// assert!(Reason::RightSide.is_side());
    /// assert!(!Reason::RightJoin.is_side());
    /// ```
    pub fn is_side(self) -> bool {
        matches!(self, Reason::LeftSide | Reason::RightSide)
    }

    /// Its word, which it is displayed as.
    ///
    /// ```
    /// let words = sehmelir::Reason::ALL.map(|reason| reason.word()).join(" ");
    /// assert_eq!(
    ///     words,
    ///     "left-side right-side start-cap end-cap left-join right-join gap circle"
    /// );
    /// ```
    pub fn word(self) -> &'static str {
        match self {
            Reason::LeftSide => "left-side",
            Reason::RightSide => "right-side",
            Reason::StartCap => "start-cap",
            Reason::EndCap => "end-cap",
            Reason::LeftJoin => "left-join",
            Reason::RightJoin => "right-join",
            Reason::Gap => "gap",
            Reason::Circle => "circle",
        }
    }
}

impl Display for Reason {
    fn fmt(&self, formatter: &mut Formatter) -> fmt::Result {
        formatter.write_str(self.word())
    }
}

/// Why an edge of an outline is there. No two edges have the same.
#[derive(Clone, Copy, Debug, PartialEq, Eq, Hash)]
pub struct Why {
    /// The rule that draws it.
    pub reason: Reason,
    /// The vertex whose body holds it: one above the last for the closing body.
    pub vertex: usize,
    /// Its place among the edges that the rule draws there, from 0 on.
    pub place: usize,
    /// Of a side, whether the contact at its start is exact: no division that
    /// gave it left anything over. `false` of every other edge.
    pub start_exact: bool,
    /// The same of its end.
    pub end_exact: bool,
}

/// Tells why an edge of a sound outline is there. Edges are counted from 0, in
/// the order in which they stand.
///
/// ```
/// use sehmelir::{explain, outline, Reason};
///
/// let store = outline(&[0, 0, 5, 20, 0, 5], 2)?;
/// let told = |edge| explain(&store, edge).map(|why| (why.reason, why.vertex, why.place));
/// assert_eq!(told(0), Ok((Reason::LeftSide, 1, 0)));
/// assert_eq!(told(3), Ok((Reason::StartCap, 1, 1)));
/// assert_eq!(told(15), Ok((Reason::EndCap, 2, 6)));
/// # Ok::<(), sehmelir::Refusal>(())
/// ```
///
/// Of a side it tells which of its contacts are exact, as the edge runs: the left
/// side from the later vertex to the earlier, the right side onwards. A radius of
/// 0 is exact.
///
/// ```
/// use sehmelir::{explain, outline};
///
/// let store = outline(&[0, 0, 5, 7, 2, 0], 2)?;
/// let exact = |edge| explain(&store, edge).map(|why| (why.start_exact, why.end_exact));
/// assert_eq!(exact(0), Ok((true, false)));
/// assert_eq!(exact(1), Ok((false, true)));
/// # Ok::<(), sehmelir::Refusal>(())
/// ```
///
/// # Errors
///
/// Those of [`read`](crate::read) up to [`NotSound`](Refusal::NotSound), then
/// [`OtherKind`](Refusal::OtherKind) of a kerb, [`NoEdge`](Refusal::NoEdge).
///
/// ```
/// use sehmelir::{explain, kerb, outline, Join, Refusal, Style};
///
/// let store = outline(&[0, 0, 10], 2)?;
/// assert_eq!(explain(&store, 14), Err(Refusal::NoEdge(14)));
/// assert_eq!(explain(&[], 0), Err(Refusal::NotOutline));
/// let style = Style { radius: 5, join: Join::Bevel, closed: false };
/// let store = kerb(&[0, 0, 20, 0], 2, style)?;
/// assert_eq!(explain(&store, 99), Err(Refusal::OtherKind(1)));
/// # Ok::<(), Refusal>(())
/// ```
pub fn explain(store: &[u8], edge: usize) -> Result<Why, Refusal> {
    foreign::explain(store, edge).why()
}

/// Lists why each edge of a sound outline is there into lent numbers, five an
/// edge, and returns how many edges there are.
///
/// The numbers are the [`Reason`]'s, the vertex whose body holds the edge, its
/// place under that rule, and 1 or 0 for whether its start and its end are exact.
/// Numbers of `out` past those of the edges stay as they were. The time that it
/// takes grows with the edges.
///
/// ```
/// let store = sehmelir::outline(&[0, 0, 5, 20, 0, 5], 2)?;
/// let mut out = [99; 82];
/// assert_eq!(sehmelir::list(&store, &mut out), Ok(16));
/// assert_eq!(out[..15], [0, 1, 0, 1, 1, 1, 1, 0, 1, 1, 2, 1, 0, 0, 0]);
/// assert_eq!(out[75..], [3, 2, 6, 0, 0, 99, 99]);
/// # Ok::<(), sehmelir::Refusal>(())
/// ```
///
/// # Errors
///
/// Those of [`explain`], with [`NoRoom`](Refusal::NoRoom) and the edges that
/// there are in place of [`NoEdge`](Refusal::NoEdge). A refusal leaves `out` as
/// it was.
///
/// ```
/// use sehmelir::{list, outline, Refusal};
///
/// let store = outline(&[0, 0, 10], 2)?;
/// assert_eq!(list(&store, &mut [0; 69]), Err(Refusal::NoRoom(14)));
/// # Ok::<(), Refusal>(())
/// ```
pub fn list(store: &[u8], out: &mut [usize]) -> Result<usize, Refusal> {
    foreign::list(store, out).number()
}

/// Why each edge of a sound outline is there, in memory of its own: [`list`]
/// without a room.
///
/// ```
/// use sehmelir::{outline, whys, Reason};
///
/// let circle = whys(&outline(&[0, 0, 10], 2)?)?;
/// assert_eq!(circle.len(), 14);
/// assert_eq!((circle[5].reason, circle[5].vertex, circle[5].place), (Reason::Circle, 1, 5));
/// # Ok::<(), sehmelir::Refusal>(())
/// ```
///
/// # Errors
///
/// Those of [`list`] but [`NoRoom`](Refusal::NoRoom).
pub fn whys(store: &[u8]) -> Result<Vec<Why>, Refusal> {
    let numbers = with_room(|out: &mut [[usize; 5]]| list(store, out.as_flattened_mut()))?;
    Ok(numbers.into_iter().map(why).collect())
}

/// Why an edge is there, of its five numbers.
fn why([reason, vertex, place, start, end]: [usize; 5]) -> Why {
    Why {
        reason: foreign::reason(reason),
        vertex,
        place,
        start_exact: start == 1,
        end_exact: end == 1,
    }
}
