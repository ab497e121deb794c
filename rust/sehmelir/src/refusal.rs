use std::error::Error;
use std::fmt::{self, Display, Formatter};

/// Why a call was refused. A refused call has changed no lent memory.
///
/// Refusals are appended as calls are, so a `match` on one needs an arm for
/// those to come.
#[non_exhaustive]
#[derive(Clone, Copy, Debug, PartialEq, Eq)]
pub enum Refusal {
    /// 1: so many numbers were lent as a path, and that is no multiple of
    /// three; or as a kerb's points, and that is odd.
    Uneven(usize),
    /// 2: so many vertices are above 4,096.
    TooMany(usize),
    /// 3: this grade is not 2 to 8, or not 1 to 8 where an outline is read: at
    /// grade 1 nothing is drawn, kept or replaced any more, and nothing converted
    /// to it.
    Grade(u32),
    /// 4: the vertex of this index, the first such, lies outside the limits: x
    /// and y from -268,435,456 to 268,435,456, radius from 0 to 268,435,456.
    Outside(usize),
    /// 5: the result has so many edges ([`draw`](crate::draw),
    /// [`list`](crate::list)), bytes
    /// ([`keep`](crate::keep), [`replace`](crate::replace),
    /// [`convert`](crate::convert), [`salvage`](crate::salvage)) or vertices
    /// ([`read`](crate::read), [`numbers`](crate::numbers),
    /// [`import`](crate::import), [`export`](crate::export)), and the room lent is shorter; or the outline
    /// that is added to a [`Chunk`](crate::Chunk) has so many bytes, and the
    /// chunk has no room for it, compacted or not.
    NoRoom(usize),
    /// 6: the store has under 24 bytes, or of kind 1 under 44, or its edition is
    /// neither 1 nor 2, or of kind 1 not 1, or it is shorter than its header
    /// says; where it is salvaged, it ends before its closing count does.
    NotOutline,
    /// 7: the outline is of this kind, which is neither 0 nor 1.
    Kind(u32),
    /// 8: the outline is not what its own vertices and grade, and of a kerb its
    /// style, give, and this byte is the first that differs.
    NotSound(usize),
    /// 9: the outline has no vertex of this index.
    NoVertex(usize),
    /// 10: the outline has no edge of this number.
    NoEdge(usize),
    /// 11: of a kerb's radius, join and closed the first that is outside its
    /// range is the one at this place of the header, counted from 0: 5, 6 or 7.
    StyleWord(u32),
    /// 12: the outline is of this kind, whose vertices are not replaced and have
    /// no point numbers and no bodies, whose edges are not explained, and which is
    /// not salvaged.
    OtherKind(u32),
    /// 13: of the numbers lent to [`import`](crate::import) or
    /// [`export`](crate::export) the one at this place, counted from 0, is the
    /// first that is not taken.
    NotTaken(usize),
    /// 14: the chunk's table is damaged, or cannot be made: the chunk has above
    /// 4,294,967,295 bytes, the table has above 1,024 entries or runs past the
    /// chunk, one key is in use twice, or an entry in use overlaps the table or
    /// another entry or leaves the chunk.
    Damaged,
    /// 15: this key is in the chunk already.
    KeyThere(u32),
    /// 16: this key is not in the chunk.
    KeyMissing(u32),
    /// 17: all of the chunk's so many entries are in use.
    TableFull(usize),
    /// 18: the path has so many vertices, at least one, and no edges: so it is
    /// where every radius is 0 or 1.
    WithoutEdges(usize),
    /// 19: [`salvage`](crate::salvage)'s list has so many entries of two words,
    /// and the room lent for it is shorter.
    NoListRoom(usize),
}

impl Refusal {
    /// The reply's number, as `include/sehmelir.h` lists them.
    ///
    /// ```
    /// assert_eq!(sehmelir::Refusal::NoRoom(8).reply(), 5);
    /// ```
    pub fn reply(&self) -> u32 {
        match self {
            Refusal::Uneven(_) => 1,
            Refusal::TooMany(_) => 2,
            Refusal::Grade(_) => 3,
            Refusal::Outside(_) => 4,
            Refusal::NoRoom(_) => 5,
            Refusal::NotOutline => 6,
            Refusal::Kind(_) => 7,
            Refusal::NotSound(_) => 8,
            Refusal::NoVertex(_) => 9,
            Refusal::NoEdge(_) => 10,
            Refusal::StyleWord(_) => 11,
            Refusal::OtherKind(_) => 12,
            Refusal::NotTaken(_) => 13,
            Refusal::Damaged => 14,
            Refusal::KeyThere(_) => 15,
            Refusal::KeyMissing(_) => 16,
            Refusal::TableFull(_) => 17,
            Refusal::WithoutEdges(_) => 18,
            Refusal::NoListRoom(_) => 19,
        }
    }
}

impl Display for Refusal {
    fn fmt(&self, formatter: &mut Formatter) -> fmt::Result {
        match self {
            Refusal::Uneven(count) => {
                write!(
                    formatter,
                    "{count} numbers are no path of triples and no kerb of pairs"
                )
            }
            Refusal::TooMany(count) => write!(formatter, "{count} vertices are above 4096"),
            Refusal::Grade(1) => write!(formatter, "grade 1 is retired, and only read"),
            Refusal::Grade(grade) => write!(formatter, "grade {grade} is not 2 to 8"),
            Refusal::Outside(index) => write!(formatter, "vertex {index} is outside the limits"),
            Refusal::NoRoom(needed) => write!(
                formatter,
                "the room is too short: the result has {needed} edges if drawn or listed, \
                 vertices if read, imported or exported, bytes if kept, replaced, converted, added \
                 or salvaged"
            ),
            Refusal::NotOutline => {
                write!(
                    formatter,
                    "the store is too short or not of an edition that is read"
                )
            }
            Refusal::Kind(kind) => write!(formatter, "kind {kind} is neither 0 nor 1"),
            Refusal::NotSound(byte) => {
                write!(formatter, "the outline is not sound, first at byte {byte}")
            }
            Refusal::NoVertex(index) => write!(formatter, "the outline has no vertex {index}"),
            Refusal::NoEdge(edge) => write!(formatter, "the outline has no edge {edge}"),
            Refusal::StyleWord(place) => {
                let word = match place {
                    5 => "radius",
                    6 => "join",
                    _ => "closed",
                };
                write!(formatter, "a kerb's {word} is outside its range")
            }
            Refusal::OtherKind(kind) => {
                write!(
                    formatter,
                    "an outline of kind {kind} is neither changed nor explained so"
                )
            }
            Refusal::NotTaken(place) => {
                write!(formatter, "the number at place {place} is not taken")
            }
            Refusal::Damaged => write!(formatter, "the chunk's table is damaged"),
            Refusal::KeyThere(key) => write!(formatter, "key {key} is in the chunk already"),
            Refusal::KeyMissing(key) => write!(formatter, "key {key} is not in the chunk"),
            Refusal::TableFull(entries) => {
                write!(formatter, "all {entries} entries of the chunk are in use")
            }
            Refusal::WithoutEdges(count) => {
                write!(formatter, "a path of {count} vertices has no edges")
            }
            Refusal::NoListRoom(entries) => {
                write!(
                    formatter,
                    "the list has {entries} entries and no room for them"
                )
            }
        }
    }
}

impl Error for Refusal {}
