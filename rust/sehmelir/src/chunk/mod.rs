//! Many outlines in one chunk of bytes.

mod foreign;

use crate::Refusal;
use std::ops::Range;

/// Many outlines in one chunk of bytes, each under a key.
///
/// A table stands first: the number of entries, and for each its key, offset
/// and length. The bytes are the caller's: a slice, an array, a `Vec`. Nothing
/// of a chunk is kept outside them, and each call looks at the whole table
/// again.
///
/// ```
/// use sehmelir::{outline, read, replace, Chunk, Refusal};
///
/// let (hedge, post) = (outline(&[0, 0, 5, 20, 0, 5], 2)?, outline(&[9, 9, 4], 2)?);
/// let mut tile = vec![0; 2000];
/// let mut chunk = Chunk::make(&mut tile[..], 16)?;
/// chunk.add(412, &hedge)?;
/// chunk.add(7, &post)?;
/// assert_eq!(chunk.outline(412)?, hedge);
///
/// // a vertex replaced where the outline stands, within its own bytes
/// replace(chunk.outline_mut(412)?, 1, 20, 3, 4)?;
/// let mut path = [0; 6];
/// assert_eq!(read(chunk.outline(412)?, &mut path)?.vertices, 2);
/// assert_eq!(path, [0, 0, 5, 20, 3, 4]);
/// assert_eq!(chunk.outline(7)?, post);
///
/// // what outgrows them goes in by remove and add
/// let wide = replace(chunk.outline_mut(412)?, 1, 20, 3, 500);
/// assert!(matches!(wide, Err(Refusal::NoRoom(_))));
/// chunk.remove(412)?;
/// chunk.add(412, &outline(&[0, 0, 5, 20, 3, 500], 2)?)?;
/// # Ok::<(), Refusal>(())
/// ```
#[derive(Clone, Copy, Debug, PartialEq, Eq)]
pub struct Chunk<B>(B);

/// The most entries that a chunk's table may have.
pub const MOST_ENTRIES: u32 = 1_024;

/// The bytes of a table of so many entries: no outline stands before them.
///
/// ```
/// assert_eq!(sehmelir::table_bytes(16), 196);
/// ```
pub const fn table_bytes(entries: u32) -> usize {
    4 + 12 * entries as usize
}

impl<B: AsRef<[u8]>> Chunk<B> {
    /// The chunk that these bytes are. Nothing is looked at yet: each call
    /// refuses a damaged table.
    pub fn over(bytes: B) -> Chunk<B> {
        Chunk(bytes)
    }

    /// The chunk's bytes.
    pub fn bytes(&self) -> &[u8] {
        self.0.as_ref()
    }

    /// The bytes, given back.
    pub fn into_bytes(self) -> B {
        self.0
    }

    /// Where the outline of a key stands in the chunk. After a vertex was
    /// replaced in it the outline may be shorter than that; zeros follow it.
    ///
    /// ```
    /// let mut chunk = sehmelir::Chunk::make([0; 300], 2)?;
    /// chunk.add(7, &sehmelir::outline(&[0, 0, 10], 2)?)?;
    /// assert_eq!(chunk.find(7), Ok(28..296));
    /// # Ok::<(), sehmelir::Refusal>(())
    /// ```
    ///
    /// # Errors
    ///
    /// In this order: [`Damaged`](Refusal::Damaged),
    /// [`KeyMissing`](Refusal::KeyMissing).
    ///
    /// ```
    /// use sehmelir::{Chunk, Refusal};
    ///
    /// assert_eq!(Chunk::over([0; 4]).find(7), Err(Refusal::KeyMissing(7)));
    /// assert_eq!(Chunk::over([1; 4]).find(7), Err(Refusal::Damaged));
    /// ```
    pub fn find(&self, key: u32) -> Result<Range<usize>, Refusal> {
        foreign::find(self.bytes(), key).range()
    }

    /// The bytes of a key's outline: what [`read`](crate::read) and
    /// [`reach`](crate::reach) take.
    ///
    /// # Errors
    ///
    /// Those of [`find`](Chunk::find).
    pub fn outline(&self, key: u32) -> Result<&[u8], Refusal> {
        let range = self.find(key)?;
        Ok(&self.bytes()[range])
    }
}

impl<B: AsRef<[u8]> + AsMut<[u8]>> Chunk<B> {
    /// Makes a chunk of these bytes: writes an empty table of so many entries,
    /// and nothing after it.
    ///
    /// ```
    /// let chunk = sehmelir::Chunk::make([7; 20], 1)?;
    /// assert_eq!(chunk.bytes()[..16], [1, 0, 0, 0, 0, 0, 0, 0, 0, 0, 0, 0, 0, 0, 0, 0]);
    /// assert_eq!(chunk.bytes()[16..], [7; 4]);
    /// # Ok::<(), sehmelir::Refusal>(())
    /// ```
    ///
    /// # Errors
    ///
    /// [`Damaged`](Refusal::Damaged) of more than 1,024 entries, of a table
    /// longer than the bytes, and of more than 4,294,967,295 bytes. A refusal
    /// leaves the bytes as they were.
    ///
    /// ```
    /// use sehmelir::{Chunk, Refusal};
    ///
    /// assert_eq!(Chunk::make([0; 15], 1).err(), Some(Refusal::Damaged));
    /// assert_eq!(Chunk::make(vec![0; 20_000], 1025).err(), Some(Refusal::Damaged));
    /// ```
    pub fn make(mut bytes: B, entries: u32) -> Result<Chunk<B>, Refusal> {
        foreign::make(bytes.as_mut(), entries).number()?;
        Ok(Chunk(bytes))
    }

    /// Adds an outline under a key, in the first empty entry and the lowest gap
    /// that holds it, and returns how many bytes it has. Where no gap does, the
    /// chunk is compacted first.
    ///
    /// The lent bytes begin with the outline and may go on after it; the
    /// outline alone is stored.
    ///
    /// ```
    /// let mut chunk = sehmelir::Chunk::make([0; 300], 2)?;
    /// assert_eq!(chunk.add(7, &sehmelir::outline(&[0, 0, 10], 2)?), Ok(268));
    /// # Ok::<(), sehmelir::Refusal>(())
    /// ```
    ///
    /// # Errors
    ///
    /// In this order: [`Damaged`](Refusal::Damaged); those of
    /// [`read`](crate::read) but [`NoRoom`](Refusal::NoRoom), of the outline;
    /// [`KeyThere`](Refusal::KeyThere); [`TableFull`](Refusal::TableFull);
    /// [`NoRoom`](Refusal::NoRoom) with the outline's bytes, where it does not
    /// fit after compacting either. A refusal leaves the chunk as it was, not
    /// compacted.
    ///
    /// ```
    /// use sehmelir::{outline, Chunk, Refusal};
    ///
    /// let circle = outline(&[0, 0, 10], 2)?;
    /// let mut chunk = Chunk::make([0; 400], 2)?;
    /// assert_eq!(chunk.add(7, &circle[..267]), Err(Refusal::NotOutline));
    /// chunk.add(7, &circle)?;
    /// assert_eq!(chunk.add(7, &circle), Err(Refusal::KeyThere(7)));
    /// assert_eq!(chunk.add(8, &circle), Err(Refusal::NoRoom(268)));
    /// chunk.add(8, &outline(&[], 2)?)?;
    /// assert_eq!(chunk.add(9, &circle), Err(Refusal::TableFull(2)));
    /// # Ok::<(), Refusal>(())
    /// ```
    pub fn add(&mut self, key: u32, outline: &[u8]) -> Result<usize, Refusal> {
        foreign::add(self.0.as_mut(), key, outline).number()
    }

    /// The bytes of a key's outline, to replace a vertex in: what
    /// [`replace`](crate::replace) takes. Other outlines stay as they are.
    ///
    /// # Errors
    ///
    /// Those of [`find`](Chunk::find).
    pub fn outline_mut(&mut self, key: u32) -> Result<&mut [u8], Refusal> {
        let range = self.find(key)?;
        Ok(&mut self.0.as_mut()[range])
    }

    /// Removes a key's outline: its entry and its bytes become zeros. Returns
    /// how many bytes the entry had.
    ///
    /// ```
    /// let mut chunk = sehmelir::Chunk::make([0; 300], 2)?;
    /// chunk.add(7, &sehmelir::outline(&[0, 0, 10], 2)?)?;
    /// assert_eq!(chunk.remove(7), Ok(268));
    /// assert_eq!(chunk.remove(7), Err(sehmelir::Refusal::KeyMissing(7)));
    /// # Ok::<(), sehmelir::Refusal>(())
    /// ```
    ///
    /// # Errors
    ///
    /// Those of [`find`](Chunk::find). A refusal leaves the chunk as it was.
    pub fn remove(&mut self, key: u32) -> Result<usize, Refusal> {
        foreign::remove(self.0.as_mut(), key).number()
    }

    /// Moves the outlines together, in the order in which they stand, straight
    /// after the table. The one gap is then at the end, and zeroed. Returns how
    /// many bytes stand before it.
    ///
    /// ```
    /// let (circle, none) = (sehmelir::outline(&[0, 0, 10], 2)?, sehmelir::outline(&[], 2)?);
    /// let mut chunk = sehmelir::Chunk::make([0; 400], 2)?;
    /// chunk.add(7, &circle)?;
    /// chunk.add(8, &none)?;
    /// chunk.remove(7)?;
    /// assert_eq!(chunk.find(8)?, 296..320);
    /// assert_eq!(chunk.compact(), Ok(52));
    /// assert_eq!(chunk.find(8)?, 28..52);
    /// # Ok::<(), sehmelir::Refusal>(())
    /// ```
    ///
    /// # Errors
    ///
    /// [`Damaged`](Refusal::Damaged). A refusal leaves the chunk as it was.
    pub fn compact(&mut self) -> Result<usize, Refusal> {
        foreign::compact(self.0.as_mut()).number()
    }
}
