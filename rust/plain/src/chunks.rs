//! Document 02, request 8: "Many outlines in one chunk".
//!
//! "Table of contents first, in words: number of entries, and for each its key,
//! offset and length; an entry of length 0 is empty."

use crate::calls::{kept_length, settle, Part, Reply};
use crate::outline::word;

/// "Making a chunk sets their number, at most 1,024".
pub const MOST_ENTRIES: u64 = 1024;

/// "Damaged exactly if the chunk is above 4,294,967,295 bytes".
pub const MOST_BYTES: u64 = 4_294_967_295;

/// An entry's key, offset and length.
#[derive(Clone, Copy, Debug, Default, PartialEq, Eq)]
pub struct Entry {
    pub key: u32,
    pub offset: u32,
    pub length: u32,
}

impl Entry {
    /// "An entry of length 0 is empty."
    pub fn in_use(&self) -> bool {
        self.length > 0
    }

    /// Where its outline begins.
    pub fn start(&self) -> u64 {
        self.offset as u64
    }

    /// Where its outline ends.
    pub fn end(&self) -> u64 {
        self.offset as u64 + self.length as u64
    }
}

/// The bytes of a table: a word, and three for each entry.
pub fn table_bytes(entries: u64) -> u64 {
    4 + 12 * entries
}

/// The entry at a place of a table that is there.
fn entry(chunk: &[u8], place: usize) -> Entry {
    let at = 1 + 3 * place;
    Entry {
        key: word(chunk, at),
        offset: word(chunk, at + 1),
        length: word(chunk, at + 2),
    }
}

/// Writes the entry at a place.
fn put_entry(chunk: &mut [u8], place: usize, entry: Entry) {
    let at = 4 + 12 * place;
    let words = [entry.key, entry.offset, entry.length];
    for (bytes, word) in chunk[at..at + 12].chunks_exact_mut(4).zip(words) {
        bytes.copy_from_slice(&word.to_le_bytes());
    }
}

/// "The chunk is above 4,294,967,295 bytes, or it holds more than 1,024
/// entries, runs past the chunk": whether such a table of so many entries can
/// stand in so many bytes.
fn fits(entries: u64, bytes: u64) -> bool {
    bytes <= MOST_BYTES && entries <= MOST_ENTRIES && table_bytes(entries) <= bytes
}

/// The table's entries, or nothing if it runs past the chunk, has too many of
/// them or stands in too long a chunk.
pub fn entries(chunk: &[u8]) -> Option<Vec<Entry>> {
    if chunk.len() < 4 {
        return None;
    }
    let count = word(chunk, 0) as u64;
    let there = fits(count, chunk.len() as u64);
    there.then(|| (0..count as usize).map(|at| entry(chunk, at)).collect())
}

/// The places of the entries in use, in the order of their offsets.
fn in_order(entries: &[Entry]) -> Vec<usize> {
    let mut places: Vec<usize> = (0..entries.len())
        .filter(|&place| entries[place].in_use())
        .collect();
    places.sort_by_key(|&place| entries[place].offset);
    places
}

/// "Has one key in use twice, or has an entry in use that overlaps the table or
/// another entry or leaves the chunk": in the order of keys one of two alike
/// follows the other; in the order of offsets each entry must begin where the
/// one before it ends, or later.
fn clash(entries: &[Entry], bytes: u64) -> bool {
    let mut keys: Vec<u32> = entries
        .iter()
        .filter(|entry| entry.in_use())
        .map(|entry| entry.key)
        .collect();
    keys.sort_unstable();
    let twice = keys.windows(2).any(|pair| pair[0] == pair[1]);
    let mut free = table_bytes(entries.len() as u64);
    let overlap = in_order(entries).into_iter().any(|place| {
        let overlap = entries[place].start() < free;
        free = entries[place].end();
        overlap
    });
    twice || overlap || free > bytes
}

/// "14 damaged table", "0 as number"; else the table's entries.
fn sound_table(chunk: &[u8]) -> Result<Vec<Entry>, Reply> {
    match entries(chunk) {
        Some(entries) if !clash(&entries, chunk.len() as u64) => Ok(entries),
        _ => Err(Reply::new(14, 0)),
    }
}

/// The place of a key in use.
fn place_of(entries: &[Entry], key: u32) -> Option<usize> {
    let holds = |entry: &Entry| entry.in_use() && entry.key == key;
    entries.iter().position(holds)
}

/// "16 key not there", "with the key".
fn place_there(entries: &[Entry], key: u32) -> Result<usize, Reply> {
    place_of(entries, key).ok_or(Reply::new(16, key as u64))
}

/// "The lowest gap that fits": where it begins.
fn gap(entries: &[Entry], length: u64, bytes: u64) -> Option<u64> {
    let mut free = table_bytes(entries.len() as u64);
    for place in in_order(entries) {
        if entries[place].start() - free >= length {
            return Some(free);
        }
        free = entries[place].end();
    }
    (bytes - free >= length).then_some(free)
}

/// The bytes of the table and of all outlines.
fn taken(entries: &[Entry]) -> u64 {
    let outlines: u64 = entries.iter().map(|entry| entry.length as u64).sum();
    table_bytes(entries.len() as u64) + outlines
}

/// "Compacting keeps the order of offsets; the one gap, at the end, is zeroed."
/// Where the gap begins.
fn compacted(chunk: &mut [u8], entries: &mut [Entry]) -> u64 {
    let mut free = table_bytes(entries.len() as u64);
    for place in in_order(entries) {
        let entry = &mut entries[place];
        chunk.copy_within(entry.start() as usize..entry.end() as usize, free as usize);
        entry.offset = free as u32;
        free = entry.end();
        put_entry(chunk, place, *entry);
    }
    chunk[free as usize..].fill(0);
    free
}

/// "Making a chunk sets their number, at most 1,024, and writes an empty table
/// of zeros, no more." The number with 0 is the table's bytes.
pub fn make(chunk: &mut [u8], entries: u32) -> Reply {
    let table = table_bytes(entries as u64);
    if !fits(entries as u64, chunk.len() as u64) {
        return Reply::new(14, 0);
    }
    chunk[..4].copy_from_slice(&entries.to_le_bytes());
    chunk[4..table as usize].fill(0);
    Reply::new(0, table)
}

/// "Add stores the outline unchanged, in the first empty entry and the lowest
/// gap that fits, and compacts first if none does." "Refusals, in order: 14 …;
/// an added outline's own, as in reading but 5; 15 …; 17 …; 5." The number with
/// 0 and with 5 is the outline's bytes; lent bytes that go on after it are not
/// stored.
pub fn add(chunk: &mut [u8], key: u32, outline: &[u8]) -> Reply {
    settle(|| {
        let mut entries = sound_table(chunk)?;
        let outline = &outline[..kept_length(outline)?];
        if place_of(&entries, key).is_some() {
            return Err(Reply::new(15, key as u64));
        }
        let empty = entries.iter().position(|entry| !entry.in_use());
        let place = empty.ok_or(Reply::new(17, entries.len() as u64))?;
        let (length, bytes) = (outline.len() as u64, chunk.len() as u64);
        if bytes - taken(&entries) < length {
            return Err(Reply::new(5, length));
        }
        let offset = match gap(&entries, length, bytes) {
            Some(offset) => offset,
            None => compacted(chunk, &mut entries),
        };
        chunk[offset as usize..][..outline.len()].copy_from_slice(outline);
        let entry = Entry {
            key,
            offset: offset as u32,
            length: length as u32,
        };
        put_entry(chunk, place, entry);
        Ok(Reply::new(0, length))
    })
}

/// "Find (offset and length)". The number with 0 is the length.
pub fn find(chunk: &[u8], key: u32) -> Part {
    let found = sound_table(chunk)
        .and_then(|entries| place_there(&entries, key).map(|place| entries[place]));
    match found {
        Ok(entry) => Part {
            reply: 0,
            number: entry.length as u64,
            offset: entry.offset as u64,
            length: entry.length as u64,
        },
        Err(refusal) => Part::refused(refusal),
    }
}

/// "Removing zeroes entry and outline." The number with 0 is the entry's bytes.
pub fn remove(chunk: &mut [u8], key: u32) -> Reply {
    settle(|| {
        let entries = sound_table(chunk)?;
        let place = place_there(&entries, key)?;
        let entry = entries[place];
        chunk[entry.start() as usize..entry.end() as usize].fill(0);
        put_entry(chunk, place, Entry::default());
        Ok(Reply::new(0, entry.length as u64))
    })
}

/// "Compact". The number with 0 is the bytes before the gap.
pub fn compact(chunk: &mut [u8]) -> Reply {
    settle(|| {
        let mut entries = sound_table(chunk)?;
        Ok(Reply::new(0, compacted(chunk, &mut entries)))
    })
}

#[cfg(test)]
mod tests {
    use super::*;
    use crate::contacts::Vertex;
    use crate::outline::{first_edition, second_edition};
    use crate::random::Random;

    const DAMAGED: Reply = Reply::new(14, 0);

    fn lone(radius: i64) -> Vec<u8> {
        first_edition(&[Vertex::new(0, 0, radius)], 1)
    }

    /// A chunk of bytes that are not zero, with a table of these entries.
    fn with_table(length: usize, entries: &[[u32; 3]]) -> Vec<u8> {
        let mut chunk = vec![0xEE; length];
        chunk[..4].copy_from_slice(&(entries.len() as u32).to_le_bytes());
        for (place, &[key, offset, length]) in entries.iter().enumerate() {
            let entry = Entry {
                key,
                offset,
                length,
            };
            put_entry(&mut chunk, place, entry);
        }
        chunk
    }

    /// The request's own words: every two entries in use are looked at.
    fn damaged(chunk: &[u8]) -> bool {
        let bytes = chunk.len() as u64;
        let Some(entries) = entries(chunk) else {
            return true;
        };
        let used: Vec<Entry> = entries.iter().copied().filter(Entry::in_use).collect();
        let pair_clashes = |a: usize, b: usize| {
            let (a, b) = (used[a], used[b]);
            a.key == b.key || (a.start() < b.end() && b.start() < a.end())
        };
        let outside = |entry: &Entry| {
            entry.start() < table_bytes(entries.len() as u64) || entry.end() > bytes
        };
        used.iter().any(outside) || (0..used.len()).any(|a| (0..a).any(|b| pair_clashes(a, b)))
    }

    #[test]
    fn a_table_is_damaged_in_the_requests_words_alone() {
        let mut random = Random::new(8);
        let mut sound = 0;
        for _ in 0..200_000 {
            let count = random.below(6) as usize;
            let length = random.between(4, 140) as usize;
            let mut word = |most: i64| random.between(0, most) as u32;
            let mut entries: Vec<[u32; 3]> =
                (0..count).map(|_| [word(6), word(130), word(20)]).collect();
            if random.chance(5) && count > 0 {
                entries[0] = random.pick(&[[1, u32::MAX, 1], [1, 60, u32::MAX], [9, u32::MAX, 0]]);
            }
            let mut chunk = with_table(length.max(4 + 12 * count), &entries);
            chunk.truncate(length);
            let refused = find(&chunk, 9).reply == 14;
            assert_eq!(refused, damaged(&chunk), "{entries:?} in {length}");
            sound += !refused as usize;
        }
        assert!(sound > 20_000);
    }

    #[test]
    fn each_damage_the_request_names() {
        for length in 0..4 {
            assert_eq!(find(&vec![0; length], 1).reply, 14);
        }
        assert_eq!(
            find(&with_table(12 * 1024 + 4, &[[0; 3]; 1024]), 1).reply,
            16
        );
        assert_eq!(
            find(&with_table(12 * 1025 + 4, &[[0; 3]; 1025]), 1).reply,
            14
        );
        let mut cut = with_table(28, &[[0; 3]; 2]);
        assert_eq!(find(&cut, 1).reply, 16);
        cut.pop();
        assert_eq!(find(&cut, 1).reply, 14);
        let reply = |entries: &[[u32; 3]]| find(&with_table(100, entries), 7).reply;
        assert_eq!(reply(&[[7, 28, 10], [8, 38, 62]]), 0);
        assert_eq!(reply(&[[7, 28, 10], [7, 38, 62]]), 14);
        assert_eq!(reply(&[[7, 28, 10], [7, 38, 0]]), 0);
        assert_eq!(reply(&[[7, 27, 10], [8, 38, 62]]), 14);
        assert_eq!(reply(&[[7, 28, 11], [8, 38, 62]]), 14);
        assert_eq!(reply(&[[7, 28, 10], [8, 38, 63]]), 14);
        assert_eq!(reply(&[[7, 28, 10], [8, 100, 1]]), 14);
        assert_eq!(reply(&[[7, 28, 10], [8, u32::MAX, u32::MAX]]), 14);
        assert_eq!(reply(&[[7, 38, 10], [8, 28, 30]]), 14);
        assert_eq!(reply(&[[7, 38, 10], [8, 28, 10]]), 0);
    }

    #[test]
    fn making_writes_the_table_and_no_more() {
        let mut chunk = [7; 40];
        assert_eq!(make(&mut chunk, 2), Reply::new(0, 28));
        assert_eq!(chunk[..4], [2, 0, 0, 0]);
        assert_eq!(chunk[4..28], [0; 24]);
        assert_eq!(chunk[28..], [7; 12]);
        assert_eq!(make(&mut chunk, 3), Reply::new(0, 40));
        let before = chunk;
        assert_eq!(make(&mut chunk, 4), DAMAGED);
        assert_eq!(make(&mut chunk, u32::MAX), DAMAGED);
        assert_eq!(make(&mut chunk[..3], 0), DAMAGED);
        assert_eq!(chunk, before);
        let mut wide = vec![7; 12 * 1025 + 4];
        assert_eq!(make(&mut wide, 1025), DAMAGED);
        assert_eq!(make(&mut wide, 1024), Reply::new(0, 12 * 1024 + 4));
        assert_eq!(make(&mut wide, 0), Reply::new(0, 4));
        assert_eq!(add(&mut wide, 1, &lone(2)), Reply::new(17, 0));
    }

    #[test]
    fn adding_takes_the_first_empty_entry_and_the_lowest_gap() {
        let (small, large) = (lone(0), lone(10));
        assert_eq!((small.len(), large.len()), (40, 168));
        let mut chunk = vec![7; 1000];
        make(&mut chunk, 4);
        let longer = [large.as_slice(), &[9; 30]].concat();
        assert_eq!(add(&mut chunk, 5, &longer), Reply::new(0, 168));
        assert_eq!(find(&chunk, 5).offset, 52);
        assert_eq!(chunk[52..220], large);
        assert_eq!(chunk[220..], [7; 780]);
        assert_eq!(add(&mut chunk, 6, &small), Reply::new(0, 40));
        assert_eq!(add(&mut chunk, 5, &small), Reply::new(15, 5));
        assert_eq!(remove(&mut chunk, 5), Reply::new(0, 168));
        assert_eq!(chunk[52..220], [0; 168]);
        assert_eq!(chunk[4..16], [0; 12]);
        assert_eq!(
            find(&chunk, 5),
            Part {
                reply: 16,
                number: 5,
                offset: 0,
                length: 0
            }
        );
        assert_eq!(add(&mut chunk, 9, &small), Reply::new(0, 40));
        assert_eq!(
            find(&chunk, 9),
            Part {
                reply: 0,
                number: 40,
                offset: 52,
                length: 40
            }
        );
        assert_eq!(entries(&chunk).unwrap()[0].key, 9);
        assert_eq!(add(&mut chunk, 10, &large), Reply::new(0, 168));
        assert_eq!(find(&chunk, 10).offset, 260);
    }

    #[test]
    fn a_refused_add_has_not_compacted() {
        let (small, large) = (lone(0), lone(10));
        let mut chunk = vec![7; 40 + 3 * 40 + 10];
        make(&mut chunk, 3);
        for key in [1, 2, 3] {
            assert_eq!(add(&mut chunk, key, &small).reply, 0);
        }
        assert_eq!(add(&mut chunk, 4, &small), Reply::new(17, 3));
        remove(&mut chunk, 2);
        let before = chunk.clone();
        assert_eq!(add(&mut chunk, 4, &large), Reply::new(5, 168));
        assert_eq!(chunk, before);
    }

    #[test]
    fn adding_compacts_where_no_gap_fits() {
        let (small, large) = (lone(0), lone(10));
        let mut chunk = vec![7; 52 + 208 + 20];
        make(&mut chunk, 4);
        for (key, outline) in [(1, &small), (2, &large)] {
            add(&mut chunk, key, outline);
        }
        remove(&mut chunk, 1);
        assert_eq!(compact(&mut chunk.clone()), Reply::new(0, 220));
        assert_eq!(add(&mut chunk, 3, &lone(1)), Reply::new(0, 40));
        remove(&mut chunk, 3);
        let path = [Vertex::new(0, 0, 0), Vertex::new(9, 9, 0)];
        let middle = first_edition(&path, 1);
        assert_eq!(middle.len(), 56);
        assert_eq!(add(&mut chunk, 4, &middle), Reply::new(0, 56));
        assert_eq!((find(&chunk, 2).offset, find(&chunk, 4).offset), (52, 220));
        assert_eq!(chunk[52..220], large);
        assert_eq!(chunk[220..276], middle);
        assert_eq!(chunk[276..], [0; 4]);
    }

    #[test]
    fn compacting_goes_by_offsets_and_leaves_empty_entries_alone() {
        let mut chunk = with_table(120, &[[3, 90, 5], [8, 77, 0], [1, 60, 10]]);
        chunk[90..95].fill(3);
        chunk[60..70].fill(1);
        assert_eq!(compact(&mut chunk), Reply::new(0, 55));
        let due = [[3, 50, 5], [8, 77, 0], [1, 40, 10]];
        assert_eq!(chunk[..40], with_table(40, &due));
        assert_eq!(chunk[40..50], [1; 10]);
        assert_eq!(chunk[50..55], [3; 5]);
        assert_eq!(chunk[55..], [0; 65]);
    }

    #[test]
    fn both_editions_are_added_unchanged() {
        let outline = second_edition(&[Vertex::new(0, 0, 10)], &[411], 1);
        let mut chunk = vec![7; 28 + 172 + 168];
        make(&mut chunk, 2);
        let longer = [outline.as_slice(), &[9; 30]].concat();
        assert_eq!(add(&mut chunk, 5, &longer), Reply::new(0, 172));
        assert_eq!(add(&mut chunk, 6, &lone(10)), Reply::new(0, 168));
        assert_eq!(chunk[28..200], outline);
        assert_eq!(chunk[200..], lone(10));
        let cut = &outline[..171];
        assert_eq!(add(&mut chunk, 7, cut), Reply::new(6, 0));
    }

    #[test]
    fn the_order_of_the_refusals() {
        let outline = lone(2);
        let mut bad = outline.clone();
        bad[40] ^= 1;
        let mut damaged = with_table(60, &[[1, 27, 5], [2, 28, 5]]);
        assert_eq!(add(&mut damaged, 1, &bad), DAMAGED);
        assert_eq!(remove(&mut damaged, 9), DAMAGED);
        assert_eq!(compact(&mut damaged), DAMAGED);
        let mut full = with_table(60, &[[1, 28, 5], [2, 33, 5]]);
        assert_eq!(add(&mut full, 1, &bad), Reply::new(8, 40));
        assert_eq!(add(&mut full, 1, &bad[..23]), Reply::new(6, 0));
        assert_eq!(add(&mut full, 1, &outline), Reply::new(15, 1));
        assert_eq!(add(&mut full, 3, &outline), Reply::new(17, 2));
        let mut short = with_table(60, &[[1, 28, 5], [2, 33, 0]]);
        assert_eq!(add(&mut short, 1, &outline), Reply::new(15, 1));
        let needed = outline.len() as u64;
        assert_eq!(add(&mut short, 2, &outline), Reply::new(5, needed));
        assert_eq!(remove(&mut short, 2), Reply::new(16, 2));
    }
}
