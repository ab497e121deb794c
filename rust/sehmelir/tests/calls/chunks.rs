//! Document 02, request 8: many outlines in one chunk, beside `plain`. Long
//! histories of calls on one chunk, damaged tables, refusals with later ones
//! beside them.

use crate::beside_plain::{answer, numbered, of_either_edition, replace, Tally};
use crate::kerbs;
use crate::lent;
use crate::making::Maker;
use plain::calls::{Part, Reply};
use plain::chunks::{self, Entry};
use sehmelir::{Chunk, Refusal};
use std::alloc::{alloc_zeroed, dealloc, Layout};

/// How many calls the histories have together: `CASES` in the environment, if
/// they should be more than some thousands.
fn calls() -> usize {
    std::env::var("CASES").map_or(60_000, |count| count.parse().unwrap())
}

/// What `make` answers beside `plain`: the number with 0 is not handed on by
/// the wrapper, so it is asked for below it.
fn make(chunk: &mut Vec<u8>, entries: u32) -> Reply {
    let (answered, out) = lent::chunk_make(chunk, entries);
    let mut raw = chunk.clone();
    let told = unsafe { sehmelir_chunk_make(raw.as_mut_ptr(), raw.len(), entries) };
    let reply = chunks::make(chunk, entries);
    assert_eq!(answered, answer(reply).map(drop), "make {entries}");
    assert_eq!((told.reply, told.grade), (reply.reply, 0), "make {entries}");
    assert_eq!(told.number, reply.number, "make {entries}");
    assert!(out == *chunk && raw == *chunk, "make {entries}");
    reply
}

fn add(chunk: &mut Vec<u8>, key: u32, outline: &[u8]) -> Reply {
    let before = chunk.clone();
    let (answered, out) = lent::chunk_add(chunk, key, outline);
    let reply = chunks::add(chunk, key, outline);
    assert_eq!(answered, answer(reply), "add {key} {outline:?} {before:?}");
    assert!(out == *chunk, "add {key} {outline:?} {before:?}");
    reply
}

fn find(chunk: &[u8], key: u32) -> Reply {
    let Part {
        reply,
        number,
        offset,
        length,
    } = chunks::find(chunk, key);
    let answered = lent::chunk_find(chunk, key);
    let due = answer(Reply::new(reply, number));
    let range = due.map(|length| offset as usize..offset as usize + length);
    assert_eq!(answered, range, "find {key} {chunk:?}");
    let told = unsafe { sehmelir_chunk_find(chunk.as_ptr(), chunk.len(), key) };
    let told = [
        told.reply.into(),
        told.zero.into(),
        told.number,
        told.offset,
        told.length,
    ];
    let due = [reply.into(), 0, number, offset, length];
    assert_eq!(told, due, "find {key} {chunk:?}");
    Reply::new(reply, number)
}

fn remove(chunk: &mut Vec<u8>, key: u32) -> Reply {
    let before = chunk.clone();
    let (answered, out) = lent::chunk_remove(chunk, key);
    let reply = chunks::remove(chunk, key);
    assert_eq!(answered, answer(reply), "remove {key} {before:?}");
    assert!(out == *chunk, "remove {key} {before:?}");
    reply
}

fn compact(chunk: &mut Vec<u8>) -> Reply {
    let before = chunk.clone();
    let (answered, out) = lent::chunk_compact(chunk);
    let reply = chunks::compact(chunk);
    assert_eq!(answered, answer(reply), "compact {before:?}");
    assert!(out == *chunk, "compact {before:?}");
    reply
}

/// `struct sehmelir_reply` and `struct sehmelir_part`, all of them.
#[repr(C)]
struct RawReply {
    reply: u32,
    grade: u32,
    number: u64,
}

#[repr(C)]
struct RawPart {
    reply: u32,
    zero: u32,
    number: u64,
    offset: u64,
    length: u64,
}

extern "C" {
    fn sehmelir_chunk_make(chunk: *mut u8, chunk_len: usize, entries: u32) -> RawReply;
    fn sehmelir_chunk_find(chunk: *const u8, chunk_len: usize, key: u32) -> RawPart;
}

/// How often each reply was given, a tally a call, and how often an add
/// compacted.
#[derive(Default)]
struct Tallies {
    add: Tally,
    find: Tally,
    remove: Tally,
    compact: Tally,
    replace: Tally,
    compacting_adds: usize,
}

/// A chunk, and what is done to it.
struct History {
    maker: Maker,
    chunk: Vec<u8>,
}

/// Keys that are used, so few that they meet.
const KEYS: [u32; 9] = [0, 1, 2, 3, 4, 5, 6, 1 << 31, u32::MAX];

impl History {
    /// A chunk just made, of few entries and little room.
    fn new(seed: u64) -> History {
        let mut maker = Maker::new(seed);
        let entries = maker.pick(&[0, 1, 2, 3, 4, 5, 6, 7, 8, 8, 8]);
        let room = maker.index_below(1200) + maker.pick(&[0, 0, 200, 2000]);
        let mut chunk: Vec<u8> = lent::room(4 + 12 * entries as usize + room);
        assert_eq!(make(&mut chunk, entries).reply, 0);
        History { maker, chunk }
    }

    /// A short outline of either kind and edition.
    fn sound_outline(&mut self) -> Vec<u8> {
        let maker = &mut self.maker;
        loop {
            let grade = maker.pick(&[1, 2, 2, 2, 3]);
            let kept = if maker.chance(25) {
                let (points, style) = maker.kerb(5);
                kerbs::outline(&points, grade, style)
            } else {
                let path = maker.path(5);
                of_either_edition(maker, &path, grade)
            };
            if (1..900).contains(&kept.len()) {
                return kept;
            }
        }
    }

    /// An outline; bytes may go on after it, and now and then it is damaged.
    fn outline(&mut self) -> Vec<u8> {
        let mut store = self.sound_outline();
        let maker = &mut self.maker;
        if maker.chance(8) {
            match store[4] {
                0 => maker.damage(&mut store),
                _ => maker.damage_kerb(&mut store),
            }
        }
        if maker.chance(15) {
            store.extend(lent::room::<u8>(maker.index_below(50)));
        }
        store
    }

    /// A call, and its reply counted.
    fn call(&mut self, tallies: &mut Tallies) {
        let key = self.maker.pick(&KEYS);
        match self.maker.index_below(100) {
            0..42 => {
                let outline = self.outline();
                let starts = offsets(&self.chunk);
                let reply = add(&mut self.chunk, key, &outline);
                let moved = offsets(&self.chunk);
                let kept = |(old, new): (&Entry, &Entry)| !old.in_use() || old == new;
                let stayed = starts.iter().zip(&moved).all(kept);
                assert!(stayed || reply.reply == 0);
                tallies.compacting_adds += !stayed as usize;
                tallies.add.count(reply);
            }
            42..60 => tallies.remove.count(remove(&mut self.chunk, key)),
            60..72 => tallies.find.count(find(&self.chunk, key)),
            72..79 => tallies.compact.count(compact(&mut self.chunk)),
            79..90 => self.replace(key, tallies),
            90..94 => self.scribble(),
            _ => self.damage(tallies),
        }
    }

    /// A vertex replaced in the bytes of an outline alone.
    fn replace(&mut self, key: u32, tallies: &mut Tallies) {
        let Ok(range) = Chunk::over(&self.chunk).find(key) else {
            return;
        };
        let index = self.maker.index(2);
        let vertex = match self.maker.chance(40) {
            true => [9, 9, self.maker.pick(&[0, 1])],
            false => self.maker.replacement(None),
        };
        let (reply, written) = replace(&self.chunk[range.clone()], index, vertex);
        self.chunk[range].copy_from_slice(&written);
        tallies.replace.count(reply);
    }

    /// Something written where nothing of use stands: in empty entries and in
    /// gaps.
    fn scribble(&mut self) {
        let entries = chunks::entries(&self.chunk).unwrap();
        let mut free = vec![true; self.chunk.len()];
        free[..4].fill(false);
        for (place, entry) in entries.iter().enumerate() {
            let at = 4 + 12 * place;
            free[at..at + 12].fill(!entry.in_use());
            free[at + 8..at + 12].fill(false);
            if entry.in_use() {
                free[entry.start() as usize..entry.end() as usize].fill(false);
            }
        }
        for (byte, _) in self.chunk.iter_mut().zip(free).filter(|(_, free)| *free) {
            if self.maker.chance(20) {
                *byte = self.maker.index_below(256) as u8;
            }
        }
    }

    /// Every call on a copy of which a word of the table, or the length, is
    /// another.
    fn damage(&mut self, tallies: &mut Tallies) {
        let mut chunk = self.chunk.clone();
        let words = 1 + 3 * chunks::entries(&chunk).unwrap().len();
        let maker = &mut self.maker;
        if maker.chance(15) {
            chunk.truncate(maker.index_below(chunk.len() + 1));
        } else {
            let at = 4 * maker.index_below(words);
            let word = u32::from_le_bytes(chunk[at..at + 4].try_into().unwrap());
            let near = maker.index_below(chunk.len() + 2) as u32;
            let few = maker.index_below(12) as u32;
            let (up, down) = (word.wrapping_add(1), word.wrapping_sub(1));
            let words = [0, up, down, near, few, 1024, 1025, u32::MAX];
            chunk[at..at + 4].copy_from_slice(&maker.pick(&words).to_le_bytes());
        }
        let (key, outline) = (maker.pick(&KEYS), self.outline());
        tallies.find.count(find(&chunk, key));
        tallies.add.count(add(&mut chunk.clone(), key, &outline));
        tallies.remove.count(remove(&mut chunk.clone(), key));
        tallies.compact.count(compact(&mut chunk));
    }
}

/// An outline of grade 1, as they were kept once.
fn circle() -> Vec<u8> {
    numbered(&[[0, 0, 10]], &[], 1)
}

/// The entries of a table that is there.
fn offsets(chunk: &[u8]) -> Vec<Entry> {
    chunks::entries(chunk).unwrap_or_default()
}

#[test]
fn histories() {
    let (calls, mut made, mut seed) = (calls(), 0, 800);
    let mut tallies = Tallies::default();
    while made < calls {
        let mut history = History::new(seed);
        for _ in 0..300 {
            history.call(&mut tallies);
        }
        made += 300;
        seed += 1;
    }
    tallies
        .add
        .assert_just(&[0, 2, 3, 4, 5, 6, 7, 8, 11, 14, 15, 17]);
    tallies.find.assert_just(&[0, 14, 16]);
    tallies.remove.assert_just(&[0, 14, 16]);
    tallies.compact.assert_just(&[0, 14]);
    tallies.replace.assert_just(&[0, 3, 4, 5, 9, 12, 18]);
    assert!(tallies.compacting_adds > 100);
}

/// A chunk of bytes that are not zero, with a table of these entries.
fn with_table(length: usize, entries: &[[u32; 3]]) -> Vec<u8> {
    let count = [entries.len() as u32];
    let words = count.iter().chain(entries.as_flattened());
    let table: Vec<u8> = words.flat_map(|word| word.to_le_bytes()).collect();
    let mut chunk = vec![0xEE; length.max(table.len())];
    chunk[..table.len()].copy_from_slice(&table);
    chunk.truncate(length);
    chunk
}

/// Every call refuses it with 14, the added outline's own fault and the key that
/// is there or missing besides.
fn assert_damaged(chunk: &[u8]) {
    let bad = [0; 10];
    for key in [1, 9] {
        assert_eq!(find(chunk, key), Reply::new(14, 0), "{chunk:?}");
        let mut lent = chunk.to_vec();
        assert_eq!(add(&mut lent, key, &bad), Reply::new(14, 0));
        assert_eq!(remove(&mut lent, key), Reply::new(14, 0));
        assert_eq!(compact(&mut lent), Reply::new(14, 0));
        assert_eq!(lent, chunk, "a refusal changes the chunk");
    }
}

#[test]
fn damaged_in_each_way() {
    for length in 0..4 {
        assert_damaged(&vec![0; length]);
    }
    // more than 1,024 entries, with room for them
    assert_damaged(&with_table(20_000, &[[0; 3]; 1025]));
    assert_damaged(&[&u32::MAX.to_le_bytes()[..], &[0; 96]].concat());
    assert_eq!(
        find(&with_table(20_000, &[[0; 3]; 1024]), 1),
        Reply::new(16, 1)
    );
    // a table that runs past the chunk by a byte
    assert_damaged(&with_table(27, &[[0; 3]; 2]));
    assert_eq!(find(&with_table(28, &[[0; 3]; 2]), 1), Reply::new(16, 1));
    let sound = [[1, 40, 10], [2, 52, 20], [1, 77, 0]];
    assert_eq!(find(&with_table(72, &sound), 1), Reply::new(0, 10));
    let ways: [[[u32; 3]; 3]; 11] = [
        // one key in use twice
        [[1, 40, 10], [2, 52, 20], [1, 50, 1]],
        [[2, 40, 10], [2, 52, 20], [7, 77, 0]],
        // over the table, by a byte and wholly
        [[1, 39, 10], [2, 52, 20], [1, 77, 0]],
        [[1, 40, 10], [2, 0, 4], [1, 77, 0]],
        // over another, by a byte, wholly, and a copy of it
        [[1, 40, 13], [2, 52, 20], [1, 77, 0]],
        [[1, 40, 10], [2, 52, 20], [3, 60, 2]],
        [[1, 52, 20], [2, 52, 20], [1, 77, 0]],
        // out of the chunk, by a byte, wholly, and past 32 bits
        [[1, 40, 10], [2, 52, 21], [1, 77, 0]],
        [[1, 40, 10], [2, 72, 1], [1, 77, 0]],
        [[1, 40, 10], [2, u32::MAX, 1], [1, 77, 0]],
        [[1, 40, 10], [2, u32::MAX - 3, u32::MAX], [1, 77, 0]],
    ];
    for way in ways {
        assert_damaged(&with_table(72, &way));
        let [a, b, c] = way;
        assert_damaged(&with_table(72, &[c, b, a]));
    }
}

#[test]
fn refused_in_order() {
    let circle = circle();
    let mut unsound = circle.clone();
    unsound[60] ^= 1;
    // a key that is there, a full table and no room, one after another
    let mut chunk = with_table(60, &[[1, 40, 5], [2, 45, 5], [3, 50, 10]]);
    let before = chunk.clone();
    let table = [
        (1, &circle[..23], Reply::new(6, 0)),
        (1, &unsound, Reply::new(8, 60)),
        (1, &circle, Reply::new(15, 1)),
        (4, &circle, Reply::new(17, 3)),
    ];
    for (key, outline, due) in table {
        assert_eq!(add(&mut chunk, key, outline), due);
        assert_eq!(chunk, before);
    }
    let mut short = with_table(60, &[[1, 40, 5], [2, 45, 0], [3, 50, 10]]);
    let before = short.clone();
    assert_eq!(add(&mut short, 1, &circle), Reply::new(15, 1));
    assert_eq!(add(&mut short, 2, &circle), Reply::new(5, 172));
    assert_eq!(remove(&mut short, 2), Reply::new(16, 2));
    assert_eq!(short, before);
    // no entries at all, and room for one only
    for length in [4, 3000] {
        let mut none = with_table(length, &[]);
        assert_eq!(add(&mut none, 1, &circle), Reply::new(17, 0));
        assert_eq!(compact(&mut none), Reply::new(0, 4));
    }
}

#[test]
fn room_exact_and_one_short() {
    let circle = circle();
    for (length, due) in [
        (200, Reply::new(0, 172)),
        (199, Reply::new(5, 172)),
        (201, Reply::new(0, 172)),
    ] {
        // at once, and after compacting: the gap is split by an outline
        let mut chunk = with_table(length, &[[0; 3]; 2]);
        assert_eq!(add(&mut chunk, 9, &circle), due);
        for before in [0, 1, 50, 171] {
            let mut chunk = with_table(length + 5, &[[4, 28 + before, 5], [0; 3]]);
            assert_eq!(add(&mut chunk, 9, &circle), due);
        }
    }
}

#[test]
fn as_long_as_it_may_be() {
    let circle = circle();
    for (length, due) in [
        (4_294_967_295, Reply::new(0, 196)),
        (1 << 32, Reply::new(14, 0)),
    ] {
        let layout = Layout::from_size_align(length, 1).unwrap();
        // SAFETY: the layout's size is not 0; what is not had is not used, and
        // zeros are bytes
        let memory = unsafe { alloc_zeroed(layout) };
        if memory.is_null() {
            eprintln!("NOT RUN: {length} bytes of memory cannot be had");
            return;
        }
        let chunk = unsafe { std::slice::from_raw_parts_mut(memory, length) };
        assert_eq!(
            Chunk::make(&mut *chunk, 16).map(drop),
            answer(due).map(drop)
        );
        let mut chunk = Chunk::over(chunk);
        let added = chunk.add(7, &circle);
        if due.reply == 0 {
            assert_eq!((added, chunk.find(7)), (Ok(172), Ok(196..368)));
            assert_eq!(chunk.remove(7), Ok(172));
        } else {
            assert_eq!(added, Err(Refusal::Damaged));
            assert_eq!(chunk.find(7), Err(Refusal::Damaged));
            assert!(chunk.bytes()[..400].iter().all(|&byte| byte == 0));
        }
        // SAFETY: it was had with this layout
        unsafe { dealloc(memory, layout) };
    }
}
