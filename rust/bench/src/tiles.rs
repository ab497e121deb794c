//! Tiles of 1,024 outlines: filling one, finding each outline, and what a call
//! costs that does little more than look at the whole table.

use crate::inputs::Input;
use crate::rounds::best_by_turns;
use crate::table::Table;
use plain::calls::Reply;
use plain::chunks;
use plain::random::Random;
use sehmelir::Chunk;

/// As many entries as a table may have.
const ENTRIES: usize = 1024;

/// The calls of one program on a tile; none of them is refused here. What a
/// call answers is the number with its reply, or the offset that it finds.
struct Program {
    make: fn(&mut [u8], u32) -> usize,
    add: fn(&mut [u8], u32, &[u8]) -> usize,
    find: fn(&[u8], u32) -> usize,
    remove: fn(&mut [u8], u32) -> usize,
    compact: fn(&mut [u8]) -> usize,
}

const LIBRARY: Program = Program {
    make: |tile, entries| {
        Chunk::make(tile, entries).unwrap();
        sehmelir::table_bytes(entries)
    },
    add: |tile, key, outline| Chunk::over(tile).add(key, outline).unwrap(),
    find: |tile, key| Chunk::over(tile).find(key).unwrap().start,
    remove: |tile, key| Chunk::over(tile).remove(key).unwrap(),
    compact: |tile| Chunk::over(tile).compact().unwrap(),
};

const PLAIN: Program = Program {
    make: |tile, entries| done(chunks::make(tile, entries)),
    add: |tile, key, outline| done(chunks::add(tile, key, outline)),
    find: |tile, key| {
        let found = chunks::find(tile, key);
        assert_eq!(found.reply, 0);
        found.offset as usize
    },
    remove: |tile, key| done(chunks::remove(tile, key)),
    compact: |tile| done(chunks::compact(tile)),
};

fn done(reply: Reply) -> usize {
    assert_eq!(reply.reply, 0);
    reply.number as usize
}

/// Keys in the order in which their outlines are added, and the outlines.
struct Contents {
    name: &'static str,
    keys: Vec<u32>,
    outlines: Vec<Vec<u8>>,
}

impl Contents {
    /// Short hedges under keys in this order.
    fn new(name: &'static str, keys: Vec<u32>) -> Contents {
        let mut random = Random::new(8);
        let outline = |_: &u32| {
            let hedge = Input::hedge(random.between(2, 6) as usize);
            sehmelir::outline(&hedge.path, 2).unwrap()
        };
        let outlines = keys.iter().map(outline).collect();
        Contents {
            name,
            keys,
            outlines,
        }
    }

    /// Keys that rise, keys that fall, and keys in no order.
    fn each() -> [Contents; 3] {
        let rising: Vec<u32> = (0..ENTRIES as u32).map(|place| 7 * place).collect();
        let falling = rising.iter().rev().copied().collect();
        let mut mixed = rising.clone();
        let mut random = Random::new(9);
        mixed.sort_by_cached_key(|_| random.word());
        [
            Contents::new("keys that rise", rising),
            Contents::new("keys that fall", falling),
            Contents::new("keys in no order", mixed),
        ]
    }

    /// Room for the table and all outlines, and nothing in it.
    fn empty(&self) -> Vec<u8> {
        let bytes: usize = self.outlines.iter().map(Vec::len).sum();
        vec![0; sehmelir::table_bytes(ENTRIES as u32) + bytes]
    }

    /// Makes a tile and adds each; the bytes that this takes.
    fn fill(&self, program: &Program, tile: &mut [u8]) -> usize {
        let table = (program.make)(tile, ENTRIES as u32);
        let outlines = self.keys.iter().zip(&self.outlines);
        table + self.sum(outlines.map(|(&key, outline)| (program.add)(tile, key, outline)))
    }

    /// What calls answered, in one number.
    fn sum(&self, answers: impl Iterator<Item = usize>) -> usize {
        answers.fold(0, usize::wrapping_add)
    }

    /// A tile with all of them.
    fn filled(&self) -> Vec<u8> {
        let mut tile = self.empty();
        self.fill(&PLAIN, &mut tile);
        tile
    }

    /// The same with its entries in another order than their offsets.
    fn arranged(&self, arrange: fn(&mut [[u8; 12]])) -> Vec<u8> {
        let mut tile = self.filled();
        let (entries, _) = tile[4..][..12 * ENTRIES].as_chunks_mut::<12>();
        arrange(entries);
        tile
    }

    /// A tile without every other one of them.
    fn halved(&self) -> Vec<u8> {
        let mut tile = self.filled();
        for &key in self.keys.iter().step_by(2) {
            (PLAIN.remove)(&mut tile, key);
        }
        tile
    }
}

/// What is timed: on which tile it begins, how many calls it makes, and what
/// they are.
struct Work<'a> {
    name: &'static str,
    tile: Vec<u8>,
    calls: usize,
    run: Box<dyn Fn(&Program, &mut [u8]) -> usize + 'a>,
}

/// All that is timed of these contents.
fn works(contents: &Contents) -> [Work<'_>; 6] {
    let keys = || contents.keys.iter().copied();
    let find_each = move |program: &Program, tile: &mut [u8]| {
        contents.sum(keys().map(|key| (program.find)(tile, key)))
    };
    let remove_each = move |program: &Program, tile: &mut [u8]| {
        contents.sum(keys().map(|key| (program.remove)(tile, key)))
    };
    let work = |name, tile, calls, run| Work {
        name,
        tile,
        calls,
        run,
    };
    [
        work(
            "make, add each",
            contents.empty(),
            ENTRIES,
            Box::new(|program, tile| contents.fill(program, tile)),
        ),
        work("find each", contents.filled(), ENTRIES, Box::new(find_each)),
        work(
            "find each, offsets that fall",
            contents.arranged(|entries| entries.reverse()),
            ENTRIES,
            Box::new(find_each),
        ),
        work(
            "find each, offsets in no order",
            contents.arranged(|entries| {
                let mut random = Random::new(10);
                entries.sort_by_cached_key(|_| random.word());
            }),
            ENTRIES,
            Box::new(find_each),
        ),
        work(
            "remove each",
            contents.filled(),
            ENTRIES,
            Box::new(remove_each),
        ),
        work(
            "compact, every other gone",
            contents.halved(),
            1,
            Box::new(|program, tile| (program.compact)(tile)),
        ),
    ]
}

/// A row for each work and each order of keys.
pub fn timed() -> Table<6> {
    let mut table = Table::new([
        "calls",
        "tile",
        "bytes",
        "library µs/call",
        "plain µs/call",
        "ratio",
    ]);
    for contents in &Contents::each() {
        for work in works(contents) {
            let [library, plain] = best(&work);
            let each = |time: f64| format!("{:.2}", time / 1000.0 / work.calls as f64);
            table.push([
                work.name.to_string(),
                contents.name.to_string(),
                work.tile.len().to_string(),
                each(library),
                each(plain),
                format!("{:.2}", library / plain),
            ]);
        }
    }
    table
}

/// The best times of a work, of the library and of plain, in nanoseconds. Both
/// leave the same tile.
fn best(work: &Work) -> [f64; 2] {
    let [mut library, mut plain] = [work.tile.clone(), work.tile.clone()];
    let same = |library: &[u8], plain: &[u8]| assert!(library == plain, "{}", work.name);
    let told = (work.run)(&LIBRARY, &mut library);
    assert_eq!(told, (work.run)(&PLAIN, &mut plain), "{}", work.name);
    same(&library, &plain);
    let best = best_by_turns(|timing| {
        [(&LIBRARY, &mut library), (&PLAIN, &mut plain)].map(|(program, tile)| {
            tile.copy_from_slice(&work.tile);
            timing(&mut || (work.run)(program, tile))
        })
    });
    same(&library, &plain);
    best
}
