//! Document 02, request 14: salvage, beside `plain`: the same answer, and the same
//! lent memory afterwards, in all three pieces of it.

use crate::beside_plain::{answer, both_editions, cases, numbered, outline, SHORT, VERTICES};
use crate::beside_plain::{of_either_edition, read, Tally};
use crate::kerbs;
use crate::lent::{self, room};
use crate::making::Maker;
use plain::calls::Reply;
use plain::salvage::Salvaged;
use sehmelir::{salvaged, Difference, Differs, Refusal};

/// What C gets.
#[repr(C)]
struct Raw {
    reply: u32,
    zero: u32,
    number: u64,
    entries: u64,
}

extern "C" {
    fn sehmelir_salvage(
        store: *const u8,
        store_len: usize,
        out: *mut u8,
        out_len: usize,
        list: *mut u32,
        list_len: usize,
    ) -> Raw;
}

/// Salvage through the wrapper, between canaries, and as C makes the call.
fn salvage(store: &[u8], bytes: usize, words: usize) -> Salvaged {
    let (mut expected, mut due) = (room::<u8>(bytes), room::<u32>(words));
    let ((answered, out), list) = lent::salvage(store, &expected, &due);
    let told = plain::salvage::salvage(store, &mut expected, &mut due);
    let case = || format!("salvage {store:?} {bytes} {words}");
    let reply = Reply::new(told.reply, told.number);
    let entries = |bytes| sehmelir::Salvaged {
        bytes,
        entries: told.entries as usize,
    };
    assert_eq!(answered, answer(reply).map(entries), "{}", case());
    assert!(out == expected, "{}", case());
    assert_eq!(list, due, "{}", case());
    let (mut out, mut list) = (room::<u8>(bytes), room::<u32>(words));
    let (to, notes) = (out.as_mut_ptr(), list.as_mut_ptr());
    // SAFETY: pointers and lengths are those of slices
    let raw = unsafe { sehmelir_salvage(store.as_ptr(), store.len(), to, bytes, notes, words) };
    assert_eq!((raw.reply, raw.zero), (told.reply, 0), "{}", case());
    let beside = (raw.number, raw.entries);
    assert_eq!(beside, (told.number, told.entries), "{}", case());
    assert!(out == expected && list == due, "{}", case());
    told
}

/// Room for the longest list that a store of few vertices gives.
const WORDS: usize = 2 * (VERTICES as usize + 3);

/// What salvage needs of a store: bytes and entries, none if it is refused anyhow.
fn needed(store: &[u8]) -> (usize, usize) {
    let mut out = match plain::salvage::salvage(store, &mut [], &mut []) {
        Salvaged {
            reply: 5, number, ..
        } => vec![0; number as usize],
        _ => return (0, 0),
    };
    match plain::salvage::salvage(store, &mut out, &mut []) {
        Salvaged {
            reply: 19, number, ..
        } => (out.len(), number as usize),
        _ => (out.len(), 0),
    }
}

/// That what is salvaged is sound, has the same header but for the total, and the
/// same vertices and point numbers; that the list is empty exactly if the store was
/// sound; and that salvaged once more it comes through unchanged.
fn assert_salvaged(store: &[u8]) -> bool {
    let (bytes, entries) = needed(store);
    let (out, list) = salvaged(store).unwrap();
    assert_eq!((out.len(), list.len()), (bytes, entries));
    assert_eq!(salvage(store, bytes, 2 * entries).reply, 0);
    assert_eq!(out[..16], store[..16]);
    let vertices = u32::from_le_bytes([out[12], out[13], out[14], out[15]]) as usize;
    let words = 3 + out[0] as usize;
    for vertex in 0..vertices {
        let entry = 20 + 4 * words * vertex..20 + 4 * words * (vertex + 1) - 4;
        assert_eq!(out[entry.clone()], store[entry]);
    }
    assert_eq!(read(&out, 3 * vertices).reply, 0);
    let sound = read(store, 3 * vertices).reply == 0;
    assert_eq!(list.is_empty(), sound);
    assert_eq!(store.starts_with(&out), sound);
    assert_eq!(salvaged(&out), Ok((out, vec![])));
    sound
}

/// A store that is spoiled in some places at once, in counts and edges above all,
/// with bytes after it or cut.
fn spoiled(maker: &mut Maker) -> Vec<u8> {
    if maker.chance(8) {
        return kerbs::store(maker).1;
    }
    let (path, grade) = (maker.path(VERTICES), maker.grade());
    let mut store = of_either_edition(maker, &path, grade);
    for _ in 0..maker.index_below(4) {
        maker.spoil(&mut store);
        if store.len() < 24 {
            return store;
        }
    }
    if maker.chance(25) {
        maker.damage(&mut store);
    }
    if maker.chance(40) {
        store.extend(room::<u8>(maker.index_below(60)));
    }
    store
}

#[test]
fn is_as_plain_does_it() {
    let (mut maker, mut tally) = (Maker::new(71), Tally::default());
    let mut sound = [0, 0];
    for _ in 0..cases() {
        let store = spoiled(&mut maker);
        let (bytes, entries) = needed(&store);
        let words = maker.room(2 * entries) + maker.index_below(2);
        let told = salvage(&store, maker.room(bytes), words);
        tally.count(Reply::new(told.reply, told.number));
        if bytes > 0 {
            sound[assert_salvaged(&store) as usize] += 1;
        }
    }
    tally.assert_just(&[0, 2, 3, 4, 5, 6, 7, 12, 19]);
    assert!(sound.into_iter().all(|count| count > 100), "{sound:?}");
}

/// Both rooms exact, one short and one more; odd words.
#[test]
fn every_short_room() {
    for (path, (sound, entry)) in SHORT
        .map(|path| both_editions(path).map(|one| (path, one)))
        .concat()
    {
        let mut store = sound.clone();
        // every count, and the total, another
        for count in (1..=path.len()).map(|vertex| 5 + entry * vertex - 1) {
            store[4 * count] ^= 1;
        }
        store[16] ^= 1;
        let (bytes, entries) = needed(&store);
        assert_eq!(bytes, sound.len());
        assert!(entries > path.len());
        for length in 0..bytes + 3 {
            for words in [0, 2 * entries - 1, 2 * entries, 2 * entries + 1, WORDS] {
                let due = match (length >= bytes, words / 2 >= entries) {
                    (false, _) => (5, bytes as u64),
                    (true, false) => (19, entries as u64),
                    (true, true) => (0, bytes as u64),
                };
                let told = salvage(&store, length, words);
                assert_eq!((told.reply, told.number), due);
            }
        }
        for words in 0..2 * entries + 5 {
            let enough = words >= 2 * entries;
            assert_eq!(salvage(&store, bytes, words).reply == 0, enough);
        }
    }
}

#[test]
fn every_damaged_byte() {
    for (path, (sound, entry)) in SHORT
        .map(|path| both_editions(path).map(|one| (path, one)))
        .concat()
    {
        let front = 24 + 4 * entry * path.len();
        for at in 0..sound.len() {
            for change in [1, 0x10, 0x80, 0xFF] {
                let mut store = sound.clone();
                store[at] ^= change;
                let (bytes, _) = needed(&store);
                let told = salvage(&store, bytes, WORDS);
                // of a body one edge differs, and nothing else
                if at >= front {
                    assert_eq!((told.reply, told.entries), (0, 1));
                    assert_eq!(salvaged(&store).unwrap().0, sound);
                }
            }
        }
    }
}

/// Cut anywhere: 6 before the closing count's end; after it the edges that are
/// left stand as they were.
#[test]
fn every_cut_store() {
    for (path, (sound, entry)) in SHORT
        .map(|path| both_editions(path).map(|one| (path, one)))
        .concat()
    {
        let front = 24 + 4 * entry * path.len();
        for length in 0..sound.len() {
            let told = salvage(&sound[..length], sound.len(), WORDS);
            if length < front {
                assert_eq!((told.reply, told.number, told.entries), (6, 0, 0));
                continue;
            }
            let (out, list) = salvaged(&sound[..length]).unwrap();
            assert_eq!(out, sound);
            let edges = |difference: &Difference| {
                matches!(
                    difference,
                    Difference::Vertex(_, Differs::Edges) | Difference::Closing(Differs::Edges)
                )
            };
            assert!(list.iter().all(edges) && !list.is_empty());
        }
    }
}

/// Counts so large that they add up to more than 32 bits, and 48: those after them
/// have edges that lie past every store.
#[test]
fn huge_counts() {
    let mut maker = Maker::new(72);
    for _ in 0..cases() / 5 {
        let (path, grade) = (maker.path(VERTICES), maker.grade());
        let mut store = of_either_edition(&mut maker, &path, grade);
        let entry = 3 + store[0] as usize;
        for vertex in 1..=path.len() {
            if maker.chance(60) {
                let word: u32 = maker.pick(&[u32::MAX, 1 << 31, 1 << 28, (1 << 28) + 1, 1 << 16]);
                let at = 4 * (5 + entry * vertex - 1);
                store[at..at + 4].copy_from_slice(&word.to_le_bytes());
            }
        }
        store.extend(room::<u8>(maker.index_below(100)));
        assert_salvaged(&store);
    }
    // as many counts as there may be, each the largest
    for edition in [1, 2] {
        let path = vec![[0, 0, 0]; 4096];
        let mut store = match edition {
            1 => outline(&path, 1),
            _ => numbered(&path, &[], 1),
        };
        let entry = 3 + edition;
        for vertex in 1..=4096 {
            let at = 4 * (5 + entry * vertex - 1);
            store[at..at + 4].fill(0xFF);
        }
        store.extend([0xFF; 8]);
        assert_salvaged(&store);
        let list = salvaged(&store).unwrap().1;
        let due = (0..4096).map(|vertex| Difference::Vertex(vertex, Differs::Count));
        assert!(list.into_iter().eq(due));
    }
}

/// Each refusal, with as many of the later ones as can hold beside it, no room
/// among them.
#[test]
fn several_faults_at_once() {
    let first = outline(&[[0, 0, 5], [20, 0, 5]], 2);
    let second = numbered(&[[0, 0, 5], [20, 0, 5]], &[411, u32::MAX], 2);
    let kerb = kerbs::outline(&[[0, 0], [20, 0]], 2, [5, 0, 0]);
    let with = |store: &[u8], words: &[(usize, u32)]| {
        let mut store = store.to_vec();
        for &(place, word) in words {
            store[4 * place..4 * place + 4].copy_from_slice(&word.to_le_bytes());
        }
        store
    };
    let far = 268435457;
    let table = [
        // under 24 bytes, or no edition, before a kind that is not there
        (with(&first, &[(1, 2), (2, 9)])[..23].to_vec(), (6, 0)),
        (with(&first, &[(0, 3), (1, 2), (2, 9), (3, 4097)]), (6, 0)),
        (with(&first, &[(0, 0), (1, 1), (2, 9)]), (6, 0)),
        (with(&kerb, &[(1, 1)])[..23].to_vec(), (6, 0)),
        // 7 before 3, in either edition
        (with(&first, &[(1, 2), (2, 9), (3, 4097)]), (7, 2)),
        (with(&second, &[(1, u32::MAX), (2, 9)]), (7, 4294967295)),
        // 12 straight after 7: before 3, a kerb's own 6 and its style
        (with(&kerb, &[(2, 9), (3, 4097)]), (12, 1)),
        (with(&kerb, &[(0, 2), (2, 0)]), (12, 1)),
        (with(&kerb, &[(5, u32::MAX)])[..43].to_vec(), (12, 1)),
        (with(&kerb, &[(6, 2), (7, 2)])[..24].to_vec(), (12, 1)),
        (kerb.clone(), (12, 1)),
        // 3 before 2, 2 before a cut
        (with(&first, &[(2, 0), (3, 4097)]), (3, 0)),
        (with(&second, &[(2, 9), (3, 4097)])[..24].to_vec(), (3, 9)),
        (
            with(&first, &[(3, 4097), (5, far)])[..24].to_vec(),
            (2, 4097),
        ),
        (with(&second, &[(3, u32::MAX), (5, far)]), (2, 4294967295)),
        // a cut before a vertex outside: 56 and 64 bytes end the closing count
        (with(&first, &[(5, far)])[..55].to_vec(), (6, 0)),
        (with(&second, &[(5, far)])[..63].to_vec(), (6, 0)),
        (with(&second, &[(0, 1), (5, far)])[..55].to_vec(), (6, 0)),
        // 4, the header's length and the bodies whatever they are
        (
            with(&first, &[(9, far), (4, u32::MAX)])[..56].to_vec(),
            (4, 1),
        ),
        (with(&second, &[(12, far), (9, 7)])[..64].to_vec(), (4, 1)),
        (with(&second, &[(7, far), (12, far)]), (4, 0)),
        // then 5, whatever the list needs
        (with(&first, &[(4, 1), (8, 7)]), (5, first.len() as u64)),
        (
            with(&second, &[(4, u32::MAX)])[..64].to_vec(),
            (5, second.len() as u64),
        ),
        (second.clone(), (5, second.len() as u64)),
    ];
    for (store, (reply, number)) in &table {
        let due = Salvaged {
            reply: *reply,
            number: *number,
            entries: 0,
        };
        for words in [0, 1, WORDS] {
            assert_eq!(salvage(store, 0, words), due);
            assert_eq!(salvage(store, first.len() - 1, words), due);
        }
    }
    // and last 19: the closing count and the total differ
    let spoiled = with(&second, &[(4, 1), (15, 3)]);
    for words in 0..7 {
        let due = match words {
            0..4 => (19, 2, 0),
            _ => (0, second.len() as u64, 2),
        };
        let told = salvage(&spoiled, second.len(), words);
        assert_eq!((told.reply, told.number, told.entries), due);
    }
}

/// By hand, document 01's example 6: old edges are found by old counts.
#[test]
fn by_hand() {
    let path = [[0, 0, 5], [20, 0, 5], [40, 0, 5]];
    let sound = outline(&path, 1);
    // bodies 0, 6, 10, closing 4, from byte 72 on
    let list_of = |words: &[(usize, u32)], cut: usize| {
        let mut store = sound.clone();
        for &(place, word) in words {
            store[4 * place..4 * place + 4].copy_from_slice(&word.to_le_bytes());
        }
        let (out, list) = salvaged(&store[..sound.len() - cut]).unwrap();
        assert_eq!(out, sound);
        list
    };
    use Difference::{Closing, Total, Vertex};
    use Differs::{Both, Count, Edges};
    assert!(list_of(&[], 0).is_empty());
    assert_eq!(list_of(&[(4, 19)], 0), [Total]);
    // an edge of body 1, of body 2 and of the closing one
    assert_eq!(list_of(&[(18, 7)], 0), [Vertex(1, Edges)]);
    assert_eq!(list_of(&[(18 + 24, 7)], 0), [Vertex(2, Edges)]);
    assert_eq!(list_of(&[(18 + 64, 7)], 0), [Closing(Edges)]);
    // a count that is less: its edges are those that stand there, and all after
    // them are found too early
    assert_eq!(
        list_of(&[(12, 5)], 0),
        [Vertex(1, Count), Vertex(2, Edges), Closing(Edges)]
    );
    // one of a body that has none: none of its edges is compared
    assert_eq!(
        list_of(&[(8, 1)], 0),
        [
            Vertex(0, Count),
            Vertex(1, Edges),
            Vertex(2, Edges),
            Closing(Edges)
        ]
    );
    // two that make up for each other
    assert_eq!(
        list_of(&[(12, 5), (16, 11)], 0),
        [Vertex(1, Count), Vertex(2, Both)]
    );
    // a count of none: nothing is compared, and nothing differs but the count
    assert_eq!(list_of(&[(17, 0)], 0), [Closing(Count)]);
    assert_eq!(list_of(&[(17, 9)], 0), [Closing(Count)]);
    assert_eq!(list_of(&[(17, 9), (4, 0)], 64), [Closing(Both), Total]);
    // cut in the last edge, in the last of body 2, and all of them
    assert_eq!(list_of(&[], 1), [Closing(Edges)]);
    assert_eq!(list_of(&[], 65), [Vertex(2, Edges), Closing(Edges)]);
    assert_eq!(
        list_of(&[], 320),
        [Vertex(1, Edges), Vertex(2, Edges), Closing(Edges)]
    );
    assert_eq!(salvaged(&sound[..71]), Err(Refusal::NotOutline));
}

/// What stands after the outline counts as old edges where counts say so, and not
/// otherwise.
#[test]
fn bytes_after_the_outline() {
    let sound = numbered(&[[0, 0, 10]], &[411], 2);
    let mut store = sound.clone();
    store.extend(room::<u8>(77));
    assert_eq!(salvaged(&store), Ok((sound.clone(), vec![])));
    // the header says that there are fewer: all lent bytes are looked at
    store[16] = 1;
    assert_eq!(
        salvaged(&store),
        Ok((sound.clone(), vec![Difference::Total]))
    );
    store.truncate(sound.len());
    assert_eq!(salvaged(&store), Ok((sound, vec![Difference::Total])));
}

/// Outlines without edges, as they were kept once, and those of no vertices.
#[test]
fn without_edges() {
    for sound in [
        outline(&[], 1),
        numbered(&[], &[], 8),
        outline(&[[7, -7, 1]], 1),
        numbered(&[[0, 0, 1], [20, 0, 1]], &[3, 4], 2),
    ] {
        assert!(assert_salvaged(&sound));
        let mut store = sound.clone();
        store[16] = 1;
        assert_eq!(salvaged(&store), Ok((sound, vec![Difference::Total])));
    }
}

/// Outlines that were kept before request 6, under whose rule their arcs are other
/// ones, and what salvage lists of each.
const ONCE: &str = include_str!("../../../../tests/editions/before-request-6.txt");

#[test]
fn redraws_what_was_kept_before_request_6() {
    let mut lines = ONCE.lines().filter(|line| !line.starts_with('#'));
    let (mut unsound, mut sound) = (0, 0);
    while let (Some(head), Some(hex), Some(list)) = (lines.next(), lines.next(), lines.next()) {
        let numbers = |line: &str| -> Vec<i32> {
            let words = line.split(' ').skip(1);
            words.map(|word| word.parse().unwrap()).collect()
        };
        let (stroke, list) = (numbers(head), numbers(list));
        let (grade, path) = (stroke[0] as u32, stroke[1..].as_chunks::<3>().0);
        let byte = |at: usize| u8::from_str_radix(&hex[at..at + 2], 16).unwrap();
        let once: Vec<u8> = (0..hex.len()).step_by(2).map(byte).collect();
        let now = outline(path, grade);
        assert_eq!(needed(&once), (now.len(), list.len() / 2), "{head}");
        let due = list.as_chunks::<2>().0.iter().map(|entry| {
            let entry = entry.map(|word| word as u32);
            Difference::of(entry, path.len()).unwrap()
        });
        assert_eq!(salvaged(&once), Ok((now, due.collect())), "{head}");
        match assert_salvaged(&once) {
            true => sound += 1,
            false => unsound += 1,
        }
    }
    assert_eq!((unsound, sound), (14, 4));
}

/// As many vertices as there may be, and the finest grade.
#[test]
fn long_paths() {
    let mut maker = Maker::new(73);
    for (count, grade) in [(4096, 1), (4096, 4), (300, 8)] {
        let vertex = |place: i32| [50 * place, 20 * (place % 3), 10 + place % 4];
        let path: Vec<[i32; 3]> = (0..count).map(vertex).collect();
        let numbers = maker.numbers(path.len());
        let mut store = numbered(&path, &numbers, grade);
        assert!(assert_salvaged(&store));
        for _ in 0..5 {
            maker.spoil(&mut store);
        }
        let (bytes, entries) = needed(&store);
        for (less, short) in [(0, 0), (1, 0), (0, 1)] {
            salvage(&store, bytes - less, (2 * entries).saturating_sub(short));
        }
    }
}
