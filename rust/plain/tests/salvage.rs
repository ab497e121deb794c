//! Document 02, request 14: salvage.

mod common;

use common::{counts, kept, numbered, random_numbers, random_path, vertices, Triple};
use plain::calls::read;
use plain::kerbs::Style;
use plain::numbers::Point;
use plain::outline::{first_edition, kerb_bytes};
use plain::random::Random;
use plain::salvage::{salvage, Entry, Salvaged, COUNT, EDGES, TOTAL};

const BOTH: u32 = COUNT + EDGES;

/// What is salvaged from a store, in rooms that hold it and something more, which
/// stays as it is.
fn salvaged(store: &[u8]) -> Result<(Vec<u8>, Vec<Entry>), (u32, u64)> {
    let (mut out, mut list) = (vec![0xA5; 40_000], vec![9; 99]);
    let told = salvage(store, &mut out, &mut list);
    let (length, words) = match told.reply {
        0 => (told.number as usize, 2 * told.entries as usize),
        _ => (0, 0),
    };
    assert!(out[length..].iter().all(|&byte| byte == 0xA5));
    assert!(list[words..].iter().all(|&word| word == 9));
    if told.reply != 0 {
        assert_eq!(told.entries, 0);
        return Err((told.reply, told.number));
    }
    let list = list[..words].as_chunks::<2>().0.to_vec();
    out.truncate(length);
    // Rooms that are just long enough, or one short.
    for (less, short) in [(0, 0), (1, 0), (0, 1)] {
        let mut exact = vec![0xA5; length - less];
        let mut notes = vec![9; words.saturating_sub(short)];
        let again = salvage(store, &mut exact, &mut notes);
        let refused = |reply, number| Salvaged {
            reply,
            number,
            entries: 0,
        };
        let due = match (less, words.min(short)) {
            (0, 0) => told,
            (1, _) => refused(5, told.number),
            _ => refused(19, told.entries),
        };
        assert_eq!(again, due);
        match due.reply {
            0 => assert_eq!((&exact, &notes[..]), (&out, list.as_flattened())),
            _ => assert!(exact.iter().all(|&byte| byte == 0xA5) && notes.iter().all(|&n| n == 9)),
        }
    }
    Ok((out, list))
}

/// A store with other words in these places.
fn with(store: &[u8], words: &[(usize, u32)]) -> Vec<u8> {
    let mut store = store.to_vec();
    for &(place, word) in words {
        store[4 * place..4 * place + 4].copy_from_slice(&word.to_le_bytes());
    }
    store
}

/// Document 01's example 6: bodies 0, 6, 10, closing 4.
const STRAIGHT: [Triple; 3] = [(0, 0, 5), (20, 0, 5), (40, 0, 5)];

#[test]
fn old_edges_are_found_by_old_counts() {
    assert_eq!(counts(&STRAIGHT, 1), [0, 6, 10, 4]);
    // Where the counts stand in each edition, and the edges from.
    for (sound, places, edges) in [
        (kept(&STRAIGHT, 1), [8, 12, 16, 17], 18),
        (numbered(&STRAIGHT, &[7, 0, 9], 1), [9, 14, 19, 20], 21),
    ] {
        let list = |words: &[(usize, u32)], cut: usize| {
            let spoiled = with(&sound, words);
            let (out, list) = salvaged(&spoiled[..sound.len() - cut]).unwrap();
            assert_eq!(out, sound);
            list
        };
        let [zero, one, two, closing] = places;
        assert_eq!(list(&[], 0), [[0; 2]; 0]);
        assert_eq!(list(&[(4, 19)], 0), [[4, TOTAL]]);
        assert_eq!(list(&[(edges, 7)], 0), [[1, EDGES]]);
        assert_eq!(list(&[(edges + 4 * 6, 7)], 0), [[2, EDGES]]);
        assert_eq!(list(&[(edges + 4 * 20 - 1, 7)], 0), [[3, EDGES]]);
        // One fewer: those after it are found too early.
        assert_eq!(list(&[(one, 5)], 0), [[1, COUNT], [2, EDGES], [3, EDGES]]);
        // A body without edges has none to compare.
        let all = [[0, COUNT], [1, EDGES], [2, EDGES], [3, EDGES]];
        assert_eq!(list(&[(zero, 1)], 0), all);
        assert_eq!(list(&[(zero, u32::MAX)], 0), all);
        // Two that make up for each other.
        assert_eq!(list(&[(one, 5), (two, 11)], 0), [[1, COUNT], [2, BOTH]]);
        // None, and more than there are: as many are compared as there are of both.
        assert_eq!(list(&[(closing, 0)], 0), [[3, COUNT]]);
        assert_eq!(list(&[(closing, 9)], 0), [[3, COUNT]]);
        assert_eq!(list(&[(closing, 9), (4, 0)], 1), [[3, BOTH], [4, TOTAL]]);
        // Cut: in the last edge, in the last of body 2, and all of them.
        assert_eq!(list(&[], 1), [[3, EDGES]]);
        assert_eq!(list(&[(closing, 3)], 1), [[3, COUNT]]);
        assert_eq!(list(&[], 65), [[2, EDGES], [3, EDGES]]);
        assert_eq!(list(&[], 320), [[1, EDGES], [2, EDGES], [3, EDGES]]);
        // Bytes after the outline are old edges where the counts say so.
        let mut longer = with(&sound, &[(closing, 3), (two, 11)]);
        longer.extend([7; 100]);
        let due = vec![[2, COUNT], [3, BOTH]];
        assert_eq!(salvaged(&longer), Ok((sound.clone(), due)));
    }
}

/// Counts add up to more than 32 bits hold, and wrap in none.
#[test]
fn counts_may_be_huge() {
    let sound = kept(&STRAIGHT, 1);
    // 2^28 edges are 2^32 bytes.
    for count in [u32::MAX, 1 << 31, 1 << 28] {
        let spoiled = with(&sound, &[(8, count), (12, count), (16, count)]);
        let due = vec![[0, COUNT], [1, BOTH], [2, BOTH], [3, EDGES]];
        assert_eq!(salvaged(&spoiled), Ok((sound.clone(), due)));
    }
}

#[test]
fn a_sound_outline_comes_through() {
    let mut random = Random::new(31);
    for _ in 0..1_000 {
        let path = random_path(&mut random, 6);
        let grade = random.between(1, 4) as u32;
        let points = random_numbers(&mut random, &path);
        for sound in [kept(&path, grade), numbered(&path, &points, grade)] {
            let mut store = sound.clone();
            store.extend(vec![7; random.below(40) as usize]);
            assert_eq!(salvaged(&store), Ok((sound, vec![])));
        }
    }
}

/// Whatever stands behind the vertices, what comes is the outline of the vertices,
/// and the list is empty exactly if the store was sound.
#[test]
fn only_header_and_vertices_are_read() {
    let mut random = Random::new(32);
    for _ in 0..3_000 {
        let path = random_path(&mut random, 5);
        let grade = random.between(1, 3) as u32;
        let points = random_numbers(&mut random, &path);
        for (sound, entry) in [
            (kept(&path, grade), 4),
            (numbered(&path, &points, grade), 5),
        ] {
            let front = 24 + 4 * entry * path.len();
            let mut store = sound.clone();
            for _ in 0..random.below(3) {
                let at = random.below((store.len() - 16) as u64) as usize + 16;
                let place = (at / 4 - 5.min(at / 4)) % entry;
                if at < 20 || at >= front - 4 || place == entry - 1 {
                    store[at] = store[at].wrapping_add(random.below(3) as u8);
                }
            }
            if random.chance(30) {
                store.truncate(front + random.below((store.len() - front) as u64 + 1) as usize);
            }
            let (out, list) = salvaged(&store).unwrap();
            assert_eq!(out, sound);
            let whole = read(&store, &mut [0; 15]).reply == 0;
            assert_eq!(list.is_empty(), whole);
            assert!(list.is_sorted_by_key(|entry| entry[0]));
        }
    }
}

#[test]
fn the_rows_in_order() {
    let store =
        |words: &[u32]| -> Vec<u8> { words.iter().flat_map(|word| word.to_le_bytes()).collect() };
    let style = Style::of([5, 1, 0]).unwrap();
    let kerb = kerb_bytes(&[Point::new(0, 0), Point::new(20, 0)], 2, style);
    let far = 268435457;
    let table = [
        (store(&[1, 2, 9, 4097, 0]), (6, 0)),
        (store(&[0, 2, 9, 4097, 0, 0]), (6, 0)),
        (store(&[3, 1, 9, 4097, 0, 0]), (6, 0)),
        (store(&[2, 2, 9, 4097, 0, 0]), (7, 2)),
        // 12 comes ahead of a kerb's own 6, and of 3
        (store(&[2, 1, 9, 4097, 0, 0]), (12, 1)),
        (store(&[1, 1, 9, 4097, 0, 0]), (12, 1)),
        (kerb, (12, 1)),
        (store(&[1, 0, 0, 4097, 0, 0]), (3, 0)),
        (store(&[2, 0, 9, 4097, 0, 0]), (3, 9)),
        (store(&[2, 0, 8, 4097, 0, 0]), (2, 4097)),
        (store(&[1, 0, 8, u32::MAX, 0, 0]), (2, u32::MAX as u64)),
        // a cut before the closing count's end
        (store(&[1, 0, 8, 1, 0, far, 0, 0, 0]), (6, 0)),
        (store(&[2, 0, 8, 1, 0, far, 0, 0, 0, 0]), (6, 0)),
        // a header that says more edges than there are bytes is no cut
        (store(&[1, 0, 8, 1, u32::MAX, far, 0, 0, 0, 0]), (4, 0)),
        (store(&[2, 0, 8, 1, 9, 0, 0, far, 7, 0, 0]), (4, 0)),
    ];
    for (store, due) in table {
        assert_eq!(salvaged(&store), Err(due), "{store:?}");
        let told = salvage(&store, &mut [], &mut []);
        assert_eq!((told.reply, told.number, told.entries), (due.0, due.1, 0));
    }
    // 5 before 19, and no 18
    let thin = store(&[1, 0, 1, 1, 3, 0, 0, 1, 7, 0]);
    let sound = store(&[1, 0, 1, 1, 0, 0, 0, 1, 0, 0]);
    assert_eq!(salvage(&thin, &mut [0; 39], &mut []).reply, 5);
    assert_eq!(salvage(&thin, &mut [0; 40], &mut [0; 3]).reply, 19);
    assert_eq!(salvaged(&thin), Ok((sound, vec![[0, COUNT], [2, TOTAL]])));
}

/// Outlines that were kept before request 6, and what salvage lists of each.
const ONCE: &str = include_str!("../../../tests/editions/before-request-6.txt");

#[test]
fn redraws_what_was_kept_before_request_6() {
    let mut lines = ONCE.lines().filter(|line| !line.starts_with('#'));
    let mut unsound = 0;
    while let (Some(head), Some(hex), Some(list)) = (lines.next(), lines.next(), lines.next()) {
        let numbers = |line: &str| -> Vec<i32> {
            let words = line.split(' ').skip(1);
            words.map(|word| word.parse().unwrap()).collect()
        };
        let (stroke, list) = (numbers(head), numbers(list));
        let vertex = |n: &[i32]| (n[0], n[1], n[2]);
        let path: Vec<Triple> = stroke[1..].chunks_exact(3).map(vertex).collect();
        let byte = |at: usize| u8::from_str_radix(&hex[at..at + 2], 16).unwrap();
        let once: Vec<u8> = (0..hex.len()).step_by(2).map(byte).collect();
        let now = first_edition(&vertices(&path), stroke[0] as u32);
        let entry = |n: &[i32]| [n[0] as u32, n[1] as u32];
        let list: Vec<Entry> = list.chunks_exact(2).map(entry).collect();
        assert_eq!(list.is_empty(), once == now);
        unsound += usize::from(!list.is_empty());
        assert_eq!(salvaged(&once), Ok((now, list)), "{head}");
    }
    assert_eq!(unsound, 14);
}
