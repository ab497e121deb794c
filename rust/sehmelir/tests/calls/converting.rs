//! Document 02, request 13: outlines redrawn in place at another grade, beside
//! `plain`: the same answer, and the same lent memory afterwards.

use crate::beside_plain::{
    answer, both_editions, cases, numbered, outline, store, Tally, SHORT, VERTICES,
};
use crate::kerbs;
use crate::lent::{self, room};
use crate::making::Maker;
use plain::calls::Reply;
use sehmelir::{keep, keep_kerb, Join, Refusal, Style};

fn convert(store: &[u8], grade: u32) -> (Reply, Vec<u8>) {
    let (answered, out) = lent::convert(store, grade);
    let mut expected = store.to_vec();
    let reply = plain::calls::convert(&mut expected, grade);
    let case = || format!("convert {store:?} {grade}");
    assert_eq!(answered, answer(reply), "{}", case());
    assert!(out == expected, "{}", case());
    (reply, expected)
}

/// A store of a path or, a fifth of the time, of a kerb; damaged or not, with bytes
/// after it or not.
fn any_store(maker: &mut Maker) -> Vec<u8> {
    if maker.chance(20) {
        return kerbs::store(maker).1;
    }
    let path = maker.path(VERTICES);
    store(maker, &path)
}

/// Stores in rooms that are exact, one short, and more.
#[test]
fn converts() {
    let (mut maker, mut tally) = (Maker::new(81), Tally::default());
    let (mut grown, mut shrunk) = (0, 0);
    for _ in 0..cases() {
        let mut store = any_store(&mut maker);
        let grade = maker.lent_grade();
        let old = store.len();
        let needed = match plain::calls::convert(&mut store.clone(), grade) {
            Reply {
                reply: 5, number, ..
            } => number as usize,
            _ => 0,
        };
        let length = maker.room(needed).max(old);
        store.resize(length, 0xEE);
        let (reply, after) = convert(&store, grade);
        tally.count(reply);
        if reply.reply == 0 {
            let length = reply.number as usize;
            grown += (length > old) as usize;
            shrunk += (length < old && after[length..old].iter().all(|&byte| byte == 0)) as usize;
        }
    }
    tally.assert_just(&[0, 2, 3, 4, 5, 6, 7, 8, 11]);
    assert!(grown > 100 && shrunk > 100);
}

/// From each grade to each other: what keeping writes of the same path, but for the
/// edition and the point numbers, which stay; what is converted there and back is
/// what it was, unless it was of grade 1.
#[test]
fn is_what_keeping_writes() {
    let mut maker = Maker::new(82);
    for _ in 0..cases() / 50 {
        let path = maker.path(5);
        let numbers = maker.numbers(path.len());
        for (from, to) in (1..=8).flat_map(|from| (2..=8).map(move |to| (from, to))) {
            let editions = [
                [outline(&path, from), outline(&path, to)],
                [
                    numbered(&path, &numbers, from),
                    numbered(&path, &numbers, to),
                ],
            ];
            for [old, new] in editions {
                let mut store = old.clone();
                store.resize(old.len().max(new.len()), 0xEE);
                let (reply, after) = convert(&store, to);
                assert_eq!(reply, Reply::new(0, new.len() as u64));
                assert_eq!(after[..new.len()], new);
                assert!(after[new.len()..].iter().all(|&byte| byte == 0));
            }
            let mut kept = numbered(&path, &[], from);
            let new = numbered(&path, &[], to);
            kept.resize(kept.len().max(new.len()), 0xEE);
            let mut room = vec![0; new.len()];
            // keeping takes no path without edges
            if keep(path.as_flattened(), to, &mut room).is_ok() {
                assert_eq!(convert(&kept, to).1[..new.len()], room);
            }
        }
    }
}

#[test]
fn of_kerbs_is_what_keeping_writes() {
    let mut maker = Maker::new(83);
    for _ in 0..cases() / 20 {
        let (points, words) = maker.kerb(6);
        let style = Style {
            radius: words[0],
            join: [Join::Bevel, Join::Round][words[1] as usize],
            closed: words[2] == 1,
        };
        let (from, to) = (maker.stored_grade(), maker.grade());
        let (old, new) = (
            kerbs::outline(&points, from, words),
            kerbs::outline(&points, to, words),
        );
        let mut store = old.clone();
        store.resize(old.len().max(new.len()) + 5, 0xEE);
        let (reply, after) = convert(&store, to);
        assert_eq!(reply, Reply::new(0, new.len() as u64));
        assert_eq!(after[..new.len()], new);
        let mut room = vec![0; new.len()];
        if keep_kerb(points.as_flattened(), to, style, &mut room).is_ok() {
            assert_eq!(after[..new.len()], room);
        }
    }
}

/// One store through many conversions.
#[test]
fn converts_many_times_in_one_store() {
    let mut maker = Maker::new(84);
    for _ in 0..40 {
        let (path, grade) = (maker.path(VERTICES), maker.stored_grade());
        let numbers = maker.numbers(path.len());
        let mut store = numbered(&path, &numbers, grade);
        store.resize(numbered(&path, &numbers, 8).len() + 30, 0xEE);
        for _ in 0..12 {
            let grade = maker.grade();
            let (reply, after) = convert(&store, grade);
            assert_eq!(reply.reply, 0);
            store = after;
            let due = numbered(&path, &numbers, grade);
            assert_eq!(store[..due.len()], due);
            let end = store.len() - 30;
            assert_eq!(store[end..], [0xEE; 30]);
        }
    }
}

#[test]
fn every_short_room() {
    let kerb = |grade| kerbs::outline(&[[0, 0], [20, 0], [20, 20]], grade, [5, 1, 1]);
    let pairs = SHORT.map(|path| {
        [
            (outline(path, 1), outline(path, 2)),
            (numbered(path, &[7], 3), numbered(path, &[7], 2)),
        ]
    });
    for (old, new) in [pairs.concat(), vec![(kerb(1), kerb(2)), (kerb(3), kerb(2))]].concat() {
        for length in old.len()..old.len().max(new.len()) + 3 {
            let mut store = old.clone();
            store.resize(length, 0xEE);
            let due = match length < new.len() {
                true => Reply::new(5, new.len() as u64),
                false => Reply::new(0, new.len() as u64),
            };
            assert_eq!(convert(&store, 2).0, due);
        }
    }
}

#[test]
fn every_damaged_byte_and_every_cut() {
    for (sound, _) in SHORT.map(both_editions).concat() {
        for at in 0..sound.len() {
            for change in [1, 0x10, 0x80, 0xFF] {
                let mut store = [&sound[..], &room(300)].concat();
                store[at] ^= change;
                convert(&store, 2);
                let refused = plain::calls::read(&store, &mut []).reply;
                let due = if refused == 0 || refused == 5 {
                    3
                } else {
                    refused
                };
                assert_eq!(convert(&store, 9).0.reply, due);
            }
            assert_eq!(convert(&sound[..at], 2).0, Reply::new(6, 0));
        }
    }
}

/// Each refusal, with as many of the later ones as can hold beside it: all of the
/// store's own, then the named grade, then the room.
#[test]
fn several_faults_at_once() {
    let with = |store: &[u8], words: &[(usize, u32)]| {
        let mut store = store.to_vec();
        for &(place, word) in words {
            store[4 * place..4 * place + 4].copy_from_slice(&word.to_le_bytes());
        }
        store
    };
    let sound = outline(&[[0, 0, 5], [20, 0, 5]], 1);
    let second = numbered(&[[0, 0, 5], [20, 0, 5]], &[411, u32::MAX], 1);
    let kerb = kerbs::outline(&[[0, 0], [20, 0]], 1, [5, 0, 0]);
    let stores = [
        (sound[..23].to_vec(), (6, 0)),
        (with(&sound, &[(0, 3), (1, 2), (2, 9)]), (6, 0)),
        (with(&second, &[(1, 2), (2, 9), (3, 4097)]), (7, 2)),
        (with(&kerb, &[(0, 2), (2, 9), (5, u32::MAX)]), (6, 0)),
        (with(&kerb, &[(2, 0), (5, u32::MAX)]), (3, 0)),
        (with(&kerb, &[(5, 268435457), (6, 2), (3, 4097)]), (11, 5)),
        (with(&sound, &[(2, 9), (3, 4097)]), (3, 9)),
        (with(&sound, &[(3, 4097), (5, 268435457)]), (2, 4097)),
        (with(&sound, &[(4, 99), (5, 268435457)]), (6, 0)),
        (with(&second, &[(10, 268435457), (16, 21)]), (4, 1)),
        (with(&sound, &[(14, 21), (20, 3)]), (8, 56)),
        (with(&kerb, &[(12, 3)]), (8, 48)),
    ];
    for (store, (reply, number)) in &stores {
        for grade in [0, 1, 2, 8, 9, 257, u32::MAX] {
            let due = Reply::new(*reply, *number);
            assert_eq!(convert(store, grade), (due, store.clone()));
        }
    }
    for store in [&sound, &second, &kerb] {
        for grade in [0, 1, 9, 257, u32::MAX] {
            let due = Reply::new(3, grade as u64);
            assert_eq!(convert(store, grade), (due, store.clone()));
        }
    }
    let grown = numbered(&[[0, 0, 5], [20, 0, 5]], &[], 8).len();
    let refused = (Err(Refusal::NoRoom(grown)), second.clone());
    assert_eq!(lent::convert(&second, 8), refused);
}

/// Old outlines without edges are converted, which keeping would refuse.
#[test]
fn takes_what_has_no_edges() {
    for path in [&[][..], &[[0, 0, 1]], &[[0, 0, 1], [20, 0, 1]]] {
        for (old, new) in [
            (outline(path, 1), outline(path, 8)),
            (numbered(path, &[9], 1), numbered(path, &[9], 8)),
        ] {
            assert_eq!(convert(&old, 8), (Reply::new(0, new.len() as u64), new));
        }
    }
}
