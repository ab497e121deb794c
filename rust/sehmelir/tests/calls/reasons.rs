//! Document 02, requests 1 and 7: reasons and exact contacts by hand, and each
//! call of the archive beside `plain`'s: the same answer, and the same lent
//! memory afterwards.

use crate::beside_plain::{
    answer, both_editions, cases, numbered, outline, store, Tally, SHORT, VERTICES,
};
use crate::kerbs;
use crate::lent::{self, room};
use crate::making::Maker;
use plain::calls::Reply;
use plain::reasons as told;
use sehmelir::{explain, whys, Reason, Refusal, Why};
use std::collections::HashSet;

/// What C gets of explain.
#[repr(C)]
struct Explained {
    reply: u32,
    reason: u32,
    number: u64,
    vertex: u64,
    place: u64,
    start_exact: u32,
    end_exact: u32,
}

extern "C" {
    fn sehmelir_explain(store: *const u8, store_len: usize, edge: usize) -> Explained;
}

/// Why `plain` says that an edge is there, as the wrapper gives it.
fn why(why: told::Why) -> Why {
    let reason = Reason::of(why.reason as usize).unwrap();
    assert_eq!(reason.word(), why.reason.words());
    Why {
        reason,
        vertex: why.vertex,
        place: why.place,
        start_exact: why.exact[0],
        end_exact: why.exact[1],
    }
}

/// Explain through the wrapper, and as C makes the call: there all is 0 beside a
/// refusal.
fn explained(store: &[u8], edge: usize) -> Reply {
    let (reply, expected) = told::explain(store, edge);
    let answered = lent::explain(store, edge);
    let due = answer(reply).map(|_| why(expected.unwrap()));
    assert_eq!(answered, due, "explain {store:?} {edge}");
    // SAFETY: pointer and length are those of a slice
    let raw = unsafe { sehmelir_explain(store.as_ptr(), store.len(), edge) };
    let beside = [
        u64::from(raw.reason),
        raw.vertex,
        raw.place,
        u64::from(raw.start_exact),
        u64::from(raw.end_exact),
    ];
    let due = due.map_or([0; 5], |why| {
        [
            why.reason.number() as u64,
            why.vertex as u64,
            why.place as u64,
            u64::from(why.start_exact),
            u64::from(why.end_exact),
        ]
    });
    assert_eq!((raw.reply, raw.number), (reply.reply, reply.number));
    assert_eq!(beside, due, "explain {store:?} {edge}");
    reply
}

fn listed(store: &[u8], length: usize) -> Reply {
    let mut expected = room::<u64>(length);
    let (answered, out) = lent::list(store, &room(length));
    let reply = told::list(store, &mut expected);
    assert_eq!(answered, answer(reply), "list {store:?} {length}");
    let same = out.iter().map(|&number| number as u64).eq(expected);
    assert!(same, "list {store:?} {length}");
    reply
}

/// How many edges a store has, 0 if it is refused anyhow.
fn edges(store: &[u8]) -> usize {
    match told::list(store, &mut []) {
        Reply {
            reply: 0 | 5,
            number,
            ..
        } => number as usize,
        _ => 0,
    }
}

/// A store of a path, or now and then of a kerb; damaged or not, with bytes
/// after it or not.
fn any_store(maker: &mut Maker) -> Vec<u8> {
    if maker.chance(85) {
        let path = maker.path(VERTICES);
        return store(maker, &path);
    }
    kerbs::store(maker).1
}

/// The words and numbers of an outline's edges, those of one rule in one body as
/// `reason vertex edges`.
fn runs(path: &[[i32; 3]], grade: u32) -> Vec<String> {
    let whys = whys(&outline(path, grade)).unwrap();
    let last_of_its_run = |edge: &usize| !whys.get(edge + 1).is_some_and(|next| next.place > 0);
    let runs = (0..whys.len()).filter(last_of_its_run).map(|edge| {
        let Why {
            reason,
            vertex,
            place,
            ..
        } = whys[edge];
        format!("{reason} {vertex} {}", place + 1)
    });
    runs.collect()
}

#[test]
fn by_hand() {
    assert_eq!(runs(&[], 1), [""; 0]);
    assert_eq!(runs(&[[0, 0, 1], [20, 0, 1]], 1), [""; 0]);
    assert_eq!(runs(&[[0, 0, 10]], 1), ["circle 1 8"]);
    assert_eq!(
        runs(&[[0, 0, 5], [20, 0, 5]], 1),
        [
            "left-side 1 1",
            "right-side 1 1",
            "start-cap 1 4",
            "end-cap 2 4"
        ]
    );
    // where one of a gap's caps has no length the other has place 0
    assert_eq!(
        runs(&[[0, 0, 5], [10, 0, 0], [12, 0, 1], [22, 0, 5]], 1)[3..6],
        ["left-side 3 1", "right-side 3 1", "gap 3 1"]
    );
    assert_eq!(
        runs(&[[0, 0, 5], [10, 0, 1], [12, 0, 1], [22, 0, 5]], 1)[3..6],
        ["left-side 3 1", "right-side 3 1", "gap 3 2"]
    );
    // full circles within a join bear its name
    let whole = [[0, -46, 267688968], [0, 0, 267688965], [0, 138, 267688956]];
    let joins: Vec<String> = runs(&whole, 8)
        .into_iter()
        .filter(|run| run.contains("join 2"))
        .collect();
    assert_eq!(joins, ["left-join 2 807", "right-join 2 807"]);
}

/// The sides of a path, `e` for an exact end and `r` for a rounded one, as the
/// edge runs: the left side from b_left to a_left, the right one from a_right to
/// b_right.
fn ends(path: &[[i32; 3]]) -> Vec<String> {
    let whys = whys(&outline(path, 1)).unwrap();
    for why in whys.iter().filter(|why| !why.reason.is_side()) {
        assert!(!why.start_exact && !why.end_exact);
    }
    let sides = whys.iter().filter(|why| why.reason.is_side());
    let letters = |exact| if exact { 'e' } else { 'r' };
    let ends = sides.map(|why| [why.start_exact, why.end_exact].map(letters));
    ends.map(String::from_iter).collect()
}

#[test]
fn exact_contacts_by_hand() {
    assert_eq!(ends(&[[0, 0, 5], [20, 0, 5]]), ["ee", "ee"]);
    assert_eq!(ends(&[[0, 0, 5], [3, 4, 5]]), ["ee", "ee"]);
    // the half of reading 12, and one component alone that comes out even
    assert_eq!(ends(&[[0, 0, 2], [2, 0, 1]]), ["rr", "rr"]);
    assert_eq!(ends(&[[0, 0, 2], [4, 0, 0]]), ["er", "re"]);
    // a radius of 0 is exact
    assert_eq!(ends(&[[0, 0, 5], [7, 2, 0]]), ["er", "re"]);
    assert_eq!(ends(&[[7, 2, 0], [0, 0, 5]]), ["re", "er"]);
    // one side alone, and both, of a root that was cut short
    assert_eq!(ends(&[[0, 0, 131072], [9, 7, 131068]]), ["re", "rr"]);
    assert_eq!(ends(&[[0, 0, 819200], [25, 0, 819187]]), ["re", "er"]);
    assert_eq!(
        ends(&[[0, 0, 5], [20, 0, 5], [27, 2, 0]]),
        ["ee", "ee", "er", "re"]
    );
}

/// Every reason is on one sheet, and each edge is told alike by both calls.
#[test]
fn every_reason() {
    let path = [
        [0, 0, 5],
        [40, 0, 6],
        [60, 30, 5],
        [90, 30, 5],
        [100, 30, 0],
        [102, 30, 1],
        [130, 30, 5],
        [130, 31, 40],
    ];
    for grade in 1..=8 {
        let store = outline(&path, grade);
        let whys = whys(&store).unwrap();
        let reasons: HashSet<Reason> = whys.iter().map(|why| why.reason).collect();
        assert_eq!(reasons.len(), Reason::ALL.len());
        for (edge, why) in whys.iter().enumerate() {
            assert_eq!(explain(&store, edge), Ok(*why));
        }
    }
}

/// No two edges have the same reason, vertex and place; places begin with 0 and
/// go on without a gap. Sides with each pair of exact and rounded ends are there.
#[test]
fn no_two_alike() {
    let mut maker = Maker::new(31);
    let mut sides = HashSet::new();
    for _ in 0..cases() / 5 {
        let (path, grade) = (maker.path(VERTICES), maker.stored_grade());
        let whys = whys(&outline(&path, grade)).unwrap();
        let all: HashSet<Why> = whys.iter().copied().collect();
        let places = whys.iter().map(|why| (why.reason, why.vertex, why.place));
        assert_eq!(places.collect::<HashSet<_>>().len(), whys.len());
        sides.extend(
            whys.iter()
                .filter(|why| why.reason.is_side())
                .map(|why| (why.reason, why.start_exact, why.end_exact)),
        );
        for why in whys.iter().filter(|why| why.place > 0) {
            let place = why.place - 1;
            assert!(all.contains(&Why { place, ..*why }), "{path:?} {grade}");
        }
        assert!(whys.windows(2).all(|pair| pair[0].vertex <= pair[1].vertex));
        assert!(whys
            .iter()
            .all(|why| (1..=path.len()).contains(&why.vertex)));
    }
    assert_eq!(sides.len(), 8);
}

#[test]
fn explains() {
    let (mut maker, mut tally) = (Maker::new(32), Tally::default());
    for _ in 0..cases() {
        let store = any_store(&mut maker);
        tally.count(explained(&store, maker.index(edges(&store))));
    }
    tally.assert_just(&[0, 2, 3, 4, 6, 7, 8, 10, 11, 12]);
}

#[test]
fn lists() {
    let (mut maker, mut tally) = (Maker::new(33), Tally::default());
    for _ in 0..cases() {
        let store = any_store(&mut maker);
        tally.count(listed(&store, maker.room(5 * edges(&store))));
    }
    tally.assert_just(&[0, 2, 3, 4, 5, 6, 7, 8, 11, 12]);
}

/// Every edge, and the first numbers past them.
#[test]
fn every_edge() {
    for path in SHORT {
        for grade in [1, 8] {
            let store = outline(path, grade);
            let count = edges(&store);
            for edge in 0..count {
                assert_eq!(explained(&store, edge), Reply::new(0, edge as u64));
            }
            for edge in [count, count + 1, usize::MAX] {
                assert_eq!(explained(&store, edge), Reply::new(10, edge as u64));
            }
        }
    }
}

#[test]
fn every_short_room() {
    for path in SHORT {
        let store = outline(path, 1);
        let count = edges(&store);
        for length in 0..5 * count + 7 {
            let reply = if length >= 5 * count { 0 } else { 5 };
            assert_eq!(listed(&store, length), Reply::new(reply, count as u64));
        }
    }
}

#[test]
fn every_damaged_byte_and_every_cut() {
    for (path, (sound, entry)) in SHORT
        .map(|path| both_editions(path).map(|one| (path, one)))
        .concat()
    {
        let count = edges(&sound);
        for at in 0..sound.len() {
            // a point number may be any
            let entries = 20..20 + 4 * entry * path.len();
            let number = entry == 5 && entries.contains(&at) && (at - 20) % 20 / 4 == 3;
            for change in [1, 0x10, 0x80, 0xFF] {
                let mut store = sound.clone();
                store[at] ^= change;
                let reply = explained(&store, 0).reply;
                assert!(reply != 0 || count == 0 || number || at == 8);
                let whole = listed(&store, 5 * count).reply == 0;
                assert_eq!(matches!(reply, 0 | 10), whole);
            }
            assert_eq!(explained(&sound[..at], 0).reply, 6);
            assert_eq!(listed(&sound[..at], 5 * count).reply, 6);
        }
    }
}

/// Each refusal, with as many of the later ones as can hold beside it: the
/// number of an edge that is not there, and no room.
#[test]
fn several_faults_at_once() {
    let sound = outline(&[[0, 0, 5], [20, 0, 5]], 1);
    let second = numbered(&[[0, 0, 5], [20, 0, 5]], &[411, u32::MAX], 1);
    let kerb = kerbs::outline(&[[0, 0], [20, 0]], 1, [5, 0, 0]);
    let with = |store: &[u8], words: &[(usize, u32)]| {
        let mut store = store.to_vec();
        for &(place, word) in words {
            store[4 * place..4 * place + 4].copy_from_slice(&word.to_le_bytes());
        }
        store
    };
    let table = [
        (with(&sound, &[(0, 3), (1, 2), (2, 9)]), (6, 0)),
        (with(&sound, &[(0, 2), (1, 2), (2, 9)]), (7, 2)),
        (with(&kerb, &[(0, 2), (2, 9), (5, u32::MAX)]), (6, 0)),
        (sound[..23].to_vec(), (6, 0)),
        (with(&sound, &[(1, 2), (2, 9), (3, 4097)]), (7, 2)),
        (with(&kerb, &[(2, 9), (5, u32::MAX)])[..43].to_vec(), (6, 0)),
        (with(&kerb, &[(2, 0), (5, u32::MAX)]), (3, 0)),
        (with(&kerb, &[(5, 268435457), (6, 2), (3, 4097)]), (11, 5)),
        (with(&kerb, &[(6, 2), (7, 2), (3, 4097)]), (11, 6)),
        (with(&kerb, &[(7, 2), (3, 4097)]), (11, 7)),
        (with(&sound, &[(2, 9), (3, 4097)]), (3, 9)),
        (with(&sound, &[(3, 4097), (5, 268435457)]), (2, 4097)),
        (with(&sound, &[(4, 11), (5, 268435457)]), (6, 0)),
        (with(&sound, &[(11, 268435457), (14, 21)]), (4, 1)),
        (with(&sound, &[(14, 21), (20, 3)]), (8, 56)),
        (with(&kerb, &[(12, 3)]), (8, 48)),
        (kerb.clone(), (12, 1)),
        (with(&second, &[(12, 268435457), (16, 21)]), (4, 1)),
        (with(&second, &[(16, 21), (22, 3)]), (8, 64)),
        (sound.clone(), (10, 99)),
        (second.clone(), (10, 99)),
    ];
    for (store, (reply, number)) in &table {
        assert_eq!(explained(store, 99), Reply::new(*reply, *number));
        let (reply, number) = match reply {
            10 => (5, 10),
            _ => (*reply, *number),
        };
        assert_eq!(listed(store, 2), Reply::new(reply, number));
    }
}

/// What stands after the outline counts for nothing.
#[test]
fn bytes_after_the_outline() {
    let mut store = outline(&[[0, 0, 5], [20, 0, 5]], 2);
    let alone = whys(&store).unwrap();
    let count = alone.len();
    store.extend(room::<u8>(77));
    assert_eq!(whys(&store), Ok(alone));
    assert_eq!(explain(&store, count), Err(Refusal::NoEdge(count)));
}
