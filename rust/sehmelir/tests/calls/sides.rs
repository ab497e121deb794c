//! Document 02, request 10: a body as a part of one of two sheets, beside
//! `plain`: the same answer, and both sheets as they were.

use crate::beside_plain::{
    answer, both_editions, cases, numbered, of_either_edition, outline, store, Tally, SHORT,
    VERTICES,
};
use crate::kerbs;
use crate::lent::{self, room};
use crate::making::Maker;
use plain::calls::{Part, Reply};
use sehmelir::{Refusal, Sheet};

/// What C gets of the call.
#[repr(C)]
struct RawPart {
    reply: u32,
    zero: u32,
    number: u64,
    offset: u64,
    length: u64,
}

extern "C" {
    fn sehmelir_side(
        before: *const u8,
        before_len: usize,
        after: *const u8,
        after_len: usize,
        later: bool,
        vertex: usize,
    ) -> RawPart;
}

/// The call through the wrapper, as a range and as a slice, and as C makes it:
/// there the number with 0 is the part's edges.
fn side(before: &[u8], after: &[u8], sheet: Sheet, vertex: usize) -> Reply {
    let later = sheet == Sheet::After;
    let Part {
        reply,
        number,
        offset,
        length,
    } = plain::sides::side(before, after, later, vertex);
    let case = || format!("side {before:?} {after:?} {sheet:?} {vertex}");
    let due = answer(Reply::new(reply, number));
    let due = due.map(|_| offset as usize..(offset + length) as usize);
    assert_eq!(lent::side(before, after, sheet, vertex), due, "{}", case());
    let chosen = if later { after } else { before };
    let part = sehmelir::side(before, after, sheet, vertex);
    assert_eq!(part, due.map(|range| &chosen[range]), "{}", case());
    if let Ok(part) = part {
        let at = part.as_ptr() as usize - chosen.as_ptr() as usize;
        assert_eq!(at, offset as usize, "not the sheet's own bytes: {}", case());
    }
    // SAFETY: pointers and lengths are those of slices
    let told = unsafe {
        let (from, to) = (before.as_ptr(), after.as_ptr());
        sehmelir_side(from, before.len(), to, after.len(), later, vertex)
    };
    let told = [
        told.reply.into(),
        told.zero.into(),
        told.number,
        told.offset,
        told.length,
    ];
    let due = [reply.into(), 0, number, offset, length];
    assert_eq!(told, due, "{}", case());
    Reply::new(reply, number)
}

const BOTH: [Sheet; 2] = [Sheet::Before, Sheet::After];

/// A store of a path, now and then of a kerb; a third of them damaged, with bytes
/// after it or not. How many vertices it was made of.
fn any_store(maker: &mut Maker) -> (usize, Vec<u8>) {
    if maker.chance(5) {
        return kerbs::store(maker);
    }
    let path = maker.path(VERTICES);
    if maker.chance(60) {
        return (path.len(), store(maker, &path));
    }
    let grade = maker.stored_grade();
    (path.len(), of_either_edition(maker, &path, grade))
}

#[test]
fn are_parts() {
    let (mut maker, mut tally) = (Maker::new(71), Tally::default());
    for _ in 0..cases() {
        let ((n, before), (m, after)) = (any_store(&mut maker), any_store(&mut maker));
        let sheet = maker.pick(&BOTH);
        let vertices = if sheet == Sheet::Before { n } else { m };
        // the closing body is one more
        let vertex = maker.index(vertices + 1);
        tally.count(side(&before, &after, sheet, vertex));
    }
    tally.assert_just(&[0, 2, 3, 4, 6, 7, 8, 9, 11, 12]);
}

/// Every body of either sheet before and after an edit, the closing one among
/// them, and the first numbers past it: together they are the sheet's edges.
#[test]
fn of_every_vertex() {
    let mut maker = Maker::new(72);
    let (mut same, mut other, mut empty) = (0, 0, 0);
    for _ in 0..cases() / 10 {
        let (mut path, grade) = (maker.path(VERTICES), maker.stored_grade());
        let before = of_either_edition(&mut maker, &path, grade);
        if !path.is_empty() {
            let index = maker.index_below(path.len());
            path[index] = maker.vertex();
        }
        if maker.chance(20) {
            path.push(maker.vertex());
        }
        let after = of_either_edition(&mut maker, &path, grade);
        for (sheet, store) in BOTH.into_iter().zip([&before, &after]) {
            let n = u32::from_le_bytes(store[12..16].try_into().unwrap()) as usize;
            let mut bodies = Vec::new();
            for vertex in 0..=n {
                assert_eq!(side(&before, &after, sheet, vertex).reply, 0);
                let part = sehmelir::side(&before, &after, sheet, vertex).unwrap();
                empty += part.is_empty() as usize;
                bodies.extend(part);
                let Ok(twin) = sehmelir::side(&before, &after, Sheet::Before, vertex) else {
                    continue;
                };
                *(if part == twin { &mut same } else { &mut other }) += 1;
            }
            assert!(store.ends_with(&bodies));
            let edges = u32::from_le_bytes(store[16..20].try_into().unwrap()) as usize;
            assert_eq!(bodies.len(), 16 * edges);
            for vertex in [n + 1, 4097, 1 << 32, usize::MAX] {
                let due = Reply::new(9, vertex as u64);
                assert_eq!(side(&before, &after, sheet, vertex), due);
            }
        }
    }
    assert!(same > 100 && other > 100 && empty > 100);
}

/// A changed byte in either sheet, and a cut one: the earlier is told first.
#[test]
fn every_damaged_byte_and_every_cut() {
    let sound = outline(&[[0, 0, 5], [20, 0, 5]], 2);
    let mut unsound = sound.clone();
    unsound[70] ^= 1;
    for (one, _) in SHORT.map(both_editions).concat() {
        for at in 0..one.len() {
            for change in [1, 0x80, 0xFF] {
                let mut store = one.clone();
                store[at] ^= change;
                for sheet in BOTH {
                    let unsound_first = side(&unsound, &store, sheet, 0);
                    assert_eq!(unsound_first, Reply::new(8, 70));
                    let first = side(&store, &unsound, sheet, 0);
                    match side(&sound, &store, sheet, 0) {
                        Reply { reply: 0, .. } => assert_eq!(first, unsound_first),
                        refused => assert_eq!(first, refused),
                    }
                }
            }
            for sheet in BOTH {
                assert_eq!(side(&one[..at], &unsound, sheet, 0).reply, 6);
                assert_eq!(side(&sound, &one[..at], sheet, 0).reply, 6);
            }
        }
    }
}

/// The words of a store, and these others in their places.
fn with(store: &[u8], words: &[(usize, u32)]) -> Vec<u8> {
    let mut store = store.to_vec();
    for &(place, word) in words {
        store[4 * place..4 * place + 4].copy_from_slice(&word.to_le_bytes());
    }
    store
}

/// Each refusal, with as many of the later ones as can hold beside it: all of the
/// earlier sheet's own, then all of the later's, 12, and 9.
#[test]
fn several_faults_at_once() {
    let sound = outline(&[[0, 0, 5], [20, 0, 5]], 2);
    let second = numbered(&[[0, 0, 5], [20, 0, 5]], &[411, u32::MAX], 2);
    let kerb = kerbs::outline(&[[0, 0], [20, 0]], 2, [5, 0, 0]);
    let stores = [
        (sound[..23].to_vec(), (6, 0)),
        (with(&sound, &[(0, 3), (1, 2), (2, 9)]), (6, 0)),
        (with(&second, &[(1, 2), (2, 9), (3, 4097)]), (7, 2)),
        (with(&kerb, &[(0, 2), (2, 9), (5, u32::MAX)]), (6, 0)),
        (with(&kerb, &[(2, 9), (5, u32::MAX)])[..43].to_vec(), (6, 0)),
        (with(&kerb, &[(2, 0), (5, u32::MAX)]), (3, 0)),
        (with(&kerb, &[(5, 268435457), (6, 2), (3, 4097)]), (11, 5)),
        (with(&kerb, &[(6, 2), (7, 2), (3, 4097)]), (11, 6)),
        (with(&kerb, &[(7, 2), (3, 4097)]), (11, 7)),
        (with(&sound, &[(2, 9), (3, 4097)]), (3, 9)),
        (with(&sound, &[(3, 4097), (5, 268435457)]), (2, 4097)),
        (with(&sound, &[(4, 99), (5, 268435457)]), (6, 0)),
        (with(&sound, &[(9, 268435457), (14, 21)]), (4, 1)),
        (with(&second, &[(10, 268435457), (16, 21)]), (4, 1)),
        (with(&sound, &[(14, 21), (20, 3)]), (8, 56)),
        (with(&second, &[(16, 21), (22, 3)]), (8, 64)),
        (with(&kerb, &[(12, 3)]), (8, 48)),
    ];
    for sheet in BOTH {
        for (first, (reply, number)) in &stores {
            let due = Reply::new(*reply, *number);
            for later in [&sound, &second, &kerb, &Vec::new()] {
                assert_eq!(side(first, later, sheet, 99), due);
            }
            for (later, _) in &stores {
                assert_eq!(side(first, later, sheet, 99), due);
            }
            for earlier in [&sound, &second, &kerb] {
                assert_eq!(side(earlier, first, sheet, 99), due);
            }
        }
        for (before, after) in [(&kerb, &sound), (&second, &kerb), (&kerb, &kerb)] {
            for vertex in [0, 2, 99, usize::MAX] {
                assert_eq!(side(before, after, sheet, vertex), Reply::new(12, 1));
            }
        }
        assert_eq!(side(&sound, &second, sheet, 3), Reply::new(9, 3));
        assert_eq!(side(&sound, &second, sheet, 2).reply, 0);
    }
}

/// The closing body goes by n of the chosen sheet, whatever the other has.
#[test]
fn by_the_chosen_sheet() {
    let (none, one) = (outline(&[], 2), numbered(&[[0, 0, 10]], &[7], 2));
    assert_eq!(sehmelir::side(&none, &one, Sheet::Before, 0), Ok(&[][..]));
    let refused = Err(Refusal::NoVertex(1));
    assert_eq!(sehmelir::side(&none, &one, Sheet::Before, 1), refused);
    assert_eq!(sehmelir::side(&none, &one, Sheet::After, 0), Ok(&[][..]));
    let closing = sehmelir::side(&none, &one, Sheet::After, 1).unwrap();
    assert_eq!(closing, &one[44..]);
    let refused = Err(Refusal::NoVertex(2));
    assert_eq!(sehmelir::side(&none, &one, Sheet::After, 2), refused);
    // the part outlives what it was asked with
    let part = {
        let asked = (Sheet::After, 1);
        sehmelir::side(&none, &one, asked.0, asked.1).unwrap()
    };
    assert_eq!(part.len(), closing.len());
}

/// What stands after the outlines counts for nothing.
#[test]
fn bytes_after_the_outlines() {
    let (before, after) = (outline(&[[0, 0, 9]], 2), outline(&[[5, 0, 9]], 3));
    let longer = [&after[..], &room(33)].concat();
    for (sheet, vertex) in BOTH.map(|sheet| [(sheet, 0), (sheet, 1)]).concat() {
        let alone = sehmelir::side_range(&before, &after, sheet, vertex);
        assert_eq!(sehmelir::side_range(&before, &longer, sheet, vertex), alone);
        side(&before, &longer, sheet, vertex);
        side(&longer, &before, sheet, vertex);
    }
}
