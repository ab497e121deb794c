//! Document 02, request 5: the oldest chunks. Import, export and both answers
//! to a single float, beside `plain`.

use crate::beside_plain::{answer, Tally};
use crate::lent::{self, room};
use crate::making::Maker;
use plain::calls::Reply;
use plain::oldest::{self, Reason};
use sehmelir::{take_coordinate, take_width, Refusal, Untaken};
use std::thread;

/// How many generated cases each call is compared on: `CASES` in the
/// environment, if they should be more than some thousands.
fn cases() -> usize {
    std::env::var("CASES").map_or(20_000, |count| count.parse().unwrap())
}

/// Most vertices of a generated path.
const VERTICES: u64 = 6;

const MOST: f32 = 268435456.0;

fn import(numbers: &[f32], length: usize) -> Reply {
    let mut expected = room(length);
    let (answered, out) = lent::import(numbers, &expected);
    let reply = oldest::import(numbers, &mut expected);
    assert_eq!(answered, answer(reply), "import {numbers:?} {length}");
    assert!(out == expected, "import {numbers:?} {length}");
    reply
}

fn export(path: &[i32], length: usize) -> Reply {
    let mut expected = room(length);
    let (answered, out) = lent::export(path, &expected);
    let reply = oldest::export(path, &mut expected);
    assert_eq!(answered, answer(reply), "export {path:?} {length}");
    assert!(same_bits(&out, &expected), "export {path:?} {length}");
    reply
}

/// Whether these floats are the same, the sign of zero and all.
fn same_bits(some: &[f32], others: &[f32]) -> bool {
    let bits =
        |floats: &[f32]| -> Vec<u32> { floats.iter().map(|value| value.to_bits()).collect() };
    bits(some) == bits(others)
}

/// An answer to one float by its bits and its reason, as `plain` numbers them.
fn told(taken: Result<i32, Untaken>) -> Result<i32, (u32, Reason)> {
    taken.map_err(|untaken| match untaken {
        Untaken::NotANumber(value) => (value.to_bits(), Reason::NotANumber),
        Untaken::Infinite(value) => (value.to_bits(), Reason::Infinite),
        Untaken::Fraction(value) => (value.to_bits(), Reason::Fraction),
        Untaken::TooLarge(value) => (value.to_bits(), Reason::TooLarge),
        Untaken::NegativeWidth(value) => (value.to_bits(), Reason::NegativeWidth),
        Untaken::OddWidth(value) => (value.to_bits(), Reason::OddWidth),
    })
}

/// That both answers to the float of these bits are those of `plain`.
fn assert_taken_alike(bits: u32) {
    let value = f32::from_bits(bits);
    let due = |answer: Result<i32, Reason>| answer.map_err(|reason| (bits, reason));
    let (coordinate, width) = (oldest::coordinate(value), oldest::width(value));
    assert_eq!(told(take_coordinate(value)), due(coordinate), "{bits:#x}");
    assert_eq!(told(take_width(value)), due(width), "{bits:#x}");
}

/// Floats about which something changes: NaNs with payloads, infinities,
/// denormals, zeros, limits, the last digits that have a fraction or an odd
/// number; and their neighbours, of both signs.
fn edges() -> Vec<f32> {
    let mut bits: Vec<u32> = vec![
        0x7FC0_0000,
        0x7F80_0001,
        0x7FBF_FFFF,
        0x7FFF_FFFF,
        0x7F80_0000,
    ];
    let floats = [
        0.0,
        f32::from_bits(1),
        f32::from_bits(0x007F_FFFF),
        f32::MIN_POSITIVE,
        0.5,
        1.0,
        1.5,
        2.0,
        2.5,
        3.0,
        7.0,
        8388607.5,
        8388608.0,
        16777215.0,
        16777216.0,
        16777218.0,
        33554430.0,
        33554432.0,
        MOST,
        2.0 * MOST,
        2147483648.0,
        9223372036854775808.0,
        1e30,
        f32::MAX,
    ];
    for float in floats {
        let float: u32 = f32::to_bits(float);
        bits.extend([float.saturating_sub(1), float, float + 1]);
    }
    bits.iter()
        .flat_map(|&bits| [f32::from_bits(bits), f32::from_bits(bits | 1 << 31)])
        .collect()
}

#[test]
fn takes_what_edges_show() {
    for value in edges() {
        assert_taken_alike(value.to_bits());
    }
}

/// A spread over all floats, and every whole number near which widths and
/// coordinates lose digits.
#[test]
fn takes_a_spread_of_floats() {
    for place in 0..200_000u32 {
        assert_taken_alike(place.wrapping_mul(2_654_435_761));
    }
    for near in [0, 1 << 23, 1 << 24, 1 << 25, 1 << 28, 1 << 29] {
        for whole in near - 2_000..near + 2_000 {
            assert_taken_alike((whole as f32).to_bits());
            assert_taken_alike((whole as f32 / 2.0).to_bits());
        }
    }
}

/// Every float there is, through both answers. Takes a minute or two on each
/// processor: run it by its name, with `--ignored`.
#[test]
#[ignore = "all 2^32 floats: minutes"]
fn takes_every_float() {
    let parts = thread::available_parallelism().map_or(1, |count| count.get() as u64);
    let threads: Vec<_> = (0..parts)
        .map(|part| {
            thread::spawn(move || {
                for bits in (1 << 32) * part / parts..(1 << 32) * (part + 1) / parts {
                    assert_taken_alike(bits as u32);
                }
            })
        })
        .collect();
    for thread in threads {
        thread.join().unwrap();
    }
}

/// Every way to be refused, each with as many of the later ones as can hold
/// beside it.
#[test]
fn refuses_in_order() {
    let nan = vec![f32::NAN; 3 * 4097];
    let table: [(&[f32], Refusal); 10] = [
        (&nan[..1], Refusal::Uneven(1)),
        (&nan[..12290], Refusal::Uneven(12290)),
        (&nan, Refusal::TooMany(4097)),
        (&nan[..12288], Refusal::NotTaken(0)),
        (&[0.0, 0.5, f32::NAN], Refusal::NotTaken(1)),
        (&[0.0, 0.0, 1.0], Refusal::NotTaken(2)),
        (&[0.0, 0.0, -2.0, 0.5, 0.0, 0.0], Refusal::NotTaken(2)),
        (&[0.0, 0.0, 2.0, 0.0, 0.0, 3.0], Refusal::NotTaken(5)),
        (
            &[0.0, 0.0, 2.0, MOST + 32.0, 0.0, 3.0],
            Refusal::NotTaken(3),
        ),
        (&[f32::INFINITY, f32::NAN, f32::NAN], Refusal::NotTaken(0)),
    ];
    for (numbers, expected) in table {
        for length in [0, 1, 13_000] {
            let before = room(length);
            let (answered, after) = lent::import(numbers, &before);
            assert_eq!(answered, Err(expected));
            assert_eq!(after, before);
        }
    }
    let far = vec![268435457; 3 * 4097];
    let table: [(&[i32], Refusal); 9] = [
        (&far[..2], Refusal::Uneven(2)),
        (&far[..12290], Refusal::Uneven(12290)),
        (&far, Refusal::TooMany(4097)),
        (&far[..12288], Refusal::NotTaken(0)),
        (&[0, 268435488, 0], Refusal::NotTaken(1)),
        (&[0, 0, -1], Refusal::NotTaken(2)),
        (&[0, 0, 268435457], Refusal::NotTaken(2)),
        (&[16777216, -16777217, -1], Refusal::NotTaken(1)),
        (&[i32::MIN, i32::MAX, i32::MIN], Refusal::NotTaken(0)),
    ];
    for (path, expected) in table {
        for length in [0, 1, 13_000] {
            let before = room(length);
            let (answered, after) = lent::export(path, &before);
            assert_eq!(answered, Err(expected));
            assert_eq!(after, before);
        }
    }
    for length in 0..9 {
        let enough = length >= 6;
        assert_eq!(
            import(&[-0.0, 1.0, 2.0, 3.0, -4.0, 0.0], length).reply == 0,
            enough
        );
        assert_eq!(export(&[0, 1, 2, 3, -4, 0], length).reply == 0, enough);
    }
    assert_eq!(import(&[], 0), Reply::new(0, 0));
    assert_eq!(export(&[], 0), Reply::new(0, 0));
}

/// Limits are taken and come back.
#[test]
fn limits_come_back() {
    let (old, path) = (
        [-MOST, MOST, 2.0 * MOST],
        [-268435456, 268435456, 268435456],
    );
    let mut out = [0; 3];
    assert_eq!(sehmelir::import(&old, &mut out), Ok(1));
    assert_eq!(out, path);
    let mut back = [0.0; 3];
    assert_eq!(sehmelir::export(&path, &mut back), Ok(1));
    assert_eq!(back, old);
}

/// A float that mostly is taken.
fn float(maker: &mut Maker, edges: &[f32], width: bool) -> f32 {
    if maker.chance(4) {
        return maker.pick(edges);
    }
    let [x, _, radius] = maker.vertex();
    match width {
        // of 24 digits or fewer, so that the width is even
        true => 2.0 * radius as f32,
        false => x as f32,
    }
}

/// Numbers lent, three a vertex, now and then one or two more, or far too many.
fn lent_numbers<T: Copy>(
    maker: &mut Maker,
    mut number: impl FnMut(&mut Maker, bool) -> T,
) -> Vec<T> {
    let vertices = match maker.chance(1) {
        true => maker.pick(&[4096, 4097, 5000]),
        false => maker.index_below(VERTICES as usize + 1),
    };
    let more = match maker.chance(4) {
        true => maker.pick(&[1, 2]),
        false => 0,
    };
    (0..3 * vertices + more)
        .map(|place| number(maker, place % 3 == 2))
        .collect()
}

#[test]
fn imports() {
    let (mut maker, mut tally, edges) = (Maker::new(11), Tally::default(), edges());
    for _ in 0..cases() {
        let numbers = lent_numbers(&mut maker, |maker, width| float(maker, &edges, width));
        tally.count(import(&numbers, maker.room(numbers.len())));
    }
    tally.assert_just(&[0, 1, 2, 5, 13]);
}

#[test]
fn exports() {
    let (mut maker, mut tally) = (Maker::new(12), Tally::default());
    let edges: Vec<i32> = edges().iter().map(|&value| value as i32).collect();
    for _ in 0..cases() {
        let path = lent_numbers(&mut maker, |maker, radius| {
            let near = maker.pick(&[-1, 0, 1]);
            match maker.chance(4) {
                true => maker.pick(&edges).saturating_add(near),
                false => float(maker, &[0.0], radius) as i32 / if radius { 2 } else { 1 },
            }
        });
        tally.count(export(&path, maker.room(path.len())));
    }
    tally.assert_just(&[0, 1, 2, 5, 13]);
}

/// What is imported and exported again has the same numbers, minus zero apart,
/// and what is exported and imported again has the same.
#[test]
fn there_and_back() {
    let (mut maker, edges) = (Maker::new(13), edges());
    let mut taken = 0;
    for _ in 0..cases() {
        let numbers = lent_numbers(&mut maker, |maker, width| float(maker, &edges, width));
        let mut path = vec![0; numbers.len()];
        if sehmelir::import(&numbers, &mut path).is_err() {
            continue;
        }
        taken += 1;
        let mut back = vec![f32::NAN; numbers.len()];
        assert_eq!(sehmelir::export(&path, &mut back), Ok(numbers.len() / 3));
        // minus zero plus zero is zero
        let plain: Vec<f32> = numbers.iter().map(|value| value + 0.0).collect();
        assert!(same_bits(&back, &plain), "{numbers:?}");
        let mut again = vec![7; path.len()];
        assert_eq!(sehmelir::import(&back, &mut again), Ok(path.len() / 3));
        assert_eq!(again, path);
    }
    assert!(taken > cases() / 4);
}
