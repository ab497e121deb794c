//! Document 02, request 5: "The oldest chunks".
//!
//! "They keep a vertex as three 32-bit floats: x, y and full width, in
//! millimetres."

use crate::calls::{settle, tested_count, tested_numbers, tested_room, Reply};
use crate::contacts::LIMIT;

/// "A width must be an even whole number from 0 to 536,870,912".
const MOST_WIDTH: f64 = 536870912.0;

/// Why a float is not taken: "the first that applies of". Numbered from 1 on;
/// 0 is taken.
#[derive(Clone, Copy, Debug, PartialEq, Eq)]
pub enum Reason {
    NotANumber = 1,
    Infinite,
    Fraction,
    TooLarge,
    NegativeWidth,
    OddWidth,
}

/// The float as a longer one, which holds it exactly, if it is a whole number
/// of at most so much in size.
fn whole(value: f32, most: f64) -> Result<f64, Reason> {
    let value = value as f64;
    if value.is_nan() {
        Err(Reason::NotANumber)
    } else if value.is_infinite() {
        Err(Reason::Infinite)
    } else if value.fract() != 0.0 {
        Err(Reason::Fraction)
    } else if value.abs() > most {
        Err(Reason::TooLarge)
    } else {
        Ok(value)
    }
}

/// "A coordinate must be a whole number within the limits". "Minus zero counts
/// as zero."
pub fn coordinate(value: f32) -> Result<i32, Reason> {
    Ok(whole(value, LIMIT as f64)? as i32)
}

/// "A width must be an even whole number from 0 to 536,870,912, and the radius
/// is half of it." The answer is the radius.
pub fn width(value: f32) -> Result<i32, Reason> {
    let width = whole(value, MOST_WIDTH)?;
    if width < 0.0 {
        Err(Reason::NegativeWidth)
    } else if width % 2.0 != 0.0 {
        Err(Reason::OddWidth)
    } else {
        Ok((width / 2.0) as i32)
    }
}

/// "Whole numbers back to floats where the float is exact."
fn exact(number: i64) -> Option<f32> {
    let float = number as f32;
    (float as f64 == number as f64).then_some(float)
}

/// A coordinate's float. "A number outside the limits handed to the writer is
/// 13 too."
pub fn coordinate_back(number: i32) -> Option<f32> {
    let number = number as i64;
    if !(-LIMIT..=LIMIT).contains(&number) {
        return None;
    }
    exact(number)
}

/// The float of the width that a radius is half of.
pub fn width_back(radius: i32) -> Option<f32> {
    let radius = radius as i64;
    if !(0..=LIMIT).contains(&radius) {
        return None;
    }
    exact(2 * radius)
}

/// "Refusals, importer and writer: 1, 2, then 13 in place of 4, with the place
/// of the first number not taken, then 5."
fn pass<A: Copy, B>(
    numbers: &[A],
    room: &mut [B],
    coordinate: impl Fn(A) -> Option<B>,
    last: impl Fn(A) -> Option<B>,
) -> Reply {
    settle(|| {
        tested_numbers(numbers.len(), 3)?;
        tested_count(numbers.len() as u64 / 3)?;
        let mut taken = Vec::new();
        for (place, &number) in numbers.iter().enumerate() {
            let answer = match place % 3 {
                2 => last(number),
                _ => coordinate(number),
            };
            taken.push(answer.ok_or(Reply::new(13, place as u64))?);
        }
        let vertices = numbers.len() / 3;
        tested_room(vertices, 3, room.len())?;
        for (entry, number) in room.iter_mut().zip(taken) {
            *entry = number;
        }
        Ok(Reply::new(0, vertices as u64))
    })
}

/// The importer: floats, three a vertex, as whole numbers, three a vertex.
pub fn import(floats: &[f32], room: &mut [i32]) -> Reply {
    pass(
        floats,
        room,
        |value| coordinate(value).ok(),
        |value| width(value).ok(),
    )
}

/// "Give the writer too".
pub fn export(numbers: &[i32], room: &mut [f32]) -> Reply {
    pass(numbers, room, coordinate_back, width_back)
}
