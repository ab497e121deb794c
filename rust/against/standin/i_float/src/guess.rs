//! OWN. The guesses that have a switch, so that each can be turned the other
//! way and the comparison can show whether it notices.

use std::sync::atomic::{AtomicU8, Ordering::Relaxed};

/// What becomes of exact halves in `divide_with_rounding`.
#[derive(Clone, Copy, Debug, PartialEq, Eq)]
pub enum Halves {
    Up,
    Down,
    ToEven,
    ToOdd,
}

/// The integer root.
#[derive(Clone, Copy, Debug, PartialEq, Eq)]
pub enum Root {
    /// The largest whole number whose square is not above.
    Down,
    /// The nearest whole number.
    Nearest,
}

/// The components of a normalised vector.
#[derive(Clone, Copy, Debug, PartialEq, Eq)]
pub enum Normal {
    /// As near as can be, and not longer.
    Down,
    /// As near as can be.
    Nearest,
    /// A hundredth too short.
    Short,
    /// Cut to 24 bits: off by an angle up to about 2^-23.
    Bits24,
    /// Cut to 16 bits: off by an angle up to about 2^-15.
    Bits16,
}

/// The angle between two directions, in units of 2^-32 turn.
#[derive(Clone, Copy, Debug, PartialEq, Eq)]
pub enum Between {
    /// The nearest unit.
    Nearest,
    /// The unit below.
    Down,
    /// The nearest unit, but 0 within 600 units of it: as far as document 01
    /// sets arcs aside, an angle of 2^-20 being 652 units.
    Zero600,
    /// The nearest unit, but 0 within 30,000 units of it.
    Zero30000,
}

/// The rounding of the points inside arcs.
#[derive(Clone, Copy, Debug, PartialEq, Eq)]
pub enum Inside {
    /// Rotations towards zero, scalings to the nearest.
    Nearest,
    /// Both down.
    Down,
}

/// One choice for each guess.
#[derive(Clone, Copy, Debug, PartialEq, Eq)]
pub struct Guesses {
    pub halves: Halves,
    pub root: Root,
    pub normal: Normal,
    pub between: Between,
    pub inside: Inside,
}

impl Guesses {
    /// The choices that the comparison is made with.
    pub const CHOSEN: Guesses = Guesses {
        halves: Halves::Up,
        root: Root::Down,
        normal: Normal::Down,
        between: Between::Nearest,
        inside: Inside::Nearest,
    };
}

static HALVES: AtomicU8 = AtomicU8::new(0);
static ROOT: AtomicU8 = AtomicU8::new(0);
static NORMAL: AtomicU8 = AtomicU8::new(0);
static BETWEEN: AtomicU8 = AtomicU8::new(0);
static INSIDE: AtomicU8 = AtomicU8::new(0);

/// Turns every switch, for all threads.
pub fn set(guesses: Guesses) {
    HALVES.store(guesses.halves as u8, Relaxed);
    ROOT.store(guesses.root as u8, Relaxed);
    NORMAL.store(guesses.normal as u8, Relaxed);
    BETWEEN.store(guesses.between as u8, Relaxed);
    INSIDE.store(guesses.inside as u8, Relaxed);
}

pub(crate) fn halves() -> Halves {
    use Halves::*;
    [Up, Down, ToEven, ToOdd][HALVES.load(Relaxed) as usize]
}

pub(crate) fn root() -> Root {
    use Root::*;
    [Down, Nearest][ROOT.load(Relaxed) as usize]
}

pub(crate) fn normal() -> Normal {
    use Normal::*;
    [Down, Nearest, Short, Bits24, Bits16][NORMAL.load(Relaxed) as usize]
}

pub(crate) fn between() -> Between {
    use Between::*;
    [Nearest, Down, Zero600, Zero30000][BETWEEN.load(Relaxed) as usize]
}

pub(crate) fn inside() -> Inside {
    use Inside::*;
    [Nearest, Down][INSIDE.load(Relaxed) as usize]
}
