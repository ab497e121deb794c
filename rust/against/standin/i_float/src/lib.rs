//! A stand-in for i_float: what the text of the variable-width stroke calls,
//! for 32-bit coordinates, and no more.
//!
//! Every item says how sure it is:
//!
//! * FORCED: the text's own use of it, or a comment in the text, leaves no
//!   other meaning that could show.
//! * GUESS: the text leaves room; what else it could be stands there. Where a
//!   guess can be turned the other way, [`guess`] has a switch for it.
//! * UNREACHED: the text must find it to build, and the integer stroke never
//!   runs it. Running it stops the program.
//! * OWN: not of i_float; this stand-in needs it.

pub mod float;
pub mod guess;
pub mod int;
