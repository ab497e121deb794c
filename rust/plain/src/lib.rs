//! The variable-width stroke, written plainly from document 01, and what
//! document 02 adds to it.
//!
//! One function for each rule, in the document's order. Nothing here is
//! clever: it is the yardstick against which other programs are measured.
//!
//! * [`numbers`] holds "Numbers underneath"
//! * [`contacts`] holds "Contacts", "Three kinds of step" and covering
//! * [`arcs`] holds "Arcs"
//! * [`chains`] holds "Chains"
//! * [`outline`] holds "The kept outline"
//! * [`calls`] holds the four calls, "Replies, tested in this order", document
//!   02's requests 9, "No silent nothing", 11, "Point numbers", whose edition 2
//!   stands in [`outline`], and 13, "Grade 1 is retired", and how far replacing a
//!   vertex shows
//! * [`reasons`] holds document 02's request 1, "Why is this edge here?"
//! * [`oldest`] holds document 02's request 5, "The oldest chunks"
//! * [`kerbs`] holds document 02's request 3, "Kerbs of one width"
//! * [`chunks`] holds document 02's request 8, "Many outlines in one chunk"
//! * [`sides`] holds document 02's request 10, "Side by side"
//! * [`closing`] holds document 02's request 12, "Boundaries that close"
//! * [`salvage`] holds document 02's request 14, "Salvage"
//! * [`ready`] holds document 02's request 2, "Circles from a ready table", for
//!   timing alone
//! * [`random`] holds the generator behind the tests and the lists of cases

pub mod arcs;
pub mod calls;
pub mod chains;
pub mod chunks;
pub mod closing;
pub mod contacts;
pub mod kerbs;
pub mod numbers;
pub mod oldest;
pub mod outline;
pub mod random;
pub mod ready;
pub mod reasons;
pub mod salvage;
pub mod sides;
