//! What comparing `plain` with the crate's own text needs and what can be had
//! without the text.
//!
//! * [`labels`]: plain's edges with the crate's debug kinds, and the arcs
//!   that document 01 sets aside
//! * [`runs`]: runs of arc edges made into one
//! * [`radii`]: how far out the points inside arcs lie
//! * [`kerbs`]: what of a kerb can be compared, and kerbs to compare
//! * [`paths`]: all small paths, and random ones of many styles
//! * [`list`]: a path and its edges as a line of text

pub mod kerbs;
pub mod kerbs_list;
pub mod labels;
pub mod list;
pub mod paths;
pub mod radii;
pub mod runs;
