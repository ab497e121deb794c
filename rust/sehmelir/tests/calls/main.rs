//! The calls of the archive, through the wrapper. Every buffer that is lent
//! stands between canaries.

mod beside_plain;
mod chunks;
mod converting;
mod examples;
mod kerbs;
mod lent;
mod making;
mod numbers;
mod oldest;
mod reasons;
mod records;
mod refusals;
mod salvage;
mod sides;
mod stack;
