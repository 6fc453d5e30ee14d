//! The parts of the comparison that merge.

pub mod alone;
pub mod clashes;
pub mod damaged;
pub mod disjoint;
pub mod edited;
pub mod every;
pub mod large;
pub mod letters;
pub mod limits;
