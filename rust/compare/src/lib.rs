//! Runs the calls of the proved library and the second program over the same
//! texts: makers of texts and of triples of them, and judges of what is told.

#![forbid(unsafe_code)]

pub mod calls;
pub mod case;
pub mod judge;
pub mod lent;
pub mod lines;
pub mod merging;
pub mod met;
pub mod parts;
pub mod random;
pub mod run;
pub mod spoil;
pub mod tables;
pub mod tidying;
pub mod trees;
