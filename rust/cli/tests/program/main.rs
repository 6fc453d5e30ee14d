//! Runs the built program: every exit status, every kind of refusal, every way in
//! and out, and git with the program as its merge driver.

mod checking;
mod clashes;
mod desk;
mod git;
mod merging;
mod reading;
mod tidying;
mod unreadable;
mod usage;
mod writing;
