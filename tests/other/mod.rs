//! The other implementation of document 01 with what of document 02 is in, written from the papers alone: it shares no code with the proved crates,
//! which are compared with it.
//! An error is the papers' number of the refusal; but a release has one alone, 14, and its error is the lateness that 14 carries.
//! `rule(right, fault, wrong)` is `right` unless that fault is seeded.

pub mod basics;
pub mod faults;
pub mod insert;
pub mod inserter;
pub mod log;
pub mod saved;
pub mod slave;
