//! Inputs for the proved code and the other implementation, and calls of both.

pub mod calls;
pub mod inserters;
pub mod moments;
pub mod notices;
pub mod random;
pub mod streams;
