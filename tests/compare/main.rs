//! Compares the proved code with the other implementation, by random calls and sweeps.
//!
//! compare WHAT [SEED [COUNT]]         fails on a difference, or where a case is never reached
//! compare WHAT faults [SEED [COUNT]]  seeds each fault into the other implementation; fails if one is not found, or its failing sequence stays long
//!
//! WHAT is one of
//!   basics    what the slave stands on and what keeps no state: check value, notices read and written, addressing, times of a mark, cadence
//!   slave     start, packets, numbers notices and gaps, with warm boots between them
//!   book      runs of two slaves on one stream, held to the book of 01's "Runs"
//!   saved     save and resume
//!   log       what the log program prints; it has to stand built as target/bin/log
//!   inserter  an inserter's start and packets, and a slave that hears them
//!   insert    what the program insert sends and says; it has to stand built as target/bin/insert
//!
//! A difference is printed with the seed and the shortest failing sequence found.

#![allow(dead_code)] // parts of the shared modules are for other programs

#[path = "../bindings/mod.rs"]
mod bindings;
#[path = "../inputs/mod.rs"]
mod inputs;
#[path = "../other/mod.rs"]
mod other;

mod basics;
mod book;
mod comparison;
mod insert;
mod inserter;
mod log;
mod pipes;
mod saved;
mod sequences;
mod shrink;
mod simpler;
mod slave;

use comparison::Asked;
use std::process::ExitCode;

fn main() -> ExitCode {
    let mut words = std::env::args().skip(1);
    let what = words.next().unwrap_or_default();
    let asked = Asked::read(words);
    let passed = match what.as_str() {
        "basics" => asked.compare::<basics::Basics>(),
        "slave" => asked.compare::<slave::Calls>(),
        "book" => asked.compare::<book::Runs>(),
        "saved" => asked.compare::<saved::Blocks>(),
        "log" => asked.compare::<log::Captures>(),
        "inserter" => asked.compare::<inserter::Inserters>(),
        "insert" => asked.compare::<insert::Inputs>(),
        _ => {
            eprintln!("usage: compare basics|slave|book|saved|log|inserter|insert [faults] [SEED [COUNT]]");
            false
        }
    };
    if passed {
        ExitCode::SUCCESS
    } else {
        ExitCode::FAILURE
    }
}
