//! Measures the proved code against plain implementations built for release: the tables of docs/SPEED.md.
//! A ratio under 1 means that the proved code is the faster one. Each figure is the best of many rounds, the candidates taking turns.
//!
//! speed calls                     calls, in nanoseconds
//! speed make FILE BYTES           makes a capture of at least so many bytes
//! speed make_insert FILE BYTES    makes an input of the program insert of at least so many bytes
//! speed programs OURS PLAIN FILE  two programs over a file: the log over a capture, or insert over its input

#![allow(dead_code)] // parts of the shared modules are for the comparisons

#[path = "../bindings/mod.rs"]
mod bindings;
#[path = "../inputs/mod.rs"]
mod inputs;
#[path = "../other/mod.rs"]
mod other;

mod basics;
mod insert;
mod inserter;
mod log;
mod measure;
mod programs;
mod slave;

fn main() -> std::io::Result<()> {
    let words: Vec<String> = std::env::args().skip(1).collect();
    match words.iter().map(String::as_str).collect::<Vec<_>>()[..] {
        ["calls"] => {
            basics::measure();
            slave::measure();
            inserter::measure();
            Ok(())
        }
        ["make", file, bytes] => log::make(file, bytes.parse().expect("BYTES is a number")),
        ["make_insert", file, bytes] => insert::make(file, bytes.parse().expect("BYTES is a number")),
        ["programs", ours, plain, file] => programs::measure(ours, plain, file),
        _ => panic!("usage: speed calls | speed make FILE BYTES | speed make_insert FILE BYTES | speed programs OURS PLAIN FILE"),
    }
}
